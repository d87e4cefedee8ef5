"""Answers as comma-separated text: their records and values, the rows of one alone, and what docs/POSTGRESQL.md says of codes."""
import heapq
import re
from collections import Counter

ROWS = "rows"
# In a text with an even number of quotes and a line feed at its end, one record follows the other.
RECORD = re.compile(rb'[^"\n]*(?:"[^"]*"[^"\n]*)*\n')
FIELD = re.compile(rb'(?:"([^"]*(?:""[^"]*)*)"|([^",]*)),')
FIELDS = re.compile(rb'(?:(?:"[^"]*(?:""[^"]*)*"|[^",]*),)+')
TOKEN = re.compile(rb"'(?:[^']|'')*'|\w+|[^\w']")
ESCAPES = {"\n": "\\n", "\r": "\\r", "\t": "\\t"}
# Words of which a query has one, where some of what it evaluates may be left out, or comes in an order of the planner.
PARTLY = {b"where", b"on", b"having", b"case", b"limit"}
# The differences of codes, here and in PostgreSQL, that docs/POSTGRESQL.md has: words of which the query needs one, if there are
# any, and words of the page. An integer column that overflows there (rows here, 22003) and a text that is no uuid (22P02), of a
# column that is a text here, are not on the page.
KNOWN = {
    ("22003", ROWS): (PARTLY | {b"sum"}, "SELECT sum(id + 9223372036854775800) FROM deal"),
    ("22012", "22P02"): (PARTLY, "SELECT CAST(owner AS bigint) FROM deal WHERE amount / parts > 0"),
    ("22012", ROWS): (PARTLY, "SELECT id / (id - 5) FROM deal LIMIT 1"),
    ("22P02", ROWS): ({b"cast"}, "SELECT CAST('007' AS bigint) FROM deal"),
    ("42703", "42803"): ((), "SELECT id FROM deal WHERE count(*) = 1 AND nosuch = 1"),
    ("42803", "42703"): ({b"order"}, "after_aggregates"),
    ("42803", "42883"): ((), "aggregates_before_types"),
    ("42804", "22P02"): ((), "SELECT NULL IN (1, 'a') FROM deal"),
    ("42804", "42725"): ((), "Wrong types (42804 here; 42883, 42725 or 22P02 there)"),
    ("42804", "42883"): ((), "SELECT id FROM deal WHERE owner = 1"),
    ("42804", ROWS): ((), "SELECT id FROM deal WHERE id = '1'"),
    ("42P01", "42809"): ((), "SELECT id FROM i"),
    ("42P10", "42601"): ({b"order"}, "the_greatest_place is 42601 there"),
    (ROWS, "22012"): (PARTLY, "SELECT 1 / 0 FROM deal WHERE FALSE"),
    (ROWS, "42601"): ((), "SELECT id FROM deal user"),
    (ROWS, "42725"): ({b"sum"}, "the sum of NULL is null here"),
}
# Those of a name that is refused here as a key of ORDER BY; and of a column that each table of PostgreSQL has.
KNOWN_KEYS = {
    ("42702", ROWS): "SELECT id, id FROM deal ORDER BY id",
    ("42703", ROWS): "SELECT id FROM deal ORDER BY amount",
}
KNOWN_COLUMNS = {("42703", ROWS): "SELECT ctid FROM deal"}
SYSTEM_COLUMN = re.compile(rb"(?:\w+\s*\.\s*)?(?:ctid|tableoid|[cx]min|[cx]max)\b", re.I)


class Unreadable(Exception):
    """A text that is no answer in comma-separated form."""


def records(text):
    """The records of a text, each with the line feed that ends it."""
    if text.count(b'"') % 2 or not text.endswith(b"\n"):
        raise Unreadable("its last record does not end")
    return RECORD.findall(text)


def values(record):
    """The values of a record: null is None, and a text its bytes. Only a field \\N without quotes is null."""
    text = record[:-1]
    if b'"' not in text:
        return tuple(None if it == b"\\N" else it for it in text.split(b","))
    if not FIELDS.fullmatch(text + b","):
        raise Unreadable("a quote inside a field")
    found = FIELD.findall(text + b",")
    return tuple(None if bare == b"\\N" else bare or quoted.replace(b'""', b'"') for quoted, bare in found)


def spare(items, counts):
    """What a list has more often than these counts, in its order."""
    counts, rest = dict(counts), []
    for it in items:
        if counts.get(it):
            counts[it] -= 1
        else:
            rest.append(it)
    return rest


def both_ways(left, right):
    """What each of two lists has more often than the other."""
    if left == right:
        return [], []
    counts = Counter(left), Counter(right)
    return ([], []) if dict.__eq__(*counts) else (spare(left, counts[1]), spare(right, counts[0]))


def alone(here, there):
    """The rows that one of two lists of records has alone, or more often. Records that are spelled alike are not decoded."""
    return both_ways(*(list(map(values, it)) for it in both_ways(here, there)))


def first(rows, count):
    """The first rows by their columns from left to right: nulls last, shorter texts first, as numbers are counted."""
    return heapq.nsmallest(count, rows, key=lambda row: [(it is None, len(it or b""), it or b"") for it in row])


def same_headings(here, there):
    """True where the headings are the same, but for those that have no name here."""
    return len(here) == len(there) and all(a in (b, b"?column?") for a, b in zip(here, there))


def printed(text):
    """A text in characters that are printed, with escapes for the others."""
    return "".join(it if it.isprintable() else ESCAPES.get(it) or f"\\u{{{ord(it):x}}}" for it in text)


def shown(row):
    """A row as a line: NULL, or a text in quotes, with a backslash before those and backslashes in it."""
    texts = [None if it is None else it.decode("utf-8", "replace").replace("\\", "\\\\").replace('"', '\\"') for it in row]
    return ",".join("NULL" if it is None else f'"{printed(it)}"' for it in texts)


def is_known(query, here, there, offset):
    """True where docs/POSTGRESQL.md has this difference of codes; the offset is that of the refusal here, if it has one."""
    words = [(it.start(), it[0].lower()) for it in TOKEN.finditer(query)]
    if offset is not None:
        if (here, there) in KNOWN_KEYS and any(at < offset for at, word in words if word == b"order"):
            return True
        if (here, there) in KNOWN_COLUMNS and SYSTEM_COLUMN.match(query, offset):
            return True
    needs = KNOWN.get((here, there), (None,))[0]
    return needs is not None and (not needs or any(word in needs for _, word in words))
