"""Asks rowplan and PostgreSQL one query as one role, and finds what differs in their answers."""
import os
import re
import subprocess

import answers
from answers import ROWS
from server import identifier, literal, settings

# At most so many rows of each side are shown.
MOST_SHOWN = 20
REPLY = re.compile(r"(refused|denied|fault) ([0-9A-Z]{5})(?: at ([0-9]+)| \w.*)?\n")
STATUSES = {"refused": 3, "denied": 4, "fault": 5}
# What `not compared` is told of a refusal of rowplan.
UNREAD = {"42601": "the grammar of rowplan has not this text", "54000": "the text is past a limit of rowplan"}
# The first line of an error or a notice of the server, as psql writes it with VERBOSITY=verbose, in whatever language.
MESSAGE = re.compile(r"^[^:\n]+:  ([0-9A-Z]{5}): (.*)$", re.M)
# Classes of codes that say what became of a connection, a transaction or the server, and not what a query means.
NO_ANSWER = ("08", "25", "40", "53", "54", "55", "57", "58", "F0", "XX")
# What psql prints before the answer, once the role is set.
SET = b"the role is set"


class Unasked(Exception):
    """Why nothing can be asked of this folder or this server."""


class Uncompared(Exception):
    """Why this query has no two answers to compare, and whether no query of the role has."""

    def __init__(self, why, is_of_role=False):
        super().__init__(why)
        self.is_of_role = is_of_role


class Answer:
    """The word `rows` and their records, the headings first, or the code of an error and the offset of a refusal."""

    def __init__(self, code, records=(), offset=None, note=""):
        self.code, self.records, self.offset, self.note = code, records, offset, note


class Finding:
    """What a comparison ends with: `same`, `known`, `differs` or `not compared`, and the lines that tell it."""

    def __init__(self, kind, *lines):
        self.kind, self.lines = kind, lines


def run(words, given=b""):
    """Runs a program with this standard input: its status, and what it wrote to standard output and standard error."""
    words = [it.encode("utf-8", "surrogateescape") for it in words]
    variables = {**os.environ, "PGCLIENTENCODING": "UTF8"}
    try:
        ran = subprocess.run(words, input=given, capture_output=True, env=variables, check=False)
    except OSError as error:
        raise Unasked(f"{words[0].decode('utf-8', 'replace')} cannot be run: {error.strerror}") from None
    return ran.returncode, ran.stdout, ran.stderr.decode("utf-8", "replace").strip()


def records_of(text, whose):
    """The records of an answer."""
    try:
        return answers.records(text)
    except answers.Unreadable as error:
        raise Uncompared(f"the answer of {whose} cannot be read: {error}") from None


def rowplan_words(folder, role):
    """What starts rowplan; it reads the query from standard input, where one may be of any length."""
    schema = os.path.join(folder, "schema.sql")
    words = ["query", "--schema", schema, "--dir", folder, f"--role={role}", "--file", "-"]
    return [os.environ.get("ROWPLAN") or "rowplan", *words]


def rowplan_answer(role, status, said, errors):
    """The answer that a reply of rowplan is. A text that it did not read to the end has none."""
    if status == 0:
        return Answer(ROWS, records_of(said, "rowplan"))
    text = said.decode("utf-8", "replace")
    reply = REPLY.fullmatch(text)
    word, code, offset = reply.groups() if reply else (None, None, None)
    if status == 6 and code == "42704":
        raise Uncompared(f"rowplan knows no role {role}: the folder's schema has none of this name", True)
    if status in (6, 8) and errors:
        raise Unasked(f"rowplan refuses the folder: {errors}")
    if status == 7:
        raise Uncompared("rowplan has not enough memory")
    if not reply or STATUSES[word] != status:
        raise Uncompared(f"rowplan ended with status {status}: {errors or text.strip() or 'it said nothing'}")
    if code in UNREAD:
        raise Uncompared(f"{UNREAD[code]}: {text.strip()}")
    return Answer(code, offset=offset and int(offset))


def psql_words(schema, role, query, words):
    """What starts psql: a -c for each statement, which it sends as it is, without variables. It reads no script. The first COPY
    shows whether the role may use the schema, the second that the role is set."""
    # The query cannot leave its parentheses: the grammar that has it has no comment, semicolon, dollar quote, quoted name or
    # unbalanced parenthesis, and its literals end where PostgreSQL's do, since standard_conforming_strings is on.
    statements = [
        "SET client_min_messages = error;",
        "BEGIN ISOLATION LEVEL REPEATABLE READ READ ONLY;",
        *settings(search_path=schema, row_security="on"),
        f"COPY (SELECT pg_catalog.has_schema_privilege({literal(role)}, {literal(schema)}, 'USAGE')) TO STDOUT;",
        f"SET LOCAL ROLE {identifier(role)};",
        f"COPY (SELECT {literal(SET.decode())}) TO STDOUT;",
        f"COPY ({query}) TO STDOUT WITH (FORMAT csv, HEADER, NULL '\\N');",
    ]
    told = [word for it in statements for word in ("-c", it)]
    return ["psql", "-X", "-q", "-v", "ON_ERROR_STOP=1", "-v", "VERBOSITY=verbose", *told, *words]


def unset(schema, role, is_role_next, code, why):
    """Why the query was not asked, from the error that came before it."""
    if is_role_next and code == "42501":
        return Uncompared(f"psql's role may not SET ROLE to {role}: {why}", True)
    if code == "42704":
        return Uncompared(f"PostgreSQL has no role {role}", True)
    if code == "3F000":
        return Unasked(f"PostgreSQL has no schema {schema}")
    return Unasked(f"PostgreSQL cannot be asked: {why or 'psql did not print what it was told to'}")


def postgresql_answer(schema, role, status, said, errors):
    """The answer of PostgreSQL that psql ended with. An error before the query, or of the server, is none."""
    found = [it for it in MESSAGE.findall(errors) if it[0][:2] not in ("00", "01")]
    code, why = found[0] if found else (None, errors)
    may_use, is_set, rows = (said.split(b"\n", 2) + [b"", b""])[:3]
    if is_set != SET:
        raise unset(schema, role, may_use in (b"t", b"f"), code, why)
    if status == 0:
        return Answer(ROWS, records_of(rows, "PostgreSQL"))
    if not code or code.startswith(NO_ANSWER):
        raise Uncompared(f"PostgreSQL did not answer: {code + ': ' if code else ''}{why}")
    return Answer(code, note="" if may_use == b"t" else f", where {role} may not use the schema {schema}")


def lines_of(mark, rows):
    """The lines for the rows of one alone: the first of them, and how many more there are."""
    lines = [f"{mark} {answers.shown(it)}" for it in answers.first(rows, MOST_SHOWN)]
    return lines + ([f"{mark} and {len(rows) - MOST_SHOWN} more"] if len(rows) > MOST_SHOWN else [])


def compare_rows(here, there):
    """What is found of two answers that have rows."""
    headings = [answers.values(it[0]) for it in (here, there)]
    if not answers.same_headings(*headings):
        return Finding("differs", "differs: the headings", *(f"{mark} {answers.shown(it)}" for mark, it in zip("<>", headings)))
    left, right = answers.alone(here[1:], there[1:])
    if left or right:
        told = f"differs: {len(left)} of {len(here) - 1} rows here alone, {len(right)} of {len(there) - 1} in PostgreSQL alone"
        return Finding("differs", told, *lines_of("<", left), *lines_of(">", right))
    return Finding("same", f"the same: {len(here) - 1} rows")


def compare_answers(query, here, there):
    """What is found of two answers to a query."""
    if here.code == there.code == ROWS:
        try:
            return compare_rows(here.records, there.records)
        except answers.Unreadable as error:
            raise Uncompared(f"an answer cannot be read: {error}") from None
    if here.code == there.code:
        return Finding("same", f"the same: {here.code}")
    told = f"{here.code} here, {there.code} in PostgreSQL{there.note}"
    if answers.is_known(query.encode(), here.code, there.code, here.offset):
        return Finding("known", f"differs as docs/POSTGRESQL.md says: {told}")
    return Finding("differs", f"differs: {told}")


def compare(folder, schema, role, query, words):
    """Asks both, PostgreSQL only what the grammar of rowplan has, and returns what is found."""
    here = rowplan_answer(role, *run(rowplan_words(folder, role), query.encode()))
    there = postgresql_answer(schema, role, *run(psql_words(schema, role, query, words)))
    return compare_answers(query, here, there)


def pairs_in(text):
    """The pairs of a role and a query in the bytes of a file, and the first fault of its form."""
    pairs = []
    for number, line in enumerate(text.split(b"\n"), 1):
        if not line.strip() or line.startswith(b"#"):
            continue
        role, _, query = line.partition(b" ")
        if not role or not query.strip():
            return pairs, f"line {number}: not a role, a space and a query"
        if b"\0" in line:
            return pairs, f"line {number}: a null character"
        try:
            pairs.append((role.decode(), query.decode()))
        except UnicodeDecodeError:
            return pairs, f"line {number}: not UTF-8"
    return pairs, None if pairs else "no pair of a role and a query"
