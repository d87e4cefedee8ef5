"""What roles see in PostgreSQL: each is asked in its own name, by SET ROLE in transactions that only read, so that the answers
are PostgreSQL's alone. psql finds the server by its usual variables, and its role is a superuser."""
import json
import os
import pathlib
import re
import subprocess
import sys

sys.path.insert(0, str(pathlib.Path(__file__).resolve().parent))
from server import SETTINGS, identifier, literal  # noqa: E402

MARK = "=state "


class Fault(Exception):
    """psql failed, or wrote what was not asked for."""


class Seen:
    """What a role sees of a table: the columns that it may read, in the table's order, and the rows of these."""

    def __init__(self, columns=(), rows=()):
        self.columns, self.rows = tuple(columns), [tuple(row) for row in rows]

    def of(self, columns):
        """The rows, of these columns alone, each as a text that says its values and their types."""
        places = [self.columns.index(it) for it in columns]
        return [json.dumps([row[at] for at in places], ensure_ascii=False) for row in self.rows]


def psql(script, stops=True, database=None):
    """What psql writes for a script; where it stops at an error, one is a fault."""
    words = ["psql", "-X", "-q", "-A", "-t", "-v", f"ON_ERROR_STOP={int(stops)}", "-f", "-"]
    env = {**os.environ, "PGCLIENTENCODING": "UTF8", **({"PGDATABASE": database} if database else {})}
    done = subprocess.run(words, input=script.encode(), capture_output=True, env=env)
    if done.returncode:
        raise Fault(done.stderr.decode(errors="replace").strip())
    return done.stdout.decode()


def replies(questions, database=None):
    """The replies to questions, each of a role and a query that gives one column of JSON: SQLSTATE and the values."""
    script = [f"SET {name} = {literal(value)};" for name, value in SETTINGS.items()] + ["SET default_transaction_read_only = on;"]
    current = None
    for role, query in questions:
        if role != current:
            script.append(f"RESET ROLE;\nSET ROLE {identifier(role)};\n\\echo {MARK}:SQLSTATE")
            current = role
        script.append(f"{query};\n\\echo {MARK}:SQLSTATE")
    lines = iter(psql("\n".join(script) + "\n", stops=False, database=database).split("\n"))
    found, current = [], None
    for role, _ in questions:
        if role != current and next(lines) != MARK + "00000":
            raise Fault(f"the role {role} cannot be set")
        current, values = role, []
        while not (line := next(lines)).startswith(MARK):
            values.append(json.loads(line))
        found.append((line.removeprefix(MARK), values))
    return found


def seen(roles, relations, database=None, texts=()):
    """What each role sees of each relation: by role and relation. A relation is a schema and a name, with its columns; texts has
    those columns, each after its relation, whose values are taken as texts. What cannot be asked, for want of a right or for
    another error, is not seen."""
    tries = [(role, it, column) for role in roles for it, columns in relations.items() for column in columns]
    questions = [(role, f"SELECT {identifier(column)} FROM {place(it)} LIMIT 0") for role, it, column in tries]
    may_read = {}
    for (role, it, column), (state, _) in zip(tries, replies(questions, database)):
        may_read.setdefault((role, it), []).extend([column] if state == "00000" else [])
    pairs = [(pair, columns) for pair, columns in may_read.items() if columns]
    rows = "SELECT json_build_array({}) FROM {}"
    value = lambda it, column: identifier(column) + ("::text" if (it, column) in texts else "")
    questions = [(role, rows.format(", ".join(value(it, name) for name in columns), place(it))) for (role, it), columns in pairs]
    found = {pair: Seen() for pair in may_read}
    for (pair, columns), (state, rows) in zip(pairs, replies(questions, database)):
        found[pair] = Seen(columns, rows) if state == "00000" else Seen()
    return found


def place(relation):
    """A relation as SQL names it, from its schema and its name."""
    return ".".join(map(identifier, relation))


def word(value):
    """A value as it is written: a word as it is, and anything else in JSON."""
    is_word = isinstance(value, str) and re.fullmatch(r"[\w.:+-]+", value) and value not in ("none", "null", "true", "false")
    return value if is_word else json.dumps(value, ensure_ascii=False)


def rows_of(found, most):
    """The number of rows that are seen, and which ones they are."""
    values = [row[0] for row in found.rows]
    if len(values) > most:
        return f"{len(values)}: sum {sum(values)}" if all(type(it) is int for it in values) else str(len(values))
    values.sort(key=lambda it: (it is None, not isinstance(it, (int, float)), it if isinstance(it, (int, float)) else str(it)))
    return " ".join([f"{len(values)}:", *map(word, values)]) if values else "0"


def line_of(role, relation, found, most=30):
    """The line for what a role sees of a relation: the columns, the number of rows, and the first of the columns in each row, or,
    where there are more rows than that, its sum."""
    if not found.columns:
        return f"{word(role)} | {relation} | nothing"
    return f"{word(role)} | {relation} | {' '.join(map(word, found.columns))} | {rows_of(found, most)}"
