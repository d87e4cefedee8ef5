"""What roles see in a folder that rowplan reads, asked through one process of `rowplan session`."""
import csv
import io
import os
import pathlib
import re
import subprocess
import sys

sys.path.insert(0, str(pathlib.Path(__file__).resolve().parent))
from seen import Fault, Seen  # noqa: E402

NAME = r"([a-z_][a-z0-9_]*)"


class Folder:
    """The roles and tables of a folder, and how many policies it has, as its schema.sql says."""

    def __init__(self, path):
        self.path = pathlib.Path(path)
        file = self.path / "schema.sql"
        text = file.read_text(encoding="utf-8") if file.exists() else ""
        # literals can have any text, so the words of statements are looked for without them
        text = re.sub(r"'(?:[^']|'')*'", "''", text)
        self.roles = re.findall(rf"^CREATE ROLE {NAME}\b", text, re.M)
        self.policies = len(re.findall(r"^CREATE POLICY ", text, re.M))
        self.tables = {}
        for name, fields in re.findall(rf"^CREATE TABLE {NAME} \(([^)]*)\);", text, re.M):
            parts = [it.split() for it in fields.split(",")]
            self.tables[name] = {it[0]: it[1] for it in parts}


class Session:
    """A process of `rowplan session`: an event, and a reply, is a line with its number of bytes and then these bytes."""

    def __init__(self, folder):
        words = [os.environ.get("ROWPLAN", "rowplan"), "session", "--frames", "--schema", f"{folder.path}/schema.sql"]
        words += ["--dir", str(folder.path), "-"]
        pipe = subprocess.PIPE
        self.process = subprocess.Popen(words, stdin=pipe, stdout=pipe, stderr=pipe)

    def reply(self, event):
        """The reply to an event."""
        text = event.encode()
        try:
            self.process.stdin.write(b"%d\n" % len(text) + text)
            self.process.stdin.flush()
        except BrokenPipeError:
            pass
        size = self.process.stdout.readline()
        if not size:
            raise Fault("rowplan: " + self.process.communicate()[1].decode(errors="replace").strip())
        return self.process.stdout.read(int(size)).decode()

    def close(self):
        """Ends the process."""
        self.process.communicate()


def values(text, types):
    """The rows of an answer, each a tuple of values; a text cannot be the two characters of null."""
    read = {"bigint": int, "boolean": lambda it: {"t": True, "f": False}[it], "text": str}
    records = list(csv.reader(io.StringIO(text, newline="")))[1:]
    # a record of one empty text is a line of two quotes, or an empty one
    return [[None if it == "\\N" else read[of](it) for it, of in zip(row or [""], types)] for row in records]


def seen_here(folder, roles):
    """What each of these roles sees of each table of a folder: by role and table."""
    found = {}
    if not roles or not folder.tables:
        return found
    session = Session(folder)
    for role in roles:
        word, _, number = session.reply(f"login {role}").strip().partition(" ")
        if word != "session":
            raise Fault(f"rowplan: login {role}: {word} {number}")
        for table, columns in folder.tables.items():
            found[role, table] = seen_table(session, number, table, columns)
        if session.reply(f"logout {number}").strip() != "ok":
            raise Fault(f"rowplan: logout {role}")
    session.close()
    return found


def seen_table(session, number, table, columns):
    """What the role of a session sees of a table."""
    granted = []
    for column in columns:
        reply = session.reply(f"ask {number} SELECT {column} FROM {table}")
        if reply.startswith(("refused", "fault")):
            raise Fault(f"rowplan: SELECT {column} FROM {table}: {reply.strip()}")
        granted += [] if reply.startswith("denied 42501") else [column]
    if not granted:
        return Seen()
    reply = session.reply(f"ask {number} SELECT {', '.join(granted)} FROM {table}")
    if reply.split("\n", 1)[0] != ",".join(granted):
        raise Fault(f"rowplan: the reply for table {table} begins with {reply[:40]!r}")
    return Seen(granted, values(reply, [columns[it] for it in granted]))
