"""What psql is told before it hands over facts or rows: settings by which a value has one spelling, whatever the server's own."""
import contextlib
import json
import os
import secrets
import subprocess

SETTINGS = {
    "client_encoding": "UTF8",
    "DateStyle": "ISO, YMD",
    "TimeZone": "UTC",
    "IntervalStyle": "postgres",
    "bytea_output": "hex",
    "extra_float_digits": "1",
    "lc_monetary": "C",
    "standard_conforming_strings": "on",
    "search_path": "",
}


def literal(text):
    """A text as a literal of SQL."""
    return "'" + text.replace("'", "''") + "'"


def identifier(name):
    """A name in quotes, as SQL takes any."""
    return '"' + name.replace('"', '""') + '"'


def settings(**more):
    """The statements that make these settings for the length of a transaction."""
    return [f"SET LOCAL {name} = {literal(value)};" for name, value in {**SETTINGS, **more}.items()]


def psql_word(text):
    """A text as an argument of a command of psql."""
    return "'" + text.replace("\\", "\\\\").replace("'", "''") + "'"


class ServerError(Exception):
    """What psql said when it ended early."""


class Transaction:
    """One transaction that reads alone, in a psql with these words: each statement sees the database as the first one does."""

    def __init__(self, words, work):
        self.work = work
        self.errors = open(os.path.join(work, "errors"), "w+", encoding="utf-8", errors="replace")
        flags = ["-X", "-q", "-A", "-t", "-v", "ON_ERROR_STOP=1", "-f", "-"]
        how = {"stdin": subprocess.PIPE, "stdout": subprocess.PIPE, "stderr": self.errors, "text": True, "encoding": "utf-8"}
        self.process = subprocess.Popen(["psql", *flags, *words], env={**os.environ, "PGCLIENTENCODING": "UTF8"}, **how)
        self.run("BEGIN ISOLATION LEVEL REPEATABLE READ READ ONLY;", *settings(row_security="off"))

    def run(self, *lines):
        """Has psql run these lines, whose answers go nowhere, and waits for their end."""
        mark = f"done {secrets.token_hex(16)}"
        try:
            self.process.stdin.write("".join(f"{it}\n" for it in ["\\o /dev/null", *lines, "\\o", f"\\echo {mark}"]))
            self.process.stdin.flush()
            is_done = self.process.stdout.readline() == f"{mark}\n"
        except BrokenPipeError:
            is_done = False
        if not is_done:
            self.process.wait()
            self.errors.seek(0)
            raise ServerError(self.errors.read().strip() or "psql ended early")

    def document(self, statement):
        """The JSON document that a statement gives."""
        file = os.path.join(self.work, "document.json")
        self.run(f"\\o {psql_word(file)}", statement, "\\o /dev/null")
        with open(file, "rb") as it:
            found = it.read()
        os.remove(file)
        try:
            return json.loads(found)
        except ValueError as error:
            raise ServerError(f"the database gives no text in UTF-8: {error}") from error

    def copy(self, statement, file):
        """Has the rows of a COPY .. TO STDOUT written to a file."""
        self.run(f"{statement} \\g {psql_word(file)}")

    def end(self):
        """Ends psql, whatever it does."""
        self.process.kill()
        self.process.wait()
        for it in (self.process.stdin, self.process.stdout, self.errors):
            with contextlib.suppress(OSError):
                it.close()
