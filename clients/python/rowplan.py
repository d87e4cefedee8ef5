"""A client of rowplan by PEP 249 (DB-API 2.0), over `rowplan session - --frames`. It needs the standard library alone.

    import rowplan
    with rowplan.connect("schema.sql", "folder", "alice") as connection:
        cursor = connection.cursor()
        cursor.execute("SELECT id, owner FROM deal WHERE amount > ?", (60,))
        for identity, owner in cursor:
            print(identity, owner)

A connection is a program of its own, which reads the schema and the tables of the folder once, with one session. Each text goes in a
frame, so no part of it is an event. A bigint comes as int, a text as str, a boolean as bool, null as None.
"""
import os
import re
import subprocess

apilevel = "2.0"
threadsafety = 1
paramstyle = "qmark"

# The most bytes of an event, its words among them.
MOST_BYTES = 1_048_576


class Warning(Exception):
    """Never raised."""


class Error(Exception):
    """What went wrong: `reply` is the line of rowplan, if it said one, `code` its code, `offset` the offset in `text`, the text that was
    sent."""

    def __init__(self, message, reply=None, code=None, offset=None, text=None):
        super().__init__(message)
        self.reply, self.code, self.offset, self.text = reply, code, offset, text


class InterfaceError(Error):
    """A wrong use of this module."""


class DatabaseError(Error):
    """What rowplan answered, or could not."""


class DataError(DatabaseError):
    """An arithmetic fault, a text that is no number, or a file whose rows are refused."""


class OperationalError(DatabaseError):
    """The program did not start or ended, memory ran out, a limit was met, or a file could not be read."""


class IntegrityError(DatabaseError):
    """Never raised."""


class InternalError(DatabaseError):
    """A reply that cannot be read."""


class ProgrammingError(DatabaseError):
    """A refused text, name or parameter, or a missing grant."""


class NotSupportedError(DatabaseError):
    """What rowplan does not have."""


class TypeObject:
    """A type of columns: it equals the type codes of `description` that it stands for."""

    def __init__(self, *codes):
        self.codes = codes

    def __eq__(self, other):
        return other in self.codes if isinstance(other, str) else self is other

    def __ne__(self, other):
        return not self == other

    __hash__ = None


STRING = TypeObject("text")
NUMBER = TypeObject("bigint")
BOOLEAN = TypeObject("boolean")
BINARY = TypeObject()
DATETIME = TypeObject()
ROWID = TypeObject()


def literal(value):
    """A parameter as a literal of SQL."""
    if value is None:
        return "NULL"
    if isinstance(value, bool):
        return "TRUE" if value else "FALSE"
    if isinstance(value, int):
        if not -2**63 <= value < 2**63:
            raise DataError(f"the parameter {value} does not fit in a bigint")
        return str(int(value))
    if isinstance(value, str):
        if value == "\\N":
            raise DataError("the parameter '\\N' is null in files, and no text")
        return "'" + value.replace("'", "''") + "'"
    raise NotSupportedError(f"a parameter of type {type(value).__name__}: only None, bool, int and str are written")


def with_parameters(text, parameters):
    """The text with its question marks, but those within quotes, replaced by literals."""
    values = list(parameters)
    parts = re.split(r"('(?:[^']|'')*'?|\?)", text)
    marks = [i for i, part in enumerate(parts) if part == "?"]
    if len(marks) != len(values):
        raise ProgrammingError(f"the text has {len(marks)} question marks, and there are {len(values)} parameters")
    for i, value in zip(marks, values):
        parts[i] = f" {literal(value)} "
    return "".join(parts)


FIELD = re.compile(r'(?:"((?:[^"]|"")*)"|([^,\n]*))([,\n])')
FAILURE = re.compile(r"(refused|denied|fault) ([0-9A-Z]{5})(?: at ([0-9]+))?.*\n")


def lines_of(reply):
    """The lines of a reply with rows: a list of fields each, None for null."""
    lines, line, place = [], [], 0
    while place < len(reply):
        field = FIELD.match(reply, place)
        if field is None:
            raise InternalError("a reply that is no comma-separated text", reply)
        quoted, plain, end = field.groups()
        line.append(quoted.replace('""', '"') if quoted is not None else None if plain == "\\N" else plain)
        if end == "\n":
            lines.append(line)
            line = []
        place = field.end()
    return lines


def kind_of(word, code):
    """The class of the exception for a reply."""
    if word == "fault":
        return DataError
    if code == "0A000":
        return NotSupportedError
    if code in ("53200", "54000", "58P01"):
        return OperationalError
    if code in ("08003", "08P01"):
        return InterfaceError
    return ProgrammingError


def checked(reply, text=None):
    """The reply, unless it is a refusal, a denial or a fault."""
    failure = FAILURE.fullmatch(reply)
    if failure:
        word, code, offset = failure.groups()
        raise kind_of(word, code)(reply.rstrip("\n"), reply.rstrip("\n"), code, None if offset is None else int(offset), text)
    return reply


READERS = {"bigint": int, "text": str, "boolean": lambda field: field == "t", None: str}


def connect(schema, dir, role, program=None):
    """A session of a role over the schema text in a file and the tables of a folder. The program is `program`, or else that of the
    variable ROWPLAN, or `rowplan` on the path."""
    return Connection(schema, dir, role, program or os.environ.get("ROWPLAN", "rowplan"))


class Connection:
    """A session."""

    Warning, Error, InterfaceError, DatabaseError, DataError = Warning, Error, InterfaceError, DatabaseError, DataError
    OperationalError, IntegrityError, InternalError = OperationalError, IntegrityError, InternalError
    ProgrammingError, NotSupportedError = ProgrammingError, NotSupportedError

    def __init__(self, schema, dir, role, program):
        self._process = None
        words = [program, "session", "-", "--frames", "--schema", os.fspath(schema), "--dir", os.fspath(dir)]
        try:
            self._process = subprocess.Popen(words, stdin=subprocess.PIPE, stdout=subprocess.PIPE, stderr=subprocess.PIPE)
        except OSError as error:
            raise OperationalError(f"{program} cannot be run: {error.strerror}") from error
        try:
            self._session = checked(self._ask(f"login {role}")).split()[1]
        except Error:
            self.close()
            raise

    def _ended(self):
        """Why the program ended."""
        said = self._process.stderr.read().decode("utf-8", "replace").strip()
        self.close()
        return OperationalError(said or "the program ended", said or None)

    def _ask(self, event):
        """The reply to an event."""
        if self._process is None:
            raise InterfaceError("the connection is closed")
        try:
            sent = event.encode("utf-8")
        except UnicodeEncodeError as error:
            raise ProgrammingError("the text has half of a surrogate pair, and is no UTF-8") from error
        if len(sent) > MOST_BYTES:
            raise ProgrammingError(f"the text and its words have {len(sent)} bytes, and an event has at most {MOST_BYTES}")
        try:
            self._process.stdin.write(b"%d\n" % len(sent) + sent)
            self._process.stdin.flush()
            size = self._process.stdout.readline()
            reply = self._process.stdout.read(int(size)) if size else b""
        except BrokenPipeError:
            size = reply = b""
        if not size or len(reply) != int(size):
            raise self._ended()
        return reply.decode("utf-8")

    def _done(self, event, text=None):
        """Has an event take effect."""
        reply = checked(self._ask(event), text)
        if reply != "ok\n":
            raise DataError(reply.rstrip("\n"), reply.rstrip("\n"), text=text)

    def cursor(self):
        """A new cursor."""
        if self._process is None:
            raise InterfaceError("the connection is closed")
        return Cursor(self)

    def set_role(self, role):
        """Asks as another role, to which the role that logged in belongs."""
        self._done(f"setrole {self._session} {role}")

    def reset_role(self):
        """Asks as the role that logged in."""
        self._done(f"resetrole {self._session}")

    def change(self, statement):
        """Applies a schema statement."""
        self._done(f"change {self._session} {statement}", statement)

    def load(self, table, path):
        """Adds the rows of a comma-separated file to a table, all or none. The path has no space."""
        path = os.fspath(path)
        if " " in path or not path:
            raise NotSupportedError("a path with a space, or an empty one")
        self._done(f"load {table} {path}")

    def commit(self):
        """Nothing: each change takes effect at once."""
        if self._process is None:
            raise InterfaceError("the connection is closed")

    def rollback(self):
        """It cannot be done."""
        raise NotSupportedError("there are no transactions: each change takes effect at once")

    def close(self):
        """Ends the program."""
        process, self._process = self._process, None
        if process is not None:
            for stream in (process.stdin, process.stdout, process.stderr):
                try:
                    stream.close()
                except BrokenPipeError:
                    pass
            process.wait()

    def __enter__(self):
        return self

    def __exit__(self, *failure):
        self.close()


class Cursor:
    """The answer to a query."""

    def __init__(self, connection):
        self.connection = connection
        self.arraysize = 1
        self._forget()

    def _forget(self):
        self.description, self._rows, self.rownumber, self.rowcount = None, None, None, -1

    def execute(self, operation, parameters=()):
        """Asks a query, its question marks replaced by the parameters, which are None, bool, int or str."""
        self._live()
        self._forget()
        text = with_parameters(operation, parameters)
        session = self.connection._session
        columns = lines_of(checked(self.connection._ask(f"describe {session} {text}"), text))[1:]
        rows = lines_of(checked(self.connection._ask(f"ask {session} {text}"), text))[1:]
        readers = [READERS[kind] for _, kind in columns]
        self._rows = [tuple(None if field is None else read(field) for read, field in zip(readers, row)) for row in rows]
        self.description = [(name, kind, None, None, None, None, None) for name, kind in columns]
        self.rowcount, self.rownumber = len(self._rows), 0
        return self

    def executemany(self, operation, seq_of_parameters):
        """It cannot be done: every operation has rows."""
        raise NotSupportedError("executemany: every operation is a query")

    def callproc(self, procname, parameters=()):
        """It cannot be done."""
        raise NotSupportedError("there are no procedures")

    def _live(self):
        if self.connection is None:
            raise InterfaceError("the cursor is closed")

    def _next(self, count):
        self._live()
        if self._rows is None:
            raise ProgrammingError("no query was executed")
        rows = self._rows[self.rownumber:self.rownumber + count]
        self.rownumber += len(rows)
        return rows

    def fetchone(self):
        """The next row, None where there is none."""
        rows = self._next(1)
        return rows[0] if rows else None

    def fetchmany(self, size=None):
        """The next rows, at most so many, or `arraysize`."""
        return self._next(self.arraysize if size is None else size)

    def fetchall(self):
        """The rows that are left."""
        self._live()
        return self._next(self.rowcount)

    def __iter__(self):
        return self

    def __next__(self):
        row = self.fetchone()
        if row is None:
            raise StopIteration
        return row

    def setinputsizes(self, sizes):
        """Nothing."""

    def setoutputsize(self, size, column=None):
        """Nothing."""

    def close(self):
        """Forgets the rows."""
        self._forget()
        self.connection = None
