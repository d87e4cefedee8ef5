"""Tests of tools/compare-postgresql beside a PostgreSQL of their own; without one, or without rowplan, they are skipped.

usage: tools/with-postgresql python3 -m unittest tools/postgresql/test_compare_server.py
"""
import os
import pathlib
import shutil
import subprocess
import sys
import tempfile
import time
import unittest

HERE = pathlib.Path(__file__).resolve().parent
sys.path.insert(0, str(HERE))
import answers
from answers import ROWS

TOP = HERE.parent.parent
TOOL = HERE.parent / "compare-postgresql"
SALES = TOP / "examples" / "sales"
# The schema of the tables of these tests, a name that needs quotes.
SCHEMA = 'o\'d"d, One'
QUOTED = '"o\'d""d, One"'
# A text of each kind that comma-separated text could lose.
TEXTS = [
    "", '"', '""', "a\nb", "a b", "\n", "a\rb", "\r\n", ",", "\\", "\\.", "a\n\\.\nb", " x ", "NULL", "\\n", "\\\\N",
    "é€𝄞", "'", "''",
]
SERVER = f"""
CREATE ROLE owner; CREATE ROLE ann LOGIN; CREATE ROLE bea; CREATE ROLE outside; CREATE ROLE chief SUPERUSER;
CREATE SCHEMA {QUOTED}; GRANT USAGE ON SCHEMA {QUOTED} TO owner, ann, bea; SET search_path = {QUOTED};
CREATE TABLE note (id integer, body text);
CREATE TABLE kind (id smallint, token uuid, held date, at timestamptz, lasts interval, raw bytea, part float8, yes boolean);
INSERT INTO kind VALUES (2, NULL, NULL, NULL, NULL, NULL, NULL, NULL), (1, 'A0EEBC99-9C0B-4EF8-BB6D-6BB9BD380A11', '2026-01-05',
    '2026-01-05 10:00:00+02', '1 day 2 hours', '\\x615c62', 0.1, true);
CREATE TABLE big AS SELECT n AS id, 'row ' || n AS a, CASE WHEN n % 3 > 0 THEN 'x,' || n END AS b, n % 2 = 0 AS c
    FROM generate_series(1, 200000) n ORDER BY md5(n::text);
CREATE TABLE odd (id bigint); INSERT INTO odd VALUES (1);
CREATE FUNCTION stop() RETURNS boolean LANGUAGE plpgsql AS $$ BEGIN RAISE 'stop' USING ERRCODE = '57014'; END $$;
CREATE TABLE stops (id bigint); INSERT INTO stops VALUES (1); ALTER TABLE stops ENABLE ROW LEVEL SECURITY;
CREATE POLICY p ON stops USING (stop());
CREATE FUNCTION speaks() RETURNS boolean LANGUAGE plpgsql AS $$ BEGIN
    RAISE WARNING E'x\\nERROR:  42P01: y' USING ERRCODE = '42P02'; RETURN true; END $$;
CREATE TABLE loud (id bigint); INSERT INTO loud VALUES (1); ALTER TABLE loud ENABLE ROW LEVEL SECURITY;
CREATE POLICY p ON loud USING (speaks());
CREATE FUNCTION writes() RETURNS boolean LANGUAGE plpgsql AS $$ BEGIN INSERT INTO {QUOTED}.odd VALUES (2); RETURN true; END $$;
CREATE TABLE written (id bigint); INSERT INTO written VALUES (1); ALTER TABLE written ENABLE ROW LEVEL SECURITY;
CREATE POLICY p ON written USING (writes());
GRANT SELECT ON ALL TABLES IN SCHEMA {QUOTED} TO ann, outside; GRANT INSERT ON odd TO ann; GRANT SELECT (id) ON note TO bea;
"""
FOLDER = """
CREATE ROLE ann; CREATE ROLE bea; CREATE ROLE outside; CREATE ROLE ghost; CREATE ROLE none; CREATE ROLE chief SUPERUSER;
CREATE TABLE note (id bigint, body text);
CREATE TABLE kind (id bigint, token text, held text, at text, lasts text, raw text, part text, yes boolean);
CREATE TABLE odd (id bigint); CREATE TABLE stops (id bigint); CREATE TABLE loud (id bigint); CREATE TABLE written (id bigint);
GRANT SELECT ON note TO ann, outside, ghost, none; GRANT SELECT (id) ON note TO bea; GRANT SELECT ON kind TO ann;
GRANT SELECT ON odd TO ann; GRANT SELECT ON stops TO ann; GRANT SELECT ON loud TO ann; GRANT SELECT ON written TO ann;
"""
# A session as different as a server may make it; none of it is to change an answer.
ELSEWHERE = " ".join(f"-c {it}" for it in (
    "datestyle=German", "timezone=Asia/Tokyo", "intervalstyle=iso_8601", "bytea_output=escape", "extra_float_digits=-15",
    "standard_conforming_strings=off", "row_security=off", "search_path=pg_catalog", "client_min_messages=debug1",
))
TOKEN = "a0eebc99-9c0b-4ef8-bb6d-6bb9bd380a11"
KIND = [["1", TOKEN, "2026-01-05", "2026-01-05 08:00:00+00", "1 day 02:00:00", "\\x615c62", "0.1", "t"], ["2"] + [None] * 7]


def is_own_server():
    """True beside tools/with-postgresql, whose folder has the server's data: no other server is to get these roles and tables."""
    return pathlib.Path(os.environ.get("PGHOST", ""), "data", "postmaster.pid").is_file()


def has_rowplan():
    return bool(shutil.which(os.environ.get("ROWPLAN") or "rowplan"))


def cell(value):
    """A value as a field of comma-separated text."""
    return "\\N" if value is None else '"' + value.replace('"', '""') + '"'


def write_table(path, *rows):
    """Writes a file of a table, headings first."""
    path.write_bytes("".join(",".join(map(cell, it)) + "\n" for it in rows).encode())


def psql(*words, given=None):
    """Runs psql, which may not fail."""
    subprocess.run(["psql", "-X", "-q", "-v", "ON_ERROR_STOP=1", *words], input=given, text=True, check=True)


def write_folder(folder):
    """Writes the folder that the tables of SERVER are exported to."""
    (folder / "schema.sql").write_text(FOLDER)
    write_table(folder / "note.csv", ["id", "body"], ["0", None], *([str(at), it] for at, it in enumerate(TEXTS, 1)))
    write_table(folder / "kind.csv", ["id", "token", "held", "at", "lasts", "raw", "part", "yes"], *KIND)
    for name in ("odd", "stops", "loud", "written"):
        write_table(folder / f"{name}.csv", ["id"], ["1"])


ROOM = None


def setUpModule():
    """Makes the tables of SERVER and their folder."""
    global ROOM
    if not is_own_server():
        raise unittest.SkipTest("no server of tools/with-postgresql is at hand")
    if not has_rowplan():
        raise unittest.SkipTest("no rowplan is at hand")
    room = tempfile.TemporaryDirectory()
    unittest.addModuleCleanup(room.cleanup)
    ROOM = pathlib.Path(room.name)
    ROOM.chmod(0o777)  # the server writes here, where it is told to
    write_folder(ROOM)
    notes = ["(0, NULL)", *(f"({at}, {literal(it)})" for at, it in enumerate(TEXTS, 1))]
    psql(given=f"{SERVER} INSERT INTO note VALUES {', '.join(notes)};")


def literal(text):
    return "'" + text.replace("'", "''") + "'"


def tool(*words, **variables):
    """Runs the program, and returns its status and what it wrote."""
    ran = subprocess.run([TOOL, *words], env={**os.environ, **variables}, capture_output=True, text=True, check=False)
    return ran.returncode, ran.stdout, ran.stderr


def ask(role, query, *words, folder=None, schema=SCHEMA, **variables):
    """Compares one query."""
    return tool("--schema", schema, str(folder or ROOM), role, query, *(["--", *words] if words else []), **variables)


class Queries(unittest.TestCase):
    def test_texts_and_nulls_are_the_same(self):
        rows = len(TEXTS) + 1
        for query in ("SELECT * FROM note", "SELECT body FROM note", "SELECT body, body AS again FROM note"):
            self.assertEqual(ask("ann", query), (0, f"the same: {rows} rows\n", ""), query)

    def test_a_null_here_is_not_the_text_that_marks_it(self):
        psql("-c", f"CREATE TABLE {QUOTED}.marked (body text); INSERT INTO {QUOTED}.marked VALUES ('\\N'), ('');"
             f"GRANT SELECT ON {QUOTED}.marked TO ann")
        with tempfile.TemporaryDirectory() as name:
            folder = pathlib.Path(name)
            (folder / "schema.sql").write_text("CREATE ROLE ann; CREATE TABLE marked (body text); GRANT SELECT ON marked TO ann;")
            write_table(folder / "marked.csv", ["body"], [None], [""])
            told = 'differs: 1 of 2 rows here alone, 1 of 2 in PostgreSQL alone\n< NULL\n> "\\\\N"\n'
            self.assertEqual(ask("ann", "SELECT body FROM marked", folder=folder), (1, told, ""))

    def test_values_are_spelled_alike_whatever_the_session(self):
        self.assertEqual(ask("ann", "SELECT * FROM kind", PGOPTIONS=ELSEWHERE), (0, "the same: 2 rows\n", ""))
        self.assertEqual(ask("ann", "SELECT id FROM note WHERE body = '\\'", PGOPTIONS=ELSEWHERE), (0, "the same: 1 rows\n", ""))

    def test_literals_are_kept_as_they_are(self):
        for text in ("a\nb", "a\r\nb", "a\tb"):
            self.assertEqual(ask("ann", f"SELECT\nid,\t'{text}'\r\nFROM note"), (0, f"the same: {len(TEXTS) + 1} rows\n", ""))
        self.assertEqual(ask("ann", "SELECT id FROM note WHERE body = 'a\nb'"), (0, "the same: 1 rows\n", ""))
        query = "SELECT CASE WHEN id=1 THEN'x\\'ELSE'y'END FROM odd WHERE'\\'IN('\\','e')OR'n'='e'"
        self.assertEqual(ask("ann", query), (0, "the same: 1 rows\n", ""))
        query = "SELECT '/*', '--', '$$', ':name', ':''name''', '`touch x`', '\n\\! touch x', ') TO STDOUT;', '\"' FROM odd"
        self.assertEqual(ask("ann", query, "-v", "name=1"), (0, "the same: 1 rows\n", ""))

    def test_rows_that_differ(self):
        psql("-c", f"CREATE TABLE {QUOTED}.more AS SELECT n AS id FROM generate_series(1, 25) n",
             "-c", f"GRANT SELECT ON {QUOTED}.more TO ann")
        with tempfile.TemporaryDirectory() as name:
            folder = pathlib.Path(name)
            (folder / "schema.sql").write_text("CREATE ROLE ann; CREATE TABLE more (id bigint); GRANT SELECT ON more TO ann;")
            write_table(folder / "more.csv", ["id"], ["25"], ["25"])
            status, said, _ = ask("ann", "SELECT id FROM more", folder=folder)
        lines = ["differs: 1 of 2 rows here alone, 24 of 25 in PostgreSQL alone", '< "25"']
        lines += [f'> "{n}"' for n in range(1, 21)] + ["> and 4 more"]
        self.assertEqual((status, said.splitlines()), (1, lines))

    def test_200000_rows(self):
        with tempfile.TemporaryDirectory() as name:
            folder = pathlib.Path(name)
            (folder / "schema.sql").write_text("CREATE ROLE ann; CREATE TABLE big (id bigint, a text, b text, c boolean);"
                                               "GRANT SELECT ON big TO ann;")
            rows = ([str(n), f"row {n}", f"x,{n}" if n % 3 else None, "f" if n % 2 else "t"] for n in range(200_000, 0, -1))
            write_table(folder / "big.csv", ["id", "a", "b", "c"], *rows)
            start = time.monotonic()
            told = ask("ann", "SELECT id, a, b, c FROM big", folder=folder)
            taken = time.monotonic() - start
        self.assertEqual(told, (0, "the same: 200000 rows\n", ""))
        print(f"200,000 rows of 4 columns: {taken:.1f} s", file=sys.stderr)
        self.assertLess(taken, 30)


class Injections(unittest.TestCase):
    """What a query could run, on the server as a superuser or here, is not compared and not run."""

    WHY = "^not compared: the (grammar of rowplan has not this text: refused 42601 at|text is past a limit of rowplan: )"

    def setUp(self):
        self.made = ROOM / "made"
        self.made.unlink(missing_ok=True)

    def test_the_server_would_run_it(self):
        psql("-c", f"COPY (SELECT 1) TO PROGRAM 'touch {self.made}'")
        self.assertTrue(self.made.exists())

    def test_nothing_is_run(self):
        touch = f"touch {self.made}"
        queries = [
            f"SELECT 1) TO PROGRAM '{touch}' --", f"SELECT id FROM odd) TO PROGRAM '{touch}' --",
            f"SELECT id FROM odd\n) TO PROGRAM '{touch}';", f"SELECT id FROM odd; COPY (SELECT 1) TO PROGRAM '{touch}'",
            f"\\! {touch}", f"SELECT id FROM odd\n\\! {touch}", f"SELECT id FROM odd \\g | {touch}",
            f"SELECT id FROM odd\n\\.\n\\! {touch}",
            f"SELECT id FROM odd WHERE id = `{touch}`", f"`{touch}`", "SELECT :name FROM odd", "SELECT :'name' FROM odd",
            'SELECT :"name" FROM odd', "SELECT $$a$$ FROM odd", f"SELECT $x$) TO PROGRAM '{touch}' --$x$ FROM odd",
            "SELECT id /* x */ FROM odd", f"SELECT id FROM odd /*) TO PROGRAM '{touch}' --*/", "SELECT id FROM odd -- x",
            f"SELECT id FROM odd --\n) TO PROGRAM '{touch}' --", f"SELECT E'\\') TO PROGRAM ''{touch}'' --' FROM odd",
            f"SELECT U&'\\' FROM odd) TO PROGRAM '{touch}' --",
            f"SELECT \"id\" FROM odd) TO PROGRAM '{touch}' --",
            "SELECT pg_read_file('/etc/passwd') FROM odd", "SELECT set_config('role', 'postgres', false) FROM odd",
            "INSERT INTO odd VALUES (3) RETURNING id", "SELECT id INTO made FROM odd", "SELECT 'a' FROM odd WHERE '", "",
            f"SELECT id FROM odd{' ' * 65536}) TO PROGRAM '{touch}' --",
        ]
        for query in queries:
            with self.subTest(query):
                status, said, errors = ask("chief", query, "-v", f"name=1) TO PROGRAM '{touch}' --")
                self.assertEqual((status, errors), (1, ""))
                self.assertRegex(said, self.WHY)
                self.assertFalse(self.made.exists())

    def test_nothing_of_a_file_of_pairs_is_run(self):
        queries = [f"SELECT 1) TO PROGRAM 'touch {self.made}' --", f"\\! touch {self.made}", "--", "SELECT id FROM odd;"]
        (ROOM / "pairs").write_text("".join(f"chief {it}\n" for it in queries))
        status, said, errors = tool("--schema", SCHEMA, "--pairs", str(ROOM / "pairs"), str(ROOM))
        self.assertEqual((status, errors), (1, ""))
        for query, head, why in zip(queries, said.splitlines()[::2], said.splitlines()[1::2]):
            self.assertEqual(head, f"chief: {query}")
            self.assertRegex(why, self.WHY)
        end = "4 pairs of a role and a query: 0 the same, 0 differ as docs/POSTGRESQL.md says, 4 not compared, 0 differ"
        self.assertEqual(said.splitlines()[-1], end)
        self.assertFalse(self.made.exists())


class Outcomes(unittest.TestCase):
    """What is no answer of the query is told as what it is."""

    def test_a_denial_of_the_query(self):
        self.assertEqual(ask("bea", "SELECT body FROM note"), (0, "the same: 42501\n", ""))

    def test_a_role_that_psql_may_not_become(self):
        for query in ("SELECT id FROM note", "SELECT body FROM note"):
            told = "not compared: psql's role may not SET ROLE to bea: permission denied to set role \"bea\"\n"
            self.assertEqual(ask("bea", query, "-U", "ann"), (3, "", told))
        self.assertEqual(ask("ann", "SELECT id FROM odd", "-U", "ann"), (0, "the same: 1 rows\n", ""))

    def test_roles_that_are_unknown(self):
        told = "not compared: rowplan knows no role nosuch: the folder's schema has none of this name\n"
        self.assertEqual(ask("nosuch", "SELECT id FROM note"), (3, "", told))
        for role in ("ghost", "none"):
            self.assertEqual(ask(role, "SELECT id FROM note"), (3, "", f"not compared: PostgreSQL has no role {role}\n"))

    def test_schemas(self):
        for schema in ("nosuch", "", "$user", "pg_temp", QUOTED):
            told = (3, "", f"PostgreSQL has no schema {schema}\n")
            self.assertEqual(ask("ann", "SELECT id FROM odd", schema=schema), told)
        self.assertEqual(ask("ann", "SELECT id FROM odd", schema="public"), (1, "differs: rows here, 42P01 in PostgreSQL\n", ""))

    def test_a_schema_that_the_role_may_not_use(self):
        told = f"differs: rows here, 42P01 in PostgreSQL, where outside may not use the schema {SCHEMA}\n"
        self.assertEqual(ask("outside", "SELECT id FROM note"), (1, told, ""))

    def test_folders_that_are_refused(self):
        with tempfile.TemporaryDirectory() as name:
            folder = pathlib.Path(name)
            self.assert_refused(folder, f"input {folder}/schema.sql")
            (folder / "schema.sql").write_text("CREATE ROLE ann; CREATE TABLE odd (id bigint); GRANT SELECT ON odd TO ann;")
            self.assert_refused(folder, f"input {folder}/odd.csv")
            (folder / "odd.csv").write_text("id\n1\nx\n")
            self.assert_refused(folder, "data odd row 2 column id")
            (folder / "schema.sql").write_text("CREATE ROLE ann; CREATE TABLE odd (id int);")
            self.assert_refused(folder, "schema refused 42601 at 38")

    def assert_refused(self, folder, why):
        self.assertEqual(ask("ann", "SELECT id FROM odd", folder=folder), (3, "", f"rowplan refuses the folder: {why}\n"))

    def test_a_server_that_is_not_there(self):
        status, said, errors = ask("ann", "SELECT id FROM odd", "-h", "/nosuch")
        self.assertEqual((status, said), (3, ""))
        self.assertRegex(errors, "^PostgreSQL cannot be asked: psql: error: connection to server on socket \"/nosuch")

    def test_words_that_psql_has_not(self):
        status, said, errors = ask("ann", "SELECT id FROM odd", "--nosuch")
        self.assertEqual((status, said), (3, ""))
        self.assertRegex(errors, "^PostgreSQL cannot be asked: .*unrecognized option '--nosuch'")

    def test_an_answer_that_goes_elsewhere(self):
        told = (3, "", "PostgreSQL cannot be asked: psql did not print what it was told to\n")
        self.assertEqual(ask("ann", "SELECT id FROM odd", "-o", str(ROOM / "elsewhere")), told)

    def test_a_warning_is_not_the_error(self):
        self.assertEqual(ask("ann", "SELECT id FROM loud", PGOPTIONS=ELSEWHERE), (0, "the same: 1 rows\n", ""))
        self.assertEqual(ask("ann", "SELECT 1 / (id - 1) FROM loud", PGOPTIONS=ELSEWHERE), (0, "the same: 22012\n", ""))

    def test_what_stops_the_server_is_no_answer(self):
        told = "not compared: PostgreSQL did not answer: 57014: stop\n"
        self.assertEqual(ask("ann", "SELECT id FROM stops"), (1, told, ""))

    def test_the_transaction_reads_alone(self):
        status, said, errors = ask("ann", "SELECT id FROM written")
        self.assertEqual((status, errors), (1, ""))
        self.assertRegex(said, "^not compared: PostgreSQL did not answer: 25006: ")
        self.assertEqual(ask("ann", "SELECT id FROM odd"), (0, "the same: 1 rows\n", ""))


class Page(unittest.TestCase):
    """Each difference of codes that is taken as one of docs/POSTGRESQL.md is found beside the tables of that page."""

    FOUND = [
        ("boss", "SELECT sum(id + 9223372036854775800) FROM deal", "22003", ROWS),
        ("alice", "SELECT CAST(owner AS bigint) FROM deal WHERE amount / parts > 0", "22012", "22P02"),
        ("boss", "SELECT id / (id - 5) FROM deal LIMIT 1", "22012", ROWS),
        ("boss", "SELECT CASE WHEN FALSE THEN sum(amount / parts) ELSE 0 END FROM deal", "22012", ROWS),
        ("boss", "SELECT CAST('007' AS bigint) FROM deal", "22P02", ROWS),
        ("boss", "SELECT id, id FROM deal ORDER BY id", "42702", ROWS),
        ("boss", "SELECT id FROM deal WHERE count(*) = 1 AND nosuch = 1", "42703", "42803"),
        ("boss", "SELECT id FROM deal ORDER BY amount", "42703", ROWS),
        ("boss", "SELECT ctid FROM deal", "42703", ROWS),
        ("boss", "SELECT id, count(*) FROM deal ORDER BY nosuch", "42803", "42703"),
        ("boss", "SELECT sum(owner), id FROM deal", "42803", "42883"),
        ("boss", "SELECT NULL IN (1, 'a') FROM deal", "42804", "22P02"),
        ("boss", "SELECT sum('a') FROM deal", "42804", "42725"),
        ("boss", "SELECT id FROM deal WHERE owner = 1", "42804", "42883"),
        ("boss", "SELECT id FROM deal WHERE id = '1'", "42804", ROWS),
        ("boss", "SELECT id FROM i", "42P01", "42809"),
        ("boss", "SELECT id FROM deal ORDER BY 9223372036854775807", "42P10", "42601"),
        ("boss", "SELECT id FROM deal WHERE amount / parts > 10 AND (parts < 0 OR parts > 0 OR parts > 1)", ROWS, "22012"),
        ("boss", "SELECT 1 / 0 FROM deal WHERE FALSE", ROWS, "22012"),
        ("boss", "SELECT id FROM deal user", ROWS, "42601"),
        ("boss", "SELECT count(NULL), sum(NULL), min(NULL), max(NULL) FROM deal", ROWS, "42725"),
    ]

    def test_all_are_asked(self):
        known = {*answers.KNOWN, *answers.KNOWN_KEYS, *answers.KNOWN_COLUMNS}
        self.assertEqual({(here, there) for _, _, here, there in self.FOUND}, known)

    def test_all_are_found(self):
        psql("-f", str(SALES / "schema.sql"))
        for table in ("deal", "region"):
            psql("-c", f"\\copy {table} FROM '{SALES}/{table}.csv' WITH (FORMAT csv, HEADER, NULL '\\N')")
        psql("-c", "CREATE INDEX i ON deal (id)")
        for role, query, here, there in self.FOUND:
            told = f"differs as docs/POSTGRESQL.md says: {here} here, {there} in PostgreSQL\n"
            self.assertEqual(ask(role, query, folder=SALES, schema="public"), (0, told, ""), query)


if __name__ == "__main__":
    unittest.main()
