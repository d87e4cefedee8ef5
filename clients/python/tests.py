"""Tests of the client, beside the built program: `python3 -B clients/python/tests.py` at the top of the repository."""
import os
import pathlib
import tempfile
import unittest

import rowplan

SALES = pathlib.Path(__file__).parents[2] / "examples" / "sales"


def connect(role):
    return rowplan.connect(SALES / "schema.sql", SALES, role)


class Literals(unittest.TestCase):
    def test_values(self):
        rows = [(None, "NULL"), (True, "TRUE"), (False, "FALSE"), (0, "0"), (-5, "-5"), (2**63 - 1, "9223372036854775807")]
        rows += [(-(2**63), "-9223372036854775808"), ("", "''"), ("O'Hara", "'O''Hara'"), ("a\nb", "'a\nb'"), ("?", "'?'")]
        for value, text in rows:
            self.assertEqual(rowplan.literal(value), text)

    def test_refused(self):
        for value in (2**63, -(2**63) - 1, "\\N"):
            with self.assertRaises(rowplan.DataError):
                rowplan.literal(value)
        for value, name in ((1.5, "float"), (b"x", "bytes"), ([1], "list")):
            with self.assertRaisesRegex(rowplan.NotSupportedError, name):
                rowplan.literal(value)

    def test_marks(self):
        self.assertEqual(rowplan.with_parameters("a = ? AND b = '?' AND c = ?", (1, "x")), "a =  1  AND b = '?' AND c =  'x' ")
        self.assertEqual(rowplan.with_parameters("b = 'it''s ?'", ()), "b = 'it''s ?'")
        self.assertEqual(rowplan.with_parameters("a -?", (-1,)), "a - -1 ")
        for text, values in (("a = ?", ()), ("a", (1,)), ("a = '?'", (1,))):
            with self.assertRaises(rowplan.ProgrammingError):
                rowplan.with_parameters(text, values)


class Lines(unittest.TestCase):
    def test_fields(self):
        reply = 'a,b\n1,"x,""y""\nz"\n\\N,""\n'
        self.assertEqual(rowplan.lines_of(reply), [["a", "b"], ["1", 'x,"y"\nz'], [None, ""]])

    def test_broken(self):
        with self.assertRaises(rowplan.InternalError):
            rowplan.lines_of('a\n"x')


class Module(unittest.TestCase):
    def test_attributes(self):
        self.assertEqual((rowplan.apilevel, rowplan.threadsafety, rowplan.paramstyle), ("2.0", 1, "qmark"))
        self.assertTrue(issubclass(rowplan.ProgrammingError, rowplan.DatabaseError))
        self.assertTrue(issubclass(rowplan.InterfaceError, rowplan.Error))
        self.assertEqual(rowplan.STRING, "text")
        self.assertNotEqual(rowplan.NUMBER, "text")


class Queries(unittest.TestCase):
    def setUp(self):
        self.connection = connect("alice")
        self.addCleanup(self.connection.close)
        self.cursor = self.connection.cursor()

    def test_rows(self):
        self.assertIs(self.cursor.execute("SELECT id, owner, amount FROM deal ORDER BY id"), self.cursor)
        self.assertEqual([c[:2] for c in self.cursor.description], [("id", "bigint"), ("owner", "text"), ("amount", "bigint")])
        self.assertEqual(self.cursor.rowcount, 3)
        self.assertEqual(self.cursor.fetchone(), (1, "alice", 100))
        self.assertEqual(self.cursor.fetchmany(5), [(2, "alice", 50), (5, "alice", 100)])
        self.assertIsNone(self.cursor.fetchone())
        self.assertEqual(self.cursor.fetchall(), [])

    def test_types(self):
        self.cursor.execute("SELECT id, id = 1 AS one, NULL AS nothing, CASE WHEN id > 1 THEN NULL ELSE 'x' END AS word FROM deal ORDER BY id LIMIT 2")
        self.assertEqual([c[1] for c in self.cursor.description], ["bigint", "boolean", None, "text"])
        self.assertEqual(list(self.cursor), [(1, True, None, "x"), (2, False, None, None)])

    def test_no_rows(self):
        self.cursor.execute("SELECT * FROM deal WHERE id = ?", (99,))
        self.assertEqual(self.cursor.rowcount, 0)
        self.assertIn("owner", [c[0] for c in self.cursor.description])
        self.assertEqual(self.cursor.fetchall(), [])

    def test_parameters(self):
        self.cursor.execute("SELECT ? AS a, ? AS b, ? AS c, ? AS d FROM deal LIMIT 1", ("it's\n'; DROP", -(2**63), None, True))
        self.assertEqual(self.cursor.fetchone(), ("it's\n'; DROP", -(2**63), None, True))

    def test_injection(self):
        self.cursor.execute("SELECT id FROM deal WHERE owner = ?", ("x' OR owner <> 'x",))
        self.assertEqual(self.cursor.fetchall(), [])
        with self.assertRaises(rowplan.ProgrammingError):
            self.cursor.execute("SELECT id FROM deal\nlogin root")
        with self.assertRaises(rowplan.InterfaceError) as raised:
            self.connection._session = "1"
            self.cursor.execute("SELECT id FROM deal")
        self.assertEqual(raised.exception.code, "08003")

    def test_refusal(self):
        with self.assertRaises(rowplan.ProgrammingError) as raised:
            self.cursor.execute("SELECT nosuch FROM deal")
        self.assertEqual((raised.exception.code, raised.exception.offset), ("42703", 7))
        self.assertEqual(str(raised.exception), "refused 42703 at 7")
        self.assertIsNone(self.cursor.description)

    def test_fault(self):
        with self.assertRaises(rowplan.DataError) as raised:
            self.cursor.execute("SELECT id / ? FROM deal", (0,))
        self.assertEqual(raised.exception.code, "22012")
        self.assertEqual(raised.exception.text[raised.exception.offset], "/")

    def test_denial(self):
        with connect("lone") as connection:
            with self.assertRaises(rowplan.ProgrammingError) as raised:
                connection.cursor().execute("SELECT amount FROM deal")
        self.assertEqual(str(raised.exception), "denied 42501 column amount of table deal")

    def test_closed(self):
        self.cursor.close()
        with self.assertRaises(rowplan.InterfaceError):
            self.cursor.fetchone()
        with self.assertRaises(rowplan.ProgrammingError):
            self.connection.cursor().fetchone()
        self.connection.close()
        with self.assertRaises(rowplan.InterfaceError):
            self.connection.cursor()

    def test_too_long(self):
        with self.assertRaises(rowplan.ProgrammingError):
            self.cursor.execute("SELECT id FROM deal WHERE owner = ?", ("x" * 2**20,))
        self.cursor.execute("SELECT count(*) FROM deal")
        self.assertEqual(self.cursor.fetchone(), (3,))

    def test_not_supported(self):
        for call in (self.connection.rollback, lambda: self.cursor.executemany("SELECT 1", [])):
            with self.assertRaises(rowplan.NotSupportedError):
                call()
        self.connection.commit()


class Sessions(unittest.TestCase):
    def test_no_such_role(self):
        with self.assertRaises(rowplan.ProgrammingError) as raised:
            connect("nobody")
        self.assertEqual(raised.exception.code, "42704")

    def test_no_such_file(self):
        with self.assertRaisesRegex(rowplan.OperationalError, "input"):
            rowplan.connect(SALES / "nosuch.sql", SALES, "alice")
        with self.assertRaises(rowplan.OperationalError):
            rowplan.connect(SALES / "schema.sql", SALES, "alice", program="/nosuch/rowplan")

    def test_roles(self):
        with connect("root") as connection:
            cursor = connection.cursor()
            connection.set_role("bob")
            self.assertEqual(cursor.execute("SELECT count(*) FROM deal").fetchone(), (2,))
            connection.reset_role()
            self.assertEqual(cursor.execute("SELECT count(*) FROM deal").fetchone(), (5,))
        with connect("alice") as connection:
            with self.assertRaises(rowplan.ProgrammingError) as raised:
                connection.set_role("bob")
            self.assertEqual(raised.exception.code, "42501")

    def test_change_and_load(self):
        with connect("root") as connection, tempfile.TemporaryDirectory() as folder:
            connection.change("CREATE TABLE note (id bigint, body text)")
            path = os.path.join(folder, "note.csv")
            pathlib.Path(path).write_text("id,body\n1,a\n2,\\N\n", encoding="utf-8")
            connection.load("note", path)
            cursor = connection.cursor()
            self.assertEqual(cursor.execute("SELECT * FROM note ORDER BY id").fetchall(), [(1, "a"), (2, None)])
            pathlib.Path(path).write_text("id,body\nx,a\n", encoding="utf-8")
            with self.assertRaisesRegex(rowplan.DataError, "note"):
                connection.load("note", path)
            with self.assertRaises(rowplan.OperationalError):
                connection.load("note", path + ".nosuch")
            with self.assertRaises(rowplan.ProgrammingError):
                connection.change("CREATE TABLE note (id bigint)")
            self.assertEqual(cursor.execute("SELECT count(*) FROM note").fetchone(), (2,))


if __name__ == "__main__":
    unittest.main()
