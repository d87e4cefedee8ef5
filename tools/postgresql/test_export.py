"""What is exported of small databases, given as facts as PostgreSQL gives them.

usage: python3 -B -m unittest discover -s tools/postgresql
"""
import importlib.machinery
import importlib.util
import pathlib
import sys
import tempfile
import unittest

sys.path.insert(0, str(pathlib.Path(__file__).resolve().parent))
from export import Export, Options  # noqa: E402
from names import plain, shown  # noqa: E402
from ways_round import ways_round  # noqa: E402

tool = pathlib.Path(__file__).resolve().parent.parent / "from-postgresql"
loader = importlib.machinery.SourceFileLoader("from_postgresql", str(tool))
from_postgresql = importlib.util.module_from_spec(importlib.util.spec_from_loader(loader.name, loader))
loader.exec_module(from_postgresql)


def role(number, name, **more):
    """A role without attributes, but for those that are given."""
    found = dict.fromkeys(("is_predefined", "is_superuser", "bypasses", "creates_roles", "replicates"), False)
    return {"role": number, "name": name, **found, **more}


def member(group, number, inherits=True):
    """A membership."""
    return {"group": group, "member": number, "inherits": inherits, "sets": True, "is_admin": False}


def column(table, name, base="bigint", readers=None, **more):
    """A column of a type of PostgreSQL's own."""
    found = {"table": table, "name": name, "is_not_null": False, "written": base, "base": base, "readers": readers}
    return found | {"type_kind": "b", "type_schema": "pg_catalog", "is_deterministic": True, "is_by_bytes": False} | more


def table(number, name, owner, readers, **more):
    """A table of which some roles have SELECT."""
    found = {"table": number, "name": name, "owner": owner, "kind": "r", "inherits": False, "readers": readers}
    return found | {"has_row_security": False, "is_forced": False} | more


def policy(number, name, roles, condition, **more):
    """A permissive policy."""
    return {"table": number, "name": name, "roles": roles, "condition": condition, "is_permissive": True, "calls": None} | more


def facts(roles, tables, columns, memberships=(), policies=(), usage=(0,), encoding="UTF8"):
    """The facts of a database."""
    found = dict.fromkeys(("collations", "indexes", "views", "functions", "schemas"))
    found |= {"server": {"version": 150000, "encoding": encoding, "owner": 10}, "schema": {"usage": [*usage]}}
    return found | {"roles": roles, "tables": tables, "columns": columns, "memberships": [*memberships], "policies": [*policies]}


OWNER, ANN, BEN, GROUP, ROOT = 1, 2, 3, 4, 5
PEOPLE = [role(OWNER, "owner"), role(ANN, "ann"), role(BEN, "ben"), role(GROUP, "group_of")]
ONE = [column(7, "id"), column(7, "name", "text")]


def exported(*given, options=None, **more):
    """An export, its statements without those of roles and tables, and what is left out."""
    found = Export(facts(*given, **more), options or Options())
    skipped = ("CREATE ROLE", "CREATE TABLE", "ALTER TABLE")
    return found, [it for it in found.schema()[0] if not it.startswith(skipped)], found.lost


class Rights(unittest.TestCase):
    """Each role reads here what it reads in PostgreSQL, or is named."""

    def test_as_they_are(self):
        tables = [table(7, "t", OWNER, [OWNER, GROUP])]
        columns = [column(7, "id", readers=[BEN]), column(7, "name", "text")]
        _, statements, lost = exported(PEOPLE, tables, columns, memberships=[member(GROUP, ANN)])
        wanted = ["GRANT group_of TO ann;", "GRANT SELECT (id) ON t TO ben;", "GRANT SELECT ON t TO group_of;"]
        self.assertEqual(statements, wanted)
        self.assertEqual(lost, [])

    def test_usage(self):
        tables = [table(7, "t", OWNER, [OWNER, GROUP])]
        members = [member(GROUP, ANN), member(GROUP, BEN)]
        _, statements, lost = exported(PEOPLE, tables, ONE, memberships=members, usage=[OWNER, ANN])
        self.assertEqual(statements, ["GRANT group_of TO ann;", "GRANT group_of TO ben;", "GRANT SELECT ON t TO ann;"])
        self.assertEqual(lost, [])

    def test_owner_without_usage(self):
        tables = [table(7, "t", OWNER, [OWNER, ANN])]
        found, statements, lost = exported(PEOPLE, tables, ONE, usage=[ANN])
        self.assertEqual((statements, lost), (["GRANT SELECT ON t TO ann;"], []))
        self.assertIn("table t: it belongs to root here and not to owner, which changes no right", found.notes)

    def test_superuser_with_revoked_right(self):
        people = [role(OWNER, "owner", is_superuser=True), *PEOPLE[1:]]
        found, statements, lost = exported(people, [table(7, "t", OWNER, [BEN])], ONE, memberships=[member(OWNER, ANN)])
        self.assertEqual((statements, lost), (["GRANT owner TO ann;", "GRANT SELECT ON t TO ben;"], []))
        self.assertNotIn("ALTER TABLE t OWNER TO owner;", found.schema()[0])

    def test_member_without_inherit(self):
        tables = [table(7, "t", OWNER, [OWNER, GROUP])]
        found, statements, lost = exported(PEOPLE, tables, ONE, memberships=[member(GROUP, ANN, inherits=False)])
        self.assertEqual((statements, lost), (["GRANT SELECT ON t TO group_of;"], []))
        self.assertIn("role ann may SET ROLE group_of, whose rights it has not else", ways_round(found))

    def test_policy_that_cannot_be_said(self):
        tables = [table(7, "t", OWNER, [OWNER, GROUP], has_row_security=True)]
        policies = [policy(7, "computed", [ANN], "(length(name) > 1)"), policy(7, "said", [GROUP], "(id = 1)")]
        members = [member(GROUP, ANN), member(GROUP, BEN)]
        _, statements, lost = exported(PEOPLE, tables, ONE, memberships=members, policies=policies)
        self.assertEqual(lost, ["policy computed of table t: the function length; no right on the table for ann"])
        said = "CREATE POLICY said ON t FOR SELECT TO ann, group_of USING (id = 1);"
        self.assertEqual(statements, ["GRANT group_of TO ben;", said, "GRANT SELECT ON t TO group_of;"])

    def test_policy_for_all_that_cannot_be_said(self):
        tables = [table(7, "t", OWNER, [OWNER, ANN], has_row_security=True)]
        found, statements, lost = exported(PEOPLE, tables, ONE, policies=[policy(7, "p", [0], "(length(name) > 1)")])
        self.assertEqual((found.tables, statements, lost), ([], [], ["table t: policy p: the function length"]))

    def test_hidden_function(self):
        tables = [table(7, "t", OWNER, [OWNER, ANN], has_row_security=True)]
        policies = [policy(7, "p", [0], "(id = 1)", calls=["operator =(bigint,integer)"])]
        found, _, lost = exported(PEOPLE, tables, ONE, policies=policies)
        self.assertEqual((found.tables, lost), ([], ["table t: policy p: it calls operator =(bigint,integer)"]))

    def test_policy_with_a_control_character(self):
        tables = [table(7, "t", OWNER, [OWNER, ANN], has_row_security=True)]
        policies = [policy(7, "all", [0], "true"), policy(7, "a\nb", [0], "(id = 1)", is_permissive=False)]
        found, _, lost = exported(PEOPLE, tables, ONE, policies=policies)
        self.assertEqual((found.tables, lost), ([], ['table t: policy U&"a\\000Ab": its name has a control character']))

    def test_names_of_policies(self):
        tables = [table(7, "t", OWNER, [OWNER, ANN], has_row_security=True)]
        policies = [policy(7, "Own rows", [0], "(id = 1)"), policy(7, "p1", [0], "(id = 2)"), policy(7, "case", [0], "(id = 3)")]
        found, _, lost = exported(PEOPLE, tables, ONE, policies=policies)
        self.assertEqual(found.schema()[1], ['p2 of table t: "Own rows"', "p3 of table t: case"])
        self.assertEqual(lost, [])

    def test_column_that_is_left_out(self):
        columns = [column(7, "id"), column(7, "extra", "jsonb", readers=[ANN])]
        _, statements, lost = exported(PEOPLE, [table(7, "t", OWNER, [OWNER])], columns)
        self.assertEqual(statements, [])
        self.assertEqual(
            lost,
            [
                "column extra of table t: no type for jsonb; --as-text takes it as text",
                "role ann: no right on table t, since the columns that it reads are left out",
            ],
        )

    def test_order_in_another_encoding(self):
        tables = [table(7, "t", OWNER, [OWNER, ANN], has_row_security=True)]
        columns = [column(7, "id"), column(7, "name", "text", is_by_bytes=True)]
        policies = [policy(7, "p", [0], "(name < 'b'::text)")]
        found, _, lost = exported(PEOPLE, tables, columns, policies=policies, encoding="LATIN1")
        self.assertEqual((found.tables, lost), ([], ["table t: policy p: texts in the order of a collation"]))
        found, _, lost = exported(PEOPLE, tables, columns, policies=policies)
        self.assertEqual((len(found.tables), lost), (1, []))


class Roles(unittest.TestCase):
    """Which roles are exported."""

    def test_root(self):
        tables = [table(7, "t", OWNER, [OWNER, ROOT, ANN])]
        found, statements, lost = exported([*PEOPLE, role(ROOT, "root")], tables, ONE)
        self.assertEqual((statements, lost), (["GRANT SELECT ON t TO ann;"], ["role root: root is a superuser here"]))
        people = [*PEOPLE, role(ROOT, "root", is_superuser=True)]
        found, statements, lost = exported(people, tables, ONE)
        self.assertEqual((ROOT in found.roles, lost), (True, []))
        found, statements, lost = exported(people, tables, ONE, memberships=[member(ROOT, BEN)])
        self.assertEqual(statements, ["GRANT SELECT ON t TO ann;", "GRANT SELECT ON t TO ben;"])
        self.assertEqual(lost, ["role root: root is a superuser here that no role belongs to"])

    def test_named(self):
        tables = [table(7, "t", OWNER, [OWNER, 0])]
        found, statements, _ = exported(PEOPLE, tables, ONE)
        self.assertEqual(found.roles, {OWNER})
        self.assertIn("3 roles read what is granted to PUBLIC alone: ann, ben, group_of", ways_round(found))
        found, statements, lost = exported(PEOPLE, tables, ONE, options=Options(roles=["ben", "nobody"]))
        self.assertEqual((found.roles, lost), ({OWNER, BEN}, ["role nobody: there is none"]))

    def test_limits(self):
        tables = [table(100 + it, f"t{it}", OWNER, [OWNER]) for it in range(65)]
        columns = [column(100 + it, "id") for it in range(65)]
        found, _, _ = exported(PEOPLE, tables, columns)
        self.assertEqual([*found.over_limits()], ["65 tables, and a schema here has at most 64: --table takes some"])
        policies = [policy(7, f"q{it}", [0], "(id = 1)") for it in range(257)]
        found, _, _ = exported(PEOPLE, [table(7, "t", OWNER, [OWNER], has_row_security=True)], ONE, policies=policies)
        told = "257 policies, and a schema here has at most 256: --table takes some of the tables"
        self.assertEqual([*found.over_limits()], [told])
        found, _, lost = exported(PEOPLE, [table(7, "t", OWNER, [OWNER])], [column(7, f"c{it}") for it in range(65)])
        self.assertEqual(lost, ["table t: it has 65 columns, and a table here at most 64: --table t=COLUMN,.. takes some"])
        people = [role(OWNER, "owner")] + [role(100 + it, f"r{it}") for it in range(255)]
        found, _, _ = exported(people, [table(7, "t", OWNER, [it["role"] for it in people])], ONE)
        told = "257 roles, root among them, and a schema here has at most 256: --table takes some of the tables"
        self.assertEqual([*found.over_limits()], [told])


class Folders(unittest.TestCase):
    """An export takes the place of an earlier one, and of nothing else; a text that is null here is found in its rows."""

    def test_place(self):
        with tempfile.TemporaryDirectory() as work:
            top = pathlib.Path(work)
            for name, files in (("new", None), ("empty", []), ("export", ["schema.sql", "t.csv", "report.txt"])):
                self.make(top / name, files)
                self.assertEqual(from_postgresql.place_of(top / name), top / name)
            for name, files in (("others", ["notes.txt"]), ("more", ["schema.sql", "notes.txt"]), ("rows", ["t.csv"])):
                self.make(top / name, files)
                self.assertRaises(from_postgresql.Failed, from_postgresql.place_of, top / name)
            self.assertRaises(from_postgresql.Failed, from_postgresql.place_of, top / "none" / "new")
            (top / "link").symlink_to(top / "empty")
            self.assertRaises(from_postgresql.Failed, from_postgresql.place_of, top / "link")

    def make(self, folder, files):
        """Makes a folder with empty files."""
        if files is not None:
            folder.mkdir()
            for name in files:
                (folder / name).touch()

    def test_null_text(self):
        columns = [{"name": "id"}, {"name": "a"}, {"name": "b"}]
        rows = (
            (b'1,"x","\N"\n', "b"),
            (b'1,"\N",\N\n', "a"),
            (b'1,\N,"x"\n', None),
            (b'1,"x,""\N"",y","z"\n', None),
            (b'1,"two\n""\N""\n","z"\n2,"a,","\N"\n', "b"),
        )
        with tempfile.TemporaryDirectory() as work:
            file = pathlib.Path(work) / "t.csv"
            for text, wanted in rows:
                with self.subTest(text):
                    file.write_bytes(b"id,a,b\n" + text)
                    self.assertEqual(from_postgresql.null_text(file, columns), wanted)


class Words(unittest.TestCase):
    """The words of the command line."""

    def test_words(self):
        words = "--schema s --table t --table u=a,b --role r --as-text date --partial out -- -h db".split()
        options, schema, is_partial, folder, psql = from_postgresql.read_words(words)
        self.assertEqual((schema, is_partial, str(folder), psql), ("s", True, "out", ["-h", "db"]))
        self.assertEqual((options.tables, options.roles, options.as_text), ({"t": None, "u": ["a", "b"]}, ["r"], {"date"}))
        for wrong in ([], ["a", "b"], ["--schema"], ["--nothing", "out"]):
            with self.subTest(wrong):
                self.assertRaises(from_postgresql.UsageError, from_postgresql.read_words, wrong)


class Names(unittest.TestCase):
    """No name ends a line of the report."""

    def test_shown(self):
        for name, wanted in (
            ("deal", "deal"),
            ("Deal", '"Deal"'),
            ('a"b', '"a""b"'),
            ("a\nb", 'U&"a\\000Ab"'),
            ("a\x1f\\b", 'U&"a\\001F\\\\b"'),
            ("a\u2028b", 'U&"a\\2028b"'),
        ):
            with self.subTest(name):
                self.assertEqual(shown(name), wanted)
        self.assertEqual(plain("a\nb\x1fc"), "a b\\001Fc")


if __name__ == "__main__":
    unittest.main()
