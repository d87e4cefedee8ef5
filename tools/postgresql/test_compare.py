"""Tests of tools/compare-postgresql that need no server and no rowplan.

usage: python3 -m unittest tools/postgresql/test_compare.py
"""
import os
import pathlib
import signal
import stat
import subprocess
import sys
import tempfile
import time
import unittest

HERE = pathlib.Path(__file__).resolve().parent
sys.path.insert(0, str(HERE))
import answers
import compare
from answers import ROWS
from compare import Answer, Unasked, Uncompared

TOOL = HERE.parent / "compare-postgresql"
PAGE = HERE.parent.parent / "docs" / "POSTGRESQL.md"


class Records(unittest.TestCase):
    def test_a_line_feed_in_quotes_ends_no_record(self):
        self.assertEqual(answers.records(b'a,b\n"1\n2",3\n\n'), [b"a,b\n", b'"1\n2",3\n', b"\n"])

    def test_doubled_quotes(self):
        self.assertEqual(answers.records(b'"a""\n"\n""""\n'), [b'"a""\n"\n', b'""""\n'])

    def test_no_record_is_lost(self):
        text = b'"",\\N,"\r\n"\n"a"",""\n",x\n'
        self.assertEqual(b"".join(answers.records(text)), text)

    def test_an_end_that_is_missing(self):
        for text in (b"", b"a", b"a\nb", b'a\n"b\n', b'"\n'):
            with self.subTest(text), self.assertRaises(answers.Unreadable):
                answers.records(text)


class Values(unittest.TestCase):
    def test_null_is_told_from_every_text(self):
        self.assertEqual(answers.values(b'\\N,"\\N",,"",NULL\n'), (None, b"\\N", b"", b"", b"NULL"))

    def test_texts(self):
        self.assertEqual(answers.values(b'"a,b","""","x\ny\r\n"," ",\\.,"\\."\n'),
                         (b"a,b", b'"', b"x\ny\r\n", b" ", b"\\.", b"\\."))

    def test_one_empty_text(self):
        self.assertEqual((answers.values(b"\n"), answers.values(b'""\n')), ((b"",), (b"",)))

    def test_the_last_field_may_be_empty(self):
        self.assertEqual((answers.values(b"1,\n"), answers.values(b'"1",\n')), ((b"1", b""), (b"1", b"")))

    def test_a_quote_inside_a_field(self):
        for record in (b'a"b"\n', b'"a"b\n', b'1,"a" \n'):
            with self.subTest(record), self.assertRaises(answers.Unreadable):
                answers.values(record)


class Alone(unittest.TestCase):
    def test_rows_without_their_order(self):
        self.assertEqual(answers.alone([b"1\n", b"2\n"], [b"2\n", b"1\n"]), ([], []))

    def test_rows_are_counted(self):
        self.assertEqual(answers.alone([b"1\n", b"1\n", b"2\n"], [b"1\n", b"2\n", b"2\n"]), ([(b"1",)], [(b"2",)]))

    def test_one_row_spelled_in_two_ways(self):
        self.assertEqual(answers.alone([b'""\n', b"\\.\n"], [b'"\\."\n', b"\n"]), ([], []))

    def test_spellings_are_counted_together(self):
        self.assertEqual(answers.alone([b"1\n", b'"1"\n', b"1\n"], [b'"1"\n', b'"1"\n']), ([(b"1",)], []))

    def test_a_null_is_no_text(self):
        self.assertEqual(answers.alone([b"\\N\n"], [b'"\\N"\n']), ([(None,)], [(b"\\N",)]))

    def test_the_first_rows_are_those_of_the_least_numbers(self):
        self.assertEqual(answers.first([(b"10",), (None,), (b"9",), (b"",)], 3), [(b"",), (b"9",), (b"10",)])


class Shown(unittest.TestCase):
    def test_a_row_is_one_line(self):
        row = (None, b"NULL", b"", b'a"b\\n', b"x\ny\r\tz", "é\u202e\x1b[31m".encode())
        self.assertEqual(answers.shown(row), r'NULL,"NULL","","a\"b\\n","x\ny\r\tz","é\u{202e}\u{1b}[31m"')

    def test_lines_past_the_most_are_counted(self):
        rows = [(str(it).encode(),) for it in range(23)]
        self.assertEqual(compare.lines_of("<", rows), [f'< "{it}"' for it in range(20)] + ["< and 3 more"])
        self.assertEqual(compare.lines_of(">", rows[:20]), [f'> "{it}"' for it in range(20)])


class Known(unittest.TestCase):
    def test_the_page_has_each(self):
        page = PAGE.read_text(encoding="utf-8")
        of_keys = {**answers.KNOWN_KEYS, **answers.KNOWN_COLUMNS}.values()
        for words in [*(it for _, it in answers.KNOWN.values()), *of_keys]:
            self.assertIn(words, page)

    def test_differences_that_the_page_has_not(self):
        query = b"SELECT sum(id) FROM deal WHERE id = 1 ORDER BY id LIMIT 1"
        for pair in ((ROWS, "42501"), ("42501", ROWS), (ROWS, "42P01"), ("42P01", ROWS), (ROWS, "42703"), (ROWS, "22003"),
                     (ROWS, "22P02"), ("42601", ROWS), ("42501", "42P01")):
            self.assertFalse(answers.is_known(query, *pair, 7), pair)

    def test_a_fault_needs_something_that_may_be_left_out(self):
        self.assertTrue(answers.is_known(b"SELECT 1 / id FROM deal WHERE id > 1", ROWS, "22012", None))
        for query in (b"SELECT 1 / id FROM deal", b"SELECT 1 / id, ' WHERE ' FROM deal", b"SELECT 1 / id AS whereas FROM deal"):
            self.assertFalse(answers.is_known(query, ROWS, "22012", None), query)

    def test_a_name_that_is_a_key(self):
        query = b"SELECT id, 'order by' FROM deal ORDER BY id, extra"
        self.assertTrue(answers.is_known(query, "42703", ROWS, query.index(b"extra")))
        query = b"SELECT id, 'order by', extra FROM deal ORDER BY id"
        self.assertFalse(answers.is_known(query, "42703", ROWS, query.index(b"extra")))

    def test_a_column_of_every_table(self):
        self.assertTrue(answers.is_known(b"SELECT d.XMIN FROM deal d", "42703", ROWS, 7))
        self.assertFalse(answers.is_known(b"SELECT xminimum FROM deal", "42703", ROWS, 7))


class RowplanReplies(unittest.TestCase):
    def reply(self, status, said=b"", errors=""):
        return compare.rowplan_answer("ana", status, said, errors)

    def test_answers(self):
        self.assertEqual(self.reply(0, b"id\n1\n").records, [b"id\n", b"1\n"])
        for status, said, code, offset in ((3, b"refused 42703 at 7\n", "42703", 7), (5, b"fault 22012 at 14\n", "22012", 14),
                                           (4, b"denied 42501 column c of table t\n", "42501", None)):
            answer = self.reply(status, said)
            self.assertEqual((answer.code, answer.offset), (code, offset))

    def test_what_it_did_not_read_is_not_compared(self):
        replies = [
            (3, b"refused 42601 at 8\n", "grammar"), (3, b"refused 54000\n", "limit"), (7, b"refused 53200\n", "memory"),
            (3, b"", "status 3"), (2, b"", "status 2"), (-11, b"", "status -11"), (3, b"fault 22012 at 1\n", "status 3"),
            (0, b'id\n"', "cannot be read"),
        ]
        for status, said, why in replies:
            with self.subTest(said), self.assertRaisesRegex(Uncompared, why) as caught:
                self.reply(status, said)
            self.assertFalse(caught.exception.is_of_role)

    def test_an_unknown_role(self):
        with self.assertRaisesRegex(Uncompared, "rowplan knows no role ana") as caught:
            self.reply(6, b"refused 42704\n")
        self.assertTrue(caught.exception.is_of_role)

    def test_a_folder_that_is_refused(self):
        for status, errors in ((6, "schema refused 42601 at 10"), (6, "data deal row 2"), (8, "input /x/schema.sql")):
            with self.assertRaisesRegex(Unasked, f"rowplan refuses the folder: {errors}"):
                self.reply(status, errors=errors)


class PsqlReplies(unittest.TestCase):
    BEFORE = b"t\nthe role is set\n"

    def reply(self, status, said, errors=""):
        return compare.postgresql_answer("public", "ana", status, said, errors)

    def test_answers(self):
        self.assertEqual(self.reply(0, self.BEFORE + b"id\n1\n").records, [b"id\n", b"1\n"])
        denied = "ERROR:  42501: permission denied for table t\nLOCATION:  aclcheck_error, aclchk.c:2803"
        self.assertEqual(self.reply(1, self.BEFORE, denied).code, "42501")
        self.assertEqual(self.reply(1, self.BEFORE + b"id\n1\n", "FEHLER:  22012: Division durch Null").code, "22012")

    def test_the_first_error_counts(self):
        errors = "psql: warning: x\nDEBUG:  00000: x\nERROR:  22012: a\nERROR:  42501: b"
        self.assertEqual(self.reply(1, self.BEFORE, errors).code, "22012")

    def test_a_schema_that_the_role_may_not_use(self):
        answer = self.reply(1, b"f\nthe role is set\n", 'ERROR:  42P01: relation "t" does not exist')
        self.assertEqual(answer.code + answer.note, "42P01, where ana may not use the schema public")

    def test_an_error_before_the_query_is_no_answer_to_it(self):
        may_not = 'ERROR:  42501: permission denied to set role "ana"'
        for said, errors, why in ((b"t\n", may_not, "psql's role may not SET ROLE to ana: permission denied"),
                                  (b"", 'ERROR:  42704: role "ana" does not exist', "PostgreSQL has no role ana")):
            with self.assertRaisesRegex(Uncompared, why) as caught:
                self.reply(1, said, errors)
            self.assertTrue(caught.exception.is_of_role)
        for status, said, errors, why in ((1, b"", 'ERROR:  3F000: schema "public" does not exist', "no schema public"),
                                          (2, b"", "psql: error: connection to server failed", "connection to server failed"),
                                          (1, b"", "ERROR:  42501: permission denied for function x", "cannot be asked: perm"),
                                          (0, b"", "", "did not print")):
            with self.assertRaisesRegex(Unasked, why):
                self.reply(status, said, errors)

    def test_an_error_of_the_server_is_no_answer(self):
        for errors in ("ERROR:  57014: canceling statement", "FATAL:  57P01: terminating", "ERROR:  53100: could not extend",
                       "psql: error: connection to server was lost",
                       "ERROR:  25006: cannot execute INSERT in a read-only transaction"):
            with self.assertRaisesRegex(Uncompared, "PostgreSQL did not answer") as caught:
                self.reply(1, self.BEFORE, errors)
            self.assertFalse(caught.exception.is_of_role)


class Words(unittest.TestCase):
    def statements(self, *asked):
        words = compare.psql_words(*asked, ["-d", "clinic"])
        self.assertEqual(words[-2:], ["-d", "clinic"])
        options = words[1:-2]
        self.assertEqual(options[:6], ["-X", "-q", "-v", "ON_ERROR_STOP=1", "-v", "VERBOSITY=verbose"])
        self.assertEqual(set(options[6::2]), {"-c"})
        return options[7::2]

    def test_each_statement_is_a_word_that_starts_no_command_of_psql(self):
        for statement in self.statements("public", "ana", "SELECT id\nFROM deal"):
            self.assertRegex(statement, "^(SET|BEGIN|COPY) ")

    def test_the_query_stands_alone_as_it_is(self):
        query = "SELECT 'a\n''\\:x`' FROM deal"
        self.assertEqual(self.statements("public", "ana", query)[-1],
                         f"COPY ({query}) TO STDOUT WITH (FORMAT csv, HEADER, NULL '\\N');")

    def test_names_are_quoted(self):
        told = self.statements("o'd\"d", 'r"o\'le', "SELECT id FROM deal")
        self.assertIn("SET LOCAL search_path = 'o''d\"d';", told)
        self.assertIn('SET LOCAL ROLE "r""o\'le";', told)
        self.assertIn("COPY (SELECT pg_catalog.has_schema_privilege('r\"o''le', 'o''d\"d', 'USAGE')) TO STDOUT;", told)

    def test_the_transaction_reads_alone_before_the_role_is_set(self):
        told = self.statements("public", "ana", "SELECT id FROM deal")
        begin, literals, role = (next(at for at, it in enumerate(told) if words in it)
                                 for words in ("READ ONLY", "standard_conforming_strings = 'on'", "SET LOCAL ROLE"))
        self.assertLess(begin, literals)
        self.assertLess(literals, role)
        self.assertEqual(role, len(told) - 3)


class Answers(unittest.TestCase):
    def found(self, here, there, query="SELECT id FROM deal"):
        return compare.compare_answers(query, here, there)

    def rows(self, *records):
        return Answer(ROWS, list(records))

    def test_the_same(self):
        found = self.found(self.rows(b"id\n", b"1\n", b"2\n"), self.rows(b"id\n", b"2\n", b"1\n"))
        self.assertEqual((found.kind, *found.lines), ("same", "the same: 2 rows"))
        found = self.found(Answer("42501"), Answer("42501"))
        self.assertEqual((found.kind, *found.lines), ("same", "the same: 42501"))

    def test_rows_that_differ(self):
        found = self.found(self.rows(b"id\n", b"1\n", b"3\n"), self.rows(b"id\n", b"2\n", b"1\n", b"\\N\n"))
        told = "differs: 1 of 2 rows here alone, 2 of 3 in PostgreSQL alone"
        self.assertEqual((found.kind, *found.lines), ("differs", told, '< "3"', '> "2"', "> NULL"))

    def test_headings(self):
        here, there = self.rows(b"id,?column?\n", b"1,2\n"), self.rows(b"id,case\n", b"1,2\n")
        self.assertEqual(self.found(here, there).lines, ("the same: 1 rows",))
        there = self.rows(b"no,case\n", b"1,2\n")
        self.assertEqual(self.found(here, there).lines, ("differs: the headings", '< "id","?column?"', '> "no","case"'))
        self.assertEqual(self.found(self.rows(b"?column?\n"), there).kind, "differs")

    def test_codes(self):
        found = self.found(self.rows(b"id\n"), Answer("42501"))
        self.assertEqual((found.kind, *found.lines), ("differs", "differs: rows here, 42501 in PostgreSQL"))
        found = self.found(Answer("42804", offset=7), Answer("42883"))
        told = "differs as docs/POSTGRESQL.md says: 42804 here, 42883 in PostgreSQL"
        self.assertEqual((found.kind, *found.lines), ("known", told))

    def test_an_answer_that_is_no_csv(self):
        with self.assertRaisesRegex(Uncompared, "cannot be read"):
            self.found(self.rows(b"id\n", b'a"b"\n'), self.rows(b"id\n", b"1\n"))


class Pairs(unittest.TestCase):
    def test_pairs(self):
        text = "# who\n\nana SELECT  'a b' \nö SELECT 1\n  \nben SELECT id\r\n".encode()
        self.assertEqual(compare.pairs_in(text), ([("ana", "SELECT  'a b' "), ("ö", "SELECT 1"), ("ben", "SELECT id\r")], None))

    def test_faults(self):
        for text, fault in ((b"ana SELECT 1\nana\n", "line 2: not a role"), (b"ana \n", "line 1: not a role"),
                            (b"\n SELECT 1\n", "line 2: not a role"), (b"ana \xff\n", "line 1: not UTF-8"),
                            (b"ana SELECT\0\n", "line 1: a null"), (b"# x\n\n", "no pair")):
            self.assertRegex(compare.pairs_in(text)[1], f"^{fault}")


class Program(unittest.TestCase):
    """The program between a rowplan and a psql that are scripts of these tests; psql leaves a mark where it is run."""

    def setUp(self):
        room = tempfile.TemporaryDirectory()
        self.addCleanup(room.cleanup)
        self.room = pathlib.Path(room.name)
        (self.room / "tmp").mkdir()
        self.script("rowplan", "exit 9")
        self.script("psql", f"touch '{self.room}/asked'", "printf 't\\nthe role is set\\nid\\n1\\n'")
        path = f"{self.room}:{os.environ['PATH']}"
        self.variables = {**os.environ, "PATH": path, "TMPDIR": str(self.room / "tmp"), "ROWPLAN": ""}

    def script(self, name, *lines):
        (self.room / name).write_text("".join(f"{it}\n" for it in ("#!/bin/sh", *lines)))
        (self.room / name).chmod(stat.S_IRWXU)

    def run_tool(self, *words):
        ran = subprocess.run([TOOL, *words], env=self.variables, capture_output=True, text=True, check=False, timeout=60)
        return ran.returncode, ran.stdout, ran.stderr

    def test_what_rowplan_does_not_read_is_never_sent(self):
        for said, why in (("refused 42601 at 8", "the grammar of rowplan has not this text: refused 42601 at 8"),
                          ("refused 54000", "the text is past a limit of rowplan: refused 54000")):
            self.script("rowplan", f"echo '{said}'", "exit 3")
            told = self.run_tool("folder", "ana", "SELECT 1) TO PROGRAM 'x' --")
            self.assertEqual(told, (1, f"not compared: {why}\n", ""))
            self.assertFalse((self.room / "asked").exists())

    def test_what_it_reads_is(self):
        self.script("rowplan", "printf 'id\\n1\\n'")
        self.assertEqual(self.run_tool("folder", "ana", "SELECT id FROM t"), (0, "the same: 1 rows\n", ""))
        self.assertTrue((self.room / "asked").exists())

    def test_the_query_reaches_rowplan_as_it_is(self):
        self.script("rowplan", f"cat > '{self.room}/query'", f"printf '%s\\n' \"$@\" > '{self.room}/words'", "exit 9")
        query = "SELECT 'é\n ' \t" + "x" * 300_000 + " \n"
        with open(self.room / "pairs", "wb") as file:
            file.write(b"ana " + query.replace("\n", " ").encode() + b"\n")
        self.run_tool("--pairs", str(self.room / "pairs"), "folder")
        self.assertEqual((self.room / "query").read_bytes(), query.replace("\n", " ").encode())
        self.run_tool("folder", "ana", query[:1000] + "\n")
        self.assertEqual((self.room / "query").read_bytes(), (query[:1000] + "\n").encode())
        words = ["query", "--schema", "folder/schema.sql", "--dir", "folder", "--role=ana", "--file", "-"]
        self.assertEqual((self.room / "words").read_text().splitlines(), words)

    def test_statuses_where_nothing_is_asked(self):
        self.script("rowplan", "echo 'schema refused 42601 at 3' >&2", "exit 6")
        told = (3, "", "rowplan refuses the folder: schema refused 42601 at 3\n")
        self.assertEqual(self.run_tool("folder", "ana", "SELECT id FROM t"), told)
        self.script("rowplan", "echo 'refused 42704'", "exit 6")
        status, said, errors = self.run_tool("folder", "ana", "SELECT id FROM t")
        self.assertEqual((status, said), (3, ""))
        self.assertIn("rowplan knows no role ana", errors)
        self.variables["ROWPLAN"] = str(self.room / "nosuch")
        told = (3, "", f"{self.room}/nosuch cannot be run: No such file or directory\n")
        self.assertEqual(self.run_tool("folder", "ana", "SELECT id FROM t"), told)

    def test_usage_errors(self):
        pairs = self.room / "pairs"
        pairs.write_text("# x\nana\n")
        wrong = [
            ((), "usage: "), (("folder", "ana"), "usage: "), (("folder", "ana", "q", "more"), "usage: "),
            (("--role", "x"), "no option --role"), (("--schema",), "nothing after --schema"),
            (("folder", "ana", "--", "-h", "x"), "usage: "), (("--pairs", str(pairs), "folder", "ana", "q"), "usage: "),
            (("--pairs", str(pairs), "folder"), f"{pairs}: line 2: "), (("--pairs", "/nosuch", "folder"), "/nosuch: No such"),
            (("folder", "ana", b"\xff"), "a word that is no UTF-8: ?"),
        ]
        for words, why in wrong:
            status, said, errors = self.run_tool(*words)
            self.assertEqual((status, said), (2, ""), words)
            self.assertTrue(errors.startswith(why), errors)

    def test_pairs_are_counted(self):
        self.script("rowplan", "read -r query", 'case "$query" in',
                    "same) printf 'id\\n1\\n' ;;", "differs) printf 'id\\n2\\n' ;;", "cast) echo 'fault 22P02 at 1'; exit 5 ;;",
                    "role) echo 'refused 42704'; exit 6 ;;", "*) echo 'refused 42601 at 0'; exit 3 ;;", "esac")
        pairs = self.room / "pairs"
        pairs.write_text("ana same\n# ana differs\n\nana cast\nana same\n")
        line = "3 pairs of a role and a query: 2 the same, 1 differs as docs/POSTGRESQL.md says, 0 not compared, 0 differ\n"
        self.assertEqual(self.run_tool("--pairs", str(pairs), "folder"), (0, line, ""))
        pairs.write_text("ana same\nben differs\nana role\nana nosuch\n")
        status, said, errors = self.run_tool("--pairs", str(pairs), "folder")
        self.assertEqual((status, errors), (1, ""))
        self.assertEqual(said.splitlines(), [
            "ben: differs", "differs: 1 of 1 rows here alone, 1 of 1 in PostgreSQL alone", '< "2"', '> "1"',
            "ana: role", "not compared: rowplan knows no role ana: the folder's schema has none of this name",
            "ana: nosuch", "not compared: the grammar of rowplan has not this text: refused 42601 at 0",
            "4 pairs of a role and a query: 1 the same, 0 differ as docs/POSTGRESQL.md says, 2 not compared, 1 differs",
        ])

    def test_one_pair_that_is_not_compared_is_no_success(self):
        self.script("rowplan", "echo 'refused 54000'", "exit 3")
        (self.room / "pairs").write_text("ana SELECT id FROM t\n")
        status, said, _ = self.run_tool("--pairs", str(self.room / "pairs"), "folder")
        self.assertEqual(status, 1)
        self.assertIn("0 the same, 0 differ as docs/POSTGRESQL.md says, 1 not compared, 0 differ\n", said)

    def test_a_server_that_is_gone_ends_the_pairs(self):
        self.script("rowplan", "printf 'id\\n1\\n'")
        again = f"[ ! -e '{self.room}/asked' ] || {{ echo 'psql: error: gone' >&2; exit 2; }}"
        self.script("psql", again, f"touch '{self.room}/asked'", "printf 't\\nthe role is set\\nid\\n1\\n'")
        (self.room / "pairs").write_text("ana SELECT id FROM t\nben SELECT id FROM t\n")
        told = (3, "", "PostgreSQL cannot be asked: psql: error: gone\nafter 1 of 2 pairs\n")
        self.assertEqual(self.run_tool("--pairs", str(self.room / "pairs"), "folder"), told)

    def test_an_interrupt_leaves_nothing(self):
        self.script("rowplan", f"touch '{self.room}/started'", "exec sleep 30")
        tool = subprocess.Popen([TOOL, "folder", "ana", "SELECT id FROM t"], env=self.variables, stderr=subprocess.PIPE)
        until = time.monotonic() + 20
        while not (self.room / "started").exists() and time.monotonic() < until:
            time.sleep(0.02)
        tool.send_signal(signal.SIGINT)
        self.assertEqual((tool.communicate(timeout=20)[1], tool.returncode), (b"", 130))
        self.assertEqual(os.listdir(self.room / "tmp"), [])


if __name__ == "__main__":
    unittest.main()
