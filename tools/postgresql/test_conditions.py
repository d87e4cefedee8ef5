"""Conditions of policies, as pg_get_expr writes them, and what they are here.

usage: python3 -B -m unittest discover -s tools/postgresql
"""
import pathlib
import sys
import unittest

sys.path.insert(0, str(pathlib.Path(__file__).resolve().parent))
from conditions import Translator  # noqa: E402
from expressions import Unsaid, elements, read  # noqa: E402


def column(name, base, kind="b", schema="pg_catalog", is_deterministic=True, is_by_bytes=False):
    """A column as the facts have it."""
    found = {"name": name, "written": base, "base": base, "type_kind": kind, "type_schema": schema}
    return found | {"is_deterministic": is_deterministic, "is_by_bytes": is_by_bytes}


COLUMNS = [
    column("id", "bigint"),
    column("small", "smallint"),
    column("ward", "integer"),
    column("name", "character varying"),
    column("owner", "text"),
    column("code", "text", is_by_bytes=True),
    column("mail", "text", is_deterministic=False),
    column("login", "name", is_by_bytes=True),
    column("open", "boolean"),
    column("tenant", "uuid"),
    column("held", "date"),
    column("state", "public.state", kind="e", schema="public"),
    column("extra", "jsonb"),
    column("pair", "public.pair", kind="c", schema="public"),
    column("secret", "text"),
]
EXPORTED = {it["name"] for it in COLUMNS} - {"secret"}
COLLATIONS = {"C": "bytes", "POSIX": "bytes", "s.ci": "loose"}

SAID = [
    # (as PostgreSQL writes it, as it is here)
    ("true", "(TRUE)"),
    ("open", "(open)"),
    ("(NOT open)", "(NOT open)"),
    ("(owner = CURRENT_USER)", "(owner = CURRENT_USER)"),
    ("(owner = (CURRENT_ROLE)::text)", "(owner = CURRENT_USER)"),
    ("((name)::text = USER)", "(name = CURRENT_USER)"),
    ("(login = 'a'::name)", "(login = 'a')"),
    ("(id = 5)", "(id = 5)"),
    ("(id = '-5'::integer)", "(id = -5)"),
    ("(id = ('-32768'::integer)::smallint)", "(id = -32768)"),
    ("(id > '-9223372036854775808'::bigint)", "(id > -9223372036854775808)"),
    ("((small)::bigint = id)", "(small = id)"),
    ("((ward >= 1) AND (ward <= 2))", "((ward >= 1) AND (ward <= 2))"),
    ("((ward = ANY (ARRAY[1, 2])) AND (NOT open))", "((ward IN (1, 2)) AND (NOT open))"),
    ("(ward = ANY ('{1,2,NULL}'::integer[]))", "(ward IN (1, 2, NULL))"),
    ("(ward <> ALL (ARRAY['-1'::integer, NULL::integer]))", "(ward NOT IN (-1, NULL))"),
    ("((name)::text = ANY ((ARRAY['a'::character varying, 'it''s'::character varying])::text[]))", "(name IN ('a', 'it''s'))"),
    ("(owner = ANY (ARRAY['a'::text, (CURRENT_USER)::text]))", "((owner = 'a') OR (owner = CURRENT_USER))"),
    ("(owner <> ALL (ARRAY['a'::text, (name)::text]))", "((owner <> 'a') AND (owner <> name))"),
    ("(owner = ANY ('{}'::text[]))", "(FALSE)"),
    ("(owner <> ALL ('{}'::text[]))", "(TRUE)"),
    ("((owner IS NULL) OR (extra IS NOT NULL))", "((owner IS NULL) OR (extra IS NOT NULL))"),
    ("((ward = 1) IS UNKNOWN)", "((ward = 1) IS NULL)"),
    ("(open IS TRUE)", "(CASE WHEN open THEN TRUE ELSE FALSE END)"),
    ("(open IS NOT TRUE)", "(CASE WHEN open THEN FALSE ELSE TRUE END)"),
    ("((ward = 1) IS FALSE)", "(CASE WHEN NOT (ward = 1) THEN TRUE ELSE FALSE END)"),
    ("(open IS NOT FALSE)", "(CASE WHEN NOT open THEN FALSE ELSE TRUE END)"),
    (
        "(ward IS DISTINCT FROM 1)",
        "(CASE WHEN ward = 1 THEN FALSE WHEN ward IS NULL AND 1 IS NULL THEN FALSE ELSE TRUE END)",
    ),
    (
        "CASE\n    WHEN (ward > 1) THEN 'x'::text\n    ELSE owner\nEND = 'x'::text",
        None,
    ),
    (
        "(CASE\n    WHEN (ward > 1) THEN 'x'::text\n    ELSE owner\nEND = 'x'::text)",
        "((CASE WHEN ward > 1 THEN 'x' ELSE owner END) = 'x')",
    ),
    (
        "CASE ward\n    WHEN 1 THEN open\n    ELSE NULL::boolean\nEND",
        "(CASE WHEN ward = 1 THEN open ELSE NULL END)",
    ),
    ("COALESCE(open, false)", "(CASE WHEN open IS NOT NULL THEN open ELSE FALSE END)"),
    ("(code < 'm'::text)", "(code < 'm')"),
    ("((owner COLLATE \"C\") < 'm'::text)", "(owner < 'm')"),
    ("(tenant = '0f8fad5b-d9cb-469f-a165-70867728950e'::uuid)", "(tenant = '0f8fad5b-d9cb-469f-a165-70867728950e')"),
    ("((tenant)::text = '0f8fad5b-d9cb-469f-a165-70867728950e'::text)", "(tenant = '0f8fad5b-d9cb-469f-a165-70867728950e')"),
    ("(held <> '2026-01-05'::date)", "(held <> '2026-01-05')"),
    ("(state = ANY (ARRAY['a'::public.state, 'b'::public.state]))", "(state IN ('a', 'b'))"),
    ("(owner = 'back\\slash'::text)", "(owner = 'back\\slash')"),
    ("(owner = 'two\nlines'::text)", "(owner = 'two\nlines')"),
    ("(owner = NULL::text)", "(owner = NULL)"),
    ("(open = true)", "(open = TRUE)"),
]

UNSAID = [
    # (as PostgreSQL writes it, why it cannot be said)
    ("(ward IN ( SELECT patient.id\n   FROM public.patient))", "a query inside it"),
    ("(EXISTS ( SELECT 1\n   FROM public.patient))", "a query inside it"),
    ("(ward = ANY ( SELECT 1))", "a query inside it"),
    ("(ward = ( SELECT 1))", "a query inside it"),
    ("(length(owner) > 1)", "the function length"),
    ("(owner = current_setting('app.user'::text))", "the function current_setting"),
    ("((ward + 1) > 2)", "arithmetic, which may fail"),
    ("((- ward) > 2)", "arithmetic, which may fail"),
    ("(owner ~~ 'a%'::text)", "the operator ~~"),
    ("(owner OPERATOR(s.=) 'a'::text)", "an operator of another schema"),
    ("(owner = SESSION_USER)", "the value SESSION_USER"),
    ("(owner < 'm'::text)", "texts in the order of a collation"),
    ("(code < owner)", "texts in the order of a collation"),
    ("(code < CURRENT_USER)", "texts in the order of a collation"),
    ("(mail = 'A'::text)", "texts under a collation that is not deterministic"),
    ("((owner COLLATE s.ci) = 'A'::text)", "texts under a collation that is not deterministic"),
    ("(mail = ANY (ARRAY['A'::text]))", "texts under a collation that is not deterministic"),
    ("(CASE WHEN open THEN mail ELSE owner END = 'a'::text)", "texts under a collation that is not deterministic"),
    ("(held > '2026-01-05'::date)", "an order of date, which is text here"),
    ("((held)::text = '2026-01-05'::text)", "a cast of date to text"),
    ("(extra = '{}'::jsonb)", "a comparison of the column extra, which is text here"),
    ("(pair IS NULL)", "IS NULL of a row"),
    ("(secret = 'a'::text)", "the column secret, which is left out"),
    ("(id = ('70000'::bigint)::smallint)", "a cast of 70000 to smallint, which may fail"),
    ("((id)::integer = 5)", "a cast of id to integer, which may fail"),
    ("((owner)::character varying(2) = 'a')", "a cast to character varying(2), which may change a value"),
    ("((owner)::integer = 5)", "a cast of text to integer"),
    ("(id = 1.5)", "the number 1.5"),
    ("(owner = '\\N'::text)", "the text \\N, which is null here"),
    ("(tenant < '0f8fad5b-d9cb-469f-a165-70867728950e'::uuid)", "an order of uuid, which is text here"),
    ("(state = 'a'::public.other)", "a comparison of public.state with public.other"),
    ("(ROW(ward, owner) = ROW(1, 'a'::text))", "the function ROW"),
    ("((ward, owner) = (1, 'a'::text))", "a row of values"),
    ("(owner = ANY (name))", "a list that is not of literals"),
    ("(ward < ANY (ARRAY[1, 2]))", "< ANY of an array"),
    ("((extra ->> 'a'::text) = 'b'::text)", "the operator ->>"),
    ("(owner = E'a\\\\b'::text)", "a literal of the form E'..'"),
    ("(ward = 1) OR true", "its form at OR"),
    ("(ward = 1", "its form at the end"),
    ("(open AND open OR open)", "its form at OR"),
    ("ward", "a condition that is of type integer"),
    ("(owner = 'a'::text) -- x", "its form at --"),
    ("(a.b = 1)", "the name a.b"),
    ("(" + " AND ".join(["open"] * 65) + ")", "more than 64 operands of one AND"),
    ("(NOT " * 64 + "open" + ")" * 64, "more than 64 levels of parentheses, NOT and CASE"),
]


class Conditions(unittest.TestCase):
    """Each condition is said as its row has it, or refused with the reason of its row."""

    translator = Translator(COLUMNS, EXPORTED, COLLATIONS)

    def test_said(self):
        for text, wanted in SAID:
            with self.subTest(text):
                if wanted is None:
                    self.assertRaises(Unsaid, self.translator.condition, text)
                else:
                    self.assertEqual(self.translator.condition(text), wanted)

    def test_unsaid(self):
        for text, why in UNSAID:
            with self.subTest(text):
                with self.assertRaises(Unsaid) as raised:
                    self.translator.condition(text)
                self.assertEqual(str(raised.exception), why)

    def test_depth(self):
        text = "(NOT " * 30 + "open" + ")" * 30
        self.assertTrue(self.translator.condition(text).startswith("(NOT (NOT "))

    def test_elements(self):
        self.assertEqual(elements('{a,"b,c","d\\"e",NULL,"NULL"}'), ["a", "b,c", 'd"e', None, "NULL"])
        for text in ("a", "{a,}", "{{a},{b}}", "{a}b", '{"a}'):
            with self.subTest(text):
                self.assertRaises(Unsaid, elements, text)

    def test_tokens_end(self):
        for text in ("'open", '"open', "a $1", "a;b", "\x00"):
            with self.subTest(text):
                self.assertRaises(Unsaid, read, text)


if __name__ == "__main__":
    unittest.main()
