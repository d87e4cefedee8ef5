"""Random small databases of PostgreSQL with row security: roles, memberships, a schema, tables, policies and grants.

A plain database has only what a schema of rowplan says in full. Any other has one or more of the themes of what it may not say:

    conditions  with functions, queries, an order of texts under a collation, and words that PostgreSQL alone has
    names       that need quotes or are reserved words, of roles, tables, columns and policies
    types       columns of other types, and of collations by which other texts are equal
    usage       roles without USAGE of the schema
    owners      without SELECT on their tables
"""
import dataclasses
import pathlib
import string
import sys

sys.path.insert(0, str(pathlib.Path(__file__).resolve().parent))
from server import identifier, literal  # noqa: E402

PEOPLE = ("ada", "ben", "cy", "dee", "eve", "fay", "gus", "hal")
TABLES = ("deal", "task", "note", "item")
FAMILY = {
    **dict.fromkeys(("smallint", "integer", "bigint"), "number"),
    **dict.fromkeys(("text", "varchar(12)", 'text COLLATE "C"'), "text"),
    **{"boolean": "truth", "date": "date", "uuid": "uuid", "text COLLATE public.fold": "folded"},
    **{"jsonb": "other", "numeric": "other"},
}
ODD_TYPES = ("jsonb", "numeric", "text COLLATE public.fold")
NUMBERS = (-3, 0, 1, 2, 3)
TEXTS = ("a", "a", "B", "b", "", "it's", "x\\y", "é")
DATES = ("2026-01-05", "2026-02-28", "1999-12-31")
UUIDS = ("6f1c6a2e-0000-4000-8000-000000000001", "6f1c6a2e-0000-4000-8000-00000000000a")
ATTRIBUTES = {"SUPERUSER": 0.04, "BYPASSRLS": 0.07, "NOINHERIT": 0.15, "LOGIN": 0.4}
THEMES = ("conditions", "names", "types", "usage", "owners")
PREDEFINED = ("pg_monitor", "pg_read_all_stats", "pg_read_all_data", "pg_database_owner")


@dataclasses.dataclass
class Column:
    """A column, with its type as CREATE TABLE has it."""

    name: str
    type: str

    @property
    def family(self):
        """The kind of values that it has."""
        return FAMILY[self.type]

    @property
    def said(self):
        """The column as SQL names it."""
        return self.name if self.name == self.name.lower() else identifier(self.name)

    @property
    def by_bytes(self):
        """Whether its texts are in the order of their bytes."""
        return self.type.endswith('"C"')


@dataclasses.dataclass
class Table:
    """A table, with its columns, its owner and its number of rows."""

    name: str
    columns: list
    owner: str = ""
    rows: int = 0


# Conditions without a condition inside, one a line: what the grammar of rowplan says in full; and what it has not, or not in
# these words, or with another meaning. Columns: n and m numbers, t and u texts under one collation, c a text in the order of its
# bytes, d a date, k a uuid, f a text under a collation by which other texts are equal, x one of another type; b and e are columns
# that are true or false, or comparisons. Literals: i, j (not less than i) and h are numbers, s and r texts, role is the name of a
# role. o is a table that was made before.
SAID = """
{n} {order} {i}
{i} {order} {n}
{n} {order} {m}
{n} IS {no}NULL
{n} {no}IN ({i})
{n} {no}IN ({i}, {h})
{n} {no}IN ({i}, {h}, {j})
{n} {no}BETWEEN {i} AND {j}
{n} = ANY (ARRAY[{i}, {h}])
{n} <> ALL (ARRAY[{i}, {h}])
{n} {order} 3000000000
{t} {equal} {s}
{s} = {t}
{t} = CURRENT_USER
{t} = CURRENT_USER
CURRENT_USER {equal} {t}
CURRENT_USER {equal} {role}
{t} IS {no}NULL
{t} {no}IN ({s}, {r})
{t} {equal} {u}
(CASE WHEN {b} THEN {t} END) = {s}
(CASE WHEN {b} THEN {r} ELSE {t} END) {equal} {s}
{c} {order} {s}
{c} BETWEEN 'A' AND {s}
{b}
NOT ({b})
({b}) = ({e})
({b}) IS {no}NULL
({b}) <> TRUE
TRUE
FALSE
"""
ODD = """
{n} + 1 > 2
{n} % 2 = 0
- {n} < 1
abs({n}) = 1
{n}::text = '1'
{n}::smallint = 1
{n} = '1'
{n} = 1.5
{n} > 0.5
{n} IS DISTINCT FROM {i}
{n} IN (1, NULL)
{n} BETWEEN SYMMETRIC 2 AND 0
{n} = ANY ('{{1,2}}')
{n} <> ALL ('{{1,NULL}}')
nullif({n}, 1) = 2
CASE {n} WHEN 1 THEN TRUE END
({n}, {m}) = (1, 1)
ROW({n}, 1) < ROW(2, 0)
({b}) IS {no}TRUE
({b}) IS UNKNOWN
({b})::integer = 1
coalesce({b}, FALSE)
CURRENT_USER IN ('', {role})
SESSION_USER = {role}
USER = {role}
CURRENT_ROLE = {role}
CURRENT_USER < {role}
CURRENT_USER LIKE '%a'
current_setting('try.none', TRUE) = {s}
pg_has_role({role}, 'USAGE')
(SELECT TRUE)
{s} = {r}
NULL
NULL::boolean
1 = 1
length({t}) > 1
{t} LIKE 'a%'
{t} ~ '^[a-z]'
lower({t}) = 'a'
{t} || 'b' = 'ab'
{t} = 'abc'::varchar(2)
{t} = 'a'::char(3)
{t}::varchar(1) = 'a'
{t}::name = CURRENT_USER
{t}::text = CURRENT_USER::text
{t} IN ('a', NULL)
{t} = ANY (ARRAY[{s}, 'b'])
{t} = E'x\\\\y'
{t} IS DISTINCT FROM {s}
coalesce({t}, 'a') = {s}
CASE {t} WHEN 'a' THEN TRUE ELSE {b} END
{t} < {s}
{t} BETWEEN 'a' AND 'z'
{t} < {s} COLLATE "default"
({t} < {s} COLLATE "default") = ({b})
{t} < 'b' COLLATE "und-x-icu"
{t} < 'b' COLLATE "C"
{t} >= {s} COLLATE public."C"
{t} = {s} COLLATE public.fold
{f} {equal} {s}
{f} < {s}
{f} IN ({s}, {r})
{d} > '2026-01-01'
{k} {equal} '6f1c6a2e-0000-4000-8000-000000000001'
{x} IS {no}NULL
{d} IS {no}NULL
{k} IS {no}NULL
EXISTS (SELECT FROM {o} o WHERE o.id = {n})
{n} IN (SELECT o.id FROM {o} o)
{n} > (SELECT count(*) FROM {o} o)
"""
# those that are true for some rows, more often than not
SELECTIVE = """
{n} {order} {i}
{n} {order} {m}
{n} IN ({i}, {h})
{t} {equal} {s}
{t} = CURRENT_USER
{t} IN ({s}, {r})
{c} {order} {s}
{b}
"""
PLACES = {"n": "number", "t": "text", "d": "date", "k": "uuid", "f": "folded", "x": "other"}


class Conditions:
    """Random conditions over the columns of a table."""

    def __init__(self, database, table):
        self.random, self.database, self.table = database.random, database, table
        self.odd = 0.06 if "conditions" in database.themes else 0

    def any(self, depth):
        """A condition with operations nested so deep."""
        pick = self.random.choice
        kind = pick(("and", "or", "not", "case", "atom", "atom", "atom")) if depth else "atom"
        if kind in ("and", "or"):
            parts = [self.any(depth - 1) for _ in range(pick((2, 2, 3)))]
            return "(" + f" {kind.upper()} ".join(parts) + ")"
        if kind == "not":
            return f"NOT ({self.any(depth - 1)})"
        if kind == "case":
            arms = " ".join(f"WHEN {self.any(depth - 1)} THEN {self.any(depth - 1)}" for _ in range(pick((1, 1, 2))))
            return f"(CASE {arms}{pick(('', ' ELSE ' + self.any(depth - 1)))} END)"
        return self.atom()

    def atom(self):
        """A condition without a condition inside, for which the table has the columns."""
        is_odd, is_short = self.random.random() < self.odd, self.random.random() < 0.5
        lines = (ODD if is_odd else SELECTIVE if is_short else SAID).strip().split("\n")
        parts = self.parts()
        return self.random.choice([it for it in lines if all(parts.get(name) for name in fields(it))]).format_map(parts)

    def parts(self):
        """What the places of a condition stand for; one that the table does not have is left out."""
        pick = self.random.choice
        families = {it: [c for c in self.table.columns if c.family == it] for it in FAMILY.values()}
        parts = {place: pick(families[family]).said for place, family in PLACES.items() if families[family]}
        by_bytes, others = [[it.said for it in families["text"] if it.by_bytes is so] for so in (True, False)]
        parts["u"] = pick(by_bytes if parts.get("t") in by_bytes else others or [""])
        parts["c"], parts["m"] = pick(by_bytes or [""]), pick(families["number"]).said
        truths = [it.said for it in families["truth"]] + [f"{parts['m']} > 0"]
        parts["b"], parts["e"], parts["h"] = pick(truths), pick(truths), pick(NUMBERS)
        parts["i"], parts["j"] = sorted((pick(NUMBERS), pick(NUMBERS)))
        for place, texts in (("s", TEXTS), ("r", TEXTS), ("role", self.database.roles)):
            parts[place] = literal(pick(pick((texts, self.database.roles[:4]))))
        parts |= {"order": pick(("=", "<>", "<", "<=", ">", ">=")), "equal": pick(("=", "<>")), "no": pick(("NOT ", " "))}
        # of the tables that were made before, so that no two policies ask each other
        earlier = self.database.tables[: self.database.tables.index(self.table)]
        parts["o"] = self.database.place(pick(earlier)) if earlier else ""
        return {name: str(it) for name, it in parts.items()}


def fields(line):
    """The places of a condition."""
    return [name for _, name, _, _ in string.Formatter().parse(line) if name]


class Database:
    """A random database, with the statements that make it and those that take it away again."""

    def __init__(self, random, number, version, user):
        self.random, self.version, self.user = random, version, user
        self.themes = random.sample(THEMES, random.choice((0, 0, 1, 1, 2, 3)))
        self.is_plain = not self.themes
        self.schema = f"try{number}"
        self.roles, self.tables, self.statements = [], [], []
        self.make_roles()
        self.make_schema()
        for name in TABLES[: random.randint(2, 4)]:
            self.make_table(name)
        for table in self.tables:
            self.make_rights(table)
        self.make_database_owner()

    def chance(self, share, theme=None):
        """Whether something happens, which belongs to a theme."""
        return self.random.random() < share and (not theme or theme in self.themes)

    def say(self, statement):
        """Adds a statement."""
        self.statements.append(statement + ";")

    def role_list(self, share_of_public=0.2, odd=0.04):
        """Some roles, PUBLIC or predefined ones, as a list of names."""
        if self.chance(share_of_public):
            return "PUBLIC"
        names = self.random.sample(self.roles, min(len(self.roles), self.random.choice((1, 1, 1, 2, 3))))
        if self.chance(odd):
            names[-1] = self.random.choice(PREDEFINED)
        return ", ".join(map(identifier, names))

    def make_roles(self):
        """Roles with attributes, and memberships without cycles."""
        for person in PEOPLE[: self.random.randint(4, 8)]:
            name = f"{self.schema}_{person}"
            if self.chance(0.15, "names"):
                names = (name.upper(), f"{self.schema} {person}", f"{name}'s", f"{name}\ngrant", f"{name}\x1fs", f'{name}"s')
                name = self.random.choice(names)
            attributes = [it for it, share in ATTRIBUTES.items() if self.chance(share)]
            self.say(" ".join(["CREATE ROLE", identifier(name), *attributes]))
            self.roles.append(name)
        for at, member in enumerate(self.roles):
            for group in self.roles[:at]:
                if self.chance(0.22):
                    option = self.random.choice((*[""] * 3, " WITH INHERIT TRUE", " WITH INHERIT FALSE"))
                    option = option if self.version >= 160000 else ""
                    self.say(f"GRANT {identifier(group)} TO {identifier(member)}{option}")
        for group in PREDEFINED[:3]:
            if self.chance(0.15):
                self.say(f"GRANT {group} TO {identifier(self.random.choice(self.roles))}")

    def make_schema(self):
        """The schema, with USAGE for all, or for some."""
        owner = f" AUTHORIZATION {identifier(self.random.choice(self.roles))}" if self.chance(0.4, "usage") else ""
        self.say(f"CREATE SCHEMA {self.schema}{owner}")
        if "usage" not in self.themes or self.chance(0.2):
            self.say(f"GRANT USAGE ON SCHEMA {self.schema} TO PUBLIC")
        else:
            right = self.random.choice(("USAGE", "USAGE", "USAGE", "CREATE"))
            self.say(f"GRANT {right} ON SCHEMA {self.schema} TO {self.role_list(0)}")
            self.say(f"GRANT USAGE ON SCHEMA {self.schema} TO {self.role_list(0)}")
        if owner and self.chance(0.3):
            self.say(f"REVOKE ALL ON SCHEMA {self.schema} {owner.replace('AUTHORIZATION', 'FROM').strip()}")

    def make_columns(self):
        """Some columns, and first an id."""
        columns = [Column("id", self.random.choice(("integer", "bigint")))]
        types = [it for it in FAMILY if it not in ODD_TYPES or self.chance(0.5, "types")]
        for number in range(self.random.randint(3, 6)):
            of = self.random.choice(types)
            name = self.random.choice(("owner", "kind", "label")) if FAMILY[of] == "text" else FAMILY[of][:1]
            columns.append(Column(f"Odd {number}" if self.chance(0.05, "names") else f"{name}{number}", of))
        return columns

    def make_table(self, name):
        """A table with rows."""
        if self.chance(0.08, "names"):
            reserved = ("order", "group", "user", "end")[len(self.tables)]
            name = self.random.choice((reserved, name.upper(), f"{name} of all"))
        table = Table(name, self.make_columns())
        needed = [it.name == "id" or self.chance(0.05) for it in table.columns]
        fields = [f"{identifier(it.name)} {it.type}{' NOT NULL' * need}" for it, need in zip(table.columns, needed)]
        dropped = self.chance(0.1)
        self.say(f"CREATE TABLE {self.place(table)} ({'gone integer, ' if dropped else ''}{', '.join(fields)})")
        if dropped:
            self.say(f"ALTER TABLE {self.place(table)} DROP COLUMN gone")
        rows = []
        for number in range(1, self.random.choice((0, *[6] * 5, *[10] * 5)) + 1):
            values = [str(number)] + [self.value(it, need) for it, need in zip(table.columns[1:], needed[1:])]
            rows.append(f"({', '.join(values)})")
        table.rows = len(rows)
        if rows:
            self.say(f"INSERT INTO {self.place(table)} VALUES\n    " + ",\n    ".join(rows))
        self.tables.append(table)

    def place(self, table):
        """The table as SQL names it."""
        return f"{self.schema}.{identifier(table.name)}"

    def value(self, column, needed):
        """A literal of a value of a column."""
        pick = self.random.choice
        if not needed and self.chance(0.12):
            return "NULL"
        if column.family in ("text", "folded"):
            if self.chance(0.01, "conditions"):
                return "'\\N'"
            text = pick(pick((TEXTS, self.roles[:4])))
            return literal(text[:12] if column.type.startswith("varchar") else text)
        values = {"number": NUMBERS, "truth": ("t", "f"), "date": DATES, "uuid": UUIDS, "other": ("1", "25")}[column.family]
        return literal(str(pick(values)))

    def make_rights(self, table):
        """The owner, row security, policies and grants of a table."""
        table.owner = self.random.choice(self.roles + [self.user] if self.chance(0.3) else self.roles)
        owned = f"ALTER TABLE {self.place(table)} OWNER TO {identifier(table.owner)}"
        late = self.chance(0.2)
        if not late:
            self.say(owned)
        if self.chance(0.85):
            self.say(f"ALTER TABLE {self.place(table)} ENABLE ROW LEVEL SECURITY")
        if self.chance(0.5):
            self.say(f"ALTER TABLE {self.place(table)} FORCE ROW LEVEL SECURITY")
        for number in range(self.random.choice((0, 1, 2, 2, 2, 3, 3, 3, 4, 5))):
            self.make_policy(table, number)
        for number in range(self.random.randint(2, 6)):
            self.make_grant(table, self.chance(0.4) and number > 0)
        if late:
            self.say(owned)
        if self.chance(0.4, "owners"):
            self.say(f"REVOKE SELECT ON {self.place(table)} FROM {identifier(table.owner)}")

    def make_policy(self, table, number):
        """A policy, for reading or not, with a condition, a check or both."""
        conditions = Conditions(self, table)
        name = f"p{number}"
        if self.chance(0.15, "names"):
            names = ("Rows of {}", "p{}\nq", "é{}", "p\x1f{}", '"{}"', "{}'s", "P{}")
            name = "select" if self.chance(0.2) and not number else self.random.choice(names).format(number)
        commands = ("", "FOR ALL", "FOR ALL", *["FOR SELECT"] * 4, "FOR INSERT", "FOR UPDATE")
        command = self.random.choice(commands if number else commands[:4])
        to = "CURRENT_USER" if self.chance(0.03) else self.role_list(0.3 if number else 0.85)
        using, check = f" USING ({conditions.any(self.random.choice((0, 0, 1, 1, 2)))})", f" WITH CHECK ({conditions.any(0)})"
        if command == "FOR INSERT":
            using, check = "", check
        elif command == "FOR SELECT" or not self.chance(0.15):
            check = ""
        elif self.chance(0.2):
            using = ""
        restrictive = " AS RESTRICTIVE" if number and self.chance(0.25) else ""
        self.say(f"CREATE POLICY {identifier(name)} ON {self.place(table)}{restrictive} {command} TO {to}{using}{check}")

    def make_grant(self, table, of_columns):
        """A grant of SELECT or of more, or a revocation, on the table or on some columns."""
        chosen = self.random.sample(table.columns, self.random.randint(1, len(table.columns)))
        columns = f" ({', '.join(identifier(it.name) for it in chosen)})" if of_columns else ""
        right = "ALL" if self.chance(0.06) else "INSERT" if self.chance(0.04) else "SELECT"
        self.say(f"GRANT {right}{columns} ON {self.place(table)} TO {self.role_list()}")
        if self.chance(0.15):
            names = [it for it in self.roles if it != table.owner or "owners" in self.themes]
            what, whom = columns if self.chance(0.5) else "", self.random.choice(("PUBLIC", *map(identifier, names)))
            self.say(f"REVOKE SELECT{what} ON {self.place(table)} FROM {whom}")

    def make_database_owner(self):
        """Seldom an owner of the database, which is then the one member of pg_database_owner."""
        if self.chance(0.2):
            self.say(f'ALTER DATABASE :"DBNAME" OWNER TO {identifier(self.random.choice(self.roles))}')

    def script(self):
        """The text of psql that makes the database."""
        return "\n".join(self.statements) + "\n"

    def end(self):
        """The text of psql that takes it away."""
        names = "".join(f"DROP ROLE IF EXISTS {identifier(it)};\n" for it in self.roles)
        return f'ALTER DATABASE :"DBNAME" OWNER TO CURRENT_USER;\nDROP SCHEMA IF EXISTS {self.schema} CASCADE;\n{names}'
