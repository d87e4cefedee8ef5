"""What of a database is exported, and what is left out, from its facts (facts.sql)."""
import dataclasses

from access import NOTHING, PUBLIC, Cluster, Plan, Table, readable, right_there
from conditions import Translator, rowplan_type
from expressions import Unsaid
from names import has_control, is_name, plain, shown, why_no_name

MOST_TABLES, MOST_COLUMNS, MOST_POLICIES, MOST_ROLES = 64, 64, 256, 256
KINDS = {"p": "it has partitions", "f": "it is a foreign table", "m": "it is a materialized view"}


@dataclasses.dataclass
class Options:
    """What is asked for: tables with their columns (none: all of them), further roles, and the types that are taken as texts."""

    tables: dict = dataclasses.field(default_factory=dict)
    roles: list = dataclasses.field(default_factory=list)
    as_text: set = dataclasses.field(default_factory=set)


class Export:
    """The tables, roles and policies that are exported. lost has what is left out of what was asked for, notes what is to be
    known beside, unnamed the roles whose names cannot be said, and bad the reasons for which tables are left out, to which the
    choice adds until it holds."""

    def __init__(self, facts, options, bad=None):
        self.facts, self.options, self.cluster = facts, options, Cluster(facts)
        self.bad = dict(bad or {})
        while not self.choose():
            pass

    def choose(self):
        """Chooses with the present reasons; whether no new one was found."""
        self.lost, self.notes, self.tables, self.columns, self.policies = [], [], [], {}, {}
        known = len(self.bad)
        for fact in self.asked_tables():
            self.judge_table(fact)
        self.judge_roles()
        if len(self.bad) == known:
            self.plan = Plan(self.cluster, self.tables, self.roles)
            for table in self.tables:
                self.judge_rights(table)
            self.notes = self.columns_to_know() + self.notes
        return len(self.bad) == known

    def asked_tables(self):
        """The tables that are asked for."""
        found = self.facts["tables"] or []
        for name in sorted(self.options.tables.keys() - {it["name"] for it in found}):
            self.lost.append(f"table {shown(name)}: there is none")
        return [it for it in found if not self.options.tables or it["name"] in self.options.tables]

    # ---- tables, columns and policies

    def judge_table(self, fact):
        """Takes a table with its columns and policies, or says why not."""
        why = self.bad.get(fact["name"]) or self.why_no_table(fact)
        columns = [] if why else self.columns_of(fact)
        if not why and not 0 < len(columns) <= MOST_COLUMNS:
            many = f"it has {len(columns)} columns, and a table here at most {MOST_COLUMNS}"
            why = f"{many}: --table {fact['name']}=COLUMN,.. takes some" if columns else "none of its columns can be said"
        if why:
            self.bad[fact["name"]] = why
            self.lost.append(f"table {shown(fact['name'])}: {why}")
            return
        readers, known = set(fact["readers"] or []), [it for it in self.facts["columns"] if it["table"] == fact["table"]]
        table = Table(fact["name"], fact["owner"], fact["has_row_security"], fact["is_forced"], readers, {}, {})
        table.columns = {it["name"]: set(it["readers"] or []) for it in known}
        table.exported = frozenset(it["name"] for it in columns)
        self.columns[table.name] = columns
        self.judge_policies(fact, table)
        if table.name not in self.bad:
            self.tables.append(table)

    def why_no_table(self, fact):
        """Why a table is left out whatever its columns and policies."""
        if not is_name(fact["name"]):
            return why_no_name(fact["name"])
        if fact["kind"] != "r":
            return KINDS.get(fact["kind"], f"it is of kind {fact['kind']}")
        return "it inherits, or is inherited from" if fact["inherits"] else None

    def columns_of(self, fact):
        """The columns of a table that are exported."""
        found, asked = [], self.options.tables.get(fact["name"])
        columns = [it for it in self.facts["columns"] if it["table"] == fact["table"]]
        for name in sorted(set(asked or []) - {it["name"] for it in columns}):
            self.lost.append(f"column {shown(name)} of table {fact['name']}: there is none")
        for it in columns:
            if asked and it["name"] not in asked:
                continue
            here = rowplan_type(it, self.options.as_text)
            of = f"column {shown(it['name'])} of table {fact['name']}"
            if not is_name(it["name"]):
                self.lost.append(f"{of}: {why_no_name(it['name'])}")
            elif not here:
                self.lost.append(f"{of}: no type for {plain(it['written'])}; --as-text takes it as text")
            elif here == "text" and self.facts["server"]["encoding"] == "SQL_ASCII":
                self.lost.append(f"{of}: the database says no encoding of its texts (SQL_ASCII)")
            else:
                found.append({**it, "here": here})
        return found

    def columns_to_know(self):
        """Says of which columns the values compare otherwise than in PostgreSQL, a line for each type."""
        found = {}
        for table in self.tables:
            for it in self.columns[table.name]:
                if it["here"] == "text" and rowplan_type(it, set()) != "text":
                    what = f"{plain(it['written'])} is text here, in the order of its bytes and without arithmetic"
                elif it["here"] == "text" and not it["is_deterministic"]:
                    what = "a collation is not deterministic; here texts are equal where their bytes are"
                else:
                    continue
                found.setdefault(what, []).append(f"{table.name}.{it['name']}")
        return [f"{what}: {', '.join(columns)}" for what, columns in sorted(found.items())]

    def judge_policies(self, fact, table):
        """Says the policies of a table, or why not; those that cannot be said are told once the rights are known."""
        collations = {}
        for it in self.facts["collations"] or []:
            name = it["name"] if it["schema"] == "pg_catalog" else f"{it['schema']}.{it['name']}"
            collations[name] = "loose" if not it["is_deterministic"] else "bytes" if self.is_utf8() else "plain"
        columns = [it for it in self.facts["columns"] if it["table"] == fact["table"]]
        columns = [{**it, "is_by_bytes": it["is_by_bytes"] and self.is_utf8()} for it in columns]
        translator = Translator(columns, table.exported, collations)
        for at, it in enumerate(it for it in self.facts["policies"] or [] if it["table"] == fact["table"]):
            table.policies[at] = set(it["roles"])
            policy = {**it, "condition": None}
            try:
                if it["calls"]:
                    raise Unsaid(f"it calls {', '.join(it['calls'])}")
                policy["condition"] = translator.condition(it["condition"])
            except Unsaid as why:
                table.unsaid[at] = plain(str(why))
            self.policies[table.name, at] = policy
            if table.has_row_security:
                self.judge_policy(table, it, table.unsaid.get(at))
            elif at in table.unsaid:
                of = f"policy {shown(it['name'])} of table {table.name}"
                self.notes.append(f"{of}, whose row security is off: {table.unsaid[at]}")

    def is_utf8(self):
        return self.facts["server"]["encoding"] == "UTF8"

    def judge_policy(self, table, fact, why):
        """Leaves a table out where one of its policies cannot be said for any role."""
        if has_control(fact["name"]):
            why = "its name has a control character"
        elif PUBLIC not in fact["roles"]:
            return
        if why and table.name not in self.bad:
            self.bad[table.name] = f"policy {shown(fact['name'])}: {why}"

    # ---- roles and rights

    def judge_roles(self):
        """The roles that own a table, have a right on one, are named by a policy, or belong to such, and those asked for."""
        named = {it.owner for it in self.tables} | {self.cluster.predefined.get("pg_read_all_data")}
        for table in self.tables:
            named |= table.readers.union(*table.columns.values(), *table.policies.values())
        asked = set(self.options.roles)
        for name in sorted(asked - {it["name"] for it in self.cluster.roles.values()}):
            self.lost.append(f"role {shown(name)}: there is none")
        self.roles, self.unnamed = set(), set()
        for number, fact in self.cluster.roles.items():
            is_meant = fact["name"] in asked or not fact["is_predefined"] and not self.cluster.belongs[number].isdisjoint(named)
            why = self.why_no_role(number, fact) if is_meant else None
            if why:
                self.unnamed.add(number)
                self.lost.append(f"role {shown(fact['name'])}: {why}")
            elif is_meant:
                self.roles.add(number)

    def why_no_role(self, number, fact):
        """Why a role is left out."""
        if fact["name"] == "public":
            return "its name means every role"
        if not is_name(fact["name"]):
            return why_no_name(fact["name"])
        if fact["name"] == "root" and not fact["is_superuser"]:
            return "root is a superuser here"
        members = [it for it, groups in self.cluster.belongs.items() if number in groups and it != number]
        return "root is a superuser here that no role belongs to" if fact["name"] == "root" and members else None

    def judge_rights(self, table):
        """Says which roles read less of a table here than in PostgreSQL, and leaves it out where none of them reads it."""
        there = {it: right_there(self.cluster, table, it) for it in self.plan.exported}
        if table.name in self.plan.lost:
            self.bad[table.name] = f"what {self.people(self.plan.lost[table.name])} may read of it cannot be said"
            return
        denied = {it for it, right in there.items() if right != NOTHING and self.plan.wanted(table, it) == NOTHING}
        readers = {it for it, right in there.items() if right != NOTHING and not self.cluster.is_superuser(it)}
        for at, why in sorted(table.unsaid.items()) if table.has_row_security else []:
            policy = shown(self.policies[table.name, at]["name"])
            losers = [it for it in denied if at in there[it].policies]
            if losers and not readers - denied:
                self.bad[table.name] = f"policy {policy}: {why}"
                return
            of = f"policy {policy} of table {table.name}: {why}"
            if losers:
                self.lost.append(f"{of}; no right on the table for {self.people(losers)}")
            else:
                self.notes.append(f"{of}; no role here goes by it")
        for role, why in self.plan.denied[table.name].items():
            self.lost.append(f"role {self.people([role])}: no right on table {table.name}, since {why}")
        for role in self.plan.exported:
            if there[role] == NOTHING and readable(self.cluster, table, role):
                of = f"role {self.people([role])}: no right on table {table.name}"
                self.lost.append(f"{of}, since the columns that it reads are left out")
        if self.plan.written[table.name].owner is None and self.cluster.names[table.owner] != "root":
            of = f"table {table.name}: it belongs to root here and not to {self.people([table.owner])}"
            self.notes.append(f"{of}, which changes no right")

    def people(self, numbers):
        """Roles by name."""
        return ", ".join(sorted(shown(self.cluster.names[it]) for it in numbers))

    def over_limits(self):
        """What is more than a schema of rowplan may have."""
        policies = sum(len(it.policies) for it in self.plan.written.values())
        roles = len(self.roles | {None}) - any(self.cluster.names[it] == "root" for it in self.roles)
        for count, most, what, how in (
            (len(self.tables), MOST_TABLES, "tables", "--table takes some"),
            (policies, MOST_POLICIES, "policies", "--table takes some of the tables"),
            (roles, MOST_ROLES, "roles, root among them", "--table takes some of the tables"),
        ):
            if count > most:
                yield f"{count} {what}, and a schema here has at most {most}: {how}"

    # ---- the schema

    def schema(self):
        """The statements of the schema, and the lines that tell the names of policies that have other ones here."""
        name, written = self.cluster.names, self.plan.written
        statements, names = [], []
        for it in sorted(self.roles, key=name.get):
            role = self.cluster.roles[it]
            words = " SUPERUSER" * role["is_superuser"] + " BYPASSRLS" * role["bypasses"]
            statements += [f"CREATE ROLE {name[it]}{words};"] if name[it] != "root" else []
        memberships = sorted((name[group], name[member]) for group, member in self.plan.steps())
        statements += [f"GRANT {group} TO {member};" for group, member in memberships]
        for table in self.tables:
            statements += self.table_statements(table, written[table.name])
        for table in self.tables:
            statements += self.policy_statements(table, written[table.name], names)
            statements += self.grant_statements(table, written[table.name])
            statements += self.index_statements(table)
        return statements, names

    def table_statements(self, table, written):
        """A table with its owner and the settings of row security."""
        fields = ", ".join(f"{it['name']} {it['here']}{' NOT NULL' * it['is_not_null']}" for it in self.columns[table.name])
        yield f"CREATE TABLE {table.name} ({fields});"
        if written.owner is not None and self.cluster.names[written.owner] != "root":
            yield f"ALTER TABLE {table.name} OWNER TO {self.cluster.names[written.owner]};"
        if table.has_row_security:
            yield f"ALTER TABLE {table.name} ENABLE ROW LEVEL SECURITY;"
        if table.is_forced:
            yield f"ALTER TABLE {table.name} FORCE ROW LEVEL SECURITY;"

    def policy_statements(self, table, written, names):
        """The policies of a table. One whose name is none here gets another; names gets a line that tells it."""
        policies = {at: self.policies[table.name, at] for at in sorted(written.policies)}
        taken = {it["name"] for it in policies.values()}
        fresh = (it for it in (f"p{number}" for number in range(1, len(taken) * 2 + 2)) if it not in taken)
        for at, policy in policies.items():
            own = policy["name"] if is_name(policy["name"]) else next(fresh)
            if own != policy["name"]:
                names.append(f"{own} of table {table.name}: {shown(policy['name'])}")
            roles = self.to_roles(written.policies[at])
            kind = "" if policy["is_permissive"] else " AS RESTRICTIVE"
            yield f"CREATE POLICY {own} ON {table.name}{kind} FOR SELECT TO {roles} USING {policy['condition']};"

    def to_roles(self, numbers):
        """The roles of a policy, or PUBLIC."""
        return "PUBLIC" if PUBLIC in numbers else ", ".join(sorted(self.cluster.names[it] for it in numbers))

    def grant_statements(self, table, written):
        """The grants on a table, those to PUBLIC first."""
        for it, columns in sorted(written.grants.items(), key=lambda it: (it[0] != PUBLIC, self.cluster.names[it[0]])):
            some = ", ".join(column["name"] for column in self.columns[table.name] if columns and column["name"] in columns)
            yield f"GRANT SELECT{f' ({some})' if some else ''} ON {table.name} TO {self.cluster.names[it]};"

    def index_statements(self, table):
        """An index of each column that has one."""
        indexed = set()
        number = next(it["table"] for it in self.facts["tables"] if it["name"] == table.name)
        for it in self.facts["indexes"] or []:
            if it["table"] == number and it["column"] in table.exported - indexed and is_name(it["name"]):
                indexed.add(it["column"])
                yield f"CREATE INDEX {it['name']} ON {table.name} ({it['column']});"
