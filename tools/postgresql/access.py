"""Who may read what: as PostgreSQL decides it, and as a schema of rowplan does. By an export both are the same."""
import dataclasses

PUBLIC = 0


@dataclasses.dataclass(frozen=True)
class Right:
    """What a role reads of a table: the exported columns, whether it sees all rows, and else the policies that apply to it."""

    columns: frozenset = frozenset()
    sees_all: bool = False
    policies: frozenset = frozenset()


NOTHING = Right()


def right(columns, sees_all, policies):
    """A right, of which nothing is kept but its columns where these are none."""
    if not columns:
        return NOTHING
    return Right(frozenset(columns), sees_all, frozenset() if sees_all else frozenset(policies))


class Cluster:
    """The roles of a server with the roles whose rights each has, itself among them. Roles are numbers."""

    def __init__(self, facts):
        self.roles = {it["role"]: it for it in facts["roles"] or []}
        self.names = {number: it["name"] for number, it in self.roles.items()} | {PUBLIC: "PUBLIC"}
        groups = {}
        for it in facts["memberships"] or []:
            if it["inherits"]:
                groups.setdefault(it["member"], set()).add(it["group"])
        for number, it in self.roles.items():
            if it["name"] == "pg_database_owner":
                groups.setdefault(facts["server"]["owner"], set()).add(number)
        self.belongs = {number: reached(number, groups) for number in self.roles}
        self.predefined = {it["name"]: number for number, it in self.roles.items() if it["is_predefined"]}
        self.users = set(facts["schema"]["usage"] or [])

    def has_any(self, role, grantees):
        """Whether a role has the rights of one of these, or all have."""
        return PUBLIC in grantees or not self.belongs[role].isdisjoint(grantees)

    def reads_all_data(self, role):
        """Whether a role has the rights of pg_read_all_data."""
        return self.predefined.get("pg_read_all_data") in self.belongs[role]

    def uses_schema(self, role):
        """Whether a role has USAGE of the schema, without regard to SUPERUSER."""
        writes = self.predefined.get("pg_write_all_data") in self.belongs[role]
        return self.reads_all_data(role) or writes or self.has_any(role, self.users)

    def is_superuser(self, role):
        return self.roles[role]["is_superuser"]

    def bypasses(self, role):
        return self.is_superuser(role) or self.roles[role]["bypasses"]


def reached(number, groups):
    """A number and all that can be reached from it."""
    found, queue = {number}, [number]
    for it in queue:
        more = groups.get(it, set()) - found
        found |= more
        queue += more
    return found


@dataclasses.dataclass
class Table:
    """A table as PostgreSQL has it. columns has the roles that read each column by a grant on it, policies the roles of each
    policy, unsaid why a policy cannot be said."""

    name: str
    owner: int
    has_row_security: bool
    is_forced: bool
    readers: set
    columns: dict
    policies: dict
    exported: frozenset = frozenset()
    unsaid: dict = dataclasses.field(default_factory=dict)


def granted(cluster, table, role):
    """The columns of a table, exported or not, that PostgreSQL lets a role read by grants, without regard to SUPERUSER."""
    if not cluster.uses_schema(role):
        return set()
    if cluster.reads_all_data(role) or cluster.has_any(role, table.readers):
        return set(table.columns)
    return {name for name, readers in table.columns.items() if cluster.has_any(role, readers)}


def readable(cluster, table, role):
    """The columns of a table, exported or not, that PostgreSQL lets a role read."""
    return set(table.columns) if cluster.is_superuser(role) else granted(cluster, table, role)


def right_there(cluster, table, role):
    """What a role reads in PostgreSQL, of the exported columns."""
    is_owner = table.owner in cluster.belongs[role]
    sees_all = not table.has_row_security or cluster.bypasses(role) or is_owner and not table.is_forced
    policies = {it for it, roles in table.policies.items() if cluster.has_any(role, roles)}
    return right(readable(cluster, table, role) & table.exported, sees_all, policies)


@dataclasses.dataclass
class Written:
    """What a schema of rowplan says of a table: its owner (none is root), the columns granted to each role, all of them as None,
    and the roles of each policy."""

    owner: int = None
    grants: dict = dataclasses.field(default_factory=dict)
    policies: dict = dataclasses.field(default_factory=dict)


def right_here(cluster, belongs, table, written, role):
    """What a role reads by a schema of rowplan, where belongs has the roles that each belongs to there."""
    groups, is_superuser = belongs[role], cluster.is_superuser(role)
    is_owner = written.owner in groups
    columns = set()
    for grantee, names in written.grants.items():
        if grantee == PUBLIC or grantee in groups:
            columns |= table.exported if names is None else names
    if is_owner or is_superuser:
        columns = table.exported
    sees_all = not table.has_row_security or cluster.bypasses(role) or is_owner and not table.is_forced
    policies = {it for it, roles in written.policies.items() if PUBLIC in roles or not groups.isdisjoint(roles)}
    return right(columns & table.exported, sees_all, policies)


class Plan:
    """The memberships and, of each table, what is written, so that each exported role reads here what is wanted for it: what it
    reads in PostgreSQL, or nothing where a policy that applies to it cannot be said."""

    def __init__(self, cluster, tables, exported):
        self.cluster, self.tables = cluster, tables
        # the groups of a role come before it
        self.exported = sorted(exported, key=lambda it: (len(cluster.belongs[it]), cluster.names[it]))
        self.alone, self.denied = set(), {it.name: {} for it in tables}
        self.there = {(it.name, role): right_there(cluster, it, role) for it in tables for role in self.exported}
        self.written, self.lost = {}, {}
        while self.step():
            pass

    def wanted(self, table, role):
        """What a role is to read of a table here."""
        if role in self.denied[table.name]:
            return NOTHING
        found = self.there[table.name, role]
        return NOTHING if found.policies & table.unsaid.keys() else found

    def step(self):
        """Writes all tables; whether some role has to stand alone, or is denied a table, so that all are to be written again."""
        self.belongs = self.memberships()
        self.written, self.lost, again = {}, {}, False
        for table in self.tables:
            written, more, less = min(self.candidates(table), key=lambda it: (len(it[1]), len(it[2])))
            self.written[table.name] = written
            loose = more - self.alone
            if loose:
                self.alone |= loose
                again = True
            elif more:
                self.lost[table.name] = more
            for role in less - more:
                self.denied[table.name][role] = f"it has the rights of the owner {self.cluster.names[table.owner]}"
                again = True
        return again

    def candidates(self, table):
        """Ways to write a table, each with the roles that would read other than is wanted: more, or less."""
        for owner in [table.owner, None] if table.owner in self.exported else [None]:
            for grants in (self.grants_as_they_are(table, owner), self.grants_by_role(table, owner)):
                written = Written(owner, grants, self.policies_of(table))
                more, less = set(), set()
                for role in self.exported:
                    here, there = right_here(self.cluster, self.belongs, table, written, role), self.wanted(table, role)
                    if here != there:
                        (less if is_less(here, there) else more).add(role)
                yield written, more, less

    def memberships(self):
        """The roles that each exported role belongs to here, itself among them; those that stand alone belong to none."""
        exported = set(self.exported)
        return {it: {it} if it in self.alone else self.cluster.belongs[it] & exported for it in self.exported}

    def steps(self):
        """The memberships to write: of a role in each group that it does not reach by another one."""
        for role in self.exported:
            groups = self.belongs[role] - {role}
            for group in groups:
                if not any(group in self.belongs[it] for it in groups - {group}):
                    yield group, role

    def grants_as_they_are(self, table, owner):
        """PostgreSQL's grants to exported roles and PUBLIC; an owner needs none."""
        found = {it: None for it in table.readers if it == PUBLIC or it in self.exported}
        for name, readers in table.columns.items():
            for it in readers:
                if name in table.exported and found.get(it, ()) is not None and (it == PUBLIC or it in self.exported):
                    found.setdefault(it, set()).add(name)
        return {it: names for it, names in found.items() if it != owner}

    def grants_by_role(self, table, owner):
        """A grant to each exported role of what it may read and has not by a role that it belongs to."""
        columns = {it: self.columns_by_grants(table, it) for it in self.exported}
        found = {}
        for role in self.exported:
            got = set().union(*(columns[it] for it in self.belongs[role] - {role}))
            if columns[role] - got and role != owner:
                found[role] = None if columns[role] == table.exported else columns[role] - got
        return found

    def columns_by_grants(self, table, role):
        """The exported columns that a role may read by grants, where it is to read any."""
        if self.wanted(table, role) == NOTHING:
            return set()
        return granted(self.cluster, table, role) & table.exported

    def policies_of(self, table):
        """The roles of each policy that can be said: those that PostgreSQL names, and each other to which it applies."""
        found = {}
        for policy, roles in table.policies.items():
            if policy in table.unsaid:
                continue
            named = {it for it in roles if it == PUBLIC or it in self.exported}
            for role in self.exported:
                if self.cluster.has_any(role, roles) and PUBLIC not in named and self.belongs[role].isdisjoint(named):
                    named.add(role)
            if named:
                found[policy] = named
        return found


def is_less(here, there):
    """Whether a role reads less than is wanted, and nothing else."""
    if not here.columns <= there.columns:
        return False
    sees_the_same = here.sees_all == there.sees_all and here.policies == there.policies
    return not here.columns or sees_the_same or there.sees_all and not here.sees_all
