"""What an export does not cover: ways by which a role may read more than the rights on its tables say."""
from access import PUBLIC, readable, reached
from names import plain, shown


def ways_round(export):
    """A line for each way round."""
    facts, cluster = export.facts, export.cluster
    tables = {it["table"]: it["name"] for it in facts["tables"] or []}
    found = [
        *views(facts, cluster, tables),
        *functions(facts, cluster),
        *schemas(facts),
        *roles(export),
        *others(export),
        *memberships(facts, cluster),
    ]
    return [*dict.fromkeys(found)]


def people(cluster, numbers):
    """Roles by name, PUBLIC first."""
    found = sorted({*(numbers or [])} & {PUBLIC, *cluster.roles}, key=lambda it: (it != PUBLIC, cluster.names[it]))
    return ", ".join("PUBLIC" if it == PUBLIC else shown(cluster.names[it]) for it in found) or "nobody"


def views(facts, cluster, tables):
    """Views that read a table of the schema, be it through other views."""
    found = facts["views"] or []
    reads = {it["view"]: set(it["reads"] or []) for it in found}
    for it in found:
        below = reached(it["view"], reads) & tables.keys() - {it["view"]}
        if not below:
            continue
        kind = "materialized view" if it["is_materialized"] else "view"
        rights = "of each reader (security_invoker)" if it["is_invoker"] else f"of {shown(cluster.names[it['owner']])}"
        if it["is_materialized"]:
            rights = f"that {shown(cluster.names[it['owner']])} had when it was made"
        of = ", ".join(sorted(shown(tables[number]) for number in below))
        readers = people(cluster, set(it["readers"] or []) - {it["owner"]})
        yield f"{kind} {shown(it['schema'])}.{shown(it['name'])} reads {of} with the rights {rights}; SELECT for {readers}"


def functions(facts, cluster):
    """Functions that run with the rights of their owner."""
    for it in facts["functions"] or []:
        name = f"{shown(it['schema'])}.{shown(it['name'])}({plain(it['arguments'])})"
        owner = shown(cluster.names[it["owner"]])
        callers = people(cluster, set(it["callers"] or []) - {it["owner"]})
        yield f"function {name} runs with the rights of {owner} (SECURITY DEFINER); EXECUTE for {callers}"


def schemas(facts):
    """Other schemas that have tables."""
    for it in facts["schemas"] or []:
        yield f"schema {shown(it['name'])} has {it['tables']} table{'s' * (it['tables'] > 1)}"


def roles(export):
    """Roles that read or get more than what is granted to them."""
    for number, it in sorted(export.cluster.roles.items(), key=lambda it: it[1]["name"]):
        name = shown(it["name"])
        if it["is_predefined"]:
            continue
        how = "" if export.why_no_role(number, it) else "; --role takes it along"
        if it["is_superuser"] and number not in export.roles:
            yield f"role {name} is a superuser and sees every row{how}"
        elif it["bypasses"] and number not in export.roles:
            yield f"role {name} has BYPASSRLS{how}"
        if it["creates_roles"] and not it["is_superuser"]:
            yield f"role {name} has CREATEROLE: it may give roles to itself and to others"
        if it["replicates"] and not it["is_superuser"]:
            yield f"role {name} has REPLICATION: it may read all data as it is written"


def others(export):
    """Roles that nothing names, and that read some table because all roles do."""
    cluster = export.cluster
    found = [
        shown(it["name"])
        for number, it in sorted(cluster.roles.items(), key=lambda it: it[1]["name"])
        if number not in export.roles | export.unnamed and not it["is_predefined"] and not cluster.bypasses(number)
        if any(readable(cluster, table, number) for table in export.tables)
    ]
    if found:
        some = ", ".join(found[:8]) + ", .." * (len(found) > 8)
        yield f"{len(found)} role{'s read' if len(found) > 1 else ' reads'} what is granted to PUBLIC alone: {some}"


def memberships(facts, cluster):
    """Groups whose rights a member gets by SET ROLE alone, and predefined groups."""
    for it in facts["memberships"] or []:
        member, group = it["member"], it["group"]
        if cluster.roles[member]["is_predefined"]:
            continue
        names = shown(cluster.names[member]), shown(cluster.names[group])
        if cluster.roles[group]["is_predefined"]:
            yield f"role {names[0]} belongs to {names[1]}, which PostgreSQL gives rights of its own"
        if not it["inherits"] and (it["sets"] or it["is_admin"]):
            yield f"role {names[0]} may SET ROLE {names[1]}, whose rights it has not else"
