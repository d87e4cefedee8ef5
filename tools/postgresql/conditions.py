"""The condition of a policy in the grammar of rowplan, where both mean the same on each row."""
import dataclasses
import re

from expressions import Node, Type, Unsaid, elements, read

INTEGERS = {"smallint": 15, "integer": 31, "bigint": 63}
TEXTS = {"text", "character varying", "name"}
# Types of which two values are equal where their texts are, beside enums.
SPELLED = {"uuid", "date"}
MOST_LEVELS = 64
MOST_OPERANDS = 64


@dataclasses.dataclass(frozen=True)
class Said:
    """An expression of rowplan: its text; its kind, which is bigint, text, boolean, null, spelled (a value of another type that
    is known by its text) or other; PostgreSQL's type; how its texts are compared; and the levels that it opens."""

    text: str
    kind: str
    type: str = ""
    order: str = ""
    levels: int = 0
    is_operation: bool = False
    is_literal: bool = False


def rowplan_type(column, as_text):
    """The type here of a column, none where there is none; as_text has the names of types that are taken as texts."""
    if column["type_schema"] == "pg_catalog":
        if column["base"] in INTEGERS:
            return "bigint"
        if column["base"] in ("text", "character varying"):
            return "text"
        if column["base"] == "boolean":
            return "boolean"
    names = {column["written"], column["base"], column["written"].rpartition(".")[2], column["base"].rpartition(".")[2], "all"}
    return "text" if names & as_text else ""


def said_column(column):
    """An exported column as an operand."""
    base, order = column["base"], "bytes" if column["is_by_bytes"] else "plain"
    if not column["is_deterministic"]:
        order = "loose"
    if column["type_schema"] == "pg_catalog" and base in INTEGERS:
        return Said(column["name"], "bigint", base)
    if column["type_schema"] == "pg_catalog" and base == "boolean":
        return Said(column["name"], "boolean", base)
    if column["type_schema"] == "pg_catalog" and base in TEXTS:
        return Said(column["name"], "text", base, order)
    is_spelled = column["type_kind"] == "e" or column["type_schema"] == "pg_catalog" and base in SPELLED
    return Said(column["name"], "spelled" if is_spelled else "other", base)


class Translator:
    """Says conditions over the columns of a table. collations has those that are not deterministic or go by bytes."""

    def __init__(self, columns, exported, collations):
        self.columns = {it["name"]: it for it in columns}
        self.exported, self.collations = exported, collations

    def condition(self, text):
        """The text of a condition, in the parentheses of USING; or the reason why it cannot be said."""
        said = self.boolean(read(text))
        if said.levels + 1 > MOST_LEVELS:
            raise Unsaid(f"more than {MOST_LEVELS} levels of parentheses, NOT and CASE")
        return f"({said.text})"

    def boolean(self, node):
        """A condition or a part of one."""
        said = self.say(node)
        if said.kind not in ("boolean", "null"):
            raise Unsaid(f"a condition that is of type {said.type}")
        return said

    def say(self, node):
        """A node of any kind."""
        return getattr(self, f"say_{node.kind}")(node)

    # ---- constants and columns

    def say_column(self, node):
        column = self.columns.get(node.word)
        if column is None:
            raise Unsaid(f"the name {node.word}")
        if node.word not in self.exported:
            raise Unsaid(f"the column {node.word}, which is left out")
        return said_column(column)

    def say_string(self, node):
        if node.word == "\\N":
            raise Unsaid("the text \\N, which is null here")
        return Said("'" + node.word.replace("'", "''") + "'", "text", "text", is_literal=True)

    def say_number(self, node):
        if not re.fullmatch(r"-?[0-9]+", node.word) or not -(2**63) <= int(node.word) < 2**63:
            raise Unsaid(f"the number {node.word}")
        is_integer = -(2**31) <= int(node.word) < 2**31
        return Said(str(int(node.word)), "bigint", "integer" if is_integer else "bigint", is_literal=True)

    def say_constant(self, node):
        return Said(node.word, "null" if node.word == "NULL" else "boolean", "boolean", is_literal=True)

    def say_user(self, node):
        return Said("CURRENT_USER", "text", "name", "plain")

    def say_array(self, node):
        raise Unsaid("an array")

    # ---- casts

    def say_cast(self, node):
        """A cast that changes no value is left out; of a literal it gives the type."""
        operand, to = node.operands[0], node.type
        if to.is_array:
            raise Unsaid("an array")
        if operand.kind == "string":
            return self.literal(operand, to)
        said = self.say(operand)
        if said.kind == "null":
            return said
        if to.limits:
            raise Unsaid(f"a cast to {to}, which may change a value")
        if said.kind == "bigint" and to.name in INTEGERS:
            return self.whole(said, to)
        if said.kind == "boolean" and to.name == "boolean":
            return said
        if said.kind == "text" and to.name in ("text", "character varying"):
            return dataclasses.replace(said, type=to.name)
        if said.kind == "text" and to.name == "name" and (said.type == "name" or said.is_literal and is_short(operand)):
            return dataclasses.replace(said, type="name")
        if said.kind == "spelled" and to.name == said.type:
            return said
        if said.kind == "spelled" and said.type != "date" and to.name in ("text", "character varying"):
            return Said(said.text, "text", to.name, "plain")
        raise Unsaid(f"a cast of {said.type} to {to}")

    def whole(self, said, to):
        """A whole number under a cast that cannot fail."""
        bound = 2 ** INTEGERS[to.name]
        fits = said.is_literal and -bound <= int(said.text) < bound
        if not fits and (said.is_literal or INTEGERS[said.type] > INTEGERS[to.name]):
            raise Unsaid(f"a cast of {said.text} to {to}, which may fail")
        return dataclasses.replace(said, type=to.name)

    def literal(self, operand, to):
        """A literal of a type."""
        if to.limits:
            raise Unsaid(f"a cast to {to}, which may change a value")
        if to.name in ("text", "character varying") or to.name == "name" and is_short(operand):
            return dataclasses.replace(self.say_string(operand), type=to.name)
        if to.name in INTEGERS:
            if not re.fullmatch(r"-?[0-9]+", operand.word):
                raise Unsaid(f"a cast of '{operand.word}' to {to}")
            return self.whole(self.say_number(Node("number", operand.word)), to)
        if to.name == "boolean":
            raise Unsaid(f"a cast of '{operand.word}' to boolean")
        return dataclasses.replace(self.say_string(operand), kind="spelled", type=to.name)

    # ---- conditions

    def say_not(self, node):
        inside = node.operands[0]
        if inside.kind == "is":
            return self.test(inside, True)
        said = self.boolean(inside)
        return Said(f"NOT {closed(said)}", "boolean", "boolean", "", said.levels + 1 + said.is_operation, True)

    def say_and(self, node):
        return self.run("AND", [self.boolean(it) for it in node.operands])

    def say_or(self, node):
        return self.run("OR", [self.boolean(it) for it in node.operands])

    def run(self, word, parts):
        """Conditions with AND or OR between."""
        if len(parts) > MOST_OPERANDS:
            raise Unsaid(f"more than {MOST_OPERANDS} operands of one {word}")
        if len(parts) == 1:
            return parts[0]
        text = f" {word} ".join(closed(it) for it in parts)
        return Said(text, "boolean", "boolean", "", max(it.levels + it.is_operation for it in parts), True)

    def say_is(self, node):
        return self.test(node, False)

    def test(self, node, negates):
        """A test by IS, or IS NOT; those of truth values become a CASE."""
        said = self.say(node.operands[0])
        if node.word in ("NULL", "UNKNOWN"):
            if said.kind == "other" and self.columns[said.text]["type_kind"] == "c":
                raise Unsaid("IS NULL of a row")
            word = "IS NOT NULL" if negates else "IS NULL"
            return Said(f"{closed(said)} {word}", "boolean", "boolean", "", said.levels + said.is_operation, True)
        yes, no = ("FALSE", "TRUE") if negates else ("TRUE", "FALSE")
        is_true = node.word == "TRUE"
        condition, levels = (said.text, 1) if is_true else (f"NOT {closed(said)}", 2 + said.is_operation)
        return Said(f"CASE WHEN {condition} THEN {yes} ELSE {no} END", "boolean", "boolean", "", said.levels + levels, True)

    def say_compare(self, node):
        return self.compared(node.word, *[self.say(it) for it in node.operands])

    def compared(self, word, left, right):
        """A comparison, where it means the same here."""
        stop_on_types(left, right)
        if word not in ("=", "<>"):
            stop_on_order(left, right)
        levels = max(it.levels + it.is_operation for it in (left, right))
        return Said(f"{closed(left)} {word} {closed(right)}", "boolean", "boolean", "", levels, True)

    def say_distinct(self, node):
        left, right = [self.say(it) for it in node.operands]
        same = self.compared("=", left, right).text
        text = f"CASE WHEN {same} THEN FALSE WHEN {closed(left)} IS NULL AND {closed(right)} IS NULL THEN FALSE ELSE TRUE END"
        return Said(text, "boolean", "boolean", "", max(it.levels + it.is_operation for it in (left, right)) + 1, True)

    def say_any(self, node):
        return self.listed(node, "=", "IN", "OR")

    def say_all(self, node):
        return self.listed(node, "<>", "NOT IN", "AND")

    def listed(self, node, operator, word, joins):
        """= ANY and <> ALL of an array: a list of literals, or a run of comparisons."""
        left, parts = self.say(node.operands[0]), [self.say(it) for it in array_of(node.operands[1])]
        if node.word != operator:
            raise Unsaid(f"{node.word} {'ANY' if word == 'IN' else 'ALL'} of an array")
        if not parts:
            return Said("FALSE" if word == "IN" else "TRUE", "boolean", "boolean", is_literal=True)
        compared = [self.compared(operator, left, it) for it in parts]
        if not all(it.is_literal for it in parts):
            return self.run(joins, compared)
        text = f"{closed(left)} {word} ({', '.join(it.text for it in parts)})"
        return Said(text, "boolean", "boolean", "", max(left.levels + left.is_operation, 1), True)

    def say_collate(self, node):
        said = self.say(node.operands[0])
        if said.kind not in ("text", "null"):
            raise Unsaid("COLLATE of what is no text")
        order = self.collations.get(node.word, "plain")
        return dataclasses.replace(said, order=order, is_literal=False)

    # ---- choices

    def say_case(self, node):
        operands = list(node.operands)
        subject = self.say(operands.pop(0)) if node.word == "of" else None
        other = self.say(operands.pop())
        whens = [self.compared("=", subject, self.say(it)) if subject else self.boolean(it) for it in operands[::2]]
        return choice(whens, [self.say(it) for it in operands[1::2]], other)

    def say_coalesce(self, node):
        *firsts, last = [self.say(it) for it in node.operands]
        whens = [Said(f"{closed(it)} IS NOT NULL", "boolean", "boolean", "", it.levels + it.is_operation, True) for it in firsts]
        return choice(whens, firsts, last) if firsts else last


def choice(whens, results, other):
    """A CASE of conditions with their results, all of one kind."""
    kinds = {it.kind for it in (*results, other)} - {"null"}
    if len(kinds) > 1 or kinds & {"spelled", "other"}:
        raise Unsaid("a choice between values of types that are not the same here")
    kind = kinds.pop() if kinds else "null"
    arms = " ".join(f"WHEN {when.text} THEN {closed(result)}" for when, result in zip(whens, results))
    levels = max([*(it.levels for it in whens), *(it.levels + it.is_operation for it in (*results, other))]) + 1
    order = "loose" if any(it.order == "loose" for it in (*results, other)) else "plain"
    typed = next((it.type for it in (*results, other) if it.kind == kind), "")
    if kind == "bigint":
        typed = max((it.type for it in (*results, other) if it.kind == kind), key=INTEGERS.get)
    return Said(f"CASE {arms} ELSE {closed(other)} END", kind, typed, order if kind == "text" else "", levels, True)


def closed(said):
    """An expression as an operand."""
    return f"({said.text})" if said.is_operation else said.text


def is_short(operand):
    """Whether a literal is a name that PostgreSQL does not cut."""
    return operand.kind == "string" and len(operand.word.encode()) < 64


def array_of(node):
    """The elements of an array that is written in a policy, each under the array's type."""
    if node.kind == "array":
        return list(node.operands)
    if node.kind != "cast" or not node.type.is_array or node.operands[0].kind not in ("array", "string", "cast"):
        raise Unsaid("a list that is not of literals")
    to, inside = Type(node.type.name, node.type.limits), node.operands[0]
    if inside.kind == "string":
        found = [Node("constant", "NULL") if it is None else Node("string", it) for it in elements(inside.word)]
    else:
        found = array_of(inside)
    return [Node("cast", operands=(it,), type=to) for it in found]


def stop_on_types(left, right):
    """Refuses a comparison of values that are not of one type here, or of texts that are equal where their bytes are not."""
    if "null" in (left.kind, right.kind):
        return
    if "other" in (left.kind, right.kind):
        other = left if left.kind == "other" else right
        raise Unsaid(f"a comparison of the column {other.text}, which is text here")
    if left.kind != right.kind or left.kind == "spelled" and left.type != right.type:
        raise Unsaid(f"a comparison of {left.type} with {right.type}")
    if left.is_literal and right.is_literal and left.kind == "spelled":
        raise Unsaid(f"a comparison of two literals of type {left.type}")
    if "loose" in (left.order, right.order):
        raise Unsaid("texts under a collation that is not deterministic")


def stop_on_order(left, right):
    """Refuses an order that may be another one here."""
    kinds = {left.kind, right.kind}
    if "spelled" in kinds:
        raise Unsaid(f"an order of {left.type}, which is text here")
    if "text" in kinds and not any(it.order == "bytes" for it in (left, right)):
        raise Unsaid("texts in the order of a collation")
    if "text" in kinds and any(it.order not in ("bytes", "") for it in (left, right)):
        raise Unsaid("texts in the order of a collation")
