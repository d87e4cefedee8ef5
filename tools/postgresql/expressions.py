"""Reads an expression as pg_get_expr writes it, with every operation in parentheses.

The grammar, over tokens; what has another form is refused with the reason:

    expr   = item {"::" type | "[" .. | "." ..}                              the last two are refused
    item   = string | number | TRUE | FALSE | NULL | user | column | "(" inner ")"
           | ARRAY "[" [expr {"," expr}] "]"
           | CASE [expr] WHEN expr THEN expr {WHEN expr THEN expr} [ELSE expr] END
           | COALESCE "(" expr {"," expr} ")"
    user   = CURRENT_USER | CURRENT_ROLE | USER
    inner  = NOT expr | expr [rest]
    rest   = {AND expr} | {OR expr} | COLLATE name | IS [NOT] (NULL | TRUE | FALSE | UNKNOWN | DISTINCT FROM expr)
           | operator expr | operator (ANY | ALL) "(" expr ")"
    type   = name {name} ["(" number {"," number} ")"] {name} {"[" "]"}
    name   = word ["." word]
"""
import dataclasses
import re


class Unsaid(Exception):
    """Why a condition cannot be said in the grammar of rowplan."""


@dataclasses.dataclass(frozen=True)
class Type:
    """A type as a cast names it: its words in lower case, what stands in its parentheses, and whether it is an array."""

    name: str
    limits: str = ""
    is_array: bool = False

    def __str__(self):
        return self.name + (f"({self.limits})" if self.limits else "") + ("[]" if self.is_array else "")


@dataclasses.dataclass(frozen=True)
class Node:
    """A node of the tree: what it is, its word (an operator, a name, a text), its operands, and of a cast the type."""

    kind: str
    word: str = ""
    operands: tuple = ()
    type: Type = None


TOKEN = re.compile(
    r"""\s*(?:(?P<string>'(?:[^']|'')*')
    |(?P<word>[A-Za-z_\x80-\U0010ffff][A-Za-z0-9_$\x80-\U0010ffff]*)
    |(?P<quoted>"(?:[^"]|"")*")
    |(?P<number>[0-9]+(?:\.[0-9]*)?(?:[eE][-+]?[0-9]+)?)
    |(?P<sign>::|[(),.\[\]:;])
    |(?P<operator>[-+*/<>=~!@\#%^&|`?]+))""",
    re.X,
)
USERS = {"CURRENT_USER", "CURRENT_ROLE", "USER"}
WORDS = {"AND", "OR", "NOT", "IS", "CASE", "WHEN", "THEN", "ELSE", "END", "ARRAY", "COLLATE", "ANY", "ALL", "DISTINCT", "FROM"}
CONSTANTS = {"TRUE", "FALSE", "NULL"}
ARITHMETIC = {"+", "-", "*", "/", "%", "^"}
# Words of values and of forms that are not in the grammar, which are no columns unless they are quoted.
VALUES = {"SESSION_USER", "CURRENT_CATALOG", "CURRENT_SCHEMA", "CURRENT_DATE", "CURRENT_TIME", "CURRENT_TIMESTAMP"}
VALUES |= {"LOCALTIME", "LOCALTIMESTAMP"}


def tokens_of(text):
    """The tokens of a text, each with its kind; a word that is not quoted counts in upper case where that is a keyword."""
    found, at = [], 0
    text = text.rstrip()
    while at < len(text):
        token = TOKEN.match(text, at)
        if not token:
            raise Unsaid(f"its text at {text[at:at + 20]!r}")
        found.append((token.lastgroup, token[token.lastgroup]))
        at = token.end()
    return found


class Reader:
    """The tokens of an expression from a place on."""

    def __init__(self, text):
        self.tokens, self.at = tokens_of(text), 0

    def peek(self, ahead=0):
        """The kind and the text of a token, with none after the last."""
        return self.tokens[self.at + ahead] if self.at + ahead < len(self.tokens) else ("end", "")

    def is_next(self, *words):
        """Whether the next token is one of these keywords or signs, and no string or quoted name."""
        kind, text = self.peek()
        return kind in ("word", "sign", "operator") and text in words

    def take(self, *words):
        """Steps over the next token if it is one of these."""
        if self.is_next(*words):
            self.at += 1
            return self.tokens[self.at - 1][1]
        return None

    def must(self, *words):
        """Steps over the next token, which has to be one of these."""
        found = self.take(*words)
        if found is None:
            raise Unsaid(self.strange())
        return found

    def next(self):
        """Steps over the next token, whatever it is."""
        token = self.peek()
        self.at += 1
        return token

    def strange(self):
        """Why the next token cannot stand where it does."""
        kind, text = self.peek()
        return "its form at the end" if kind == "end" else f"its form at {text}"


def read(text):
    """The tree of an expression."""
    reader = Reader(text)
    tree = expression(reader)
    if reader.peek()[0] != "end":
        raise Unsaid(reader.strange())
    return tree


def expression(reader):
    """expr: an item under its casts."""
    tree = item(reader)
    while True:
        if reader.take("::"):
            tree = Node("cast", operands=(tree,), type=cast_type(reader))
        elif reader.is_next("["):
            raise Unsaid("an element of an array")
        elif reader.is_next("."):
            raise Unsaid("a part of a row")
        else:
            return tree


def item(reader):
    """item: a constant, a column, or what stands in parentheses or behind a word of its own."""
    kind, text = reader.peek()
    if kind in ("string", "number"):
        reader.next()
        return Node(kind, text[1:-1].replace("''", "'") if kind == "string" else text)
    if reader.take("("):
        tree = inner(reader)
        reader.must(")")
        return tree
    if kind == "word" and text in CONSTANTS | {it.lower() for it in CONSTANTS - {"NULL"}}:
        reader.next()
        return Node("constant", text.upper())
    if kind == "word" and text in USERS:
        reader.next()
        return Node("user")
    if reader.take("ARRAY"):
        return Node("array", operands=bracketed(reader, "[", "]"))
    if reader.take("CASE"):
        return case(reader)
    if reader.take("COALESCE"):
        return Node("coalesce", operands=bracketed(reader, "(", ")"))
    return column(reader)


def column(reader):
    """A name that stands for a column, or the reason why it is none."""
    kind, text = reader.next()
    if kind == "word" and text in ("SELECT", "WITH", "VALUES"):
        raise Unsaid("a query inside it")
    if kind == "word" and text == "EXISTS" and reader.is_next("("):
        raise Unsaid("a query inside it")
    if kind == "word" and text in VALUES:
        raise Unsaid(f"the value {text}")
    if kind == "word" and text in WORDS or kind not in ("word", "quoted"):
        if kind == "operator":
            raise Unsaid("arithmetic, which may fail" if text in ARITHMETIC else f"the operator {text}")
        raise Unsaid(f"its form at {text}" if text else "its form at the end")
    name = text[1:-1].replace('""', '"') if kind == "quoted" else text
    while reader.is_next(".") and reader.peek(1)[0] in ("word", "quoted"):
        reader.next()
        name += "." + reader.next()[1]
    if reader.is_next("("):
        raise Unsaid(f"the function {name}")
    if "." in name and kind == "word":
        raise Unsaid(f"the name {name}")
    if reader.peek()[0] == "string":
        raise Unsaid(f"a literal of the form {name}'..'")
    return Node("column", name)


def bracketed(reader, opens, closes):
    """Expressions with commas between, in brackets."""
    reader.must(opens)
    found = []
    while not reader.take(closes):
        if found:
            reader.must(",")
        found.append(expression(reader))
    return tuple(found)


def case(reader):
    """The rest of a CASE: its subject or none, then conditions and results by turns, then the result of ELSE."""
    subject = () if reader.is_next("WHEN") else (expression(reader),)
    arms = []
    while reader.take("WHEN"):
        arms.append(expression(reader))
        reader.must("THEN")
        arms.append(expression(reader))
    other = expression(reader) if reader.take("ELSE") else Node("constant", "NULL")
    reader.must("END")
    if not arms:
        raise Unsaid("a CASE without WHEN")
    return Node("case", "of" if subject else "", (*subject, *arms, other))


def inner(reader):
    """What stands in parentheses."""
    if reader.take("NOT"):
        return Node("not", operands=(expression(reader),))
    first = expression(reader)
    for word in ("AND", "OR"):
        if reader.is_next(word):
            operands = [first]
            while reader.take(word):
                operands.append(expression(reader))
            return Node(word.lower(), operands=tuple(operands))
    if reader.take("COLLATE"):
        return Node("collate", collation(reader), (first,))
    if reader.take("IS"):
        return test(reader, first)
    if reader.is_next(","):
        raise Unsaid("a row of values")
    if reader.is_next("IN"):
        raise Unsaid("a query inside it")
    return operation(reader, first) if reader.peek()[0] == "operator" else named_operation(reader, first)


def named_operation(reader, first):
    """An expression alone, or the reason why what follows it is refused."""
    if reader.is_next("OPERATOR"):
        raise Unsaid("an operator of another schema")
    if reader.is_next("AT"):
        raise Unsaid("a change of time zone")
    return first


def test(reader, first):
    """The rest of a test by IS."""
    negates = reader.take("NOT") is not None
    if reader.take("DISTINCT"):
        reader.must("FROM")
        tree = Node("distinct", operands=(first, expression(reader)))
    else:
        tree = Node("is", reader.must("NULL", "TRUE", "FALSE", "UNKNOWN"), (first,))
    return Node("not", operands=(tree,)) if negates else tree


def operation(reader, first):
    """An operator with its right side, which may be ANY or ALL of an array."""
    operator = reader.next()[1]
    if operator in ARITHMETIC:
        raise Unsaid("arithmetic, which may fail")
    if operator not in ("=", "<>", "<", "<=", ">", ">="):
        raise Unsaid(f"the operator {operator}")
    every = reader.take("ANY", "ALL")
    if not every:
        return Node("compare", operator, (first, expression(reader)))
    reader.must("(")
    if reader.is_next("SELECT", "WITH", "VALUES"):
        raise Unsaid("a query inside it")
    array = expression(reader)
    reader.must(")")
    return Node(every.lower(), operator, (first, array))


def collation(reader):
    """The name of a collation, with its schema where it has one."""
    parts = [reader.next()]
    while reader.take("."):
        parts.append(reader.next())
    if any(kind not in ("word", "quoted") for kind, _ in parts):
        raise Unsaid("its form after COLLATE")
    return ".".join(text[1:-1].replace('""', '"') if kind == "quoted" else text for kind, text in parts)


def cast_type(reader):
    """The type after a cast."""
    words, limits = [], ""
    while True:
        kind, text = reader.peek()
        if kind in ("word", "quoted") and not (kind == "word" and text in WORDS):
            words.append(reader.next()[1])
            while reader.take("."):
                words[-1] += "." + reader.next()[1]
        elif words and not limits and reader.take("("):
            limits = ",".join(it[1] for it in iter(lambda: not_closed(reader), None))
        else:
            break
    if not words:
        raise Unsaid(reader.strange())
    is_array = False
    while reader.take("["):
        reader.must("]")
        is_array = True
    return Type(" ".join(words), limits, is_array)


def not_closed(reader):
    """The next token before a closing parenthesis, without commas; none at it."""
    while reader.take(","):
        pass
    return None if reader.take(")") or reader.peek()[0] == "end" else reader.next()


def elements(text):
    """The elements of the literal of an array of one dimension, none for NULL."""
    if not re.fullmatch(r"\{.*\}", text, re.S):
        raise Unsaid("a literal of an array")
    element = re.compile(r'(?:"((?:[^"\\]|\\.)*)"|([^{}",\\]+))(,|\}$)', re.S)
    found, at = [], 1
    while text[at:] != "}":
        part = element.match(text, at)
        if not part:
            raise Unsaid("a literal of an array")
        quoted, plain = part[1], part[2]
        found.append(re.sub(r"\\(.)", r"\1", quoted, flags=re.S) if quoted is not None else None if plain == "NULL" else plain)
        at = part.end() - (part[3] == "}")
        if part[3] == "," and text[at:] == "}":
            raise Unsaid("a literal of an array")
    return found
