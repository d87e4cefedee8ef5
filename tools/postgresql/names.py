"""Names of PostgreSQL: which of them are names here, and how any is shown in a line of a report."""
import re

RESERVED = set(
    "all and as asc between by case cast cross current_user desc distinct else end except exists false fetch for from full group"
    " having in inner intersect is join left like limit natural not null offset on or order outer right select then to true union"
    " using when where window with".split()
)


def is_name(name):
    """Whether a name is one here, in the same spelling."""
    return bool(re.fullmatch(r"[a-z_][a-z0-9_]{0,62}", name)) and name not in RESERVED


def why_no_name(name):
    """Why a name is none here."""
    if has_control(name):
        return "its name has a control character"
    return "its name is a reserved word" if name in RESERVED else "its name needs quotes"


def has_control(text):
    """Whether a text has a character that could end a line, or that shows nothing."""
    return any(not it.isprintable() for it in text)


def shown(name):
    """A name for a line of a report: in quotes where PostgreSQL needs them, with no character that could end the line."""
    if re.fullmatch(r"[a-z_][a-z0-9_$]*", name):
        return name
    quoted = name.replace('"', '""')
    if not has_control(name):
        return f'"{quoted}"'
    quoted = quoted.replace("\\", "\\\\")
    return 'U&"' + "".join(it if it.isprintable() else escaped(it) for it in quoted) + '"'


def escaped(character):
    """A character as PostgreSQL's U&"" writes it."""
    number = ord(character)
    return f"\\{number:04X}" if number < 0x10000 else f"\\+{number:06X}"


def plain(text):
    """A text of a reason for a line of a report, with no character that could end the line."""
    return "".join(it if it.isprintable() else " " if it in "\n\t" else escaped(it) for it in text)
