"""Writes the tables of a configuration as TOML, since Python's library only reads it."""

from typing import Any

from .faults import Fault

ESCAPES = {"\\": "\\\\", '"': '\\"', "\n": "\\n", "\r": "\\r", "\t": "\\t"}


def is_rows(value: Any) -> bool:
    """Whether it is an array of tables."""
    return isinstance(value, list) and all(isinstance(row, dict) for row in value)


def toml_text(tables: dict[str, Any]) -> str:
    """A document with keys of numbers and texts, and arrays of tables of such keys."""
    lines = [f"{key} = {value_text(value)}" for key, value in tables.items() if not is_rows(value)]
    for key, rows in tables.items():
        if is_rows(rows):
            for row in rows:
                lines += [f"\n[[{key}]]"] + [f"{name} = {value_text(value)}" for name, value in row.items()]
    return "\n".join(lines) + "\n"


def value_text(value: Any) -> str:
    """A number or a text."""
    if isinstance(value, bool) or not isinstance(value, (int, str)):
        raise Fault(f"{value!r} is neither a number nor a text, and a configuration has no other values")
    return str(value) if isinstance(value, int) else '"' + "".join(map(escaped, value)) + '"'


def escaped(sign: str) -> str:
    if sign in ESCAPES:
        return ESCAPES[sign]
    return f"\\u{ord(sign):04x}" if ord(sign) < 32 or ord(sign) == 127 else sign
