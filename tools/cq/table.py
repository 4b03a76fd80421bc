"""Tables for people."""

from typing import Any, TextIO


def table(rows: list[dict[str, Any]], out: TextIO) -> None:
    """Prints rows under the names of their columns, words to the left and numbers to the right."""
    if not rows:
        print("  none", file=out)
        return
    heads = list(rows[0])
    cells = [[shown(row.get(head)) for head in heads] for row in rows]
    widths = [max(len(head), *(len(line[at]) for line in cells)) for at, head in enumerate(heads)]
    words = [all(isinstance(row.get(head), str) for row in rows) for head in heads]
    for line in [heads, *cells]:
        parts = (cell.ljust(width) if word else cell.rjust(width) for cell, width, word in zip(line, widths, words))
        print(("  " + "  ".join(parts)).rstrip(), file=out)


def shown(value: Any) -> str:
    """A value as a cell: `-` where there is none, and at most three digits behind the point."""
    if value is None:
        return "-"
    return f"{value:.3f}".rstrip("0").rstrip(".") if isinstance(value, float) else str(value)
