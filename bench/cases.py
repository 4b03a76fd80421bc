#!/usr/bin/env python3
"""Measures what a cell costs under traffic of several kinds, beside what it cost when lists were plain vectors.

    cases.py [--program PROGRAM] [--runs N] [--scale PART] [--limit SECONDS] [--fast]

It prints the table in README.md. One worker looks for the matchings. Instructions are counted over captures of a
tenth of the size, but where cells pile up over the same captures, since there the size decides how many wait. A run
that takes more than the limit is given up, and the row says so. It ends with status 1 where a run does.
"""

import os
import tempfile
from typing import NamedTuple

from measuring import (Traffic, figure, instructions, make_captures, middle, parser, per, program_of, run, table, whole,
                       write_configuration)

SLOWER = 50  # what callgrind takes at least, times the run's own time


class Case(NamedTuple):
    name: str
    command: str
    traffic: Traffic
    size: int  # of each capture, in bytes
    part: int  # of the size, where instructions are counted
    before: int | None  # instructions a cell of the program as it was, over traffic of this kind
    discipline: str | None = None


CASES = (
    Case("16 ports, to all outputs, smallest packets", "run", Traffic(16, 16, longest=60), 4_000_000, 10, 5_560),
    Case("16 ports, to all outputs", "run", Traffic(16, 16), 4_000_000, 10, 5_630),
    Case("8 ports, 3 of 10 slots", "run", Traffic(8, 8, load=3), 4_000_000, 10, 9_485),
    Case("8 ports, 3 of 10 slots, smallest packets", "run", Traffic(8, 8, longest=60, load=3), 4_000_000, 10, None),
    Case("16 ports, 9 of 10 packets to one output", "run", Traffic(16, 16, most=9), 30_000, 1, 67_900),
    Case("16 ports, 9 of 10 packets to one output, for longer", "run", Traffic(16, 16, most=9), 240_000, 1, None),
    Case("16 ports by priority, two classes an input, to one output", "run", Traffic(16, 1, classes=2), 60_000, 1, None,
         "priority"),
    Case("the same for longer", "run", Traffic(16, 1, classes=2), 240_000, 1, None, "priority"),
    Case("64 ports, to all outputs", "run", Traffic(64, 64), 1_000_000, 10, 7_480),
    Case("8 ports, to all outputs", "ideal", Traffic(8, 8), 4_000_000, 10, 1_970),
    Case("16 ports by priority, to all outputs", "ideal", Traffic(16, 16), 50_000, 1, None, "priority"),
    Case("16 ports by priority, to one output", "ideal", Traffic(16, 1), 50_000, 1, None, "priority"),
)


def waiting(case, made, said):
    """The most cells at an input by the report, or at the one output of an ideal switch, which sends one a slot."""
    if case.command == "run":
        return whole(figure(said, "longest"))
    return whole(made.cells - made.slots) if case.traffic.outputs == 1 else ""


def counted(case, words, options):
    """The instructions for each cell, where they can be counted in time."""
    if options.fast:
        return "-"
    made = make_captures(".", case.traffic, case.size * options.scale / case.part)
    spent = run(words, options.limit)
    return per(instructions(words) if spent and spent.busy * SLOWER <= options.limit else None, made.cells)


def row(program, case, options):
    tables = write_configuration(".", case.traffic.ports, discipline=case.discipline, classes=case.traffic.classes)
    words = [program, case.command, tables]
    each = counted(case, words, options)
    made = make_captures(".", case.traffic, case.size * options.scale)
    start, end = ("`%s`, %s" % (case.command, case.name), whole(made.cells)), (each, per(case.before, 1))
    first = run(words, options.limit)
    if not first:
        return (*start, "", "more than %d s" % options.limit, "", "", *end)
    spent = middle([first] + [run(words) for _ in range(options.runs - 1)])
    return (*start, waiting(case, made, spent.said), "%.2f s" % spent.seconds, "%.2f s" % spent.busy,
            whole(made.cells / spent.busy), *end)


def main():
    words = parser("Measures what a cell costs under traffic of several kinds.", runs=3)
    words.add_argument("--limit", type=float, default=300, help="the seconds after which a run is given up")
    options = words.parse_args()
    program = program_of(options)
    with tempfile.TemporaryDirectory() as folder:
        os.chdir(folder)
        table(("traffic", "cells", "most that wait", "time", "processor time", "cells a processor second",
               "instructions a cell", "before"), (row(program, case, options) for case in CASES))


if __name__ == "__main__":
    main()
