#!/usr/bin/env python3
"""Measures how the time of a slot grows with the ports and with the cells that wait, and that of quiet slots.

    growth.py [--program PROGRAM] [--runs N] [--scale PART] [--limit SECONDS] [--fast]

It prints three tables for README.md: `soak` over few slots, with more and more ports; `run` with one
worker, where 16 inputs send to one output, over longer and longer captures; and `run` and `ideal` over
captures of two packets with more and more quiet slots between them. Rows that would take more than the
limit are left out. It ends with status 1 where a run does.
"""

import os
import tempfile

from measuring import (Traffic, figure, instructions, make_captures, middle, model, parser, per, program_of, run,
                       table, whole, write_capture, write_configuration)

PORTS, SLOTS = (4, 8, 16, 32, 64), 1000
# The last three are such that 13,000, 30,000 and 100,000 cells wait at an input.
INPUTS, SIZES = 16, (15_625, 31_250, 62_500, 125_000, 250_000, 500_000, 1_000_000, 2_250_000, 7_500_000)
QUIET_PORTS, QUIET_SLOTS = (4, 16, 64), (10_000, 10_000_000, 10_000_000_000)
GROWTH = 4  # of the time, at most, from one size to the next
SLOWER = 50  # what callgrind takes at least, times the run's own time
TIMES = ("time", "processor time", "slots a second", "slots a processor second")


def with_ports(program, ports, slots, options):
    words = [program, "soak", "1", str(ports), str(slots)]
    spent = middle([run(words) for _ in range(options.runs)])
    counted = None if options.fast else instructions(words)
    return (ports, whole(slots), whole(figure(spent.said, "longest")), "%.3f s" % spent.seconds,
            "%.3f s" % spent.busy, whole(slots / spent.seconds), whole(slots / spent.busy), per(counted, slots))


def with_cells(program, options):
    """A row for each size, until the next one would take too long."""
    words = [program, "run", write_configuration(".", INPUTS)]
    for size in SIZES:
        cells = make_captures(".", Traffic(INPUTS, 1), int(size * options.scale)).cells
        first = run(words, options.limit)
        if not first:
            return
        spent = middle([first] + [run(words) for _ in range(options.runs - 1)])
        slots = figure(spent.said, "slots")
        counted = None if options.fast or spent.busy * SLOWER > options.limit else instructions(words)
        yield (whole(size * options.scale), whole(cells), whole(figure(spent.said, "longest")), whole(slots),
               "%.2f s" % spent.seconds, "%.2f s" % spent.busy, whole(slots / spent.seconds), whole(slots / spent.busy),
               per(counted, slots))
        if spent.seconds * GROWTH * options.runs > options.limit:
            return


def quiet(program, command, ports, slots, options):
    """Two packets at one input with so many slots from the first to the second, and none at the others."""
    for number in range(ports):
        write_capture(".", number, (0, slots * model().SLOT_NS) if number == 0 else ())
    words = [program, command, write_configuration(".", ports)]
    spent = middle([run(words) for _ in range(options.runs)])
    counted = None if options.fast else instructions(words)
    return ("`%s`" % command, ports, whole(slots), "%.3f s" % spent.seconds, "%.3f s" % spent.busy, per(counted, 1))


def main():
    words = parser("Measures how the time of a slot grows.", runs=3)
    words.add_argument("--limit", type=float, default=300, help="the seconds that a row may take")
    options = words.parse_args()
    program = program_of(options)
    slots = max(1, int(SLOTS * options.scale))
    table(("ports", "slots", "longest list", *TIMES, "instructions a slot"),
          (with_ports(program, ports, slots, options) for ports in PORTS))
    with tempfile.TemporaryDirectory() as folder:
        os.chdir(folder)
        table(("bytes at an input", "cells in all", "longest list", "slots", *TIMES, "instructions a slot"),
              with_cells(program, options))
        table(("command", "ports", "quiet slots", "time", "processor time", "instructions"),
              (quiet(program, command, ports, slots, options)
               for command in ("run", "ideal") for ports in QUIET_PORTS for slots in QUIET_SLOTS))


if __name__ == "__main__":
    main()
