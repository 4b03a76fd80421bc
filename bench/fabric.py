#!/usr/bin/env python3
"""Measures `cq_switch run` over 16 ports with a capture of about 4 MB each, to all outputs and to one.

    fabric.py [--program PROGRAM] [--runs N] [--scale PART] [--limit SECONDS] [--fast]

It prints the table in README.md. Instructions are counted over captures of a tenth of the size. A run
that takes more than the limit is given up, and the row says so. It ends with status 1 where a run does.
"""

import os
import tempfile

from measuring import (Traffic, figure, instructions, make_captures, megabytes, middle, parser, per, program_of, run,
                       table, whole, write_configuration)

PORTS, BYTES, TENTH = 16, 4_000_000, 10
TRAFFIC = {"to all outputs": Traffic(PORTS, PORTS), "to one output": Traffic(PORTS, 1)}
SLOWER = 50  # what callgrind takes at least, times the run's own time


def counted(words, size, name, options):
    """The instructions for each cell of captures of this size, where they can be counted in time."""
    cells = make_captures(".", TRAFFIC[name], size).cells
    spent = None if options.fast else run(words, options.limit)
    return per(instructions(words) if spent and spent.busy * SLOWER <= options.limit else None, cells)


def row(program, name, workers, size, options):
    words = [program, "run", write_configuration(".", PORTS, workers)]
    each = counted(words, size / TENTH, name, options)
    total, cells, _ = make_captures(".", TRAFFIC[name], size)
    start = (name, workers, megabytes(total), whole(cells))
    first = run(words, options.limit)
    if not first:
        return (*start, "", "more than %d s" % options.limit, "", "", "", "", "", each)
    spent = middle([first] + [run(words) for _ in range(options.runs - 1)])
    return (*start, whole(figure(spent.said, "longest")), "%.1f s" % spent.seconds, "%.1f s" % spent.busy,
            whole(cells / spent.seconds), whole(figure(spent.said, "slots") / spent.seconds), megabytes(spent.peak),
            "%.2f times" % (spent.peak / total), each)


def main():
    words = parser("Measures `cq_switch run` over 16 ports.", runs=3)
    words.add_argument("--limit", type=float, default=300, help="the seconds after which a run is given up")
    options = words.parse_args()
    program = program_of(options)
    with tempfile.TemporaryDirectory() as folder:
        os.chdir(folder)
        rows = (row(program, name, workers, BYTES * options.scale, options) for name in TRAFFIC for workers in (1, 2))
        table(("traffic", "workers", "captures", "cells", "longest list", "time", "processor time", "cells a second",
               "slots a second", "peak memory", "of the captures", "instructions a cell"), rows)


if __name__ == "__main__":
    main()
