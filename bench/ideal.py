#!/usr/bin/env python3
"""Measures `cq_switch ideal` over a switch of eight ports with a capture of about 10 MB each.

    ideal.py [--program PROGRAM] [--runs N] [--scale PART] [--fast]

It prints the table in README.md. Instructions are counted over captures of a tenth of the size. It ends
with status 1 where a run does.
"""

import os
import tempfile

from measuring import (Traffic, instructions, make_captures, megabytes, middle, parser, per, program_of, run, table,
                       whole, write_configuration)

PORTS, BYTES, TENTH = 8, 10_000_000, 10


def row(program, size, options):
    words = [program, "ideal", write_configuration(".", PORTS)]
    few = make_captures(".", Traffic(PORTS, PORTS), size / TENTH)
    counted = None if options.fast else instructions(words)
    total, cells, _ = make_captures(".", Traffic(PORTS, PORTS), size)
    spent = middle([run(words) for _ in range(options.runs)])
    return (PORTS, megabytes(total), whole(cells), "%.2f s" % spent.seconds, "%.2f s" % spent.busy,
            megabytes(total / spent.seconds), whole(cells / spent.seconds), megabytes(spent.peak),
            "%.2f times" % (spent.peak / total), per(counted, few.size), per(counted, few.cells))


def main():
    options = parser("Measures `cq_switch ideal` over eight ports.", runs=3).parse_args()
    program = program_of(options)
    with tempfile.TemporaryDirectory() as folder:
        os.chdir(folder)
        table(("ports", "captures", "cells", "time", "processor time", "a second", "cells a second", "peak memory",
               "of the captures", "instructions a byte", "instructions a cell"),
              [row(program, BYTES * options.scale, options)])


if __name__ == "__main__":
    main()
