#!/usr/bin/env python3
"""Measures `cq_switch soak`: the fabric under full load, with two workers.

    soak.py [--program PROGRAM] [--runs N] [--scale PART] [--fast]

It prints the table in README.md. Instructions are counted over a tenth of the slots. It ends with
status 1 where a run does.
"""

from measuring import figure, instructions, megabytes, middle, parser, per, program_of, run, table, whole

SEED, SLOTS, TENTH = "1", 20_000, 10


def row(program, ports, slots, options):
    def words(slots):
        return [program, "soak", SEED, str(ports), str(slots)]

    spent = middle([run(words(slots)) for _ in range(options.runs)])
    cells, few = ports * slots, max(1, slots // TENTH)
    counted = None if options.fast else instructions(words(few))
    return (ports, whole(slots), whole(figure(spent.said, "longest")), "%.1f s" % spent.seconds, "%.1f s" % spent.busy,
            whole(cells / spent.seconds), whole(slots / spent.seconds), megabytes(spent.peak), per(counted, ports * few))


def main():
    options = parser("Measures `cq_switch soak`.", runs=3).parse_args()
    program = program_of(options)
    slots = max(1, int(SLOTS * options.scale))
    table(("ports", "slots", "longest list", "time", "processor time", "cells a second", "slots a second", "peak memory",
           "instructions a cell"), (row(program, ports, slots, options) for ports in (8, 32, 64)))


if __name__ == "__main__":
    main()
