#!/usr/bin/env python3
"""Measures `cq_switch stream` beside `run` over 16 ports with a capture of about 16 MB each, from a warm page cache.

    stream.py [--program PROGRAM] [--runs N] [--scale PART] [--fast]

It prints the tables in README.md. The first says what each command takes, in turns, and what readers cost: sixteen
captures of no packet. The second says what share of a run reading and decoding is: the last capture is cut, so that both
commands end once all are read and decoded, and before any slot is run. It ends with status 1 where an answer is wrong.
"""

import os
import subprocess
import sys
import tempfile
import time

from measuring import (Traffic, make_captures, megabytes, middle, model, parser, program_of, run, table,
                       write_configuration)

PORTS, BYTES = 16, 16_000_000
COMMANDS = ("run", "stream")


def warmed(folder):
    for name in sorted(os.listdir(folder)):
        with open(os.path.join(folder, name), "rb") as file:
            while file.read(1 << 20):
                pass


def in_turns(program, config, times):
    """What each command spends, the two one after the other in each round, so that both meet the same machine."""
    spent = {word: [] for word in COMMANDS}
    for _ in range(times):
        for word in COMMANDS:
            spent[word].append(run([program, word, config]))
    return {word: middle(spent[word]) for word in COMMANDS}


def until_refused(program, config, times):
    """The seconds that each command takes up to the refusal of the last capture, and whether all lines were right."""
    seconds, is_right = {word: [] for word in COMMANDS}, True
    for _ in range(times):
        for word in COMMANDS:
            start = time.perf_counter()
            done = subprocess.run([program, word, config], capture_output=True, check=False)
            seconds[word].append(time.perf_counter() - start)
            is_right = is_right and done.returncode == 3 and done.stderr.startswith(b"capture of input 15: 5 at ")
    return {word: sorted(seconds[word])[times // 2] for word in COMMANDS}, is_right


def row(name, spent, size):
    return [(name, "`%s`" % word, megabytes(size), "%.2f s" % spent[word].seconds, "%.2f s" % spent[word].busy,
             megabytes(spent[word].peak)) for word in COMMANDS]


def main():
    options = parser("Measures `cq_switch stream` beside `run`.", runs=5).parse_args()
    program = program_of(options)
    with tempfile.TemporaryDirectory() as folder:
        os.chdir(folder)
        config = write_configuration(".", PORTS)
        made = make_captures(".", Traffic(PORTS, PORTS), BYTES * options.scale)
        warmed(".")
        full = in_turns(program, config, options.runs)
        with open("in15.pcap", "ab") as file:
            file.write(b"cut")
        reading, is_right = until_refused(program, config, options.runs)
        for number in range(PORTS):
            with open("in%d.pcap" % number, "wb") as file:
                file.write(model().NANOSECONDS)
        empty = in_turns(program, config, options.runs)
        table(("captures", "command", "size", "time", "processor time", "peak memory"),
              row("16 of packets", full, made.size) + row("16 of no packet", empty, 24 * PORTS))
        table(("up to the last capture's refusal", "time", "of the whole"),
              [("`%s`" % word, "%.3f s" % reading[word], "%.1f in 100" % (100 * reading[word] / full[word].seconds))
               for word in COMMANDS])
        if full["run"].said != full["stream"].said or not is_right:
            print("stream.py: the two commands differ", file=sys.stderr)
            return 1
    return 0


if __name__ == "__main__":
    sys.exit(main())
