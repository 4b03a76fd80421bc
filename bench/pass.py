#!/usr/bin/env python3
"""Measures `cq_switch pass` over a large made capture, beside `cp` of the same file.

    pass.py [--program PROGRAM] [--runs N] [--scale PART] [--fast]

It prints the table in README.md. Instructions are counted over a capture of a tenth of the size. It ends
with status 1 where the answer is not that of examples/model.py, or where the memory is more than four
times the capture's size.
"""

import filecmp
import os
import random
import subprocess
import sys
import tempfile

from measuring import SEED, instructions, megabytes, middle, model, parser, per, program_of, run, table, whole

BYTES, TENTH = 60_000_000, 10  # the program takes at most 67,108,864
MOST_MEMORY = 4


def make(size, captured_name, written_name):
    """Writes a capture of packets of 60 to 1514 bytes, and what is to be made of it. This runs in a
    process of its own, since a child's peak memory can begin with that of its parent."""
    rules, draw = model(), random.Random(SEED)
    packets, written, stamp = [], 24, 1_700_000_000 * rules.SECOND_NS
    while True:
        body = draw.randbytes(draw.randint(60, 1514))
        written += 16 + len(body)
        if written > size:
            break
        packets.append(rules.Packet(stamp, len(body), body))
        stamp += 1000 * draw.randint(0, 15)
    with open(captured_name, "wb") as capture:
        capture.write(rules.captured(packets))
    with open(written_name, "wb") as capture:
        capture.write(rules.written(rules.passed(packets)))


def made(size):
    words = [sys.executable, os.path.realpath(__file__), "--make", str(int(size)), "in", "wanted"]
    subprocess.run(words, check=True)
    return os.path.getsize("in")


def measure(program, options):
    words = [program, "pass", "in", "out"]
    few = made(BYTES * options.scale / TENTH)
    counted = None if options.fast else instructions(words)
    size = made(BYTES * options.scale)
    passes, copies = [], []
    for _ in range(options.runs):
        passes.append(run(words))
        copies.append(run(["cp", "in", "copy"]))
    same = os.path.exists("out") and filecmp.cmp("out", "wanted", shallow=False)
    passed, copied = middle(passes), middle(copies)
    memory = passed.peak / size
    table(("capture", "`pass`", "processor time", "a second", "`cp`", "peak memory", "of the capture", "instructions a byte"),
          [(megabytes(size), "%.2f s" % passed.seconds, "%.2f s" % passed.busy, megabytes(size / passed.seconds),
            megabytes(size / copied.seconds) + " a second", megabytes(passed.peak), "%.2f times" % memory, per(counted, few))])
    if not same:
        print("pass.py: the capture that was written is not the model's", file=sys.stderr)
    if memory > MOST_MEMORY and options.scale == 1:
        print("pass.py: the memory is more than %d times the capture's size" % MOST_MEMORY, file=sys.stderr)
        same = False
    return 0 if same else 1


def main():
    words = parser("Measures `cq_switch pass` beside `cp`.", runs=7)
    words.add_argument("--make", nargs=3, metavar=("SIZE", "CAPTURE", "WANTED"), help="make a capture, and no more")
    options = words.parse_args()
    if options.make:
        return make(int(options.make[0]), *options.make[1:])
    program = program_of(options)
    with tempfile.TemporaryDirectory() as folder:
        os.chdir(folder)
        return measure(program, options)


if __name__ == "__main__":
    sys.exit(main())
