#!/usr/bin/env python3
"""Tells in which functions the program's instructions are, for "What costs most" in README.md.

    costs.py [--program PROGRAM] [--most N] [--inclusive] WORD..

runs the program with these words under callgrind, in the caller's folder, and prints a table of the functions that take
the most instructions. With `--inclusive` a function counts with all that it calls. WORD.. is `soak 1 32 2000` where
nothing is said. It needs valgrind.
"""

import argparse
import os
import re
import subprocess
import sys
import tempfile

from measuring import WITHOUT_REP, program_of, table, whole

LINE = re.compile(r"\s*([\d,]+) \(\s*([\d.]+)%\)\s+\S*?:(.+?)(?: \[.*\])?\s*")
MOST_OF_ALL = re.compile(r"\s*([\d,]+) \(100.0%\)\s+PROGRAM TOTALS")
LONGEST_NAME = 100


def annotated(words, is_inclusive):
    """What callgrind_annotate says of a run."""
    with tempfile.TemporaryDirectory() as folder:
        told = os.path.join(folder, "told")
        run = subprocess.run(["valgrind", "--tool=callgrind", "--callgrind-out-file=" + told, *words],
                             env=WITHOUT_REP, stdout=subprocess.DEVNULL, stderr=subprocess.DEVNULL, check=False)
        if run.returncode:
            sys.exit("costs.py: %s ended with status %d" % (" ".join(words), run.returncode))
        how = ["--inclusive=yes"] if is_inclusive else []
        return subprocess.run(["callgrind_annotate", "--threshold=99.9", "--auto=no", *how, told], stdout=subprocess.PIPE,
                              text=True, check=True).stdout


def main():
    words = argparse.ArgumentParser(description="Tells in which functions the program's instructions are.")
    words.add_argument("--program", help="the program; by default the proved one, built first where need be")
    words.add_argument("--most", type=int, default=20, help="how many functions are told")
    words.add_argument("--inclusive", action="store_true", help="count a function with all that it calls")
    words.add_argument("words", metavar="WORD", nargs="*", default=["soak", "1", "32", "2000"])
    options = words.parse_args()
    said = annotated([program_of(options), *options.words], options.inclusive)
    total = next(int(match[1].replace(",", "")) for match in map(MOST_OF_ALL.fullmatch, said.split("\n")) if match)
    rows = [match for match in map(LINE.fullmatch, said.split("\n")) if match]
    print("%s instructions of `%s`\n" % (whole(total), " ".join(options.words)))
    table(("per cent", "instructions", "function"),
          [(row[2], row[1], row[3][:LONGEST_NAME]) for row in rows[:options.most]])


if __name__ == "__main__":
    main()
