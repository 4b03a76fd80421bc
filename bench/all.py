#!/usr/bin/env python3
"""Measures everything, and rewrites the figures in README.md between their two markers.

    all.py [--program PROGRAM] [--runs N] [--scale PART] [--fast] [--print]

It runs each script beside it. `--runs` says how often each command is run, where it is not as often as
its script does by itself. `--scale` takes a part of the sizes and `--fast` counts no instructions, to try
the scripts; `--print` prints the figures and leaves README.md alone. It ends with status 1 where a script
does, once all have run.
"""

import argparse
import os
import subprocess
import sys

from measuring import built_program, processor

HERE = os.path.dirname(os.path.realpath(__file__))
README = os.path.join(HERE, "README.md")
BEGIN, END = "<!-- figures of all.py -->\n", "<!-- end of the figures -->\n"
BUSY = 0.25  # the part of the processors that others may use before the figures say so

PARTS = (
    ("Made traffic", "soak.py"),
    ("Sixteen ports", "fabric.py"),
    ("What a cell costs", "cases.py"),
    ("How a slot grows", "growth.py"),
    ("The ideal switch", "ideal.py"),
    ("Captures that are read ahead", "stream.py"),
    ("One port", "pass.py"),
    ("The largest configuration", "check.py"),
)


def others():
    """How many processors others keep busy, by the system's average over the last minute."""
    return os.getloadavg()[0]


def how_often(runs):
    if runs == "1":
        return "each run once"
    return "medians of %s runs" % runs if runs else "medians of 3 runs, of `stream` 5, of `pass` 7, of `check` 9"


def machine(before, after, runs):
    """Where and how it was measured. The scripts themselves keep two processors busy at most."""
    said = "Measured on an %s; %s." % (processor(), how_often(runs))
    if max(before, after - 2) > BUSY * os.cpu_count():
        said += (" **The machine had other work:** its load was %.1f before and %.1f after, so times are too long and"
                 " processor times somewhat, and instructions are what to compare." % (before, after))
    return said + "\n\n"


def figures(program, words):
    """The text of all tables, and the scripts that failed."""
    text, failed = "", []
    for title, script in PARTS:
        print("all.py: %s" % script, file=sys.stderr)
        run = subprocess.run([sys.executable, os.path.join(HERE, script), "--program", program, *words],
                             stdout=subprocess.PIPE, stderr=subprocess.PIPE, text=True, check=False)
        print(run.stderr, end="", file=sys.stderr)
        text += "### %s\n\n%s" % (title, run.stdout)
        if run.returncode != 0:
            failed.append(script)
            text += "**Failed:** %s\n\n" % (run.stderr.strip().split("\n") or [script])[-1]
    return text, failed


def rewrite(text):
    with open(README, encoding="utf-8") as file:
        before, rest = file.read().split(BEGIN)
    with open(README, "w", encoding="utf-8") as file:
        file.write(before + BEGIN + "\n" + text + END + rest.split(END)[1])


def main():
    words = argparse.ArgumentParser(description="Measures everything.")
    words.add_argument("--program", help="the program; by default the proved one, built first where need be")
    words.add_argument("--runs")
    words.add_argument("--scale", default="1")
    words.add_argument("--fast", action="store_true")
    words.add_argument("--print", action="store_true", dest="only_print")
    options = words.parse_args()
    program = os.path.abspath(options.program) if options.program else built_program()
    before = others()
    passed_on = ["--scale", options.scale] + ["--fast"] * options.fast + (["--runs", options.runs] if options.runs else [])
    text, failed = figures(program, passed_on)
    text = machine(before, others(), options.runs) + text
    if options.only_print:
        print(text, end="")
    else:
        rewrite(text)
    for script in failed:
        print("all.py: %s failed" % script, file=sys.stderr)
    return 1 if failed else 0


if __name__ == "__main__":
    sys.exit(main())
