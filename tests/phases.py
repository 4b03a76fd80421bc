#!/usr/bin/env python3
"""Refuses a phase of two workers one growth of its memory after the other, and looks at what the phase comes to.

    tests/phases.py --bin TESTS [--jobs N]

TESTS are the built tests of `cq_list_trials`, which the gate and `rt test` leave as `out/cq_list_trials_tests` in the
crate's folder. One of them settles a phase over 64 inputs with opposed preferences, and passes where the partners and
the proposals are those that such a phase always comes to. The library of `starve.py` counts the growths of one run, and
refuses the one with the number N, or that one and all behind it, from the first on until the numbers have gone past the
last. In two more rounds the starts of threads are refused in the same way.

Where the lists or the offers of the test cannot grow the test ends early, with no thread asked for. Any other refusal
changes nothing of the phase. So each run has to pass, with status 0 and nothing on standard error, and in each round
of growths some have to come to a phase that asks for a thread though something was refused.

The last line is `phases: P passed, F failed`, and the status is 1 where one failed. No part of the gate: with
`rt try cq_list_trials --test --fail-alloc N` the same test can be run for one N without a build, a minute each.
"""

import argparse
import concurrent.futures
import itertools
import os
import subprocess
import sys
import tempfile

from starve import NEVER, QUIET, ROUNDS, WALL, built_shim, call

TEST = "tests::crew::whatever_growth_is_refused_a_phase_comes_to_the_same"


def attempt(tests, folder, shim, round_, at):
    """How a run of the test ended, or None where it did not, and what is wrong with that, or None."""
    try:
        ended = call([tests, TEST], folder, shim, round_, at)
    except subprocess.TimeoutExpired:
        return None, f"more than {WALL} seconds"
    if ended.status == 0 and not ended.err:
        return ended, None
    return ended, f"status {ended.status} with {ended.err.decode('utf-8', 'replace')!r}"


def try_round(pool, tests, folder, shim, round_):
    """Refuses one after the other until nothing is refused. Prints what came, and gives how many runs passed and failed."""
    runs = refused = shared = 0
    faults = []
    for first in itertools.count(0, QUIET):
        parts = [(at, pool.submit(attempt, tests, folder, shim, round_, at)) for at in range(first, first + QUIET)]
        refused_before = refused
        for at, part in parts:
            ended, said = part.result()
            runs += 1
            if ended and ended.refused:
                refused += 1
                shared += ended.threads > 0
            if said:
                faults.append(f"number {at}: {said}")
        if refused == refused_before:
            break
    if not shared:
        faults.append("no phase asked for a thread where something was refused")
    for fault in faults:
        print(f"FAILS {round_.name}, {fault}", flush=True)
    print(f"{round_.name}: refused in {refused} runs, of which {shared} asked for a thread", flush=True)
    return runs - len(faults) + (not shared), len(faults)


def main():
    words = argparse.ArgumentParser(description="Refuses a phase one growth after the other.")
    words.add_argument("--bin", required=True, help="the built tests of cq_list_trials")
    words.add_argument("--jobs", type=int, default=os.cpu_count())
    given = words.parse_args()
    tests = os.path.abspath(given.bin)
    passed = failed = 0
    with tempfile.TemporaryDirectory(prefix="phases-") as top, concurrent.futures.ThreadPoolExecutor(given.jobs) as pool:
        shim = built_shim(top)
        folder = os.path.join(top, "case")
        os.mkdir(folder)
        ended, said = attempt(tests, folder, shim, ROUNDS[0], NEVER)
        if not said and not (ended.growths and ended.threads):
            said = "it asks for no memory by the C library, or for no thread"
        if said:
            print(f"FAILS nothing refused: {said}", flush=True)
            print("phases: 0 passed, 1 failed")
            return 1
        print(f"nothing refused: {ended.growths} growths, {ended.threads} threads")
        for round_ in ROUNDS:
            more = try_round(pool, tests, folder, shim, round_)
            passed, failed = passed + more[0], failed + more[1]
    print(f"phases: {passed + 1} passed, {failed} failed")
    return 1 if failed else 0


if __name__ == "__main__":
    sys.exit(main())
