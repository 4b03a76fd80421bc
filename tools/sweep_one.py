#!/usr/bin/env python3
"""One run of a sweep: what GNU parallel calls.

    sweep_one.py --program PROGRAM [--keep] NAME

It runs `PROGRAM run NAME.toml` with the report in NAME/report.txt and what it says in NAME/err.txt, and writes the
figures of the run to NAME/stats.json. Without `--keep` the captures, the trace and the log are taken away then.
"""

import argparse
import json
import os
import shlex
import subprocess
import sys

import stats
from cq.config import read_configuration
from cq.faults import guarded


def run(name: str, program: str) -> int:
    """Runs a configuration, and gives the status."""
    with open(os.path.join(name, "report.txt"), "wb") as report, open(os.path.join(name, "err.txt"), "wb") as said:
        return subprocess.run(
            [*shlex.split(program), "run", f"{name}.toml"], stdout=report, stderr=said, check=False
        ).returncode


def main() -> None:
    words = argparse.ArgumentParser(description="One run of a sweep.")
    words.add_argument("--program", required=True)
    words.add_argument("--keep", action="store_true")
    words.add_argument("name", metavar="NAME")
    options = words.parse_args()
    status = run(options.name, options.program)
    if status:
        sys.exit(status)

    def work() -> None:
        configuration = read_configuration(f"{options.name}.toml")
        made = os.path.join(options.name, "stats.json")
        with open(made + ".part", "w", encoding="utf-8") as file:
            json.dump(stats.document_of(configuration), file)
        os.replace(made + ".part", made)
        if not options.keep:
            for written in [
                configuration.trace,
                configuration.log,
                *(port["write"] for port in configuration.tables["port"]),
            ]:
                os.remove(written)

    guarded("sweep_one.py", work)


if __name__ == "__main__":
    main()
