#!/usr/bin/env python3
"""Runs one configuration with many values of its keys, and gathers the figures of all runs in one CSV.

    sweep.py CONFIG FOLDER KEY=VALUE,VALUE.. [KEY=VALUE,..]

KEY is a key of the top table (`cell_bytes`), one of a row (`port[1].discipline`, `class[0].cost`) or of all rows
(`port[*].discipline`). `line_rate=1G,10G` stands for the `slot_ns` that gives lines of this rate with the cells of
the run. Each combination gets a configuration FOLDER/NUMBER.toml that reads the same captures and writes into
FOLDER/NUMBER/. GNU parallel runs them all, here or on the machines of `--sshlogin`, where the current folder and
this repository have to be under the same paths. FOLDER/joblog keeps what is done, so that the same command goes on
where it was cut off. At the end FOLDER/sweep.csv has the figures; `plot.py sweep` draws it.
"""

import argparse
import csv
import itertools
import json
import os
import re
import shlex
import shutil
import subprocess
import sys
from copy import deepcopy
from fractions import Fraction
from typing import Any

from cq import ROOT
from cq.config import configuration_of, load
from cq.faults import Fault, guarded
from cq.toml import is_rows, toml_text

ONE = os.path.join(os.path.dirname(os.path.realpath(__file__)), "sweep_one.py")
LAUNCHER = shlex.quote(os.path.join(ROOT, "cq_switch"))
PREFIXES = {"": 1, "k": 10**3, "M": 10**6, "G": 10**9, "T": 10**12}
LONGEST_INTEGER = 2**63 - 1  # of TOML; wider numbers are texts
RUN_FIGURES = (
    "cell_bytes",
    "slot_ns",
    "line_rate_bits",
    "slots",
    "fill",
    "list_peak",
    "buffer_peak",
    "slack_least",
    "proposals_mean",
    "proposals_most",
)

Choice = dict[str, str]  # a value for each key


def bits_of(text: str) -> Fraction:
    """A line rate, as `10M`, `2.5G` or a number of bits a second."""
    match = re.fullmatch(r"(\d+(?:\.\d+)?)([kMGT]?)", text)
    if not match or not Fraction(match[1]):
        raise Fault(f"line_rate={text}: a rate is a number with k, M, G or T behind it, as 2.5G")
    return Fraction(match[1]) * PREFIXES[match[2]]


def slot_of(rate: str, cell_bytes: int | str) -> int:
    """The whole nanoseconds that are next to what a cell takes on such a line."""
    if not isinstance(cell_bytes, int):
        raise Fault(f"cell_bytes={cell_bytes}: it is to be a number")
    slot_ns = round(Fraction(8 * 10**9 * cell_bytes) / bits_of(rate))
    if slot_ns < 1:
        raise Fault(f"line_rate={rate}: a cell of {cell_bytes} bytes takes less than a nanosecond")
    return slot_ns


def value_of(text: str) -> int | str:
    """A number where it is one that TOML has, or else a text."""
    return int(text) if re.fullmatch(r"0|-?[1-9]\d*", text) and abs(int(text)) <= LONGEST_INTEGER else text


def rows_of(tables: dict[str, Any], key: str) -> tuple[list[dict[str, Any]], str]:
    """The tables that a key speaks of, and its name there."""
    match = re.fullmatch(r"(\w+)\[(\d+|\*)\]\.(\w+)", key)
    if not match:
        if not re.fullmatch(r"\w+", key):
            raise Fault(f"{key}: a key is as cell_bytes, port[1].discipline or port[*].discipline")
        return [tables], key
    rows = tables[match[1]] if is_rows(tables.get(match[1])) else []
    if match[2] != "*":
        rows = rows[int(match[2]) : int(match[2]) + 1]
    if not rows:
        raise Fault(f"{key}: the configuration has no such {match[1]}")
    return rows, match[3]


def chosen(tables: dict[str, Any], choice: Choice, folder: str) -> dict[str, Any]:
    """The tables with these values, and with files of their own in the folder."""
    made = deepcopy(tables)
    for key, text in choice.items():
        if key != "line_rate":
            rows, name = rows_of(made, key)
            for row in rows:
                row[name] = value_of(text)
    if "line_rate" in choice:
        if "slot_ns" in choice:
            raise Fault("line_rate and slot_ns: the first gives the second, so take one")
        made["slot_ns"] = slot_of(choice["line_rate"], made.get("cell_bytes", 64))
    for name in ("trace", "log"):
        made[name] = os.path.join(folder, name + ".txt")
    for number, port in enumerate(rows_of(made, "port[*].write")[0]):
        port["write"] = os.path.join(folder, f"out{number}.pcap")
    return made


def choices_of(words: list[str]) -> list[Choice]:
    """Each combination of the values, the last key's changing fastest."""
    keys: dict[str, list[str]] = {}
    for word in words:
        key, equals, values = word.partition("=")
        if not equals or not all(values.split(",")) or key in keys:
            raise Fault(f"{word}: it is to be KEY=VALUE,VALUE.. with a key that stands there once")
        keys[key] = values.split(",")
    return [dict(zip(keys, values)) for values in itertools.product(*keys.values())]


def write_plan(config: str, folder: str, choices: list[Choice]) -> list[str]:
    """Writes the configurations, and gives their numbers. A folder with another sweep is refused."""
    tables, width = load(config), len(str(len(choices)))
    numbers = [str(at).zfill(width) for at in range(len(choices))]
    texts = {}
    for number, choice in zip(numbers, choices):
        name = os.path.join(folder, number)
        made = chosen(tables, choice, name)
        configuration_of(", ".join(f"{key}={value}" for key, value in choice.items()), made)
        texts[f"{name}.toml"] = toml_text(made)
    plan, plan_name = json.dumps({"choices": choices, "texts": texts}), os.path.join(folder, "plan.json")
    if os.path.exists(plan_name):
        with open(plan_name, encoding="utf-8") as file:
            if file.read() != plan:
                raise Fault(f"{folder}: it has another sweep; take a new folder")
    for number in numbers:
        os.makedirs(os.path.join(folder, number), exist_ok=True)
    for name, text in texts.items():
        with open(name, "w", encoding="utf-8") as file:
            file.write(text)
    with open(plan_name, "w", encoding="utf-8") as file:
        file.write(plan)
    return numbers


def see_built(program: str) -> None:
    """Calls the program once without words, so that a launcher builds it where need be, and not each run anew."""
    called = subprocess.run(shlex.split(program), stdin=subprocess.DEVNULL, capture_output=True, text=True, check=False)
    if called.returncode in (126, 127):
        raise Fault(f"{program} cannot be called: {called.stderr.strip() or 'it is not there'}")


def run_all(folder: str, numbers: list[str], options: argparse.Namespace) -> None:
    """Runs what is not done yet."""
    if not shutil.which("parallel"):
        raise Fault("GNU parallel is not there: `apt-get install parallel`")
    if not options.sshlogin:
        see_built(options.program)
    job = [sys.executable, ONE, "--program", options.program] + ["--keep"] * options.keep
    words = ["parallel", "--joblog", os.path.join(folder, "joblog"), "--resume-failed" if options.again else "--resume"]
    words += ["--bar"] * sys.stderr.isatty() + ["--jobs", options.jobs] * bool(options.jobs)
    if options.sshlogin:
        words += ["--sshlogin", options.sshlogin, "--workdir", os.getcwd()]
    subprocess.run(
        [*words, shlex.join(job) + " {}", ":::", *(os.path.join(folder, number) for number in numbers)], check=False
    )


def rows(folder: str, number: str, choice: Choice) -> list[dict[str, Any]]:
    """The rows of a run: one for each output and class, and for all of them. A run that failed has one without
    figures."""
    row: dict[str, Any] = {"configuration": number} | choice
    try:
        with open(os.path.join(folder, number, "stats.json"), encoding="utf-8") as file:
            document = json.load(file)
    except FileNotFoundError:
        return [row | {"output": "all", "class": "all"}]
    run = document["run"]
    row |= {name: run[name] for name in RUN_FIGURES}
    row["proposal_ns"] = round(run["slot_ns"] / 2 / run["proposals_most"], 3) if run["proposals_most"] else None
    return [row | flow for flow in document["flows"]]


def gather(folder: str, numbers: list[str], choices: list[Choice]) -> tuple[str, int]:
    """Writes sweep.csv. The answer is its name, and how many runs have no figures."""
    name, found = os.path.join(folder, "sweep.csv"), [rows(folder, *pair) for pair in zip(numbers, choices)]
    columns = max((list(run[0]) for run in found), key=len)
    with open(name, "w", encoding="utf-8", newline="") as file:
        writer = csv.DictWriter(file, columns, lineterminator="\n")
        writer.writeheader()
        for run in found:
            writer.writerows(run)
    return name, sum("slots" not in run[0] for run in found)


def main() -> None:
    words = argparse.ArgumentParser(description="Runs one configuration with many values of its keys.")
    words.add_argument("config", metavar="CONFIG")
    words.add_argument("folder", metavar="FOLDER")
    words.add_argument("keys", metavar="KEY=VALUE,..", nargs="+")
    words.add_argument("--program", default=LAUNCHER, help="what is called with `run CONFIG`")
    words.add_argument("--jobs", help="how many runs at a time, as GNU parallel takes it")
    words.add_argument("--sshlogin", help="the machines to run on, as GNU parallel takes them")
    words.add_argument("--again", action="store_true", help="run those again that failed")
    words.add_argument("--keep", action="store_true", help="keep the captures, traces and logs that are written")
    options = words.parse_args()

    def work() -> None:
        choices = choices_of(options.keys)
        numbers = write_plan(options.config, options.folder, choices)
        run_all(options.folder, numbers, options)
        name, missing = gather(options.folder, numbers, choices)
        print(f"{name}: {len(numbers)} runs")
        if missing:
            raise Fault(f"{missing} of {len(numbers)} runs have no figures: see {options.folder}/*/err.txt")

    guarded("sweep.py", work)


if __name__ == "__main__":
    main()
