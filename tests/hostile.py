#!/usr/bin/env python3
"""Tries the built program on damaged captures and configurations.

    tests/hostile.py --bin PROGRAM [--seed N] [--count N] [--from CASE] [--only CASE] [--jobs N]

Each case takes the files of a shipped example, damages one or more of them (bits turned, bytes cut,
joined, repeated, put in; numbers and keys of a configuration changed), and runs one command on them
twice, each time in a folder of its own. It fails on

- a status that the command cannot have on files that are all there to be read, or a line on standard
  error that is not the documented one of that status;
- a refusal of a capture that is not the one that `first_fault` below finds, which reads the format from its
  description alone;
- a file that was touched where none may be, or a written name that the configuration does not have;
- more than 2 seconds of processor time or 1 GB of memory;
- a second run that differs in status, texts or files.

A case depends on the seed and its number alone: `--only CASE` runs it again, and keeps its folder. A run that was
cut off goes on with `--from CASE`, the number in its last line on standard error; of the `--count` cases those ahead
of it are left out. The last line is `hostile: P passed, F failed`, and the status is 0 where none failed. No part of
the gate.
"""

import argparse
import concurrent.futures
import os
import random
import re
import resource
import shutil
import signal
import struct
import subprocess
import sys
import tempfile

EXAMPLES = os.path.join(os.path.dirname(os.path.abspath(__file__)), "..", "examples")
SECONDS, MEMORY, WALL = 2, 1 << 30, 60
STEP, TOLD = 200, 5  # so many cases a worker takes at a time, and after so many times a line says how far they are
LONGEST_RECORD = 262_144
DEFAULT_LIMIT = 67_108_864
MAGICS = {b"\xa1\xb2\xc3\xd4": ">", b"\xd4\xc3\xb2\xa1": "<", b"\xa1\xb2\x3c\x4d": ">", b"\x4d\x3c\xb2\xa1": "<"}
NUMBERS = (0, 1, 2, 15, 16, 59, 60, 61, 64, 255, 256, 65_535, 65_536, LONGEST_RECORD, LONGEST_RECORD + 1,
           2**31 - 1, 2**31, 2**32 - 1)
VALUES = ("0", "1", "2", "63", "64", "65", "24", "512", "4096", "65535", "65536", "1000000000", "1000000001", "-1",
          "9223372036854775807", "9223372036854775808", "1.5", "true", "[]", "{}", '""', '"x"', '"fair"', '"priority"',
          '"340282366920938463463374607431768211455"', '"340282366920938463463374607431768211456"', "1979-05-27", "nan")
KEYS = ("version", "cell_bytes", "slot_ns", "limit_bytes", "workers", "default_output", "default_class", "trace", "log",
        "class", "port", "address", "rule", "priority", "cost", "read", "write", "discipline", "mac", "output", "input",
        "pcp", "ether_type", "dscp", "zzz", "limit", "level")
LINES = {
    2: re.compile(r"configuration: C([1-9]|10) at \S+\n"),
    3: re.compile(r"capture of input \d+: ([1-4]|[56] at \d+|7 at \d+, length \d+|8, limit \d+)\n"),
    4: re.compile(r"tag: slot \d+, input \d+, output \d+\n"),
    5: re.compile(r"read fault: .+\n", re.DOTALL),
    6: re.compile(r"write fault: .+\n", re.DOTALL),
}


def first_fault(data, limit):
    """The number of the first fault of a capture and the figures behind it, as the line tells them; None where it has none."""
    if len(data) > limit:
        return f"8, limit {limit}"
    if len(data) < 24:
        return "1"
    order = MAGICS.get(data[:4])
    if order is None:
        return "2"
    if struct.unpack_from(order + "HH", data, 4) != (2, 4):
        return "3"
    if struct.unpack_from(order + "I", data, 20)[0] & 0xFFFF != 1:
        return "4"
    at = 24
    while at < len(data):
        if len(data) - at < 16:
            return f"5 at {at}"
        captured = struct.unpack_from(order + "I", data, at + 8)[0]
        if captured > LONGEST_RECORD:
            return f"7 at {at}, length {captured}"
        if len(data) - at - 16 < captured:
            return f"6 at {at}"
        at += 16 + captured
    return None


def load_examples():
    """The shipped examples with a configuration: its name, and what it reads."""
    found = []
    for folder in sorted(os.listdir(EXAMPLES)):
        path = os.path.join(EXAMPLES, folder)
        names = sorted(os.listdir(path)) if os.path.isdir(path) else []
        config = next((name for name in names if name.endswith(".toml")), None)
        if config is None:
            continue
        with open(os.path.join(path, config), "rb") as file:
            text = file.read()
        files = {config: text}
        for name in re.findall(rb'read = "([^"]*)"', text):
            with open(os.path.join(path, name.decode()), "rb") as file:
                files[name.decode()] = file.read()
        found.append((config, files))
    return found


def flip(draw, data, _):
    at = draw.randrange(len(data))
    return data[:at] + bytes([data[at] ^ (1 << draw.randrange(8))]) + data[at + 1:]


def cut(draw, data, _):
    return data[:draw.randrange(len(data) + 1)]


def take_out(draw, data, _):
    at = draw.randrange(len(data))
    return data[:at] + data[at + draw.randrange(1, 40):]


def repeat(draw, data, _):
    at = draw.randrange(len(data))
    piece = data[at:at + draw.randrange(1, 120)]
    return data[:at] + piece * draw.randrange(2, 5) + data[at:]


def put_in(draw, data, _):
    at = draw.randrange(len(data) + 1)
    return data[:at] + draw.randbytes(draw.randrange(1, 24)) + data[at:]


def join(draw, data, others):
    other = draw.choice(others)
    return data[:draw.randrange(len(data) + 1)] + other[draw.randrange(len(other) + 1):]


def number(draw, data, _):
    """Puts a telling number over four bytes, more often than not where a record's header may stand."""
    if len(data) < 4:
        return data
    at = draw.choice((draw.randrange(len(data) - 3), min(24 + 4 * draw.randrange(8), len(data) - 4)))
    return data[:at] + struct.pack(draw.choice("<>") + "I", draw.choice(NUMBERS)) + data[at + 4:]


def other_magic(draw, data, _):
    return draw.choice(list(MAGICS)) + data[4:]


def change_value(draw, data, _):
    places = [m.span(1) for m in re.finditer(rb"= *([^\n#]+)", data)]
    if not places:
        return data
    start, end = draw.choice(places)
    return data[:start] + draw.choice(VALUES).encode() + data[end:]


def change_key(draw, data, _):
    places = [m.span(1) for m in re.finditer(rb"(?m)^\s*([a-z_]+) *=", data)]
    if not places:
        return data
    start, end = draw.choice(places)
    return data[:start] + draw.choice(KEYS).encode() + data[end:]


def add_line(draw, data, _):
    lines = data.split(b"\n")
    line = f"{draw.choice(KEYS)} = {draw.choice(VALUES)}".encode()
    lines.insert(draw.randrange(len(lines) + 1), draw.choice((line, draw.choice(lines))))
    return b"\n".join(lines)


def drop_line(draw, data, _):
    lines = data.split(b"\n")
    lines.pop(draw.randrange(len(lines)))
    return b"\n".join(lines)


BYTES = (flip, flip, cut, take_out, repeat, put_in, join)
OF_CAPTURES = BYTES + (number, number, number, other_magic)
OF_CONFIGURATIONS = BYTES[:4] + (change_value,) * 5 + (change_key, add_line, add_line, drop_line)


def damaged(draw, data, ways, others):
    for _ in range(draw.choice((1, 1, 1, 2, 3))):
        if data:
            data = draw.choice(ways)(draw, data, others)
    return data


class Case:
    """What a case runs on: the files of its folder, and the words."""

    def __init__(self, seed, index, examples):
        draw = random.Random(f"{seed}.{index}")
        self.config, files = draw.choice(examples)
        self.files = dict(files)
        captures = [name for name in self.files if name != self.config]
        others = [data for name, data in self.files.items()]
        what = draw.choice(("pass", "capture", "capture", "configuration", "both"))
        if what in ("pass", "capture", "both"):
            for name in draw.sample(captures, draw.choice((1, 1, len(captures)))):
                self.files[name] = damaged(draw, self.files[name], OF_CAPTURES, others)
        if what in ("configuration", "both"):
            self.files[self.config] = damaged(draw, self.files[self.config], OF_CONFIGURATIONS, others)
        if what == "pass":
            self.read = draw.choice(captures)
            self.words = ["pass", self.read, "made.pcap"]
        else:
            self.read = None
            self.words = [draw.choice(("run", "run", "ideal", "check")), self.config]
        self.is_config_damaged = what in ("configuration", "both")

    def put(self, folder):
        for name, data in self.files.items():
            with open(os.path.join(folder, name), "wb") as file:
                file.write(data)


def picture(folder):
    found = {}
    for at, _, names in os.walk(folder):
        for name in names:
            path = os.path.join(at, name)
            with open(path, "rb") as file:
                found[os.path.relpath(path, folder)] = file.read()
    return found


def limits():
    """Holds the program to its memory and its seconds, unless it is built with checks of its own that want more."""
    if not os.environ.get("HOSTILE_FREE_MEMORY"):
        resource.setrlimit(resource.RLIMIT_AS, (MEMORY, MEMORY))
    resource.setrlimit(resource.RLIMIT_CPU, (SECONDS, SECONDS + 1))


def run(program, case, folder):
    case.put(folder)
    done = subprocess.run([program, *case.words], cwd=folder, stdin=subprocess.DEVNULL, capture_output=True,
                          timeout=WALL, preexec_fn=limits)
    return done.returncode, done.stdout, done.stderr, picture(folder)


def expected_refusal(case):
    """The line that a damaged capture must get, where the configuration is as shipped; or None."""
    if case.is_config_damaged or case.words[0] == "check":
        return None
    names = [case.read] if case.read else re.findall(r'read = "([^"]*)"', case.files[case.config].decode())
    text = case.files[case.config].decode()
    inputs = [0] if case.read else [index for index, port in enumerate(text.split("[[port]]")[1:]) if "read =" in port]
    for input_, name in zip(inputs, names):
        fault = first_fault(case.files[name], DEFAULT_LIMIT)
        if fault:
            return f"capture of input {input_}: {fault}\n"
    return ""


def complaint(case, status, out, err, files):
    """What is wrong with the answer, or None."""
    if status < 0:
        return f"ended by {signal.Signals(-status).name}"
    line = err.decode("utf-8", "replace")
    if status == 0:
        if err:
            return "status 0 with a line on standard error"
    elif status not in LINES or not LINES[status].fullmatch(line):
        return f"status {status} with {line!r}"
    touched = {name for name in files if files[name] != case.files.get(name)} | {n for n in case.files if n not in files}
    if status not in (0, 6) and touched:
        return f"status {status}, and touched {sorted(touched)}"
    if case.words[0] == "check" and touched:
        return f"check touched {sorted(touched)}"
    if status not in (0, 6) and out:
        return f"status {status}, and wrote to standard output"
    if status == 6 and not case.is_config_damaged:
        return "a write fault under the shipped configuration"
    if status == 5 and not case.is_config_damaged:
        return "a read fault under the shipped configuration"
    if status == 2 and not case.is_config_damaged:
        return "the shipped configuration was refused"
    refusal = expected_refusal(case)
    if refusal is not None and (refusal if status == 3 else "") != refusal:
        return f"status {status}, and not {refusal!r}"
    if refusal is not None and status == 3 and line != refusal:
        return f"{line!r}, and not {refusal!r}"
    return None


def try_case(program, seed, index, examples, keep=None):
    case = Case(seed, index, examples)
    answers = []
    for _ in range(2):
        folder = tempfile.mkdtemp(prefix="hostile-") if keep is None else keep
        try:
            answers.append(run(program, case, folder))
        except subprocess.TimeoutExpired:
            return case, None, f"more than {WALL} seconds"
        finally:
            if keep is None:
                shutil.rmtree(folder, ignore_errors=True)
        if keep is not None:
            break
    said = complaint(case, *answers[0])
    if said is None and len(answers) == 2 and answers[0] != answers[1]:
        said = "a second run differs"
    return case, answers[0][0], said


def try_range(program, seed, first, last):
    examples = load_examples()
    counts, faults = {}, []
    for index in range(first, last):
        case, status, said = try_case(program, seed, index, examples)
        counts[status] = counts.get(status, 0) + 1
        if said:
            faults.append(f"case {index}: {' '.join(case.words)}: {said}")
    return counts, faults


def try_all(program, given):
    """How often each status came, and how many cases failed. The faults are printed as they are found."""
    counts, failed = {}, 0
    with concurrent.futures.ProcessPoolExecutor(given.jobs) as pool:
        ends = [min(at + STEP, given.count) for at in range(given.first, given.count, STEP)]
        parts = [pool.submit(try_range, program, given.seed, at, end) for at, end in zip([given.first] + ends, ends)]
        for number, (end, part) in enumerate(zip(ends, parts), 1):
            more, faults = part.result()
            for status, count in more.items():
                counts[status] = counts.get(status, 0) + count
            for fault in faults:
                print(fault, flush=True)
            failed += len(faults)
            if number % TOLD == 0:
                print(f"hostile: the cases ahead of {end} are done", file=sys.stderr, flush=True)
    return counts, failed


def main():
    words = argparse.ArgumentParser(description="Tries the built program on damaged captures and configurations.")
    words.add_argument("--bin", required=True, help="the built program")
    words.add_argument("--seed", type=int, default=1)
    words.add_argument("--count", type=int, default=1_000, help="how many cases there are, from number 0 on")
    words.add_argument("--from", type=int, default=0, dest="first", metavar="CASE", help="the cases ahead are done")
    words.add_argument("--only", type=int, help="this case alone, in a folder that stays")
    words.add_argument("--jobs", type=int, default=os.cpu_count())
    given = words.parse_args()
    program = os.path.abspath(given.bin)
    if given.only is not None:
        folder = tempfile.mkdtemp(prefix=f"hostile-{given.seed}-{given.only}-")
        case, status, said = try_case(program, given.seed, given.only, load_examples(), folder)
        print(f"{folder}: {' '.join(case.words)}: status {status}: {said or 'as it must be'}")
        return 1 if said else 0
    counts, failed = try_all(program, given)
    told = ", ".join(f"status {status}: {counts[status]}" for status in sorted(counts, key=str))
    print(f"seed {given.seed}: {told}")
    print(f"hostile: {max(0, given.count - given.first) - failed} passed, {failed} failed")
    return 1 if failed else 0


if __name__ == "__main__":
    sys.exit(main())
