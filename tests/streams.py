#!/usr/bin/env python3
"""Compares `stream` with `run` on the built program.

    tests/streams.py --bin PROGRAM [--seed N] [--count N] [--again N]

Each case is run once by `run` and once by `stream`, each in a folder of its own, and the two have to end with the same
status, texts and files. The cases are the shipped examples; then `--count` drawn switches of 1 to 16 ports, with
captures in all four forms, some of them about as long as a reader's ring; and then as many with damage: bytes of
captures and of configurations changed (by `hostile.py`), files that are missing, folders in the place of a file, a low
limit. Then `stream` is run `--again` times in a row on one drawn switch, and each time has to end by itself within a
minute with the same bytes. The last line is `streams: P passed, F failed`, and the status is 0 where none failed. No
part of the gate.
"""

import argparse
import os
import random
import shutil
import struct
import subprocess
import sys
import tempfile

import hostile

WALL = 60


def capture(draw, ports, packets, lengths=(0, 13, 14, 60, 60, 64, 65, 200, 1514)):
    """A capture in a drawn form: its header, and packets to addresses of the switch."""
    order, nano = draw.choice("<>"), draw.choice((False, True))
    magic = 0xA1B23C4D if nano else 0xA1B2C3D4
    data = [struct.pack(order + "IHHiIII", magic, 2, 4, 0, 0, 262_144, 1)]
    at = draw.randrange(3000)
    for _ in range(packets):
        at += draw.choice((0, 1, 7, 600, 1500))
        length = draw.choice(lengths)
        frame = bytes([2, 0, 0, 0, 0, draw.randrange(ports)]) + bytes([2, 0, 0, 0, 0, 0xAA, 0x88, 0xB5])
        frame = (frame + bytes(length))[:length]
        data.append(struct.pack(order + "IIII", 0, at if nano else 0, length, length + draw.choice((0, 0, 9))) + frame)
    return b"".join(data)


class Drawn:
    """A switch that is drawn: its configuration, and its captures."""

    def __init__(self, draw, long=False):
        ports = 3 if long else draw.choice((1, 2, 2, 3, 5, 16))
        lines = ["version = 1", 'trace = "trace.txt"', 'log = "log.txt"', f"workers = {draw.choice((1, 1, 2))}"]
        self.files = {}
        for port in range(ports):
            lines.append("[[port]]")
            name = f"in{draw.randrange(port + 1) if draw.random() < 0.1 else port}.pcap"
            if draw.random() < 0.85:
                lines.append(f'read = "{name}"')
                data = capture(draw, ports, draw.choice((0, 1, 3, 20, 40)))
                if long and port == 0 or draw.random() < 0.02:
                    data = capture(draw, ports, draw.choice((1022, 1023, 1024, 1025)), (60,))
                self.files.setdefault(name, data)
            lines.append(f'write = "out{port}.pcap"')
            if draw.random() < 0.3:
                lines.append('discipline = "fair"')
        for port in range(ports):
            lines += ["[[address]]", f'mac = "02:00:00:00:00:{port:02x}"', f"output = {port}"]
        self.config = "c.toml"
        self.files[self.config] = "\n".join(lines + [""]).encode()
        self.folders = []

    def damage(self, draw):
        captures = [name for name in self.files if name != self.config]
        others = list(self.files.values())
        if draw.random() < 0.1:
            text = self.files[self.config]
            self.files[self.config] = hostile.damaged(draw, text, hostile.OF_CONFIGURATIONS, others)
        if draw.random() < 0.15:
            text = self.files[self.config]
            self.files[self.config] = text.replace(b"version = 1", b"version = 1\nlimit_bytes = 2000")
        for name in captures:
            way = draw.random()
            if way < 0.35:
                self.files[name] = hostile.damaged(draw, self.files[name], hostile.OF_CAPTURES, others)
            elif way < 0.42:
                del self.files[name]
            elif way < 0.5:
                del self.files[name]
                self.folders.append(name)


def answer(program, case, word):
    folder = tempfile.mkdtemp(prefix="streams-")
    try:
        for name, data in case.files.items():
            with open(os.path.join(folder, name), "wb") as file:
                file.write(data)
        for name in case.folders:
            os.mkdir(os.path.join(folder, name))
        done = subprocess.run([program, word, case.config], cwd=folder, stdin=subprocess.DEVNULL, capture_output=True,
                              timeout=WALL)
        return done.returncode, done.stdout, done.stderr, hostile.picture(folder)
    except subprocess.TimeoutExpired:
        return f"more than {WALL} seconds"
    finally:
        shutil.rmtree(folder, ignore_errors=True)


def cases(seed, count):
    for config, files in hostile.load_examples():
        case = Drawn(random.Random(0))
        case.config, case.files = config, files
        yield config, case
    for index in range(count):
        yield f"drawn {index}", Drawn(random.Random(f"{seed}.{index}"))
    for index in range(count):
        draw = random.Random(f"{seed}.damaged.{index}")
        case = Drawn(draw)
        case.damage(draw)
        yield f"damaged {index}", case


def main():
    parser = argparse.ArgumentParser(description="Compares stream with run.")
    parser.add_argument("--bin", required=True)
    parser.add_argument("--seed", type=int, default=1)
    parser.add_argument("--count", type=int, default=200)
    parser.add_argument("--again", type=int, default=1000)
    given = parser.parse_args()
    program = os.path.abspath(given.bin)
    passed, failed, statuses = 0, 0, {}
    for name, case in cases(given.seed, given.count):
        by_run, by_stream = answer(program, case, "run"), answer(program, case, "stream")
        statuses[by_run[0]] = statuses.get(by_run[0], 0) + 1
        if by_run == by_stream and not isinstance(by_run, str):
            passed += 1
        else:
            failed += 1
            print(f"{name}: `run` {by_run[:3]!r:.300}, and `stream` {by_stream[:3]!r:.300}", flush=True)
    print(f"statuses of run: {dict(sorted(statuses.items(), key=str))}", file=sys.stderr, flush=True)
    case = Drawn(random.Random(f"{given.seed}.again"), long=True)
    wanted = answer(program, case, "run")
    assert not isinstance(wanted, str), wanted
    for index in range(given.again):
        if answer(program, case, "stream") == wanted:
            passed += 1
        else:
            failed += 1
            print(f"run {index} in a row differs", flush=True)
    print(f"streams: {passed} passed, {failed} failed")
    return 1 if failed else 0


if __name__ == "__main__":
    sys.exit(main())
