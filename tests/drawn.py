#!/usr/bin/env python3
"""Compares the built program with the models on drawn switches.

    tests/drawn.py --bin PROGRAM [--seed N] [--count N] [--only CASE] [--jobs N]

Each case draws a configuration of one to five ports, in which outputs have limits or none, and in version 2 classes have
levels, and captures that crowd some of the outputs. The program and the models of `examples/` run `ideal` and `run` on
it, each in a folder of its own. It fails on a status that is not 0, a report that differs, or a written file that differs
or is not there.

A case depends on the seed and its number alone: `--only CASE` runs it again, and keeps its folders. A line tells how many
cases refused a packet and how many had classes of two levels, so that nobody trusts draws that never do. The last line is
`drawn: P passed, F failed`, and the status is 0 where none failed. It needs Python 3.11 and is no part of the gate.
"""

import argparse
import concurrent.futures
import os
import random
import shutil
import struct
import subprocess
import sys
import tempfile

EXAMPLES = os.path.join(os.path.dirname(os.path.abspath(__file__)), "..", "examples")
MODELS = {"ideal": ["switch_model.py"], "run": ["fabric_model.py", "run"]}
HEADER = struct.pack("<IHHiIII", 0xA1B23C4D, 2, 4, 0, 0, 262144, 1)  # nanoseconds
DISCIPLINES = ("first-come", "priority", "fair")


def drawn_capture(draw, ports, slot_ns, cell_bytes):
    """Packets of one to four cells, in bursts with pauses between them."""
    packets, stamp = [HEADER], draw.randrange(0, 8 * slot_ns)
    for _ in range(draw.randrange(0, 25)):
        stamp += draw.choice((0, 0, slot_ns // 2, slot_ns, slot_ns, 3 * slot_ns, 40 * slot_ns))
        length = draw.choice((0, 13, 14, 60, cell_bytes, cell_bytes + 1, 2 * cell_bytes, 4 * cell_bytes))
        to = draw.randrange(ports) if draw.random() < 0.4 else 0  # most go to output 0
        frame = bytes([2, 0, 0, 0, 0, to, 2, 0, 0, 0, 1, 1, 0x81, 0, draw.randrange(8) << 5, 0, 0x88, 0xB5])
        body = frame.ljust(length, b"\0")[:length]
        packets.append(struct.pack("<IIII", stamp // 10**9, stamp % 10**9, length, length + 4) + body)
    return b"".join(packets)


def drawn_tables(draw, ports):
    """A configuration, with the numbers on which the captures depend."""
    slot_ns, cell_bytes, classes = draw.choice((100, 512)), draw.choice((32, 64)), draw.randrange(1, 4)
    version = draw.choice((1, 2, 2))
    lines = ["version = %d" % version, 'trace = "trace.txt"', 'log = "log.txt"', "slot_ns = %d" % slot_ns,
             "cell_bytes = %d" % cell_bytes, "workers = %d" % draw.randrange(1, 4)]
    for _ in range(classes):
        lines += ["[[class]]", 'priority = "%d"' % draw.randrange(4), 'cost = "%d"' % draw.randrange(1, 5)]
        if version == 2 and draw.random() < 0.8:
            lines.append("level = %d" % draw.choice((0, 1, 2, 15)))
    for port in range(ports):
        lines += ["[[port]]", 'write = "out%d.pcap"' % port, 'discipline = "%s"' % draw.choice(DISCIPLINES)]
        if draw.random() < 0.9:
            lines.append('read = "in%d.pcap"' % port)
        if draw.random() < 0.7:
            lines.append("limit = %d" % draw.choice((1, 1, 2, 3, 5, 8, 10**9)))
    for port in range(ports):
        lines += ["[[address]]", 'mac = "02:00:00:00:00:%02x"' % port, "output = %d" % port]
    for pcp in range(draw.randrange(8)):
        lines += ["[[rule]]", "pcp = %d" % pcp, "class = %d" % draw.randrange(classes)]
    return "\n".join(lines) + "\n", slot_ns, cell_bytes


def draw_case(seed, number):
    """The files of a case."""
    draw = random.Random("%d %d" % (seed, number))
    ports = draw.randrange(1, 6)
    config, slot_ns, cell_bytes = drawn_tables(draw, ports)
    files = {"in%d.pcap" % port: drawn_capture(draw, ports, slot_ns, cell_bytes) for port in range(ports)}
    return {"switch.toml": config.encode(), **files}


def ran(folder, files, command):
    """Standard output of a command in a folder of these files, and all files there afterwards."""
    os.mkdir(folder)
    for name, data in files.items():
        with open(os.path.join(folder, name), "wb") as file:
            file.write(data)
    done = subprocess.run(command, cwd=folder, stdout=subprocess.PIPE, stderr=subprocess.PIPE, check=False)
    left = {}
    for name in sorted(os.listdir(folder)):
        with open(os.path.join(folder, name), "rb") as file:
            left[name] = file.read()
    return done.returncode, done.stdout, done.stderr, left


def has_levels(config):
    """Whether it has classes of two levels."""
    rows = config.split("[[class]]")[1:]
    return len({row.split("level = ")[1].split("\n")[0] if "level = " in row else "0" for row in rows}) > 1


def try_case(program, seed, number, keep):
    """What differs, if anything does, and whether a packet was refused."""
    files, aside = draw_case(seed, number), tempfile.mkdtemp(prefix="drawn-%d-" % number)
    refused = False
    try:
        for word, model in MODELS.items():
            ours = ran(os.path.join(aside, word), files, [program, word, "switch.toml"])
            script = [sys.executable, os.path.join(EXAMPLES, model[0])] + model[1:] + ["switch.toml"]
            theirs = ran(os.path.join(aside, word + "-model"), files, script)
            if theirs[0] != 0:
                return "%s: the model ended with %d: %s" % (word, theirs[0], theirs[2].decode()), refused
            if ours[0] != 0:
                return "%s: status %d, %r" % (word, ours[0], ours[2]), refused
            if ours[1] != theirs[1]:
                return "%s: the reports differ" % word, refused
            wrong = [name for name in sorted(set(ours[3]) | set(theirs[3])) if ours[3].get(name) != theirs[3].get(name)]
            if wrong:
                return "%s: %s" % (word, ", ".join(wrong)), refused
            refused = refused or any(b" refused 0 " not in line for line in theirs[1].splitlines() if line[:6] == b"limit ")
        return None, refused
    finally:
        if not keep:
            shutil.rmtree(aside)
        else:
            print("kept in %s" % aside)


def main():
    parser = argparse.ArgumentParser()
    parser.add_argument("--bin", required=True)
    parser.add_argument("--seed", type=int, default=1)
    parser.add_argument("--count", type=int, default=200)
    parser.add_argument("--only", type=int)
    parser.add_argument("--jobs", type=int, default=os.cpu_count())
    options = parser.parse_args()
    program, only = os.path.abspath(options.bin), options.only
    numbers = range(options.count) if only is None else [only]
    failed = refusing = levelled = 0
    with concurrent.futures.ThreadPoolExecutor(options.jobs) as pool:
        found = pool.map(lambda number: try_case(program, options.seed, number, only is not None), numbers)
        for number, (difference, refused) in zip(numbers, found):
            refusing += refused
            levelled += has_levels(draw_case(options.seed, number)["switch.toml"].decode())
            if difference is not None:
                failed += 1
                print("case %d: %s" % (number, difference), flush=True)
    print("cases that refused a packet: %d, with classes of two levels: %d" % (refusing, levelled))
    print("drawn: %d passed, %d failed" % (len(numbers) - failed, failed))
    return 1 if failed else 0


if __name__ == "__main__":
    sys.exit(main())
