#!/usr/bin/env python3
"""Compares what the program says of traces and logs with what a plain model says.

    audits.py --bin PROGRAM [--seed N] [--switches N] [--changes N] [--from N]

It draws switches, with limits and levels or without, and their traffic. Each is run by the program, whose audit then has to say
yes, as it has to over the shipped examples. Then the log is made anew by a fabric whose matchings are stable and best for the
outputs, and that has to get a yes too, with the trace that is there already. After that single changes are drawn in the
trace and in the log that the run left, and each time the program has to print and to answer what `examples/audit_model.py`
says. The last line tells how many there were of each answer, and how many of the logs made anew were other ones. It needs
Python 3.11.
"""

import argparse
import os
import random
import subprocess
import sys
import tempfile

HERE = os.path.dirname(os.path.realpath(__file__))
sys.path.insert(0, os.path.join(HERE, "..", "examples"))

import hostile  # noqa: E402
from audit_model import verdict  # noqa: E402
from fabric_model import Fabric  # noqa: E402
from model import Packet, captured  # noqa: E402
from switch_model import Switch  # noqa: E402

KINDS = ("first-come", "priority", "fair")
CROWDED = 8  # every eighth switch has eight ports, of which two outputs are busy


def configuration(draw, ports, classes, stations, is_crowded):
    """A drawn switch. A crowded one is fair and has no limits: there stable matchings differ most often."""
    version = draw.choice((1, 2))
    lines = ["version = %d" % version, "default_output = %d" % draw.randrange(ports)]
    lines += ['trace = "trace.txt"', 'log = "log.txt"']
    for _ in range(classes):
        lines += ["[[class]]", "priority = %d" % draw.randrange(9), "cost = %d" % draw.randrange(1, 9)]
        if version == 2 and draw.random() < 0.6:
            lines.append("level = %d" % draw.choice((0, 1, 2, 15)))
    for i in range(ports):
        lines += ["[[port]]", 'read = "in%d.pcap"' % i, 'write = "out%d.pcap"' % i]
        lines += ['discipline = "%s"' % draw.choice(KINDS[2:] if is_crowded else KINDS)]
        if draw.random() < 0.4 and not is_crowded:
            lines.append("limit = %d" % draw.choice((1, 2, 3, 5)))
    for j in range(stations):
        lines += ["[[address]]", 'mac = "02:00:00:00:00:%02x"' % j, "output = %d" % draw.randrange(ports)]
    for k in range(1, classes):
        lines += ["[[rule]]", "pcp = %d" % k, "class = %d" % k]
    return "\n".join(lines) + "\n"


def packet(draw, stamp, length, station, classes):
    tag = bytes([0x81, 0, draw.randrange(classes) << 5, 0])
    head = bytes([2, 0, 0, 0, 0, station]) + bytes([2, 0, 0, 0, 1, 0]) + tag + bytes([0x88, 0xB5])
    return Packet(stamp, length, head.ljust(length, b"\0"))


def packets(draw, stations, classes):
    """What arrives at an input: microseconds are two slots, less a little."""
    stamp = draw.randrange(3) * 1000
    for _ in range(draw.randrange(9)):
        yield packet(draw, stamp, draw.choice((60, 64, 65, 130, 200, 260)), draw.randrange(stations), classes)
        stamp += draw.choice((0, 0, 1, 1, 2, 3, 40)) * 1000


def crowd(draw, stations, classes):
    """The same, where most go to two stations: a cell in most slots."""
    for slot in range(30):
        if draw.random() < 0.9:
            station = draw.randrange(2) if draw.random() < 0.8 else draw.randrange(stations)
            yield packet(draw, slot * 512, 60, station, classes)


def make(draw, is_crowded):
    """Puts the files of a drawn switch into the folder."""
    ports, classes = (8, 8) if is_crowded else (draw.randrange(1, 6), draw.randrange(1, 4))
    stations = ports + draw.randrange(2)
    with open("c.toml", "w", encoding="ascii") as file:
        file.write(configuration(draw, ports, classes, stations, is_crowded))
    for i in range(ports):
        with open("in%d.pcap" % i, "wb") as file:
            file.write(captured((crowd if is_crowded else packets)(draw, stations, classes)))


def change_number(draw, line):
    """One number of the line is another one."""
    words = line.split(b" ")
    at = draw.randrange(len(words))
    end = b"\n" if words[at].endswith(b"\n") else b""
    old = int(words[at].strip() or b"0")
    words[at] = b"%d" % draw.choice((old + 1, max(0, old - 1), draw.randrange(6), 2**32, 2**64)) + end
    return b" ".join(words)


def changed(draw, text):
    """The text with one change."""
    lines = text.splitlines(keepends=True)
    if not lines:
        return b"0 1 0 0 0 0\n"
    at, how = draw.randrange(len(lines)), draw.randrange(9)
    if how == 0:
        del lines[at]
    elif how == 1:
        lines.insert(at, lines[at])
    elif how == 2:
        lines[at:at + 2] = reversed(lines[at:at + 2])
    elif how == 3:
        lines[-1] = lines[-1][:-1]
    elif how == 4:
        lines.append(draw.choice((b"99999 1 0 0 0 0\n", b"\n", b"0", lines[-1])))
    elif how == 5:
        byte = draw.randrange(len(lines[at]))
        lines[at] = lines[at][:byte] + bytes([draw.choice(b"0123456789 \n-x")]) + lines[at][byte + 1:]
    else:
        lines[at] = change_number(draw, lines[at])
    return b"".join(lines)


class OutputBest(Fabric):
    """A fabric of another maker: in its matchings a free output asks the inputs by the keys of their cells, and an input keeps
    the output that stands first in its list. This too is stable, and may be another matching than that of the program."""

    def match(self):
        fronts = [self.fronts(i) for i in self.ports]
        asked = [sorted(f[j] for f in fronts if j in f) for j in self.ports]
        kept, free = {}, list(self.ports)
        while free:
            output = free.pop()
            if asked[output]:
                i = asked[output].pop(0).input
                order = list(fronts[i])
                kept[i], *loser = sorted({output, kept.get(i, output)}, key=order.index)
                free += loser
        return {output: fronts[i][output] for i, output in kept.items()}


def read(name):
    with open(name, "rb") as file:
        return file.read()


def write(name, data):
    with open(name, "wb") as file:
        file.write(data)


def answer(program, *words):
    ran = subprocess.run([program, *words], capture_output=True, timeout=120, check=False)
    return ran.returncode, ran.stdout, ran.stderr


def audited(program, config):
    """What the program says of the files in the folder, and what it is to say."""
    line = verdict(config)
    text = line.encode() + b"\n"
    due = (0, text, b"") if line == "audit yes" else (8, b"", text)
    return answer(program, "audit", config), due


class Trial:
    def __init__(self, program):
        self.program, self.wrong, self.tried, self.others, self.said = program, 0, 0, 0, {}

    def look(self, what, config="c.toml", is_yes=False):
        said, due = audited(self.program, config)
        self.tried += 1
        kind = (due[1] or due[2]).split()[1].decode()
        self.said[kind] = self.said.get(kind, 0) + 1
        if said != due or is_yes and kind != "yes":
            self.wrong += 1
            print("%s: said %r, and the model says %r" % (what, said, due))

    def run(self, what, config="c.toml"):
        """Runs a switch, and then another maker's. Both have to get a yes, and what the first left stands afterwards."""
        ran = answer(self.program, "run", config)
        if ran[0]:
            self.wrong += 1
            print("%s: run answers %r" % (what, ran))
            return None
        self.look(what, config, is_yes=True)
        other = OutputBest(Switch.of(config))
        trace, log = read(other.switch.trace), read(other.switch.log)
        other.run().write()
        self.others += read(other.switch.log) != log
        write(other.switch.trace, trace)
        self.look(what + ", best for the outputs", config, is_yes=True)
        write(other.switch.log, log)
        return {other.switch.trace: trace, other.switch.log: log}

    def example(self, config, files):
        for name, data in files.items():
            write(name, data)
        self.run("example " + config, config)

    def switch(self, number, seed, changes):
        draw = random.Random(seed * 1_000_003 + number)
        make(draw, number % CROWDED == 0)
        left = self.run("switch %d" % number)
        for change in range(changes if left else 0):
            name = draw.choice(("log.txt", "log.txt", "log.txt", "trace.txt"))
            write(name, changed(draw, left[name]))
            self.look("switch %d, change %d in %s" % (number, change, name))
            write(name, left[name])


def main():
    words = argparse.ArgumentParser(description=__doc__.splitlines()[0])
    words.add_argument("--bin", required=True)
    words.add_argument("--seed", type=int, default=1)
    words.add_argument("--switches", type=int, default=200)
    words.add_argument("--changes", type=int, default=10, help="of each switch")
    words.add_argument("--from", type=int, default=0, dest="first")
    asked = words.parse_args()
    trial = Trial(os.path.realpath(asked.bin))
    with tempfile.TemporaryDirectory() as folder:
        os.chdir(folder)
        for config, files in hostile.load_examples():
            trial.example(config, files)
        for number in range(asked.first, asked.switches):
            trial.switch(number, asked.seed, asked.changes)
        os.chdir("/")
    said = ", ".join("%s %d" % pair for pair in sorted(trial.said.items()))
    print("audits: %d tried (%s), %d other logs, %d wrong" % (trial.tried, said, trial.others, trial.wrong))
    return 1 if trial.wrong else 0


if __name__ == "__main__":
    sys.exit(main())
