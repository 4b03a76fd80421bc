#!/usr/bin/env python3
"""What `cq_switch audit CONFIG` is to say of a trace and a log, as a few lines of Python.

    audit_model.py CONFIG

It reads a configuration, the captures that it names, its trace and its log, and prints the line that the program is to
print: `audit yes`, or which no. It shares nothing with the program, looks through whole lists in every slot, and takes
configurations and captures as sound: it refuses none. The trace and the log may be any bytes.
"""

import re
import sys
from typing import NamedTuple

from fabric_model import Fabric
from switch_model import Switch

LONGEST = 268_435_456
LINE = re.compile(rb"(0|[1-9][0-9]*)" + rb" (0|[1-9][0-9]*)" * 5 + rb"\n")


class No(Exception):
    """What is said no to."""


class Line(NamedTuple):
    slot: int
    phase: int
    input: int
    output: int
    packet: int
    index: int


def lines_of(text):
    """The lines of a text, each with its line feed, which the last may lack."""
    lines = [line + b"\n" for line in text.split(b"\n")]
    lines[-1] = lines[-1][:-1]
    return lines if lines[-1] else lines[:-1]


def is_of(line, ports):
    """Whether a transfer can be one of a switch of so many ports."""
    return (line.slot < 2**64 and line.phase in (1, 2) and line.input < ports and line.output < ports
            and line.packet < 2**32 and line.index < 2**32)


def read_log(text, ports):
    """The transfers of a log."""
    note = []
    for number, line in enumerate(lines_of(text), 1):
        found = LINE.fullmatch(line)
        transfer = Line(*map(int, found.groups())) if found else None
        if not found or not is_of(transfer, ports) or (note and not note[-1][:3] < transfer[:3]):
            raise No("A1 at line %d" % number)
        note.append(transfer)
    return note


def first_difference(text, other):
    """The first line in which they differ, from 1."""
    lines, others = lines_of(text), lines_of(other)
    for number in range(1, max(len(lines), len(others)) + 1):
        if lines[number - 1:number] != others[number - 1:number]:
            return number
    return None


class Replay(Fabric):
    """A fabric whose matchings are told by the lines of a log."""

    def __init__(self, switch, note):
        super().__init__(switch)
        self.note, self.used = note, 0

    def told(self, slot, phase):
        """The lines of this phase, which are the next ones."""
        lines = []
        while self.used < len(self.note) and self.note[self.used][:2] == (slot, phase):
            lines.append(self.note[self.used])
            self.used += 1
        return lines

    def transfer(self, slot, phase):
        fronts, pairs = [self.fronts(i) for i in self.ports], {}
        for line in self.told(slot, phase):
            first = fronts[line.input].get(line.output)
            if first is None or line.output in pairs.values() or first.cell[:3] != (line.input, line.packet, line.index):
                raise No("A2 at slot %d phase %d input %d" % (slot, phase, line.input))
            pairs[line.input] = line.output
        for i in self.ports:
            for j in self.ports:
                if self.blocks(fronts, pairs, i, j):
                    raise No("A3 at slot %d phase %d input %d output %d" % (slot, phase, i, j))
        for i, j in pairs.items():
            self.lists[i].remove(fronts[i][j])
            self.buffers[j].append(fronts[i][j])

    def blocks(self, fronts, pairs, i, j):
        """Whether an offered pair is outside the matching, and neither end has a partner that it prefers."""
        if j not in fronts[i] or pairs.get(i) == j:
            return False
        order = list(fronts[i])
        if i in pairs and order.index(pairs[i]) < order.index(j):
            return False
        return not any(output == j and fronts[k][j] < fronts[i][j] for k, output in pairs.items())


def judge(config):
    """The line that is to be printed."""
    switch = Switch.of(config)
    texts = {}
    for what, name in (("trace", switch.trace), ("log", switch.log)):
        with open(name, "rb") as file:
            texts[what] = file.read()
        if len(texts[what]) > LONGEST:
            raise No("A6 %s" % what)
    replay = Replay(switch, read_log(texts["log"], len(switch.written)))
    replay.run()
    if replay.used < len(replay.note):
        raise No("A4 at line %d" % (replay.used + 1))
    ideal = "".join("%d %d %d %d %d\n" % (slot, output, cell.input, cell.packet, cell.index)
                    for slot, output, cell in switch.departures())
    line = first_difference(texts["trace"], ideal.encode())
    if line is not None:
        raise No("A5 at line %d" % line)


def verdict(config):
    try:
        judge(config)
        return "audit yes"
    except No as no:
        return "audit: %s" % no


if __name__ == "__main__":
    if len(sys.argv) != 2:
        sys.exit("usage: audit_model.py CONFIG")
    print(verdict(sys.argv[1]))
