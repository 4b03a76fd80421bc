#!/usr/bin/env python3
"""The ideal switch as a few lines of Python, to compare the program with.

    switch_model.py CONFIG

It reads a configuration and the captures that it names, and writes what `cq_switch ideal CONFIG` is
to write, in the caller's folder. It shares nothing with the program, goes through every slot, and
takes configurations and captures as sound: it refuses none.
"""

import sys
import tomllib
from typing import NamedTuple

from model import MICROSECONDS, SECOND_NS, Packet, written

TAGS = (0x8100, 0x88A8)


class Cell(NamedTuple):
    input: int
    packet: int
    index: int
    output: int
    kind: int  # its class
    last: bool


class Queued(NamedTuple):
    level: int
    rank: int
    slot: int
    input: int  # queued cells compare by their keys: level, rank, slot and input
    cell: Cell


def packets_of(name):
    """The packets of a little-endian capture, with microseconds or nanoseconds."""
    if name is None:
        return []
    with open(name, "rb") as file:
        capture = file.read()
    unit = 1000 if capture[:4] == MICROSECONDS[:4] else 1
    packets, at = [], 24
    while at < len(capture):
        seconds, subseconds, length, original = (int.from_bytes(capture[at + k:at + k + 4], "little") for k in (0, 4, 8, 12))
        packets.append(Packet(seconds * SECOND_NS + subseconds * unit, original, capture[at + 16:at + 16 + length]))
        at += 16 + length
    return packets


def fields_of(body):
    """What a rule can ask of a frame: no field that the frame ends before."""
    def word(at):
        return int.from_bytes(body[at:at + 2], "big") if at + 2 <= len(body) else None

    fields, at = {}, 12
    if word(12) in TAGS and len(body) >= 16:
        fields["pcp"] = body[14] >> 5
    while at < 20 and word(at) in TAGS:
        at += 4
    kind, mark = word(at), word(at + 2)
    if kind is not None:
        fields["ether_type"] = kind
    if kind == 0x0800 and mark is not None:
        fields["dscp"] = (mark & 0xFF) >> 2
    if kind == 0x86DD and mark is not None:
        fields["dscp"] = mark >> 6 & 0x3F
    return fields


class Ranks:
    """The discipline of one output: it ranks cells, and is told what was sent in each slot. A fair one keeps a virtual time
    for each level."""

    def __init__(self, discipline, classes):
        self.discipline, self.classes, self.times, self.tags = discipline, classes, {}, {}

    def level(self, kind):
        return self.classes[kind].get("level", 0)

    def rank(self, kind):
        if self.discipline == "first-come":
            return 0
        if self.discipline == "priority":
            return int(self.classes[kind].get("priority", 0))
        begin = max(self.tags.get(kind, 0), self.times.get(self.level(kind), 0))
        self.tags[kind] = begin + int(self.classes[kind].get("cost", 1))
        return self.tags[kind]

    def queued(self, slot, cell):
        """A cell that arrives in this slot, with its key."""
        return Queued(self.level(cell.kind), self.rank(cell.kind), slot, cell.input, cell)

    def tell(self, sent):
        """What was sent: a queued cell, or None."""
        if sent is None:
            self.times, self.tags = {}, {}
        else:
            self.times[sent.level] = sent.rank


class Limits:
    """The limits of the outputs. A packet is refused whole where its output holds as many cells or more as its first one
    arrives: a mark at its input then stays up to its last cell."""

    def __init__(self, limits):
        self.limits, self.marks = limits, set()
        self.refused = {output: [0, 0] for output, limit in enumerate(limits) if limit is not None}

    def admits(self, cell, held):
        """Whether a cell is admitted that arrives where its output holds so many; a refused one is counted."""
        limit = self.limits[cell.output]
        if cell.index == 0:
            self.marks.discard(cell.input)
            if limit is not None and held >= limit:
                self.marks.add(cell.input)
        if cell.input not in self.marks:
            return True
        self.refused[cell.output][0] += cell.index == 0
        self.refused[cell.output][1] += 1
        return False


class Switch:
    def __init__(self, tables, captures):
        self.cell_bytes = tables.get("cell_bytes", 64)
        self.slot_ns = tables.get("slot_ns", 512)
        self.trace, self.log = tables["trace"], tables["log"]
        self.written = [port["write"] for port in tables["port"]]
        self.default, self.default_kind = tables.get("default_output", 0), tables.get("default_class", 0)
        self.outputs = {bytes.fromhex(a["mac"].replace(":", "")): a["output"] for a in tables.get("address", [])}
        self.rules = tables.get("rule", [])
        self.disciplines = [port.get("discipline", "first-come") for port in tables["port"]]
        self.limits = [port.get("limit") for port in tables["port"]]
        self.classes = tables.get("class", [{}])
        self.captures = captures
        self.t0 = min((p.stamp for packets in captures for p in packets), default=0)

    @staticmethod
    def of(config):
        """The switch of a configuration, with the captures that it names."""
        with open(config, "rb") as file:
            tables = tomllib.load(file)
        return Switch(tables, [packets_of(port.get("read")) for port in tables["port"]])

    def route(self, input, body):
        """Output and class of a frame."""
        output = self.outputs.get(body[:6], self.default) if len(body) >= 6 else self.default
        fields = {"input": input, **fields_of(body)}
        for rule in self.rules:
            if all(fields.get(key) == asked for key, asked in rule.items() if key != "class"):
                return output, rule["class"]
        return output, self.default_kind

    def arrivals(self):
        """The cells that arrive, by slot, and in each slot by input."""
        slots = {}
        for i, packets in enumerate(self.captures):
            free = 0
            for k, packet in enumerate(packets):
                start = max(free, (packet.stamp - self.t0) // self.slot_ns)
                cells = max(1, -(-len(packet.body) // self.cell_bytes))
                output, kind = self.route(i, packet.body)
                for c in range(cells):
                    slots.setdefault(start + c, []).append(Cell(i, k, c, output, kind, c + 1 == cells))
                free = start + cells
        return slots

    def ranks(self):
        return [Ranks(discipline, self.classes) for discipline in self.disciplines]

    def departures(self):
        """Slot, output and cell, in order of slot and then output."""
        limits = Limits(self.limits)
        arrivals, queues, ranks, slot, sent = self.arrivals(), [[] for _ in self.written], self.ranks(), 0, []
        while arrivals or any(queues):
            for cell in arrivals.pop(slot, []):
                if limits.admits(cell, len(queues[cell.output])):
                    queues[cell.output].append(ranks[cell.output].queued(slot, cell))
            for output, queue in enumerate(queues):
                queue.sort()
                first = queue.pop(0) if queue else None
                ranks[output].tell(first)
                if first:
                    sent.append((slot, output, first.cell))
            slot += 1
        return sent

    def write(self, sent):
        """The captures and the trace of these departures."""
        for output, name in enumerate(self.written):
            packets = [self.captures[cell.input][cell.packet]._replace(stamp=self.t0 + slot * self.slot_ns)
                       for slot, at, cell in sent if at == output and cell.last]
            with open(name, "wb") as capture:
                capture.write(written(packets))
        with open(self.trace, "w", encoding="ascii") as trace:
            for slot, output, cell in sent:
                trace.write("%d %d %d %d %d\n" % (slot, output, cell.input, cell.packet, cell.index))


if __name__ == "__main__":
    if len(sys.argv) != 2:
        sys.exit("usage: switch_model.py CONFIG")
    switch = Switch.of(sys.argv[1])
    switch.write(switch.departures())
