#!/usr/bin/env python3
"""Stopping a run and taking it up, as some lines of Python, to compare the program with.

    state_model.py part CONFIG SLOTS STATE
    state_model.py resume CONFIG STATE

They write what `cq_switch part` and `cq_switch resume` are to write, in the caller's folder, and print the report. Where
the state is refused, or a rank does not fit, the line is told and the status is the program's. Nothing is shared with the
program: a state is read line by line, and its clauses are judged by looking at all pairs. Configurations and captures
are taken as sound.
"""

import re
import sys
from typing import NamedTuple

from fabric_model import Fabric
from switch_model import Queued, Ranks, Switch

LONGEST, LEVELS = 268_435_456, 16
COUNT, PACKET, RANK = (0, 2**63 - 1), (0, 2**32 - 1), (0, 2**128 - 1)


class Stop(Exception):
    """A line for standard error, and the status of the program that tells it."""

    def __init__(self, status, line):
        super().__init__(line)
        self.status = status


def refused(what):
    return Stop(9, "state: " + what)


class Named(NamedTuple):
    level: int
    rank: int
    slot: int
    input: int


class State:
    """What the lines of a state tell."""

    def __init__(self, next, ports, classes, t0, total, proposals, most):
        self.next, self.ports, self.classes = next, ports, classes
        self.t0, self.total, self.proposals, self.most = t0, total, proposals, most
        self.inputs, self.ranks, self.listed, self.buffered, self.sent, self.moved = [], [], [], [], [], []

    def lines(self):
        yield "cq-state 1"
        yield "next %d" % self.next
        yield "shape %d %d %d %d" % (self.ports, self.classes, self.t0, self.total)
        yield "sum %d %d" % (self.proposals, self.most)
        for i, (longest, slack) in enumerate(self.inputs):
            yield "input %d %d %s" % (i, longest, "-" if slack is None else slack)
        for j, numbers in enumerate(self.ranks):
            yield " ".join(["rank %d" % j] + ["%d" % number for number in numbers])
        for word, cells in (("list", self.listed), ("buffer", self.buffered)):
            for cell in cells:
                yield word + " %d %d %d %d" % cell
        for slot, cell in self.sent:
            yield "sent %d " % slot + "%d %d %d %d" % cell
        for transfer in self.moved:
            yield "moved %d %d %d %d %d %d" % transfer
        yield "end"

    def text(self):
        return "".join(line + "\n" for line in self.lines()).encode("ascii")


def numbers_in(line, word, ranges, more=0):
    """The numbers of a line that begins with this word: one of each range, and up to so many ranks more. A range of three
    may be a dash. None where it is no such line."""
    first, *parts = line.split(" ")
    if first != word or not len(ranges) <= len(parts) <= len(ranges) + more:
        return None
    numbers = []
    for part, (least, most, *dash) in zip(parts, ranges + [RANK] * more):
        if part == "-" and dash:
            numbers.append(None)
        elif re.fullmatch("0|[1-9][0-9]{0,38}", part) and least <= int(part) <= most:
            numbers.append(int(part))
        else:
            return None
    return numbers


class Reader:
    """Takes one line after the other. The first that is not the one that is due is the fault."""

    def __init__(self, text):
        *self.lines, rest = text.decode("latin-1").split("\n")
        self.at, self.rest = 0, rest

    def fault(self):
        return refused("S1 at line %d" % (self.at + 1))

    def maybe(self, *form):
        numbers = numbers_in(self.lines[self.at], *form) if self.at < len(self.lines) else None
        self.at += numbers is not None
        return numbers

    def due(self, *form):
        numbers = self.maybe(*form)
        if numbers is None:
            raise self.fault()
        return numbers

    def all(self, *form):
        while (numbers := self.maybe(*form)) is not None:
            yield numbers


def read(text):
    """The state whose text this is."""
    if len(text) > LONGEST:
        raise refused("S4")
    reader = Reader(text)
    reader.due("cq-state", [(1, 1)])
    next, = reader.due("next", [COUNT])
    shape = reader.due("shape", [(1, 64), (1, 16), COUNT, COUNT])
    state = State(next, *shape, *reader.due("sum", [COUNT, COUNT]))
    port = (0, state.ports - 1)
    cell = [(0, 15), RANK, COUNT, port]
    for i in range(state.ports):
        state.inputs.append(reader.due("input", [(i, i), COUNT, COUNT + (True,)])[1:])
    for j in range(state.ports):
        state.ranks.append(reader.due("rank", [(j, j)], 32)[1:])
    state.listed = [Named(*numbers) for numbers in reader.all("list", cell)]
    state.buffered = [Named(*numbers) for numbers in reader.all("buffer", cell)]
    state.sent = [(slot, Named(*numbers)) for slot, *numbers in reader.all("sent", [COUNT] + cell)]
    state.moved = [tuple(numbers) for numbers in reader.all("moved", [COUNT, (1, 2), port, port, PACKET, PACKET])]
    reader.due("end", [])
    if reader.at < len(reader.lines) or reader.rest:
        raise reader.fault()
    return state


class Judge:
    """Judges whether a state is one of a switch, clause by clause."""

    def __init__(self, switch, state):
        self.switch, self.state = switch, state
        self.came = {(slot, cell.input): cell for slot, cells in switch.arrivals().items() for cell in cells}
        self.queued = state.listed + state.buffered
        self.names = {(c.slot, c.input) for c in self.queued + [c for _, c in state.sent]}

    def cell(self, named):
        return self.came[named.slot, named.input]

    def has_shape(self):
        state, switch = self.state, self.switch
        widths = [len(switch.classes) + LEVELS if kind == "fair" else 0 for kind in switch.disciplines]
        return ((state.ports, state.classes) == (len(widths), len(switch.classes))
                and (state.t0, state.total) == (switch.t0, len(self.came))
                and [len(numbers) for numbers in state.ranks] == widths)

    def arrivals(self):
        named = self.queued + [c for _, c in self.state.sent]
        return (all(c.slot < self.state.next and (c.slot, c.input) in self.came for c in named)
                and len(self.names) == len(named))

    def order(self):
        state, output = self.state, lambda c: self.cell(c).output
        times = [(slot, output(c)) for slot, c in state.sent]
        moves = [(slot, phase, i) for slot, phase, i, *_ in state.moved]
        lists = {}
        for c in state.listed:
            lists.setdefault((c.input, output(c)), []).append(c)
        return (all(a.input <= b.input for a, b in zip(state.listed, state.listed[1:]))
                and all(cells == sorted(cells) for cells in lists.values())
                and state.buffered == sorted(state.buffered, key=lambda c: (output(c), c))
                and times == sorted(set(times)) and moves == sorted(set(moves))
                and all(c.slot <= slot < state.next for slot, c in state.sent)
                and all(slot < state.next for slot, *_ in moves))

    def cushion(self, named):
        return sum(c < named for c in self.state.buffered if self.cell(c).output == self.cell(named).output)

    def slack(self):
        threads = {}
        for c in self.state.listed:
            threads.setdefault(c.input, []).append(c)
        return all(self.cushion(c) > thread for cells in threads.values() for thread, c in enumerate(cells))

    def begun(self):
        """The packets that have begun, by input and number, in order: per packet its cells so far, with their slots."""
        packets = {}
        for (slot, i), cell in sorted(self.came.items()):
            if slot < self.state.next:
                packets.setdefault((i, cell.packet), []).append((slot, cell))
        return packets

    def packets(self):
        for cells in self.begun().values():
            named = {(slot, cell.input) in self.names for slot, cell in cells}
            if len(named) > 1 or named == {False} and self.switch.limits[cells[0][1].output] is None:
                return False
        return True

    def flows(self):
        flow = lambda c: (c.input, self.cell(c).output, self.cell(c).kind)
        sent, queued = {}, {}
        for slot, c in self.state.sent:
            sent.setdefault(flow(c), []).append(c.slot)
        for c in self.queued:
            queued.setdefault(flow(c), []).append(c)
        return (all(slots == sorted(slots) for slots in sent.values())
                and all(c.slot > max(sent.get(f, [-1])) for f, cells in queued.items() for c in cells)
                and all([c.slot for c in sorted(cells)] == sorted(c.slot for c in cells) for cells in queued.values()))

    def floors(self):
        def floor(cell):
            discipline = self.switch.disciplines[cell.output]
            if discipline == "fair":
                return self.state.ranks[cell.output][cell.kind]
            return int(self.switch.classes[cell.kind].get("priority", 0)) if discipline == "priority" else 0

        level = lambda cell: self.switch.classes[cell.kind].get("level", 0)
        return all(c.level == level(self.cell(c)) and c.rank <= floor(self.cell(c)) for c in self.queued)

    def judge(self):
        if not self.has_shape():
            raise refused("S2")
        clauses = self.arrivals, self.order, self.slack, self.packets, self.flows, self.floors
        for number, clause in enumerate(clauses, 1):
            if not clause():
                raise refused("S3 clause %d" % number)


class Bounded(Ranks):
    """Ranks that fit 128 bits."""

    def rank(self, kind):
        rank = super().rank(kind)
        if rank >= 2**128:
            raise OverflowError
        return rank


class Parted(Fabric):
    """A fabric that stops after some slots, and goes on from a state."""

    def __init__(self, switch):
        super().__init__(switch)
        self.ranks = [Bounded(discipline, switch.classes) for discipline in switch.disciplines]
        self.came, self.next = switch.arrivals(), 0

    def arrive(self, slot, cells):
        # One after the other, so that a rank that does not fit is that of a known cell; what is seen is seen of them all.
        for cell in cells:
            if self.limits.admits(cell, self.held(cell.output)):
                try:
                    queued = self.ranks[cell.output].queued(slot, cell)
                except OverflowError:
                    raise Stop(4, "tag: slot %d, input %d, output %d" % (slot, cell.input, cell.output)) from None
                self.insert(queued)
                self.cells[cell.input] += 1
        super().arrive(slot, [])

    def run_to(self, last):
        """The slots up to this one; to the end of the run where there is none."""
        while self.next != last:
            later = [slot for slot in self.came if slot >= self.next]
            if not later and not self.waits():
                if last is None:
                    return self
                self.rest(last)
            elif not self.waits() and min(later) > self.next:
                self.rest(min(later) if last is None else min(last, *later))
            else:
                self.step(self.next, self.came.get(self.next, []))
                self.next += 1
        return self

    def rest(self, to):
        for ranks in self.ranks:
            ranks.tell(None)
        self.next = to

    def numbers(self, ranks):
        if ranks.discipline != "fair":
            return []
        return ([ranks.tags.get(kind, 0) for kind in range(len(ranks.classes))]
                + [ranks.times.get(level, 0) for level in range(LEVELS)])

    def state(self):
        switch = self.switch
        total = sum(len(cells) for cells in switch.arrivals().values())
        state = State(self.next, len(self.lists), len(switch.classes), switch.t0, total, self.proposals, self.most)
        named = lambda q: Named(q.level, q.rank, q.slot, q.input)
        state.inputs = list(zip(self.longest, self.slack))
        state.ranks = [self.numbers(ranks) for ranks in self.ranks]
        state.listed = [named(q) for line in self.lists for q in line]
        state.buffered = [named(q) for buffer in self.buffers for q in sorted(buffer)]
        state.sent = [(slot, named(q)) for slot, _, q in self.sent]
        state.moved = self.crossed
        return state

    @staticmethod
    def of(switch, state):
        """The fabric in a state that was judged to be sound."""
        fabric, judge = Parted(switch), Judge(switch, state)
        queued = lambda c: Queued(c.level, c.rank, c.slot, c.input, judge.cell(c))
        for c in state.listed:
            fabric.lists[c.input].append(queued(c))
        for c in state.buffered:
            fabric.buffers[judge.cell(c).output].append(queued(c))
        fabric.sent = [(slot, judge.cell(c).output, queued(c)) for slot, c in state.sent]
        fabric.crossed, fabric.next = list(state.moved), state.next
        fabric.proposals, fabric.most = state.proposals, state.most
        for i, (longest, slack) in enumerate(state.inputs):
            fabric.longest[i], fabric.slack[i] = longest, slack
            fabric.cells[i] = sum(input == i for _, input in judge.names)
        for ranks, numbers in zip(fabric.ranks, state.ranks):
            if numbers:
                ranks.tags, ranks.times = dict(enumerate(numbers[:-LEVELS])), dict(enumerate(numbers[-LEVELS:]))
        for cells in judge.begun().values():
            slot, first = cells[0]
            fabric.limits.marks.discard(first.input)
            if (slot, first.input) not in judge.names:
                fabric.limits.marks.add(first.input)
                fabric.limits.refused[first.output][0] += 1
                fabric.limits.refused[first.output][1] += len(cells)
        return fabric


def part(config, slots):
    """The text of the state after so many slots."""
    text = Parted(Switch.of(config)).run_to(slots).state().text()
    if len(text) > LONGEST:
        raise refused("S4")
    return text


def resumed(config, text):
    """The fabric at the end of the run that goes on from this text."""
    switch, state = Switch.of(config), read(text)
    Judge(switch, state).judge()
    return Parted.of(switch, state).run_to(None)


def main():
    words = sys.argv[1:]
    try:
        if len(words) == 4 and words[0] == "part":
            text = part(words[1], int(words[2]))
            with open(words[3], "wb") as file:
                file.write(text)
        elif len(words) == 3 and words[0] == "resume":
            with open(words[2], "rb") as file:
                fabric = resumed(words[1], file.read())
            fabric.write()
            sys.stdout.write(fabric.report())
        else:
            sys.exit("usage: state_model.py part CONFIG SLOTS STATE | resume CONFIG STATE")
    except Stop as stop:
        print(stop, file=sys.stderr)
        sys.exit(stop.status)


if __name__ == "__main__":
    main()
