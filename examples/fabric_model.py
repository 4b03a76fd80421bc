#!/usr/bin/env python3
"""The crossbar switch as a few lines of Python, to compare the program with.

    fabric_model.py run CONFIG
    fabric_model.py soak SEED PORTS SLOTS

The first reads a configuration and the captures that it names, writes the captures, the trace and the
log that `cq_switch run CONFIG` is to write, in the caller's folder, and prints its report. The second
prints the report of `cq_switch soak SEED PORTS SLOTS`. It shares nothing with the program, looks
through whole lists in every slot, and takes what it is given as sound: it refuses nothing.
"""

import sys

from model import Packet
from switch_model import Limits, Switch


class Fabric:
    """A switch with a list of cells at each input, in the order in which the input would send them, and
    a buffer of cells at each output."""

    def __init__(self, switch):
        self.switch, self.ranks, self.limits = switch, switch.ranks(), Limits(switch.limits)
        self.ports = range(len(self.ranks))
        self.lists, self.buffers = [[] for _ in self.ports], [[] for _ in self.ports]
        self.sent, self.crossed, self.proposals, self.most = [], [], 0, 0
        self.cells, self.longest, self.slack = ([0] * len(self.ports), [0] * len(self.ports), [None] * len(self.ports))

    def cushion(self, queued):
        """How many cells the output can send before this one."""
        return sum(other < queued for other in self.buffers[queued.cell.output])

    def insert(self, queued):
        """As far in front as the cushion asks, and ahead of a less urgent cell for the same output."""
        line = self.lists[queued.input]
        later = [place for place, other in enumerate(line) if other.cell.output == queued.cell.output and queued < other]
        line.insert(min([self.cushion(queued), len(line)] + later), queued)

    def held(self, output):
        """How many cells for the output are in the switch."""
        return len(self.buffers[output]) + sum(queued.cell.output == output for line in self.lists for queued in line)

    def arrive(self, slot, cells):
        for cell in cells:
            if not self.limits.admits(cell, self.held(cell.output)):
                continue
            self.insert(self.ranks[cell.output].queued(slot, cell))
            self.cells[cell.input] += 1
        for i, line in enumerate(self.lists):
            self.longest[i] = max(self.longest[i], len(line))
            slacks = [self.cushion(queued) - place for place, queued in enumerate(line)]
            self.slack[i] = min(slacks + [s for s in [self.slack[i]] if s is not None], default=None)

    def fronts(self, input):
        """The first cell of an input for each output, in the order in which they stand."""
        fronts = {}
        for queued in self.lists[input]:
            fronts.setdefault(queued.cell.output, queued)
        return fronts

    def match(self):
        """The stable matching that is best for the inputs (Gale and Shapley 1962): a free input proposes
        to its next output, and an output keeps the cell of the least key. It answers the cells that
        cross, by output, and notes how far down its order each input has come."""
        fronts = [self.fronts(i) for i in self.ports]
        orders, held = [list(f) for f in fronts], {}
        places, free = [0] * len(orders), list(self.ports)
        while free:
            i = free.pop()
            if places[i] == len(orders[i]):
                continue
            output = orders[i][places[i]]
            places[i] += 1
            held.setdefault(output, fronts[i][output])
            winner, loser = sorted([held[output], fronts[i][output]])
            held[output] = winner
            if loser != winner:
                free.append(loser.input)
        self.proposals, self.most = self.proposals + sum(places), max(self.most, sum(places))
        return held

    def transfer(self, slot, phase):
        for output, queued in sorted(self.match().items(), key=lambda pair: pair[1].input):
            self.lists[queued.input].remove(queued)
            self.buffers[output].append(queued)
            self.crossed.append((slot, phase, queued.input, output, queued.cell.packet, queued.cell.index))

    def depart(self, slot):
        for output, buffer in enumerate(self.buffers):
            first = min(buffer, default=None)
            if first:
                buffer.remove(first)
                self.sent.append((slot, output, first))
            self.ranks[output].tell(first)

    def step(self, slot, cells):
        self.arrive(slot, cells)
        self.transfer(slot, 1)
        self.depart(slot)
        self.transfer(slot, 2)

    def waits(self):
        """Whether a cell waits."""
        return any(self.lists) or any(self.buffers)

    def run(self):
        arrivals, slot = self.switch.arrivals(), 0
        while arrivals or self.waits():
            self.step(slot, arrivals.pop(slot, []))
            slot += 1
        return self

    def report(self):
        slots = max((slot + 1 for slot, _, _ in self.sent), default=0)
        lines = ["slots %d" % slots, "proposals %d" % self.proposals, "most %d" % self.most]
        for i in self.ports:
            slack = "-" if self.slack[i] is None else self.slack[i]
            lines.append("input %d cells %d longest %d slack %s" % (i, self.cells[i], self.longest[i], slack))
        for j in self.ports:
            waits = [slot - queued.slot for slot, output, queued in self.sent if output == j]
            lines.append("output %d cells %d idle %d wait %s" % (j, len(waits), slots - len(waits), max(waits, default="-")))
        lines += ["limit %d refused %d cells %d" % (j, *counts) for j, counts in self.limits.refused.items()]
        return "\n".join(lines) + "\n"

    def write(self):
        """The captures, the trace and the log."""
        self.switch.write([(slot, output, queued.cell) for slot, output, queued in self.sent])
        with open(self.switch.log, "w", encoding="ascii") as log:
            for line in self.crossed:
                log.write("%d %d %d %d %d %d\n" % line)


def words(seed):
    """The words of PCG32 (XSH RR 64/32, O'Neill 2014), seeded as Rust's `rand_core` seeds a generator
    from one number: by four words of another such generator."""
    multiplier, mask = 6364136223846793005, 2**64 - 1

    def word(state):
        bits, turn = ((state >> 18 ^ state) >> 27) & 0xFFFFFFFF, state >> 59
        return (bits >> turn | bits << (-turn & 31)) & 0xFFFFFFFF

    key = []
    for _ in range(4):
        seed = (seed * multiplier + 11634580027462260723) & mask
        key.append(word(seed))
    state, increment = key[0] | key[1] << 32, key[2] | key[3] << 32 | 1
    state = ((state + increment) * multiplier + increment) & mask
    while True:
        yield word(state)
        state = (state * multiplier + increment) & mask


def soak(seed, ports, slots):
    """The switch of made traffic: in each slot a packet of one cell arrives at each input."""
    tables = {
        "trace": "", "log": "",
        "class": [{"priority": 7 - k, "cost": 1 + k} for k in range(8)],
        "port": [{"write": "", "discipline": ("first-come", "priority", "fair")[j % 3]} for j in range(ports)],
        "address": [{"mac": "02:00:00:00:00:%02x" % j, "output": j} for j in range(ports)],
        "rule": [{"pcp": k, "class": k} for k in range(8)],
    }
    captures, draws = [[] for _ in range(ports)], words(seed)
    for slot in range(slots):
        for i, packets in enumerate(captures):
            word = next(draws)
            head = bytes([2, 0, 0, 0, 0, word % ports, 2, 0, 0, 0, 1, i, 0x81, 0, word >> 29 << 5, 0, 0x88, 0xB5])
            packets.append(Packet(slot * 512, 60, head.ljust(60, b"\0")))
    return Switch(tables, captures)


def main():
    if len(sys.argv) == 3 and sys.argv[1] == "run":
        fabric = Fabric(Switch.of(sys.argv[2])).run()
        fabric.write()
    elif len(sys.argv) == 5 and sys.argv[1] == "soak":
        fabric = Fabric(soak(*map(int, sys.argv[2:]))).run()
    else:
        sys.exit("usage: fabric_model.py run CONFIG | soak SEED PORTS SLOTS")
    sys.stdout.write(fabric.report())


if __name__ == "__main__":
    main()
