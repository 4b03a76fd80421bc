#!/usr/bin/env python3
"""What a cheaper switch would lose. UNPROVED: a plain simulation, beside the proved program and no part of it.

    cheaper.py CONFIG [--iterations 1,4] [--by-rank] [--json | --csv FILE]

The same configuration and captures go through a plain crossbar at speedup one, with a queue for each input and output
and no buffers at the outputs: a cell leaves in the slot in which it crosses. It is scheduled

- by iSLIP (McKeown 1999) with so many iterations: outputs grant and inputs accept in turn, from where they stopped;
- by a greedy maximal matching: the oldest waiting cell first, wherever its input and its output are both free.

Each cell's slot is compared with that of the ideal switch, which the trace of `cq_switch ideal CONFIG` (or `run`)
tells. With `--by-rank` a queue is kept by the ranks of its output's discipline, and the greedy matching takes the
most urgent cell first; without it queues are in the order of arrival. Packets that the ideal switch refuses for a
limit are left out.
"""

import argparse
import csv
import heapq
import json
import sys
from collections.abc import Callable
from functools import partial
from typing import Any, NamedTuple

from cq.config import Configuration, read_configuration
from cq.faults import guarded
from cq.figures import Spread
from cq.replay import Cell, Key, replay
from cq.table import table

UNPROVED = "Unproved: a plain simulation of a cheaper switch, beside the proved program and no part of it."

Queues = list[list[list[tuple[Any, int]]]]  # per input and output a heap of cells: what orders them, and their number
Pair = tuple[int, int]  # an input and an output


class Arrival(NamedTuple):
    """A cell that the ideal switch sent."""

    slot: int
    input: int
    output: int
    kind: int
    key: Key
    last: bool
    ideal: int  # the slot in which the ideal switch sent it


class ISlip:
    """Outputs grant, and inputs accept, the next one in turn. A pointer moves on where a grant of the first
    iteration is accepted, to the one behind the partner."""

    def __init__(self, ports: int, iterations: int) -> None:
        self.ports, self.iterations, self.name = ports, iterations, f"iSLIP {iterations}"
        self.grants, self.accepts = [0] * ports, [0] * ports

    def match(self, wanted: list[int], _: Queues) -> list[Pair]:
        """The pairs of a slot. `wanted` has for each output the bits of the inputs with a cell for it."""
        free, taken, pairs = (1 << self.ports) - 1, 0, []
        for iteration in range(self.iterations):
            granted = [0] * self.ports  # for each input the bits of the outputs that grant it
            for output, inputs in enumerate(wanted):
                if not taken >> output & 1 and inputs & free:
                    granted[self.turn(inputs & free, self.grants[output])] |= 1 << output
            for number, outputs in enumerate(granted):
                if outputs:
                    output = self.turn(outputs, self.accepts[number])
                    free, taken = free & ~(1 << number), taken | 1 << output
                    pairs.append((number, output))
                    if iteration == 0:
                        self.grants[output] = (number + 1) % self.ports
                        self.accepts[number] = (output + 1) % self.ports
            if not any(granted):
                break
        return pairs

    def turn(self, bits: int, pointer: int) -> int:
        """The first of these ports from the pointer on, round about."""
        ahead = bits >> pointer << pointer or bits
        return (ahead & -ahead).bit_length() - 1


class Greedy:
    """The first cells of all queues in their order, each where its input and its output are both free."""

    name = "greedy"

    def match(self, wanted: list[int], queues: Queues) -> list[Pair]:
        """The pairs of a slot, the first cell of the order among them."""
        heads = sorted(
            (queue[0][0], number, output)
            for number, row in enumerate(queues)
            for output, queue in enumerate(row)
            if wanted[output] >> number & 1
        )
        free, taken, pairs = set(range(len(queues))), set(), []
        for _, number, output in heads:
            if number in free and output not in taken:
                free.remove(number)
                taken.add(output)
                pairs.append((number, output))
        return pairs


Scheduler = ISlip | Greedy


def schedulers(ports: int, iterations: list[int]) -> list[Callable[[], Scheduler]]:
    """Makers of the schedulers that are compared."""
    return [*(partial(ISlip, ports, count) for count in iterations), Greedy]


class Outcome(NamedTuple):
    """What a switch did."""

    left: list[int]  # the slot of each cell, in the order of the arrivals
    longest: int  # the most cells that waited at one input, after the arrivals of a slot
    starved: list[int]  # for each output the slots in which it sent nothing though a cell for it waited


def simulate(arrivals: list[Arrival], ports: int, scheduler: Scheduler, ranked: bool) -> Outcome:
    """Runs cells, in order of slot and input, through a crossbar at speedup one."""
    queues: Queues = [[[] for _ in range(ports)] for _ in range(ports)]
    wanted, lengths, starved = [0] * ports, [0] * ports, [0] * ports
    left, at, slot, longest = [0] * len(arrivals), 0, 0, 0
    while at < len(arrivals) or any(wanted):
        if not any(wanted):
            slot = arrivals[at].slot
        while at < len(arrivals) and arrivals[at].slot == slot:
            cell = arrivals[at]
            heapq.heappush(queues[cell.input][cell.output], (cell.key if ranked else at, at))
            wanted[cell.output] |= 1 << cell.input
            lengths[cell.input] += 1
            at += 1
        longest = max(longest, *lengths)
        pairs = scheduler.match(wanted, queues)
        for output in {output for output, inputs in enumerate(wanted) if inputs} - {output for _, output in pairs}:
            starved[output] += 1
        for number, output in pairs:
            left[heapq.heappop(queues[number][output])[1]] = slot
            lengths[number] -= 1
            if not queues[number][output]:
                wanted[output] &= ~(1 << number)
        slot += 1
    return Outcome(left, longest, starved)


def cells_of(configuration: Configuration) -> list[Arrival]:
    """The cells that the ideal switch sent, in the order in which they arrived."""
    sent: list[tuple[Cell, int]] = []
    for slot in replay(configuration, with_log=False).slots():
        sent += ((cell, slot.number) for cell in slot.sent)
    arrivals = (
        Arrival(cell.slot, cell.input, cell.output, cell.kind, cell.key, cell.last, number) for cell, number in sent
    )
    return sorted(arrivals, key=lambda cell: (cell.slot, cell.input))


class Loss:
    """How much later than from the ideal switch cells leave."""

    def __init__(self) -> None:
        self.late, self.only_late, self.early, self.packets, self.late_packets = Spread(), Spread(), 0, 0, 0

    def add(self, cell: Arrival, slot: int) -> None:
        """Counts a cell that left in this slot."""
        late = max(0, slot - cell.ideal)
        self.late.add(late)
        if late:
            self.only_late.add(late)
        self.early += slot < cell.ideal
        self.packets += cell.last
        self.late_packets += cell.last and late > 0

    def row(self) -> dict[str, Any]:
        """Its figures. Those in slots are of the late cells alone."""
        cells, late = len(self.late), len(self.only_late)
        return {
            "cells": cells,
            "late_cells": late,
            "late_per_cent": round(100 * late / cells, 3) if cells else 0.0,
            "early_cells": self.early,
            "late_mean_slots": self.only_late.mean(),
            "late_median_slots": self.only_late.share(50),
            "late_p99_slots": self.only_late.share(99),
            "late_greatest_slots": self.only_late.greatest(),
            "packets": self.packets,
            "late_packets": self.late_packets,
        }


def loss_rows(name: str, arrivals: list[Arrival], left: list[int]) -> list[dict[str, Any]]:
    """A row for each output and class, and one for all, where there is a cell."""
    losses: dict[tuple[int, int], Loss] = {}
    whole = Loss()
    for cell, slot in zip(arrivals, left):
        losses.setdefault((cell.output, cell.kind), Loss()).add(cell, slot)
        whole.add(cell, slot)
    rows = [
        {"switch": name, "output": str(output), "class": str(kind)} | loss.row()
        for (output, kind), loss in sorted(losses.items())
    ]
    return rows + [{"switch": name, "output": "all", "class": "all"} | whole.row()]


def switch_row(name: str, arrivals: list[Arrival], outcome: Outcome) -> dict[str, Any]:
    """What a whole switch did."""
    return {
        "switch": name,
        "slots": max(outcome.left, default=-1) + 1,
        "ideal_slots": max((cell.ideal for cell in arrivals), default=-1) + 1,
        "longest_at_input": outcome.longest,
        "starved_slots": sum(outcome.starved),
    }


def compared(configuration: Configuration, iterations: list[int], ranked: bool) -> dict[str, Any]:
    """All figures, as JSON has them."""
    arrivals, switches, losses = cells_of(configuration), [], []
    for make in schedulers(configuration.ports, iterations):
        scheduler = make()
        outcome = simulate(arrivals, configuration.ports, scheduler, ranked)
        switches.append(switch_row(scheduler.name, arrivals, outcome))
        losses += loss_rows(scheduler.name, arrivals, outcome.left)
    return {
        "note": UNPROVED,
        "configuration": configuration.name,
        "slot_ns": configuration.slot_ns,
        "queues": "by rank" if ranked else "in order of arrival",
        "switches": switches,
        "losses": losses,
    }


def print_tables(document: dict[str, Any]) -> None:
    """Prints the figures for people."""
    print(UNPROVED)
    print(
        f"{document['configuration']}: a crossbar at speedup one, its queues {document['queues']}, "
        f"slots of {document['slot_ns']} ns"
    )
    print("\neach switch as a whole")
    table([{name.replace("_", " "): value for name, value in row.items()} for row in document["switches"]], sys.stdout)
    print("\ncells that leave later than from the ideal switch; how much later, of those that are late")
    table(
        [
            {
                name.removeprefix("late_").replace("_", " ")
                if name.endswith("slots")
                else name.replace("_", " "): value
                for name, value in row.items()
            }
            for row in document["losses"]
        ],
        sys.stdout,
    )


def write_csv(name: str, document: dict[str, Any]) -> None:
    with open(name, "w", encoding="utf-8", newline="") as file:
        writer = csv.DictWriter(file, document["losses"][0], lineterminator="\n")
        writer.writeheader()
        writer.writerows(document["losses"])


def counts(text: str) -> list[int]:
    """Numbers of iterations, with a comma between two."""
    numbers = [int(word) for word in text.split(",")]
    if min(numbers) < 1:
        raise ValueError
    return numbers


def main() -> None:
    words = argparse.ArgumentParser(description="What a cheaper switch would lose. Unproved.")
    words.add_argument("config", metavar="CONFIG")
    words.add_argument(
        "--iterations", type=counts, default=[1, 4], metavar="N,..", help="of iSLIP; 1,4 where nothing is said"
    )
    words.add_argument("--by-rank", action="store_true", help="keep the queues by the ranks of the disciplines")
    form = words.add_mutually_exclusive_group()
    form.add_argument("--json", action="store_true", help="print one JSON document")
    form.add_argument("--csv", metavar="FILE", help="write the losses as CSV")
    options = words.parse_args()

    def work() -> None:
        document = compared(read_configuration(options.config), options.iterations, options.by_rank)
        if options.csv:
            write_csv(options.csv, document)
        elif options.json:
            json.dump(document, sys.stdout, indent=1)
            print()
        else:
            print_tables(document)

    guarded("cheaper.py", work)


if __name__ == "__main__":
    main()
