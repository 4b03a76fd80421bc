#!/usr/bin/env python3
"""What a run did to its packets, in figures.

    stats.py CONFIG                 tables, on standard output
    stats.py CONFIG --json          one JSON document, on standard output
    stats.py CONFIG --csv FOLDER    flows.csv, inputs.csv, outputs.csv, slack.csv, run.csv and packets.csv in FOLDER

It reads the configuration, the captures of its inputs, its trace and its log, each once from the front, with names
taken from the caller's folder as `cq_switch` takes them. After `cq_switch ideal CONFIG`, which writes no log, give
`--without-log`. `README.md` beside this file says what each figure is.
"""

import argparse
import csv
import json
import os
import sys
from collections.abc import Iterable
from contextlib import ExitStack
from typing import Any

from cq.captures import DESTINATIONS, Packets
from cq.config import Configuration, read_configuration
from cq.faults import guarded
from cq.figures import Mean, Spread
from cq.replay import Cell, Replay, Slot, replay
from cq.table import table

Row = dict[str, Any]
Name = tuple[int | str, int | str]  # an output and a class, or "all" of them
PACKET_COLUMNS = (
    "input",
    "packet",
    "output",
    "class",
    "destination",
    "class_by",
    "captured_bytes",
    "wire_bytes",
    "cells",
    "stamp_ns",
    "stamp_slot",
    "start_slot",
    "ahead_slots",
    "last_slot",
    "leaves_ns",
    "delay_ns",
    "wait_last_slots",
    "wait_greatest_slots",
)


class Flow:
    """What leaves one output in one class."""

    def __init__(self) -> None:
        self.refused_packets, self.refused_cells, self.waits, self.delays = 0, 0, Spread(), Spread()

    def add(self, other: "Flow") -> None:
        """Adds all that another one has."""
        self.refused_packets += other.refused_packets
        self.refused_cells += other.refused_cells
        self.waits.counts += other.waits.counts
        self.delays.counts += other.delays.counts

    def row(self, slot_ns: int) -> Row:
        """Its figures."""
        return (
            {
                "packets": len(self.delays),
                "cells": len(self.waits),
                "refused_packets": self.refused_packets,
                "refused_cells": self.refused_cells,
            }
            | self.waits.row("wait", "slots")
            | self.waits.row("wait", "ns", slot_ns)
            | self.delays.row("delay", "ns")
        )


class Input:
    """What comes in at one input."""

    def __init__(self) -> None:
        self.cells, self.slacks, self.length = 0, Spread(), Mean()


class Output:
    """The buffer of one output."""

    def __init__(self) -> None:
        self.longest, self.buffer = 0, Mean()


class Stats:
    """The figures of a run, which grow slot by slot."""

    def __init__(self, run: Replay) -> None:
        self.run, self.configuration = run, run.configuration
        ports = range(run.configuration.ports)
        self.flows: dict[tuple[int, int], Flow] = {}
        self.inputs, self.outputs = [Input() for _ in ports], [Output() for _ in ports]
        self.proposals, self.most, self.slots, self.bytes = 0, 0, 0, 0
        self.greatest: dict[tuple[int, int], int] = {}  # of each packet that is leaving, the greatest wait so far
        self.gone: Iterable[Row] = []  # the packets that left or were refused in this slot

    def add(self, slot: Slot) -> None:
        """Counts what happened in a slot."""
        gone: list[Row] = []
        for place, cell in enumerate(slot.arrived):
            self.inputs[cell.input].cells += 1
            if slot.slacks:
                self.inputs[cell.input].slacks.add(slot.slacks[place])
        for cell in slot.refused:
            self._refuse(cell, gone)
        for cell in slot.sent:
            self._send(slot.number, cell, gone)
        if slot.lists:
            self._measure(slot)
        self.gone = gone

    def _flow(self, cell: Cell) -> Flow:
        return self.flows.setdefault((cell.output, cell.kind), Flow())

    def _refuse(self, cell: Cell, gone: list[Row]) -> None:
        """Counts a cell that a limit refuses, and its packet where the cell is the first one."""
        flow = self._flow(cell)
        flow.refused_cells += 1
        if cell.part == 0:
            flow.refused_packets += 1
            gone.append(self._packet(cell, None, None))

    def _send(self, number: int, cell: Cell, gone: list[Row]) -> None:
        """Counts a cell that leaves in this slot, and its packet where the cell is the last one."""
        flow, wait, name = self._flow(cell), number - cell.slot, (cell.input, cell.packet)
        self.slots = number + 1
        flow.waits.add(wait)
        greatest = max(wait, self.greatest.pop(name, 0))
        if not cell.last:
            self.greatest[name] = greatest
            return
        row = self._packet(cell, number, greatest)
        self.bytes += row["captured_bytes"]
        flow.delays.add(row["delay_ns"])
        gone.append(row)

    def _packet(self, cell: Cell, number: int | None, greatest: int | None) -> Row:
        """The row of a packet, which leaves in this slot, or is refused."""
        packets, k, captures = self.run.captures.inputs[cell.input], cell.packet, self.run.captures
        leaves = None if number is None else captures.origin + number * self.configuration.slot_ns
        return dict(
            zip(
                PACKET_COLUMNS,
                (
                    cell.input,
                    k,
                    cell.output,
                    cell.kind,
                    DESTINATIONS[packets.destinations[k]],
                    "rule" if packets.by_rule[k] else "default",
                    packets.lengths[k],
                    packets.originals[k],
                    packets.cells[k],
                    packets.stamps[k],
                    packets.stamp_slots[k],
                    packets.starts[k],
                    packets.starts[k] - packets.stamp_slots[k],
                    number,
                    leaves,
                    None if leaves is None else leaves - packets.stamps[k],
                    None if number is None else number - cell.slot,
                    greatest,
                ),
            )
        )

    def _measure(self, slot: Slot) -> None:
        """The lengths and the proposals, which the log tells."""
        self.proposals += sum(slot.proposals)
        self.most = max(self.most, *slot.proposals)
        for row, length, left in zip(self.inputs, slot.lists, slot.left):
            row.length.set(slot.number, length)
            row.length.set(slot.number + 1, left)
        for output, peak, length in zip(self.outputs, slot.peaks, slot.buffers):
            output.longest = max(output.longest, peak, length)
            output.buffer.set(slot.number, length)

    def totals(self) -> dict[Name, Flow]:
        """What leaves each output in each class, and all outputs, and in all classes."""
        totals: dict[Name, Flow] = {("all", "all"): Flow()}
        for (output, kind), flow in self.flows.items():
            names: list[Name] = [(output, kind), (output, "all"), ("all", kind), ("all", "all")]
            for name in names:
                totals.setdefault(name, Flow()).add(flow)
        return dict(sorted(totals.items(), key=lambda item: [(isinstance(part, str), part) for part in item[0]]))

    def document(self) -> dict[str, Any]:
        """All figures, as JSON has them."""
        totals, ports = self.totals(), range(self.configuration.ports)
        return {
            "run": self._run_row(totals["all", "all"]),
            "flows": [
                {"output": output, "class": kind} | flow.row(self.configuration.slot_ns)
                for (output, kind), flow in totals.items()
            ],
            "outputs": [self._output_row(j, totals.get((j, "all"), Flow())) for j in ports],
            "inputs": [self._input_row(i) for i in ports],
            "slack": [
                {"input": i, "slack": slack, "cells": count}
                for i, row in enumerate(self.inputs)
                for slack, count in sorted(row.slacks.counts.items())
            ],
        }

    def _run_row(self, whole: Flow) -> Row:
        """The figures of the whole run, with what left in all."""
        configuration, cells = self.configuration, len(whole.waits)
        row: Row = {
            "configuration": configuration.name,
            "ports": configuration.ports,
            "classes": len(configuration.classes),
            "cell_bytes": configuration.cell_bytes,
            "slot_ns": configuration.slot_ns,
            "line_rate_bits": round(configuration.line_rate),
            "origin_ns": self.run.captures.origin,
            "slots": self.slots,
            "fill": round(self.bytes / (cells * configuration.cell_bytes), 3) if cells else None,
        }
        row |= whole.row(configuration.slot_ns)
        if self.run.log:
            row |= {
                "list_peak": max(row.length.peak for row in self.inputs),
                "buffer_peak": max(output.longest for output in self.outputs),
                "slack_least": min((s for r in self.inputs if (s := r.slacks.least()) is not None), default=None),
                "proposals": self.proposals,
                "proposals_most": self.most,
                "proposals_mean": round(self.proposals / (2 * self.slots), 3) if self.slots else 0.0,
            }
        return row

    def _load(self, cells: int) -> float:
        """The share of the slots in which one of these cells, admitted or sent, is on its line."""
        return round(cells / self.slots, 3) if self.slots else 0.0

    def _output_row(self, j: int, flow: Flow) -> Row:
        """The figures of an output, with what left there."""
        cells, output = len(flow.waits), self.outputs[j]
        row = {
            "output": j,
            "discipline": self.configuration.disciplines[j],
            "packets": len(flow.delays),
            "cells": cells,
            "idle_slots": self.slots - cells,
            "load": self._load(cells),
        }
        if self.run.log:
            row |= {"buffer_peak": output.longest, "buffer_mean": output.buffer.mean(self.slots)}
        return row

    def _input_row(self, i: int) -> Row:
        """The figures of an input."""
        packets, figures, ahead = self.run.captures.inputs[i], self.inputs[i], Spread()
        for start, stamp_slot in zip(packets.starts, packets.stamp_slots):
            ahead.add(start - stamp_slot)
        row = (
            {"input": i, "packets": len(packets), "cells": figures.cells, "load": self._load(figures.cells)}
            | self._routes(packets)
            | ahead.row("ahead", "slots")
            | ahead.row("ahead", "ns", self.configuration.slot_ns)
        )
        if self.run.log:
            row |= {
                "list_peak": figures.length.peak,
                "list_mean": figures.length.mean(self.slots),
                "slack_least": figures.slacks.least(),
                "slack_median": figures.slacks.share(50),
                "slack_greatest": figures.slacks.greatest(),
            }
        return row

    @staticmethod
    def _routes(packets: Packets) -> Row:
        """How many packets a default decided."""
        counts = {
            f"to_{name}": packets.destinations.count(at) for at, name in enumerate(DESTINATIONS) if name != "known"
        }
        return counts | {"by_no_rule": packets.by_rule.count(0)}


def stats_of(configuration: Configuration, with_log: bool) -> tuple[Replay, Stats]:
    """A run that is about to be gone through, and its figures so far: none."""
    run = replay(configuration, with_log)
    return run, Stats(run)


def document_of(configuration: Configuration, with_log: bool = True) -> dict[str, Any]:
    """All figures of a run."""
    run, stats = stats_of(configuration, with_log)
    for slot in run.slots():
        stats.add(slot)
    return stats.document()


def write_csv(folder: str, configuration: Configuration, with_log: bool) -> None:
    """Writes a CSV of each table, and one of all packets in the order in which they left or were refused."""
    os.makedirs(folder, exist_ok=True)
    run, stats = stats_of(configuration, with_log)
    with ExitStack() as files:

        def rows(name: str, columns: Iterable[str]) -> "csv.DictWriter[str]":
            file = files.enter_context(open(os.path.join(folder, name + ".csv"), "w", encoding="utf-8", newline=""))
            writer = csv.DictWriter(file, list(columns), lineterminator="\n")
            writer.writeheader()
            return writer

        packets = rows("packets", PACKET_COLUMNS)
        for slot in run.slots():
            stats.add(slot)
            packets.writerows(stats.gone)
        for name, figures in stats.document().items():
            figures = [figures] if isinstance(figures, dict) else figures
            if figures:
                rows(name, figures[0]).writerows(figures)


def print_tables(document: dict[str, Any]) -> None:
    """Prints the figures for people."""
    run = document["run"]
    print(
        f"{run['configuration']}: {run['ports']} ports, cells of {run['cell_bytes']} bytes, slots of {run['slot_ns']} ns, "
        f"lines of {run['line_rate_bits']:,} bits a second"
    )
    print(
        f"{run['packets']} packets left in {run['cells']} cells, {100 * run['fill']:.1f} % full, the last one in slot "
        f"{run['slots'] - 1}"
        if run["slots"]
        else "no packet left"
    )
    if run["refused_packets"]:
        print(f"{run['refused_packets']} packets of {run['refused_cells']} cells were refused")
    if "proposals" in run:
        print(f"{run['proposals']} proposals, {run['proposals_mean']} a matching, {run['proposals_most']} at most")
    for title, rows in tables_of(document):
        print()
        print(title)
        table(rows, sys.stdout)


def columns(rows: list[Row], *parts: str, without: str = "") -> list[Row]:
    """The columns whose names begin in one of these ways, under their names without a part."""
    return [
        {name.removeprefix(without).replace("_", " "): value for name, value in row.items() if name.startswith(parts)}
        for row in rows
    ]


def tables_of(document: dict[str, Any]) -> Iterable[tuple[str, list[Row]]]:
    """The tables that are printed, each under its title."""
    inputs = document["inputs"]
    flows = [row for row in document["flows"] if (row["output"] == "all") == (row["class"] == "all")]
    left = ("output", "class", "packets", "cells") + (("refused",) if document["run"]["refused_packets"] else ())
    yield "what left, by output and class", columns(flows, *left)
    yield "how long its cells waited, from arrival to departure", columns(
        flows, "output", "class", "wait_", without="wait_"
    )
    yield "delay of its packets, from stamp to written stamp", columns(
        flows, "output", "class", "delay_", without="delay_"
    )
    yield "outputs, and their buffers", columns(document["outputs"], "")
    yield "inputs, and packets for which a default decided", columns(
        inputs, "input", "packets", "cells", "load", "to_", "by_"
    )
    yield "how long packets waited ahead of their own line", columns(inputs, "input", "ahead_", without="ahead_")
    if document["run"].get("list_peak") is not None:
        yield "lists of the inputs, and the slack of cells on arrival", columns(inputs, "input", "list", "slack")


def main() -> None:
    words = argparse.ArgumentParser(description="What a run did to its packets, in figures.")
    words.add_argument("config", metavar="CONFIG")
    words.add_argument("--without-log", action="store_true", help="there is no log, as after `cq_switch ideal`")
    form = words.add_mutually_exclusive_group()
    form.add_argument("--json", action="store_true", help="print one JSON document")
    form.add_argument("--csv", metavar="FOLDER", help="write the tables and all packets as CSV into this folder")
    options = words.parse_args()

    def work() -> None:
        configuration = read_configuration(options.config)
        if options.csv:
            write_csv(options.csv, configuration, not options.without_log)
        elif options.json:
            json.dump(document_of(configuration, not options.without_log), sys.stdout, indent=1)
            print()
        else:
            print_tables(document_of(configuration, not options.without_log))

    guarded("stats.py", work)


if __name__ == "__main__":
    main()
