#!/usr/bin/env python3
"""Compares the tools with the plain models in `examples/`, on switches that are drawn.

    drawn.py [--seed SEED] [--count COUNT]

For each switch, with limits and levels or without, the model of the fabric writes the files of a run, and notes its
figures slot by slot from whole lists and buffers; `stats.py` has to find the same figures in the files. Each cheaper
switch has to send each cell once, from its arrival on, with one cell at most from an input and to an output in a slot,
and a maximal one leaves no cell waiting whose input and output are both free.
"""

import argparse
import math
import os
import random
import struct
import sys
import tempfile
from collections import Counter
from typing import Any

sys.path.insert(0, os.path.dirname(os.path.dirname(os.path.realpath(__file__))))

import cheaper
import stats
from cq import replay
from cq.config import read_configuration
from cq.toml import toml_text

from fabric_model import Fabric
from switch_model import Limits, Switch

STATIONS = 8
MAGICS = {("<", 1000): "d4c3b2a1", ("<", 1): "4d3cb2a1"}


class Noted(Limits):
    """Limits that note the cells which they refuse."""

    def __init__(self, limits: list[int | None]) -> None:
        super().__init__(limits)
        self.cells: list[Any] = []

    def admits(self, cell: Any, held: int) -> bool:
        is_admitted = super().admits(cell, held)
        if not is_admitted:
            self.cells.append(cell)
        return is_admitted


class Watched(Fabric):
    """The model, which notes what its lists and buffers are."""

    def __init__(self, switch: Switch) -> None:
        super().__init__(switch)
        self.limits = Noted(switch.limits)
        self.lengths: list[list[int]] = [[] for _ in self.ports]  # per input, after the arrivals of each slot
        self.kept: list[list[int]] = [[] for _ in self.ports]  # per output, at the end of each slot
        self.peaks = [0 for _ in self.ports]
        self.slacks: list[Counter[int]] = [Counter() for _ in self.ports]

    def arrive(self, slot: int, cells: list[Any]) -> None:
        super().arrive(slot, cells)
        for i, line in enumerate(self.lists):
            self.lengths[i].append(len(line))
            self.slacks[i].update(
                self.cushion(queued) - place for place, queued in enumerate(line) if queued.slot == slot
            )

    def transfer(self, slot: int, phase: int) -> None:
        super().transfer(slot, phase)
        for j, buffer in enumerate(self.buffers):
            self.peaks[j] = max(self.peaks[j], len(buffer))
            if phase == 2:
                self.kept[j].append(len(buffer))


def drawn_tables(draw: random.Random) -> dict[str, Any]:
    """A configuration of one to six ports."""
    ports, kinds, version = draw.randint(1, 6), draw.randint(1, 4), draw.choice((1, 2))
    rules = [
        {
            key: value
            for key, value in (
                ("input", draw.randrange(ports)),
                ("pcp", draw.randrange(8)),
                ("ether_type", draw.choice((0x0800, 0x86DD, 0x88B5))),
                ("dscp", draw.randrange(4)),
            )
            if draw.random() < 0.4
        }
        | {"class": draw.randrange(kinds)}
        for _ in range(draw.randrange(4))
    ]
    return {
        "version": version,
        "cell_bytes": draw.choice((24, 48, 64, 100)),
        "slot_ns": draw.choice((1, 100, 512, 5000)),
        "default_output": draw.randrange(ports),
        "default_class": draw.randrange(kinds),
        "trace": "trace.txt",
        "log": "log.txt",
        "class": [
            {"priority": draw.randrange(4), "cost": draw.randint(1, 5)}
            | ({"level": draw.choice((0, 1, 15))} if version == 2 else {})
            for _ in range(kinds)
        ],
        "port": [
            ({"read": f"in{i}.pcap"} if draw.random() < 0.9 else {})
            | {"write": f"out{i}.pcap", "discipline": draw.choice(("first-come", "priority", "fair"))}
            | ({"limit": draw.choice((1, 2, 3, 8))} if draw.random() < 0.3 else {})
            for i in range(ports)
        ],
        "address": [
            {"mac": "02:00:00:00:00:%02x" % station, "output": draw.randrange(ports)}
            for station in range(STATIONS)
            if draw.random() < 0.7
        ],
        "rule": rules,
    }


def drawn_frame(draw: random.Random) -> bytes:
    """A frame of 0 to 300 bytes, to a station, to a group or to nobody known."""
    to = draw.choice((bytes([2, 0, 0, 0, 0, draw.randrange(STATIONS)]), b"\xff" * 6, bytes([2, 9, 9, 9, 9, 9])))
    tag = draw.choice((b"", b"", b"\x81\x00" + bytes([draw.randrange(8) << 5, 1])))
    kind = draw.choice((b"\x08\x00\x45" + bytes([draw.randrange(4) << 2]), b"\x86\xdd\x60\x00", b"\x88\xb5"))
    return (to + bytes([2, 0, 0, 0, 0, 0xAA]) + tag + kind).ljust(300, b"\0")[
        : draw.choice((draw.randint(0, 30), draw.randint(0, 300)))
    ]


def write_drawn_capture(draw: random.Random, name: str, slot_ns: int) -> None:
    """A capture of up to fifteen packets, whose stamps need not rise."""
    order, unit = draw.choice(tuple(MAGICS))
    with open(name, "wb") as file:
        file.write(bytes.fromhex(MAGICS[order, unit]) + struct.pack(order + "HHiIII", 2, 4, 0, 0, 262144, 1))
        for _ in range(draw.randrange(16)):
            frame = drawn_frame(draw)
            file.write(
                struct.pack(
                    order + "4I", 7, draw.randrange(12 * slot_ns) // unit, len(frame), len(frame) + draw.randrange(9)
                )
                + frame
            )


def quantile(values: list[int], per_cent: int) -> int | None:
    """The nearest rank, from the whole list."""
    return sorted(values)[math.ceil(len(values) * per_cent / 100) - 1] if values else None


def four(values: list[int], name: str, unit: str) -> dict[str, Any]:
    """The four figures of a list."""
    return {
        f"{name}_mean_{unit}": round(sum(values) / len(values), 3) if values else None,
        f"{name}_median_{unit}": quantile(values, 50),
        f"{name}_p99_{unit}": quantile(values, 99),
        f"{name}_greatest_{unit}": max(values, default=None),
    }


def flows_of(fabric: Watched) -> list[dict[str, Any]]:
    """The figures of each output and class, and of all outputs and all classes, by the model."""
    switch, rows = fabric.switch, []
    for output in [*fabric.ports, "all"]:
        for kind in [*range(len(switch.classes)), "all"]:
            sent = [(slot, q) for slot, at, q in fabric.sent if output in (at, "all") and kind in (q.cell.kind, "all")]
            lost = [c for c in fabric.limits.cells if output in (c.output, "all") and kind in (c.kind, "all")]
            if sent or lost or (output, kind) == ("all", "all"):
                waits = [slot - q.slot for slot, q in sent]
                delays = [
                    switch.t0 + slot * switch.slot_ns - switch.captures[q.input][q.cell.packet].stamp
                    for slot, q in sent
                    if q.cell.last
                ]
                rows.append(
                    {"output": output, "class": kind, "packets": len(delays), "cells": len(waits)}
                    | {"refused_packets": sum(cell.index == 0 for cell in lost), "refused_cells": len(lost)}
                    | four(waits, "wait", "slots")
                    | four([wait * switch.slot_ns for wait in waits], "wait", "ns")
                    | four(delays, "delay", "ns")
                )
    return rows


def outputs_of(fabric: Watched, slots: int) -> list[dict[str, Any]]:
    """The figures of each output, by the model."""
    rows = []
    for j in fabric.ports:
        cells = sum(output == j for _, output, _ in fabric.sent)
        rows.append(
            {
                "output": j,
                "cells": cells,
                "idle_slots": slots - cells,
                "load": round(cells / slots, 3) if slots else 0.0,
                "buffer_peak": fabric.peaks[j],
                "buffer_mean": round(sum(fabric.kept[j]) / slots, 3) if slots else 0.0,
                "packets": sum(output == j and queued.cell.last for _, output, queued in fabric.sent),
            }
        )
    return rows


def inputs_of(fabric: Watched, slots: int) -> list[dict[str, Any]]:
    """The figures of each input, by the model."""
    switch, rows, starts = fabric.switch, [], {}
    for slot, cells in switch.arrivals().items():
        starts.update({(cell.input, cell.packet): slot for cell in cells if cell.index == 0})
    for i in fabric.ports:
        packets = switch.captures[i]
        ahead = [
            starts[i, k] - (packet.stamp - switch.t0) // switch.slot_ns for k, packet in enumerate(packets)
        ]
        unknown = [packet.body for packet in packets if packet.body[:6] not in switch.outputs]
        rows.append(
            {
                "input": i,
                "packets": len(packets),
                "cells": fabric.cells[i],
                "load": round(fabric.cells[i] / slots, 3) if slots else 0.0,
                "list_peak": fabric.longest[i],
                "list_mean": round(sum(fabric.lengths[i]) / slots, 3) if slots else 0.0,
                "slack_least": fabric.slack[i],
                "to_short": sum(len(body) < 6 for body in unknown),
                "to_group": sum(len(body) >= 6 and body[0] % 2 == 1 for body in unknown),
                "to_unknown": sum(len(body) >= 6 and body[0] % 2 == 0 for body in unknown),
            }
            | four(ahead, "ahead", "slots")
        )
    return rows


def differences(found: Any, wanted: Any, where: str) -> list[str]:
    """The wanted figures that were not found."""
    if isinstance(wanted, dict):
        return [line for key, value in wanted.items() for line in differences(found.get(key), value, f"{where}.{key}")]
    if isinstance(wanted, list):
        if len(found) != len(wanted):
            return [f"{where}: {len(found)} rows, not {len(wanted)}"]
        return [line for at, value in enumerate(wanted) for line in differences(found[at], value, f"{where}[{at}]")]
    return [] if found == wanted else [f"{where}: {found}, not {wanted}"]


def compare(draw: random.Random) -> list[str]:
    """Draws a switch, runs the model in the current folder, and compares."""
    tables = drawn_tables(draw)
    for port in tables["port"]:
        if "read" in port:
            write_drawn_capture(draw, port["read"], tables["slot_ns"])
    with open("switch.toml", "w", encoding="utf-8") as file:
        file.write(toml_text(tables))
    fabric = Watched(Switch.of("switch.toml")).run()
    fabric.write()
    slots = max((slot + 1 for slot, _, _ in fabric.sent), default=0)
    wanted = {
        "run": {"slots": slots, "proposals": fabric.proposals, "proposals_most": fabric.most},
        "flows": flows_of(fabric),
        "outputs": outputs_of(fabric, slots),
        "inputs": inputs_of(fabric, slots),
        "slack": [
            {"input": i, "slack": slack, "cells": count}
            for i, counts in enumerate(fabric.slacks)
            for slack, count in sorted(counts.items())
        ],
    }
    configuration = read_configuration("switch.toml")
    replay.SPREAD = draw.choice((2, 1 << 60))  # with the first, labels have to be spread anew often
    said = differences(stats.document_of(configuration), wanted, "stats")
    ideal = stats.document_of(configuration, with_log=False)
    return said + differences(ideal, {"flows": wanted["flows"]}, "stats without a log") + broken_switches(configuration)


def broken_switches(configuration: Any) -> list[str]:
    """The cheaper switches that break what every crossbar keeps. With as many iterations as ports iSLIP is maximal, as
    the greedy matching is: no cell waits while its input and its output are both free."""
    cells, ports, said = cheaper.cells_of(configuration), configuration.ports, []
    for make in cheaper.schedulers(ports, [1, ports]):
        for ranked in (False, True):
            scheduler = make()
            left = cheaper.simulate(cells, ports, scheduler, ranked).left
            used = {
                (slot, side) for cell, slot in zip(cells, left) for side in (("in", cell.input), ("out", cell.output))
            }
            if len(used) < 2 * len(cells) or any(slot < cell.slot for cell, slot in zip(cells, left)):
                said.append(f"cheaper: {scheduler.name} is no crossbar")
            if scheduler.name != "iSLIP 1" and any(
                (slot, ("in", cell.input)) not in used and (slot, ("out", cell.output)) not in used
                for cell, last in zip(cells, left)
                for slot in range(cell.slot, last)
            ):
                said.append(f"cheaper: {scheduler.name} is not maximal")
    return said


def main() -> None:
    words = argparse.ArgumentParser(description="Compares the tools with the plain models, on drawn switches.")
    words.add_argument("--seed", type=int, default=1)
    words.add_argument("--count", type=int, default=200)
    options = words.parse_args()
    wrong = 0
    with tempfile.TemporaryDirectory() as folder:
        os.chdir(folder)
        for number in range(options.count):
            said = compare(random.Random(f"{options.seed} {number}"))
            wrong += bool(said)
            for line in said:
                print(f"switch {number}: {line}")
    print(f"drawn.py: {options.count} switches drawn from seed {options.seed}, {wrong} with a difference")
    sys.exit(1 if wrong else 0)


if __name__ == "__main__":
    main()
