"""Captures, each read once from its front to its end. Of a packet a row of numbers is kept, and no byte."""

import struct
from array import array
from typing import BinaryIO, Iterator, NamedTuple

from .config import Configuration
from .faults import Fault, reason

FORMS = {
    bytes.fromhex("a1b2c3d4"): (">", 1000),
    bytes.fromhex("d4c3b2a1"): ("<", 1000),
    bytes.fromhex("a1b23c4d"): (">", 1),
    bytes.fromhex("4d3cb2a1"): ("<", 1),
}
HEADER, RECORD, LONGEST = 24, 16, 262_144
SECOND_NS = 10**9
HEAD = 32  # no field that decides on a route ends later
DESTINATIONS = ("known", "unknown", "group", "short")


class Record(NamedTuple):
    """A packet of a capture."""

    stamp: int  # nanoseconds
    original: int  # its length on the wire
    length: int  # how much of it was captured
    head: bytes  # what was captured, or the front of it


def records(name: str) -> Iterator[Record]:
    """The packets of a capture, in order. Refusals have the numbers of docs/FORMATS.md."""
    try:
        with open(name, "rb") as file:
            yield from records_of(name, file)
    except OSError as error:
        raise Fault(f"{name}: {reason(error)}") from None


def records_of(name: str, file: BinaryIO) -> Iterator[Record]:
    """The packets of an open capture."""
    header = file.read(HEADER)
    order, unit = FORMS.get(header[:4], ("", 0))
    if len(header) < HEADER:
        raise refused(name, "1: shorter than the header of a capture")
    if not unit:
        raise refused(name, "2: no capture of the pcap format")
    if struct.unpack(f"{order}HH", header[4:8]) != (2, 4):
        raise refused(name, "3: not version 2.4 of the format")
    if struct.unpack(f"{order}I", header[20:])[0] & 0xFFFF != 1:
        raise refused(name, "4: the link type is not Ethernet")
    fields, at = struct.Struct(f"{order}4I"), HEADER
    while head := file.read(RECORD):
        if len(head) < RECORD:
            raise refused(name, f"5 at {at}: the capture ends in the header of a record")
        seconds, subseconds, length, original = fields.unpack(head)
        if length > LONGEST:
            raise refused(name, f"7 at {at}: a record of {length} bytes")
        body = file.read(length)
        if len(body) < length:
            raise refused(name, f"6 at {at}: the capture ends in the bytes of a record")
        yield Record(seconds * SECOND_NS + subseconds * unit, original, length, body[:HEAD])
        at += RECORD + length


def refused(name: str, what: str) -> Fault:
    return Fault(f"{name}: refusal {what}; docs/FORMATS.md says what helps")


class Packets:
    """The packets of one input, in order: a column for each thing that is kept of them."""

    def __init__(self) -> None:
        self.stamps, self.originals, self.lengths = array("Q"), array("I"), array("I")
        self.outputs, self.kinds, self.destinations, self.by_rule = array("B"), array("B"), array("B"), array("B")
        self.cells, self.starts, self.stamp_slots = array("I"), array("Q"), array("Q")

    def __len__(self) -> int:
        return len(self.stamps)

    def add(self, number: int, record: Record, configuration: Configuration) -> None:
        """Keeps a packet of this input."""
        route = configuration.route(number, record.head)
        self.stamps.append(record.stamp)
        self.originals.append(record.original)
        self.lengths.append(record.length)
        self.outputs.append(route.output)
        self.kinds.append(route.kind)
        self.destinations.append(DESTINATIONS.index(route.destination))
        self.by_rule.append(route.by_rule)
        self.cells.append(configuration.cells_of(record.length))

    def schedule(self, origin: int, slot_ns: int) -> None:
        """Gives each packet the slot of its stamp, and the slot in which its first cell arrives."""
        free = 0
        for stamp, cells in zip(self.stamps, self.cells):
            slot = (stamp - origin) // slot_ns
            free = max(free, slot)
            self.stamp_slots.append(slot)
            self.starts.append(free)
            free += cells

    def arrivals(self, number: int) -> Iterator[tuple[int, int, int, int]]:
        """For each cell its slot, this input, the packet, and the cell's number in it."""
        for packet, (start, cells) in enumerate(zip(self.starts, self.cells)):
            for index in range(cells):
                yield start + index, number, packet, index


class Captures(NamedTuple):
    """What arrives at all inputs."""

    origin: int  # the least stamp of all, in nanoseconds, or 0
    inputs: list[Packets]


def read_captures(configuration: Configuration) -> Captures:
    """Reads the capture of each input, and says when its cells arrive."""
    inputs = []
    for number, name in enumerate(configuration.reads):
        packets = Packets()
        for record in records(name) if name is not None else ():
            packets.add(number, record, configuration)
        inputs.append(packets)
    origin = min((min(packets.stamps) for packets in inputs if packets.stamps), default=0)
    for packets in inputs:
        packets.schedule(origin, configuration.slot_ns)
    return Captures(origin, inputs)
