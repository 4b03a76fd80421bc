#!/usr/bin/env python3
"""The one-port switch as a few lines of Python, to compare the program with.

    model.py IN OUT

It reads a little-endian capture with microseconds and writes what `cq_switch pass IN OUT` is to
write. It shares nothing with the program, and takes captures as sound: it refuses none.
"""

import struct
import sys
from typing import NamedTuple

CELL_BYTES = 64
SLOT_NS = 512
SECOND_NS = 10**9

# Version 2.4, zone 0, accuracy 0, at most 262,144 bytes a packet, Ethernet.
FIELDS = struct.pack("<HHiIII", 2, 4, 0, 0, 262144, 1)
MICROSECONDS = bytes.fromhex("d4c3b2a1") + FIELDS
NANOSECONDS = bytes.fromhex("4d3cb2a1") + FIELDS


class Packet(NamedTuple):
    stamp: int  # nanoseconds
    original: int  # the length on the wire, in bytes
    body: bytes  # what was captured of it


def record(seconds, subseconds, packet):
    return struct.pack("<4I", seconds, subseconds, len(packet.body), packet.original) + packet.body


def captured(packets):
    """A capture with microseconds, as a tool for capturing writes it."""
    records = (record(p.stamp // SECOND_NS, p.stamp % SECOND_NS // 1000, p) for p in packets)
    return MICROSECONDS + b"".join(records)


def written(packets):
    """A capture with nanoseconds, as the switch writes it. The seconds are kept modulo 2^32."""
    records = (record(p.stamp // SECOND_NS % 2**32, p.stamp % SECOND_NS, p) for p in packets)
    return NANOSECONDS + b"".join(records)


def packets_of(capture):
    """The packets of a little-endian capture with microseconds."""
    packets, at = [], 24
    while at < len(capture):
        seconds, micros, length, original = struct.unpack_from("<4I", capture, at)
        stamp = seconds * SECOND_NS + micros * 1000
        packets.append(Packet(stamp, original, capture[at + 16:at + 16 + length]))
        at += 16 + length
    return packets


def cells_of(packet):
    """A packet without bytes has one cell of no bytes."""
    return max(1, -(-len(packet.body) // CELL_BYTES))


def slots(packets):
    """For each packet the slot of its stamp, the slot in which its first cell arrives, and the slot
    in which its last cell arrives.

    One cell arrives in a slot, and the output sends one in every slot, so a cell leaves in the slot
    in which it arrives. So the last slot is that in which the packet leaves."""
    t0 = min((p.stamp for p in packets), default=0)
    rows, free = [], 0
    for packet in packets:
        stamp_slot = (packet.stamp - t0) // SLOT_NS
        start = max(stamp_slot, free)
        free = start + cells_of(packet)
        rows.append((stamp_slot, start, free - 1))
    return rows


def passed(packets):
    """The packets that leave, each with the stamp of the slot in which it leaves."""
    t0 = min((p.stamp for p in packets), default=0)
    return [p._replace(stamp=t0 + last * SLOT_NS) for p, (_, _, last) in zip(packets, slots(packets))]


def main():
    if len(sys.argv) != 3:
        sys.exit("usage: model.py IN OUT")
    with open(sys.argv[1], "rb") as capture:
        packets = packets_of(capture.read())
    with open(sys.argv[2], "wb") as out:
        out.write(written(passed(packets)))


if __name__ == "__main__":
    main()
