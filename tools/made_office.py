#!/usr/bin/env python3
"""Makes one capture of an office, as a mirror port would give it: every frame of four lines of 1 Gbit/s, in order
of time.

    made_office.py CAPTURE [--ms N] [--seed SEED]

It is drawn from a seed, for docs/SWEEPS.md, and is no real traffic. Four sources send, each with an address of its
own: the uplink 02:..:00, the phones 02:..:01, the servers 02:..:02 and the desks 02:..:03. Voice and video are IPv4
with the DSCP mark 46; all else is not marked. The desks get files from the servers, pages from the uplink, and
video.
"""

import argparse
import heapq
import random
import struct
from collections.abc import Iterator

from cq.faults import guarded

HEADER = bytes.fromhex("4d3cb2a1 02000400 00000000 00000000 00000400 01000000")
BEGIN_NS = 1_700_000_000 * 10**9
UPLINK, PHONES, SERVERS, DESKS = range(4)
URGENT, PLAIN = 46 << 2, 0
SMALL, VOICE, VIDEO, LARGE = 60, 214, 1200, 1514
BYTE_NS = 8  # on a line of 1 Gbit/s

Sent = tuple[int, int, int, int, int]  # when, from whom, to whom, mark and length


def address(station: int) -> bytes:
    return bytes([2, 0, 0, 0, 0, station])


def frame(source: int, to: int, mark: int, length: int) -> bytes:
    """An IPv4 frame of this length, whose bytes tell nothing else."""
    return (address(to) + address(source) + bytes([8, 0, 0x45, mark])).ljust(length, b"\0")


def calls(draw: random.Random, end: int, source: int, to: int, count: int) -> Iterator[Sent]:
    """Voice: each call has a frame every 20 ms."""
    for _ in range(count):
        for when in range(draw.randrange(20_000_000), end, 20_000_000):
            yield when, source, to, URGENT, VOICE


def video(draw: random.Random, end: int, source: int, to: int, count: int) -> Iterator[Sent]:
    """Video: each stream has a picture of several frames every 33 ms, which come one after another."""
    for _ in range(count):
        for when in range(draw.randrange(33_000_000), end, 33_000_000):
            for number in range(draw.randint(6, 30)):
                yield when + number * VIDEO * BYTE_NS, source, to, URGENT, VIDEO


def transfers(draw: random.Random, end: int, source: int, to: int, share: float) -> Iterator[Sent]:
    """Files and pages: bursts of large frames that fill a share of the line, and an answer for every second frame."""
    when = 0
    while when < end:
        burst = min(200, int(draw.paretovariate(1.2) * 4))
        when += int(draw.expovariate(1) * burst * LARGE * BYTE_NS * (1 - share) / share)
        for number in range(burst):
            yield when, source, to, PLAIN, LARGE if number + 1 < burst else draw.randint(SMALL, LARGE)
            if number % 2:
                yield when + 40_000, to, source, PLAIN, SMALL
            when += LARGE * BYTE_NS


def office(seed: int, end: int) -> list[Sent]:
    """All frames, each not before the line of its source is free."""
    draw = random.Random(seed)
    wanted = [
        *calls(draw, end, PHONES, UPLINK, 120),
        *calls(draw, end, UPLINK, PHONES, 120),
        *calls(draw, end, PHONES, DESKS, 60),
        *video(draw, end, UPLINK, DESKS, 60),
        *video(draw, end, DESKS, UPLINK, 20),
        *transfers(draw, end, SERVERS, DESKS, 0.5),
        *transfers(draw, end, UPLINK, DESKS, 0.25),
        *transfers(draw, end, DESKS, SERVERS, 0.3),
        *transfers(draw, end, SERVERS, UPLINK, 0.2),
    ]
    heapq.heapify(wanted)
    free, sent = [0, 0, 0, 0], []
    while wanted:
        when, source, to, mark, length = heapq.heappop(wanted)
        begins = max(when, free[source])
        free[source] = begins + length * BYTE_NS
        if begins < end:
            sent.append((begins, source, to, mark, length))
    return sorted(sent)


def main() -> None:
    words = argparse.ArgumentParser(description="Makes one capture of an office, as a mirror port would give it.")
    words.add_argument("capture", metavar="CAPTURE")
    words.add_argument("--ms", type=int, default=10, help="how long it is")
    words.add_argument("--seed", type=int, default=1)
    options = words.parse_args()

    def work() -> None:
        with open(options.capture, "wb") as file:
            file.write(HEADER)
            for when, *rest in office(options.seed, options.ms * 10**6):
                body, stamp = frame(*rest), BEGIN_NS + when
                file.write(struct.pack("<4I", stamp // 10**9, stamp % 10**9, len(body), len(body)) + body)

    guarded("made_office.py", work)


if __name__ == "__main__":
    main()
