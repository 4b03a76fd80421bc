#!/usr/bin/env python3
"""Makes the captures of the examples, but for those of the lab, and the files that the program is to make of them.

    make.py

The expected files come from the models beside it, and so from no run of the program.
"""

import os

import state_model
from fabric_model import Fabric
from model import SECOND_NS, Packet, captured, cells_of, passed, slots, written
from switch_model import Switch

HERE = os.path.dirname(os.path.realpath(__file__))
BEGIN = 1_700_000_000 * SECOND_NS

# Microseconds after the beginning, bytes captured, and bytes on the wire.
ONE_PORT = ((0, 64, 64), (0, 200, 200), (1, 60, 60), (2, 0, 60), (1, 65, 65), (10, 128, 128), (12, 96, 1514))

# For each input of the switch of three ports: microseconds, bytes captured, and the last byte of the address.
THREE_PORTS = (
    ((0, 200, 1), (1, 60, 9)),
    ((0, 60, 1), (1, 60, 0)),
    ((0, 128, 1), (2, 60, 1)),
)

# For each capture of the burst, all to one output: microseconds, and bytes captured.
BURST = {
    "office.pcap": ((0, 60), (2, 60)),
    "backup.pcap": ((0, 192), (1, 192), (3, 128)),
    "phone.pcap": ((0, 60), (1, 60), (2, 60), (4, 60)),
}

# For each capture of the levels, all to one output: microseconds, and bytes captured.
LEVELS = {
    "office.pcap": ((0, 384),),
    "backup.pcap": ((0, 384),),
    "phone.pcap": ((0, 60), (1, 60), (2, 60)),
}

# For each capture of the office: microseconds, bytes captured, the destination, and what stands behind the addresses.
TELEPHONES, SERVERS, EVERYBODY = "020000000001", "020000000002", "ffffffffffff"
OFFICE = {
    "uplink.pcap": ((0, 98, TELEPHONES, "08004500"), (1, 60, TELEPHONES, "8100a00a08004500"), (3, 60, SERVERS, "080045b8")),
    "phones.pcap": ((0, 200, TELEPHONES, "08004500"), (2, 60, EVERYBODY, "0806"), (3, 60, SERVERS, "08004500")),
}


def frame(number, length):
    """Two addresses, the type for local experiments, and the packet's number in every other byte."""
    head = bytes.fromhex("020000000001" "0200000000aa" "88b5")
    return (head + bytes([number]) * length)[:length]


def addressed(station, length):
    """A frame to the station whose address ends in this byte."""
    return (bytes.fromhex("0200000000") + bytes([station]) + bytes.fromhex("0200000000aa" "88b5")).ljust(length, b"\0")


def three_ports():
    os.chdir(os.path.join(HERE, "three-ports"))
    for number, packets in enumerate(THREE_PORTS):
        with open("in%d.pcap" % number, "wb") as file:
            file.write(captured(Packet(BEGIN + micros * 1000, length, addressed(station, length)) for micros, length, station in packets))
    switch = Switch.of("switch.toml")
    switch.write(switch.departures())
    write_crossed("switch.toml")


def write_crossed(config):
    """What the crossbar switch makes of a configuration and its captures, with the report."""
    fabric = Fabric(Switch.of(config)).run()
    fabric.write()
    with open("report.txt", "w", encoding="ascii") as file:
        file.write(fabric.report())


def lab():
    """The captures of the lab are real, and stay."""
    os.chdir(os.path.join(HERE, "lab"))
    write_crossed("switch.toml")


def office():
    os.chdir(os.path.join(HERE, "office"))
    for name, packets in OFFICE.items():
        with open(name, "wb") as file:
            file.write(captured(Packet(BEGIN + micros * 1000, length, bytes.fromhex(to + "0200000000aa" + rest).ljust(length, b"\0"))
                                for micros, length, to, rest in packets))
    write_crossed("office.toml")
    with open("state.txt", "wb") as file:
        file.write(state_model.part("office.toml", 3))


def to_the_uplink(folder, captures):
    """An example in which all packets go to output 0."""
    os.chdir(os.path.join(HERE, folder))
    for name, packets in captures.items():
        with open(name, "wb") as file:
            file.write(captured(Packet(BEGIN + micros * 1000, length, addressed(0, length)) for micros, length in packets))
    write_crossed(folder + ".toml")


def one_port():
    packets = [Packet(BEGIN + micros * 1000, original, frame(number, length))
               for number, (micros, length, original) in enumerate(ONE_PORT)]
    for name, capture in (("in.pcap", captured(packets)), ("out.pcap", written(passed(packets)))):
        with open(os.path.join(HERE, "one-port", name), "wb") as file:
            file.write(capture)
    print("packet  bytes  stamp  cells  slot of stamp  first  last  written")
    for number, (packet, row, out) in enumerate(zip(packets, slots(packets), passed(packets))):
        print("%6d  %5d  %5d  %5d  %13d  %5d  %4d  %7d" % (
            number, len(packet.body), packet.stamp - BEGIN, cells_of(packet), *row, out.stamp - BEGIN))


if __name__ == "__main__":
    one_port()
    three_ports()
    office()
    to_the_uplink("burst", BURST)
    to_the_uplink("levels", LEVELS)
    lab()
