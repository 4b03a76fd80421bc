"""What the scripts here share: made captures, and how a command is measured."""

import argparse
import os
import random
import re
import shutil
import statistics
import subprocess
import sys
import threading
import time
from typing import NamedTuple

ROOT = os.path.dirname(os.path.dirname(os.path.realpath(__file__)))
SEED = 1
BEGIN_SECONDS = 1_700_000_000
# Where the C library copies with one instruction that repeats itself, callgrind counts each byte; so it is told not to.
WITHOUT_REP = {**os.environ, "GLIBC_TUNABLES": "glibc.cpu.x86_rep_movsb_threshold=%d:glibc.cpu.x86_rep_stosb_threshold=%d"
               % (2**30, 2**30)}


SHORTEST, CLASSES = 60, 8
FIRST_TYPE = 0x88B5  # of the packets of class 0, where each input sends several classes


class Traffic(NamedTuple):
    """What is drawn for the inputs: packets of 60 bytes up to the longest."""

    ports: int
    outputs: int  # to so many outputs, drawn alike,
    most: int = 0  # but so many packets of ten to output 0
    longest: int = 1514
    load: int = 8  # of ten slots so many have a cell
    classes: int = 1  # that each input sends, drawn alike


class Made(NamedTuple):
    size: int  # of all captures together, in bytes
    cells: int
    slots: int  # in which cells arrive


class Spent(NamedTuple):
    seconds: float  # by the clock
    busy: float  # of processors, by the program and by the system for it
    peak: int  # the most memory that it had at a time, in bytes
    said: str  # what it wrote on standard output


def model():
    """The plain model of the examples."""
    sys.path.insert(0, os.path.join(ROOT, "examples"))
    import model
    return model


def run(words, limit=None):
    """What a command that is to end with status 0 spent, or None where it was ended after `limit` seconds.

    A child's peak memory can begin with that of its parent, so the parent is to stay small."""
    start = time.perf_counter()
    child = subprocess.Popen(words, stdout=subprocess.PIPE, text=True)
    timer = threading.Timer(limit, child.kill) if limit else None
    if timer:
        timer.start()
    said = child.stdout.read()
    _, status, used = os.wait4(child.pid, 0)
    seconds = time.perf_counter() - start
    child.returncode = status
    if timer:
        timer.cancel()
    if limit and seconds >= limit and status != 0:
        return None
    if status != 0:
        sys.exit("%s did not end with status 0" % " ".join(words))
    return Spent(seconds, used.ru_utime + used.ru_stime, used.ru_maxrss * 1024, said)


def middle(spent):
    """The medians of what several runs spent, and the greatest peak."""
    return Spent(statistics.median(s.seconds for s in spent), statistics.median(s.busy for s in spent),
                 max(s.peak for s in spent), spent[0].said)


def instructions(words):
    """How many instructions a command takes, by callgrind, or None where valgrind is not there."""
    if not shutil.which("valgrind"):
        return None
    counted = subprocess.run(["valgrind", "--tool=callgrind", "--callgrind-out-file=/dev/null", *words], env=WITHOUT_REP,
                             stdout=subprocess.DEVNULL, stderr=subprocess.PIPE, text=True, check=True)
    return int(re.search(r"Collected : (\d+)", counted.stderr).group(1))


def per(count, unit):
    """A count for each unit, as a cell of a table."""
    return "-" if count is None else "{:,.0f}".format(count / unit)


def whole(number):
    """A number with its thousands apart."""
    return "{:,.0f}".format(number)


def megabytes(size):
    return "{:,.0f} MB".format(size / 1e6)


def table(heads, rows):
    """Prints a table for README.md."""
    print("| %s |" % " | ".join(heads))
    print("|%s" % ("---|" * len(heads)))
    for row in rows:
        print("| %s |" % " | ".join(str(cell) for cell in row))
        sys.stdout.flush()
    print()


def processor():
    with open("/proc/cpuinfo", encoding="utf-8") as lines:
        names = [line.split(":", 1)[1].strip() for line in lines if line.startswith("model name")]
    return "%s, %d processors" % (names[0] if names else "unknown", os.cpu_count())


def built_program():
    """The built program itself, so that the launcher's own time is not measured."""
    launcher = os.path.join(ROOT, "cq_switch")
    example = os.path.join(ROOT, "examples", "one-port", "in.pcap")
    subprocess.run([launcher, "pass", example, os.devnull], check=True)
    return os.path.join(ROOT, "crates", "cq_switch", "out", "cq_switch")


def parser(description, runs):
    """What all scripts take."""
    words = argparse.ArgumentParser(description=description)
    words.add_argument("--program", help="the program; by default the proved one, built first where need be")
    words.add_argument("--runs", type=int, default=runs)
    words.add_argument("--scale", type=float, default=1, help="a part of the sizes, to try the script")
    words.add_argument("--fast", action="store_true", help="count no instructions")
    return words


def program_of(options):
    return os.path.abspath(options.program) if options.program else built_program()


def configuration(ports, workers=1, discipline=None, classes=1):
    """Each station is at the output of its number. With a discipline there are eight classes, by input, or by the type
    of a packet where each input sends several."""
    lines = ["version = 1", "workers = %d" % workers, 'trace = "trace.txt"', 'log = "log.txt"']
    how = '\ndiscipline = "%s"' % discipline if discipline else ""
    lines += ['[[port]]\nread = "in%d.pcap"\nwrite = "out%d.pcap"%s' % (i, i, how) for i in range(ports)]
    lines += ['[[address]]\nmac = "02:00:00:00:00:%02x"\noutput = %d' % (i, i) for i in range(ports)]
    if discipline:
        lines += ["[[class]]\npriority = %d\ncost = %d" % (CLASSES - 1 - k, 1 + k) for k in range(CLASSES)]
        typed = [("ether_type", FIRST_TYPE + k) for k in range(classes)]
        of = typed if classes > 1 else [("input", i) for i in range(ports)]
        lines += ["[[rule]]\n%s = %d\nclass = %d" % (*rule, i % CLASSES) for i, rule in enumerate(of)]
    return "\n".join(lines) + "\n"


def write_configuration(folder, ports, workers=1, discipline=None, classes=1):
    """Writes a switch.toml, and gives its name."""
    name = os.path.join(folder, "switch.toml")
    with open(name, "w", encoding="ascii") as file:
        file.write(configuration(ports, workers, discipline, classes))
    return name


def make_captures(folder, traffic, size):
    """Writes a capture of about `size` bytes for each port. The same arguments make the same captures."""
    rules, draw, cells, total, end = model(), random.Random(SEED), 0, 0, 0
    for number in range(traffic.ports):
        stamp = BEGIN_SECONDS * rules.SECOND_NS
        with open(os.path.join(folder, "in%d.pcap" % number), "wb") as file:
            file.write(rules.NANOSECONDS)
            while file.tell() < size:
                to = 0 if traffic.most and draw.randrange(10) < traffic.most else draw.randrange(traffic.outputs)
                body = bytes([2, 0, 0, 0, 0, to]) + draw.randbytes(draw.randint(SHORTEST - 6, traffic.longest - 6))
                if traffic.classes > 1:
                    body = body[:12] + (FIRST_TYPE + draw.randrange(traffic.classes)).to_bytes(2, "big") + body[14:]
                packet = rules.Packet(stamp, len(body), body)
                file.write(rules.record(stamp // rules.SECOND_NS, stamp % rules.SECOND_NS, packet))
                cells += rules.cells_of(packet)
                stamp += rules.cells_of(packet) * rules.SLOT_NS * 10 // traffic.load
            total += file.tell()
        end = max(end, stamp)
    return Made(total, cells, (end - BEGIN_SECONDS * rules.SECOND_NS) // rules.SLOT_NS)


def write_capture(folder, number, stamps):
    """Writes a capture of packets of 60 bytes to output 0 with these stamps, in nanoseconds after the beginning."""
    rules, body = model(), bytes.fromhex("020000000000").ljust(60, b"\0")
    with open(os.path.join(folder, "in%d.pcap" % number), "wb") as file:
        file.write(rules.NANOSECONDS)
        for stamp in stamps:
            file.write(rules.record(BEGIN_SECONDS + stamp // rules.SECOND_NS, stamp % rules.SECOND_NS, rules.Packet(stamp, 60, body)))


def figure(said, name):
    """The greatest number behind this name in a report."""
    return max(int(number) for number in re.findall(r"\b%s (\d+)" % name, said))
