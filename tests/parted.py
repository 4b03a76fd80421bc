#!/usr/bin/env python3
"""Tries stopped runs on the built program: runs in parts, and damaged states.

    tests/parted.py --bin PROGRAM [--seed N] [--switches N] [--changes N] [--plain]

Each drawn switch (1 to 4 ports of all disciplines, with limits and levels but for `--plain`) is run whole, and is stopped
after drawn numbers of slots and taken up from each. The files and the report must be the same bytes, and each state
the one that `examples/state_model.py` writes. Then states that were written are changed in one place, a number, a word
or a line, and taken up: the program must answer with the line that the model tells, or leave what the model leaves.

The last line is `parted: P passed, F failed`, and the status is 0 where none failed. No part of the gate.
"""

import argparse
import os
import random
import subprocess
import sys
import tempfile

sys.path.insert(0, os.path.join(os.path.dirname(os.path.abspath(__file__)), "..", "examples"))
import state_model
from model import Packet, captured

NUMBERS = (0, 1, 2, 3, 15, 16, 17, 63, 64, 65, 2**32 - 1, 2**32, 2**63 - 1, 2**63, 2**64, 2**128 - 1, 2**128)
KINDS = ("first-come", "priority", "fair")


def drawn_packets(draw, ports):
    stamp, packets = 0, []
    for _ in range(draw.randrange(6)):
        stamp += draw.choice((0, 0, 1, 1, 2, 5, 20))
        head = bytes([2, 0, 0, 0, 0, draw.randrange(ports)]) + bytes(6) + b"\x81\x00"
        body = head + bytes([draw.randrange(4) << 5, 0, 8, 0]) + bytes(draw.choice((2, 2, 40, 100, 180)))
        packets.append(Packet(stamp * 1000, len(body), body))
    return packets


def drawn_switch(draw, plain):
    """The texts and captures of a switch."""
    ports, classes = draw.randint(1, 4), draw.randint(1, 4)
    lines = ["version = %d" % (1 if plain else 2), 'trace = "trace.txt"', 'log = "log.txt"', "slot_ns = %d" % draw.choice((500, 1000, 2000))]
    for _ in range(classes):
        lines += ["[[class]]", 'priority = "%d"' % draw.randrange(4), 'cost = "%d"' % draw.choice((1, 2, 7, 2**127))]
        lines += [] if plain else ["level = %d" % draw.randrange(3)]
    for j in range(ports):
        lines += ["[[port]]", 'read = "in%d.pcap"' % j, 'write = "out%d.pcap"' % j, 'discipline = "%s"' % draw.choice(KINDS)]
        lines += [] if plain or draw.random() < 0.5 else ["limit = %d" % draw.randint(1, 4)]
    for j in range(ports):
        lines += ["[[address]]", 'mac = "02:00:00:00:00:%02x"' % j, "output = %d" % j]
    for k in range(classes):
        lines += ["[[rule]]", "pcp = %d" % k, "class = %d" % k]
    files = {"in%d.pcap" % j: captured(drawn_packets(draw, ports)) for j in range(ports)}
    return {"c.toml": "\n".join(lines).encode() + b"\n", **files}


def put(folder, files):
    for name, data in files.items():
        with open(os.path.join(folder, name), "wb") as file:
            file.write(data)


def contents(folder, but=()):
    found = {}
    for name in sorted(set(os.listdir(folder)) - set(but)):
        with open(os.path.join(folder, name), "rb") as file:
            found[name] = file.read()
    return found


class Trial:
    def __init__(self, program, folder):
        self.program, self.folder = os.path.abspath(program), folder

    def run(self, *words):
        """Status, output, line, and the files afterwards."""
        done = subprocess.run([self.program, *words], cwd=self.folder, capture_output=True, timeout=60)
        return done.returncode, done.stdout, done.stderr.decode("utf-8", "replace"), contents(self.folder, but=("s.txt",))

    def model(self, work):
        """What the model answers, as the program would."""
        here = os.getcwd()
        os.chdir(self.folder)
        try:
            return 0, work()
        except state_model.Stop as stop:
            return stop.status, str(stop) + "\n"
        finally:
            os.chdir(here)


def with_another_key(draw, lines, waiting):
    """The text with the level or the rank of a cell changed, with two cells exchanged, or with one on the other side."""
    at, other = draw.choice(waiting), draw.choice(waiting)
    words = lines[at].split(" ")
    kind = draw.randrange(4)
    if kind == 0:
        words[1] = str(draw.randrange(3))
    elif kind == 1:
        words[2] = str(draw.choice((0, 1, int(words[2]) + 1, int(words[2]) + 5, 2**128 - 1)))
    elif kind == 2:
        words[0] = "buffer" if words[0] == "list" else "list"
    lines[at] = " ".join(words)
    if kind == 3:
        lines[at], lines[other] = lines[other], lines[at]
    else:
        # The line goes where its word asks, so that what is judged is the cell.
        line = lines.pop(at)
        places = [k for k, told in enumerate(lines) if told.startswith(words[0] + " ")] or [at if at < len(lines) else 0]
        lines.insert(draw.choice(places + [places[-1] + 1]), line)
    return "\n".join(lines).encode("ascii")


def changed(draw, text):
    """The text with one place of it changed."""
    lines = text.decode("ascii").split("\n")
    waiting = [at for at, line in enumerate(lines) if line.split(" ")[0] in ("list", "buffer")]
    if waiting and draw.random() < 0.4:
        return with_another_key(draw, lines, waiting)
    at = draw.randrange(len(lines))
    words = lines[at].split(" ")
    place = draw.randrange(len(words))
    kind = draw.randrange(8)
    if kind == 0:
        del lines[at]
    elif kind == 1:
        lines.insert(at, lines[draw.randrange(len(lines))])
    elif kind == 2 and at + 1 < len(lines):
        lines[at], lines[at + 1] = lines[at + 1], lines[at]
    elif kind == 3:
        lines[at] = lines[at] + draw.choice((" ", " 0", "\r", "x"))
    else:
        number = int(words[place]) if words[place].isdigit() else 0
        words[place] = draw.choice((str(number + 1), str(max(number - 1, 0)), str(draw.choice(NUMBERS)), "0" + words[place], "-"))
        lines[at] = " ".join(words)
    return "\n".join(lines).encode("ascii")


def resumes(trial, text):
    """What differs where the text is taken up, or None."""
    put(trial.folder, {"s.txt": text})
    before = contents(trial.folder, but=("s.txt",))
    status, wanted = trial.model(lambda: state_model.resumed("c.toml", text))
    said = trial.run("resume", "c.toml", "s.txt")
    if status:
        return None if said == (status, b"", wanted, before) else "wanted %d %r, got %r" % (status, wanted, said[:3])
    report = wanted.report().encode("ascii")
    trial.model(wanted.write)
    return None if said == (0, report, "", contents(trial.folder, but=("s.txt",))) else "another run, got %r" % (said[:3],)


def parts(draw, trial):
    """What differs where a run is stopped and taken up, or None; and a state that was written."""
    whole, text = trial.run("run", "c.toml"), None
    for stops in ([draw.randrange(12)], sorted(draw.randrange(30) for _ in range(2)), [2**63 - 1]):
        for slots in stops:
            status, wanted = trial.model(lambda: state_model.part("c.toml", slots))
            said = trial.run("part", "c.toml", str(slots), "s.txt")
            if said[0] != status:
                return "part %d: wanted %d, got %r" % (slots, status, said[:3]), text
            if status:
                continue
            text = contents(trial.folder)["s.txt"]
            if text != wanted:
                return "part %d: another state" % slots, text
            resumed = trial.run("resume", "c.toml", "s.txt")
            if resumed != whole:
                return "resume from %d: wanted %r, got %r" % (slots, whole[:3], resumed[:3]), text
    return None, text


def main():
    parser = argparse.ArgumentParser(description=__doc__, formatter_class=argparse.RawDescriptionHelpFormatter)
    parser.add_argument("--bin", required=True)
    parser.add_argument("--seed", type=int, default=1)
    parser.add_argument("--switches", type=int, default=200)
    parser.add_argument("--changes", type=int, default=5000)
    parser.add_argument("--plain", action="store_true")
    options = parser.parse_args()
    passed = failed = 0
    for case in range(options.switches):
        draw = random.Random("%d %d" % (options.seed, case))
        with tempfile.TemporaryDirectory() as folder:
            put(folder, drawn_switch(draw, options.plain))
            trial = Trial(options.bin, folder)
            difference, text = parts(draw, trial)
            passed, failed = passed + (difference is None), failed + (difference is not None)
            if difference:
                print("switch %d: %s" % (case, difference))
            for change in range(options.changes // options.switches if text else 0):
                damaged = changed(draw, text)
                difference = resumes(trial, damaged)
                passed, failed = passed + (difference is None), failed + (difference is not None)
                if difference:
                    print("switch %d, change %d: %s\n%r" % (case, change, difference, damaged))
    print("parted: %d passed, %d failed" % (passed, failed))
    sys.exit(failed > 0)


if __name__ == "__main__":
    main()
