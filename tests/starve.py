#!/usr/bin/env python3
"""Refuses the built program one growth of its memory after the other, and looks at what stands after each.

    tests/starve.py --bin PROGRAM [--only CASE] [--jobs N]

Each case is one command over a few small files, in a folder of its own. A library that is loaded ahead of the
C library numbers the calls of `malloc`, `realloc` and `calloc` from 0. It refuses the one with the number N, or that
one and all behind it, for every N in turn, until the numbers have gone past the last call of a run. What is counted
begins where the loader is done, ahead of `main`. So it has the calls that the C library makes for the program, as
where a thread is started, and none that the loader makes for itself. In two more rounds the starts of threads are
numbered and refused in the same way.

Every name that the program is to write is a file already, with other bytes, so that touching it shows. After each run
one of these must stand, with its whole line and no other:

- the right answer: 0 where the text and all files are right, or the refusal of a case that is to be refused, where all
  files are as before, and no text was written. Words that are no command may have no other answer, but for 10;
- 7, `no memory`: all files are as before, and no text was written;
- 5, `read fault: NAME`, as where a name that is read could not be kept: the same;
- 6, `write fault: NAME`, as where a name that is written could not be kept: the files ahead of it are right, it and
  those behind it are as before, and no text was written;
- 10, where the words could not be had, so by no number behind one that gave another status: nothing was written.

Where nothing or a thread is refused, only the first may stand. A signal, or more than 10 seconds, is a failure. What is
right stands in `examples/`, is worked by hand, or comes from `examples/fabric_model.py`, and so from no run of the program.

The library wants glibc and `cc`. With several workers a run may ask for more or less than the one before it, so a growth
of theirs may be passed over. The last line is `starve: P passed, F failed`, and the status is 1 where one failed. No part
of the gate.
"""

import argparse
import collections
import concurrent.futures
import itertools
import mmap
import os
import signal
import struct
import subprocess
import sys
import tempfile

EXAMPLES = os.path.join(os.path.dirname(os.path.abspath(__file__)), "..", "examples")
WALL = 10
NEVER = 2**64 - 1  # the number of no growth
QUIET = 16  # so many numbers in turn that refuse nothing end a round
NO_WORDS = 10  # the status of a call whose words could not be kept
USAGE = (1, b"usage: cq_switch pass IN OUT | check CONFIG | ideal CONFIG | run CONFIG | soak SEED PORTS SLOTS"
         b" | audit CONFIG | part CONFIG SLOTS STATE | resume CONFIG STATE | stream CONFIG\n")
BEFORE = b"what stood here before\n"

# What is asked for is told through a file in memory, since the program may end in any way.
SHIM = r"""
#define _GNU_SOURCE
#include <dlfcn.h>
#include <errno.h>
#include <fcntl.h>
#include <pthread.h>
#include <stdatomic.h>
#include <stdbool.h>
#include <stdlib.h>
#include <sys/mman.h>
#include <unistd.h>

void *__libc_malloc(size_t);
void *__libc_calloc(size_t, size_t);
void *__libc_realloc(void *, size_t);

struct told { atomic_ulong growths, threads, refused, lost; };

typedef int starter(pthread_t *, const pthread_attr_t *, void *(*)(void *), void *);

static struct told *told;  // null until the loader is done
static bool is_of_threads;
static unsigned long from, to;
static starter *start;

static unsigned long number(const char *name) { return strtoul(getenv(name), NULL, 10); }

__attribute__((constructor)) static void begin(void) {
    start = (starter *)dlsym(RTLD_NEXT, "pthread_create");
    is_of_threads = number("STARVE_THREADS");
    from = number("STARVE_FROM");
    to = number("STARVE_TO");
    int file = open(getenv("STARVE_TOLD"), O_RDWR);
    void *page = mmap(NULL, sizeof *told, PROT_READ | PROT_WRITE, MAP_SHARED, file, 0);
    close(file);
    if (start == NULL || page == MAP_FAILED)
        abort();
    told = page;
}

static bool is_refused(atomic_ulong *count, bool is_meant) {
    unsigned long at = atomic_fetch_add(count, 1);
    if (!is_meant || at < from || at > to)
        return false;
    atomic_fetch_add(&told->refused, 1);
    errno = ENOMEM;
    return true;
}

static bool is_growth_refused(void) { return told != NULL && is_refused(&told->growths, !is_of_threads); }

void *malloc(size_t size) { return is_growth_refused() ? NULL : __libc_malloc(size); }

void *calloc(size_t count, size_t size) { return is_growth_refused() ? NULL : __libc_calloc(count, size); }

void *realloc(void *old, size_t size) { return is_growth_refused() ? NULL : __libc_realloc(old, size); }

int pthread_create(pthread_t *thread, const pthread_attr_t *how, void *(*what)(void *), void *with) {
    if (told == NULL)
        return EAGAIN;
    int error = is_refused(&told->threads, is_of_threads) ? EAGAIN : start(thread, how, what, with);
    if (error != 0)
        atomic_fetch_add(&told->lost, 1);
    return error;
}
"""

# A round is what is refused: growths or starts of threads, and whether all behind the first are refused too.
Round = collections.namedtuple("Round", "name is_of_threads is_rest")
ROUNDS = (Round("one growth", False, False), Round("all growths from one on", False, True),
          Round("one thread", True, False), Round("all threads from one on", True, True))

# How a run ended: its status, texts and files; how many growths and threads it asked for, how many of them were refused
# by the shim, and how many threads it did not get.
Ended = collections.namedtuple("Ended", "status out err files growths threads refused lost")


class Case:
    """A command, what it reads, what it must write in this order, and what it must print.

    Or it must be refused with this status and this line, and then it must write nothing.
    """

    def __init__(self, name, words, reads, writes, text=b"", refusal=None):
        self.name, self.words, self.reads, self.writes, self.text, self.refusal = name, words, reads, writes, text, refusal
        self.before = {**reads, **{name: BEFORE for name in writes}}

    def after(self, count):
        """The files where the first so many are written, and the others are as before."""
        return {**self.before, **dict(list(self.writes.items())[:count])}

    def right(self):
        """Status, line, text and files where nothing is refused."""
        if self.refusal:
            return *self.refusal, b"", self.before
        return 0, b"", self.text, self.after(len(self.writes))

    def permitted(self, is_of_threads):
        """All that may stand where a growth or a thread is refused."""
        yield self.right()
        if is_of_threads:
            return
        yield NO_WORDS, b"", b"", self.before
        if self.refusal == USAGE:
            return
        yield 7, b"no memory\n", b"", self.before
        for name in self.reads:
            yield 5, fault_line("read", name), b"", self.before
        if not self.refusal:
            for count, name in enumerate(self.writes):
                yield 6, fault_line("write", name), b"", self.after(count)


def fault_line(what, name):
    return f"{what} fault: {name}\n".encode()


def shipped(folder, *names):
    found = {}
    for name in names:
        with open(os.path.join(EXAMPLES, folder, name), "rb") as file:
            found[name] = file.read()
    return found


HEADER = struct.pack("<IHHiIII", 0xA1B23C4D, 2, 4, 0, 0, 262_144, 1)


def two_ports(*writes):
    """A configuration of two ports and two workers that writes these captures, and two packets to output 0 that it reads."""
    lines = ["version = 1", "workers = 2", 'trace = "trace.txt"', 'log = "log.txt"']
    for port, name in enumerate(writes):
        lines += ["[[port]]", f'read = "in{port}.pcap"', f'write = "{name}"']
    for port in range(len(writes)):
        lines += ["[[address]]", f'mac = "02:00:00:00:00:0{port}"', f"output = {port}"]
    captures = {f"in{port}.pcap": HEADER + record(0, port) for port in range(len(writes))}
    return {"switch.toml": "\n".join(lines + [""]).encode(), **captures}


def record(nanoseconds, source):
    """A packet of 60 bytes to output 0, from the station of an input."""
    frame = bytes.fromhex("020000000000" "02000000aa") + bytes([source]) + bytes.fromhex("88b5")
    return struct.pack("<IIII", 0, nanoseconds, 60, 60) + frame.ljust(60, b"\0")


# The packet of input 1 waits one slot for that of input 0.
TWO_PORTS = {
    "out0.pcap": HEADER + record(0, 0) + record(512, 1),
    "out1.pcap": HEADER,
    "trace.txt": b"0 0 0 0 0\n1 0 1 0 0\n",
    "log.txt": b"0 1 0 0 0 0\n0 2 1 0 0 0\n",
}
# How their run stands after its first slot.
STATE = b"""cq-state 1
next 1
shape 2 1 0 2
sum 3 2
input 0 1 0
input 1 1 0
rank 0
rank 1
buffer 0 0 0 1
sent 0 0 0 0 0
moved 0 1 0 0 0 0
moved 0 2 1 0 0 0
end
"""
TWO_PORTS_REPORT = b"""slots 2
proposals 3
most 2
input 0 cells 1 longest 1 slack 0
input 1 cells 1 longest 1 slack 0
output 0 cells 2 idle 0 wait 1
output 1 cells 0 idle 2 wait -
"""


# The finish of the second packet does not fit 128 bits.
DEAR = b"""version = 1
trace = "trace.txt"
log = "log.txt"
[[class]]
cost = "340282366920938463463374607431768211455"
[[port]]
read = "in0.pcap"
write = "out0.pcap"
discipline = "fair"
"""


def cases():
    reads = shipped("three-ports", "switch.toml", "in0.pcap", "in1.pcap", "in2.pcap")
    ideal = shipped("three-ports", "out0.pcap", "out1.pcap", "out2.pcap", "trace.txt")
    crossed = {**ideal, **shipped("three-ports", "log.txt")}
    office = shipped("office", "office.toml", "uplink.pcap", "phones.pcap")
    outputs = (f"{name}-out.pcap" for name in ("uplink", "phones", "servers", "spare"))
    ranked = shipped("office", *outputs, "trace.txt", "log.txt")
    model = os.path.join(EXAMPLES, "fabric_model.py")
    drawn = subprocess.run([sys.executable, model, "soak", "1", "4", "20"], capture_output=True, check=True).stdout
    unknown = {"switch.toml": reads["switch.toml"] + b"zzz = 1\n"}
    cut = {**reads, "in1.pcap": reads["in1.pcap"][:-1]}
    dear = {"switch.toml": DEAR, "in0.pcap": HEADER + record(0, 0) + record(512, 0)}
    run = ["run", "switch.toml"]
    # What was left of a run: each name is read, and none is written.
    left = {**two_ports("out0.pcap", "out1.pcap"), **{name: TWO_PORTS[name] for name in ("trace.txt", "log.txt")}}
    early = {**left, "log.txt": b"0 1 0 0 0 0\n"}
    late = {**left, "trace.txt": b"0 0 0 0 0\n"}
    audit = ["audit", "switch.toml"]
    asks = two_ports("out0.pcap", "out1.pcap")
    stopped = {**asks, "s.txt": STATE}
    resume = ["resume", "switch.toml", "s.txt"]
    return (
        Case("pass", ["pass", "in.pcap", "out.pcap"], shipped("one-port", "in.pcap"), shipped("one-port", "out.pcap")),
        Case("check", ["check", "switch.toml"], shipped("three-ports", "switch.toml"), {},
             b"ok ports 3 classes 1 addresses 2 rules 0\n"),
        Case("ideal", ["ideal", "switch.toml"], reads, ideal),
        Case("run", run, reads, crossed, *shipped("three-ports", "report.txt").values()),
        Case("stream", ["stream", "switch.toml"], reads, crossed, *shipped("three-ports", "report.txt").values()),
        Case("office", ["run", "office.toml"], office, ranked, *shipped("office", "report.txt").values()),
        Case("two workers", run, two_ports("out0.pcap", "out1.pcap"), TWO_PORTS, TWO_PORTS_REPORT),
        Case("soak", ["soak", "1", "4", "20"], {}, {}, drawn),
        Case("audit", audit, left, {}, b"audit yes\n"),
        Case("part", ["part", "switch.toml", "1", "s.txt"], asks, {"s.txt": STATE}),
        Case("resume", resume, stopped, TWO_PORTS, TWO_PORTS_REPORT),
        Case("cut state", resume, {**stopped, "s.txt": STATE[:-4]}, {}, refusal=(9, b"state: S1 at line 13\n")),
        Case("other state", resume, {**stopped, "s.txt": STATE.replace(b"shape 2 1 0 2", b"shape 2 1 0 3")}, {}, refusal=(9, b"state: S2\n")),
        Case("short log", audit, early, {}, refusal=(8, b"audit: A3 at slot 0 phase 2 input 1 output 0\n")),
        Case("short trace", audit, late, {}, refusal=(8, b"audit: A5 at line 2\n")),
        Case("no command", ["help"], {}, {}, refusal=USAGE),
        Case("unknown key", run, unknown, crossed, refusal=(2, b"configuration: C5 at address[1].zzz\n")),
        Case("cut capture", run, cut, crossed, refusal=(3, b"capture of input 1: 6 at 100\n")),
        Case("cut capture, read ahead", ["stream", "switch.toml"], cut, crossed,
             refusal=(3, b"capture of input 1: 6 at 100\n")),
        Case("too dear", run, dear, TWO_PORTS, refusal=(4, b"tag: slot 1, input 0, output 0\n")),
        # A port would write over what was read, under another name.
        Case("own capture", run, two_ports("./in0.pcap", "out1.pcap"), TWO_PORTS,
             refusal=(6, fault_line("write", "./in0.pcap"))),
    )


def built_shim(folder):
    """The name of the library that refuses, built in the folder."""
    shim = os.path.join(folder, "shim.so")
    subprocess.run(["cc", "-std=c11", "-O2", "-Wall", "-Wextra", "-shared", "-fPIC", "-x", "c", "-o", shim, "-"],
                   input=SHIM.encode(), check=True)
    return shim


def picture(folder):
    found = {}
    for name in sorted(os.listdir(folder)):
        with open(os.path.join(folder, name), "rb") as file:
            found[name] = file.read()
    return found


def call(words, folder, shim, round_, at):
    """Runs the words in the folder, where what has this number is refused."""
    with tempfile.TemporaryFile() as told:
        told.truncate(mmap.PAGESIZE)
        meant = {"LD_PRELOAD": shim, "STARVE_TOLD": f"/proc/{os.getpid()}/fd/{told.fileno()}",
                 "STARVE_THREADS": int(round_.is_of_threads), "STARVE_FROM": at,
                 "STARVE_TO": NEVER if round_.is_rest else at}
        done = subprocess.run(words, cwd=folder, stdin=subprocess.DEVNULL, capture_output=True, timeout=WALL,
                              env={**os.environ, **{name: str(word) for name, word in meant.items()}})
        counts = struct.unpack("@LLLL", told.read(32))
        return Ended(done.returncode, done.stdout, done.stderr, picture(folder), *counts)


def run(program, shim, case, round_, at):
    """Runs the case in a folder of its own, where what has this number is refused."""
    with tempfile.TemporaryDirectory(prefix="starve-") as top:
        folder = os.path.join(top, "case")
        os.mkdir(folder)
        for name, data in case.before.items():
            with open(os.path.join(folder, name), "wb") as file:
                file.write(data)
        return call([program, *case.words], folder, shim, round_, at)


def complaint(case, round_, ended):
    """What is wrong with what stands, or None."""
    if ended.status < 0:
        return f"ended by {signal.Signals(-ended.status).name}"
    found = ended.status, ended.err, ended.out, ended.files
    permitted = list(case.permitted(round_.is_of_threads)) if ended.refused else [case.right()]
    if found in permitted:
        return None
    told = f"status {ended.status} with {ended.err.decode('utf-8', 'replace')!r}"
    for _, _, text, files in (right for right in permitted if right[:2] == found[:2]):
        differ = sorted(name for name in {**files, **ended.files} if files.get(name) != ended.files.get(name))
        told += f", the text {'as it must be' if ended.out == text else repr(ended.out)}, files that differ: {differ}"
    return told


def attempt(program, shim, case, round_, at):
    """How a run ended, or None where it did not, and what is wrong with that, or None."""
    try:
        ended = run(program, shim, case, round_, at)
    except subprocess.TimeoutExpired:
        return None, f"more than {WALL} seconds"
    return ended, complaint(case, round_, ended)


def try_round(pool, program, shim, case, round_):
    """Refuses one after the other until nothing is refused. Prints what came, and gives how many runs passed and failed."""
    statuses, faults, refused, lost, has_words = collections.Counter(), [], 0, 0, False
    for first in itertools.count(0, QUIET):
        parts = [(at, pool.submit(attempt, program, shim, case, round_, at)) for at in range(first, first + QUIET)]
        refused_before = refused
        for at, part in parts:
            ended, said = part.result()
            if ended:
                if ended.status == NO_WORDS and has_words:
                    said = "the words were lost after a call that had them"
                has_words = has_words or ended.status != NO_WORDS
                refused += ended.refused > 0
                lost += ended.lost > 0
            statuses[ended.status if ended else "none"] += 1
            if said:
                faults.append(f"{at}: {said}")
        if refused == refused_before:
            break
    for fault in faults:
        print(f"FAILS {case.name}, {round_.name}, number {fault}", flush=True)
    told = ", ".join(f"status {status}: {count}" for status, count in sorted(statuses.items(), key=lambda pair: str(pair[0]).rjust(4)))
    print(f"{case.name}, {round_.name}: refused in {refused} runs, of which {lost} lacked a thread; {told}", flush=True)
    return statuses.total() - len(faults), len(faults)


def try_case(pool, program, shim, case):
    """Runs the case with nothing refused, and then all rounds in which something can be."""
    ended, said = attempt(program, shim, case, ROUNDS[0], NEVER)
    if not said and not ended.growths:
        said = "it takes its memory in another way than by the C library"
    if said:
        print(f"FAILS {case.name}, nothing refused: {said}", flush=True)
        return 0, 1
    print(f"{case.name}: {ended.growths} growths, {ended.threads} threads")
    rounds = (round_ for round_ in ROUNDS if ended.threads or not round_.is_of_threads)
    counts = [try_round(pool, program, shim, case, round_) for round_ in rounds]
    return 1 + sum(passed for passed, _ in counts), sum(failed for _, failed in counts)


def main():
    every = cases()
    words = argparse.ArgumentParser(description="Refuses the built program one growth after the other.")
    words.add_argument("--bin", required=True, help="the built program")
    words.add_argument("--only", choices=[case.name for case in every], help="this case alone")
    words.add_argument("--jobs", type=int, default=os.cpu_count())
    given = words.parse_args()
    program = os.path.abspath(given.bin)
    passed = failed = 0
    with tempfile.TemporaryDirectory(prefix="starve-") as folder, concurrent.futures.ThreadPoolExecutor(given.jobs) as pool:
        shim = built_shim(folder)
        for case in every:
            if given.only in (None, case.name):
                more = try_case(pool, program, shim, case)
                passed, failed = passed + more[0], failed + more[1]
    print(f"starve: {passed} passed, {failed} failed")
    return 1 if failed else 0


if __name__ == "__main__":
    sys.exit(main())
