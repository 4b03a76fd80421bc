#!/usr/bin/env python3
"""What the launcher `cq_switch` adds in words where standard error is a terminal, and that it adds nothing in a pipe.

    tests/launcher.py

In place of the proved program stands one that prints a line and ends with a status, so nothing is built. No part
of the gate.
"""

import os
import pty
import shutil
import subprocess
import tempfile
import unittest

ROOT = os.path.dirname(os.path.dirname(os.path.abspath(__file__)))
PROGRAM = '#!/bin/sh\nprintf "%s\\n" "$LINE" >&2\nexit "$STATUS"\n'
HEAD = 'version = 1\ntrace = "trace.txt"\nlog = "log.txt"\n'
CONFIGURATIONS = {
    "tables": HEAD + '[[port]]\nwrite = "o0"\n[[port]]\nread = "late.pcap" # "no"\nwrite = "o1"\n[[class]]\n',
    "one line": HEAD + 'port = [{ write = "o0" }, { read = "late.pcap", write = "o1" }]\n',
    "many lines": HEAD + 'port = [\n  { write = "o0" },\n  { write = "o1", read = "late.pcap" }, # the last\n]\n',
    "read last": HEAD + 'port = [{ read = "first.pcap", write = "o0" }, { write = "o1", read = "late.pcap" }]\n',
    "literal": HEAD + "[[port]]\nread = 'first.pcap'\nwrite = 'o0'\n[[port]]\nread = 'late.pcap'\nwrite = 'o1'\n",
    "dotted": HEAD + '[[ port ]]\n"write" = "o0"\n[[ port ]]\n"read" = "late.pcap"\nwrite = "o1"\n',
    "escaped": HEAD + '[[port]]\nwrite = "o0"\n[[port]]\nread = "l\\u0061te.pcap"\nwrite = "o1"\n',
    "marks": HEAD + '[[port]]\nwrite = "o0"\n[[port]]\nread = "my \\"late\\".pcap"\nwrite = "o1"\n',
}
REFUSED = "capture of input 1: 2"
WORDS = "is no pcap file: convert it by editcap -F nsecpcap; docs/FORMATS.md, \"Reading\""


def everything(end):
    """All that was written to the other end, which is closed. Of a terminal that is told by an error."""
    found = b""
    with open(end, "rb", buffering=0) as file:
        try:
            while piece := file.read(4096):
                found += piece
        except OSError:
            pass
    return found


class Launcher(unittest.TestCase):
    def setUp(self):
        self.folder = tempfile.mkdtemp()
        self.addCleanup(shutil.rmtree, self.folder)
        out = os.path.join(self.folder, "crates", "cq_switch", "out")
        os.makedirs(out)
        shutil.copy(os.path.join(ROOT, "cq_switch"), self.folder)
        self.put("crates.txt", "cq_switch:\n")
        self.put(os.path.join(out, "cq_switch"), PROGRAM)
        os.chmod(os.path.join(out, "cq_switch"), 0o755)
        self.put(os.path.join(out, "cq_switch.ready"), "")

    def put(self, name, text):
        with open(os.path.join(self.folder, name), "w", encoding="utf-8") as file:
            file.write(text)

    def call(self, line, *words, status=3, is_seen=True, path=None, before=None):
        """The status, and what is on standard error. Something may be done before it is called, as to close a stream."""
        above, below = pty.openpty() if is_seen else os.pipe()
        surroundings = {**os.environ, "LINE": line, "STATUS": str(status), "PATH": path or os.environ["PATH"]}
        done = subprocess.run([os.path.join(self.folder, "cq_switch"), *words], cwd=self.folder, env=surroundings,
                              stdin=subprocess.DEVNULL, stdout=subprocess.DEVNULL, stderr=below, check=False,
                              preexec_fn=before)
        os.close(below)
        return done.returncode, everything(above).decode().replace("\r\n", "\n")

    def test_the_capture_is_named_however_its_port_is_written(self):
        for how, text in CONFIGURATIONS.items():
            with self.subTest(how):
                self.put("c.toml", text)
                name = 'my "late".pcap' if how == "marks" else "late.pcap"
                self.assertEqual(self.call(REFUSED, "run", "c.toml"), (3, f"{REFUSED}\n  {name} {WORDS}\n"))

    def test_an_input_is_told_by_its_number_where_no_name_is_found(self):
        without_python = os.path.join(self.folder, "path")
        os.mkdir(without_python)
        for tool in ("bash", "dirname", "find", "readlink"):
            os.symlink(shutil.which(tool), os.path.join(without_python, tool))
        self.put("c.toml", CONFIGURATIONS["tables"])
        self.put("short.toml", HEAD + '[[port]]\nwrite = "o0"\n')
        self.put("broken.toml", HEAD + "port = [\n")
        for name in ("c.toml", "short.toml", "broken.toml", "none.toml"):
            path = without_python if name == "c.toml" else None
            with self.subTest(name):
                self.assertEqual(self.call(REFUSED, "run", name, path=path),
                                 (3, f"{REFUSED}\n  the capture of input 1 {WORDS}\n"))

    def test_pass_names_what_it_reads(self):
        line = "capture of input 0: 6 at 40"
        self.assertEqual(self.call(line, "pass", "in.pcap", "out.pcap")[1],
                         f"{line}\n  in.pcap ends inside a packet: editcap -F pcap keeps the whole ones;"
                         " docs/FORMATS.md, \"Reading\"\n")
        line = "capture of input 0: 8, limit 67108864"
        self.assertEqual(self.call(line, "pass", "in.pcap", "out.pcap")[1],
                         f"{line}\n  in.pcap has more than 67108864 bytes: take a part of it;"
                         " docs/FORMATS.md, \"Reading\"\n")

    def test_a_long_capture_of_a_configuration_may_have_another_limit(self):
        line = "capture of input 0: 8, limit 1000"
        self.assertEqual(self.call(line, "run", "none.toml")[1],
                         f"{line}\n  the capture of input 0 has more than 1000 bytes: take a part of it,"
                         " or set limit_bytes; docs/FORMATS.md, \"Reading\"\n")

    def test_a_pipe_gets_the_line_alone(self):
        self.put("c.toml", CONFIGURATIONS["one line"])
        self.assertEqual(self.call(REFUSED, "run", "c.toml", is_seen=False), (3, f"{REFUSED}\n"))

    def test_a_closed_standard_output_is_the_programs_to_tell(self):
        line = "write fault: -"
        self.assertEqual(self.call(line, "run", "c.toml", status=6, before=lambda: os.close(1)), (6, f"{line}\n"))

    def test_each_status_has_its_words(self):
        for line, status, words in (
                ("usage: cq_switch pass IN OUT", 1, "these words are no command"),
                ("configuration: C1 at -", 2, "c.toml is no TOML document, or not UTF-8"),
                ("configuration: C4 at port[1].read", 2, "c.toml: the key behind \"at\" is refused"),
                ("tag: slot 1, input 0, output 1", 4, "a fair rank does not fit 128 bits"),
                ("read fault: in0.pcap", 5, "in0.pcap is missing or cannot be read"),
                ("write fault: out0.pcap", 6, "out0.pcap could not be written"),
                ("write fault: -", 6, "standard output took only a part"),
                ("no memory", 7, "there was not the memory for this run"),
                ("audit: A1 at line 3", 8, "this is the first thing wrong with the log"),
                ("audit: A3 at slot 0 phase 2 input 1 output 0", 8, "this is the first thing wrong with the log"),
                ("audit: A5 at line 2", 8, "the log is sound; the trace is not"),
                ("audit: A6 trace", 8, "the trace has more than 268435456 bytes"),
                ("state: S1 at line 13", 9, "the state has a line there that no state has, or lacks one"),
                ("state: S2", 9, "the state is of another switch, or of other captures"),
                ("state: S3 clause 4", 9, "the state is none in which this switch can be"),
                ("state: S4", 9, "the state has more than 268435456 bytes")):
            with self.subTest(line):
                code, said = self.call(line, "run", "c.toml", status=status)
                self.assertEqual(code, status)
                self.assertTrue(said.startswith(f"{line}\n  {words}"), said)


if __name__ == "__main__":
    unittest.main()
