#!/usr/bin/env python3
"""Cases that were worked by hand."""

import os
import struct
import sys
import tempfile
import tomllib
import unittest

sys.path.insert(0, os.path.dirname(os.path.dirname(os.path.realpath(__file__))))

import cheaper
import plot
import stats
import sweep
from cq.captures import records
from cq.config import load, read_configuration
from cq.faults import Fault
from cq.figures import Mean, Series, Spread
from cq.replay import Cell, InputList
from cq.toml import toml_text

from switch_model import Switch

HEADER = bytes.fromhex("4d3cb2a1 02000400 00000000 00000000 00000400 01000000")
ONE_PORT = "version = 2\ntrace = 't'\nlog = 'l'\n[[port]]\nwrite = 'o'\n"


def frame(output: int, urgent: bool, length: int = 60) -> bytes:
    """A frame to an output, with PCP 7 where it is urgent."""
    return (bytes([2, 0, 0, 0, 0, output, 2, 0, 0, 0, 0, 0xAA, 0x81, 0, 0xE0 * urgent, 0, 0x88, 0xB5])).ljust(
        length, b"\0"
    )[:length]


def record(stamp: int, body: bytes) -> bytes:
    return struct.pack("<4I", 0, stamp, len(body), len(body)) + body


class InFolder(unittest.TestCase):
    """A test in a folder of its own."""

    def setUp(self) -> None:
        folder, before = tempfile.TemporaryDirectory(), os.getcwd()
        os.chdir(folder.name)
        self.addCleanup(folder.cleanup)
        self.addCleanup(os.chdir, before)

    def switch(self, *inputs: list[tuple[int, int, bool]], discipline: str = "first-come") -> None:
        """Writes switch.toml, a capture of packets (slot, output, urgent) for each input, and what the ideal switch
        makes of them by the plain model."""
        for number, packets in enumerate(inputs):
            with open(f"in{number}.pcap", "wb") as file:
                file.write(
                    HEADER + b"".join(record(slot * 512, frame(output, urgent)) for slot, output, urgent in packets)
                )
        tables = {
            "version": 1,
            "trace": "trace.txt",
            "log": "log.txt",
            "class": [{"priority": 1}, {"priority": 0}],
            "port": [
                {"read": f"in{i}.pcap", "write": f"out{i}.pcap", "discipline": discipline} for i in range(len(inputs))
            ],
            "address": [{"mac": "02:00:00:00:00:%02x" % i, "output": i} for i in range(len(inputs))],
            "rule": [{"pcp": 7, "class": 1}],
        }
        with open("switch.toml", "w", encoding="utf-8") as file:
            file.write(toml_text(tables))
        model = Switch.of("switch.toml")
        model.write(model.departures())


class Cheaper(InFolder):
    """How late cells leave, worked by hand."""

    def left(self, scheduler: cheaper.Scheduler, ports: int, ranked: bool = False) -> list[tuple[int, int, int, int]]:
        """Of each cell its input, its output, its slot, and its slot in the ideal switch."""
        cells = cheaper.cells_of(read_configuration("switch.toml"))
        slots = cheaper.simulate(cells, ports, scheduler, ranked).left
        return [(cell.input, cell.output, slot, cell.ideal) for cell, slot in zip(cells, slots)]

    def test_a_cell_waits_for_an_input_that_sends_another(self) -> None:
        """In slot 1 input 1 has a cell for each output. The ideal switch takes both, a crossbar at speedup one
        takes one."""
        self.switch([(0, 0, False)], [(0, 0, False), (1, 1, False)])
        for scheduler in (cheaper.ISlip(2, 1), cheaper.ISlip(2, 4), cheaper.Greedy()):
            self.assertEqual(self.left(scheduler, 2), [(0, 0, 0, 0), (1, 0, 1, 1), (1, 1, 2, 1)])

    def test_nothing_is_late_where_outputs_ask_different_inputs(self) -> None:
        """Output 0 takes inputs 0, 1 and 2 in turn, so input 2 is free for output 1 in slot 1."""
        self.switch([(0, 0, False)], [(0, 0, False)], [(0, 0, False), (1, 1, False)])
        for scheduler in (cheaper.ISlip(3, 1), cheaper.Greedy()):
            self.assertEqual(self.left(scheduler, 3), [(0, 0, 0, 0), (1, 0, 1, 1), (2, 0, 2, 2), (2, 1, 1, 1)])

    def test_queues_in_order_of_arrival_keep_urgent_cells_waiting(self) -> None:
        """Input 1's cell and input 0's second are urgent. In order of arrival both leave a slot late."""
        self.switch([(0, 0, False), (1, 0, True)], [(0, 0, True)], discipline="priority")
        for scheduler in (cheaper.ISlip(2, 1), cheaper.Greedy()):
            self.assertEqual(self.left(scheduler, 2), [(0, 0, 0, 2), (1, 0, 1, 0), (0, 0, 2, 1)])

    def test_a_greedy_matching_by_rank_takes_urgent_cells_first(self) -> None:
        self.switch([(0, 0, False), (1, 0, True)], [(0, 0, True)], discipline="priority")
        self.assertEqual(self.left(cheaper.Greedy(), 2, ranked=True), [(0, 0, 2, 2), (1, 0, 0, 0), (0, 0, 1, 1)])

    def test_the_figures_are_those_of_the_cells(self) -> None:
        """One cell of three is late, by one slot; and while it waited its output was idle once."""
        self.switch([(0, 0, False)], [(0, 0, False), (1, 1, False)])
        document = cheaper.compared(read_configuration("switch.toml"), [1], False)
        self.assertEqual(
            document["switches"][0],
            {"switch": "iSLIP 1", "slots": 3, "ideal_slots": 2, "longest_at_input": 2, "starved_slots": 1},
        )
        whole = next(row for row in document["losses"] if row["switch"] == "iSLIP 1" and row["output"] == "all")
        self.assertEqual(
            (whole["cells"], whole["late_cells"], whole["late_greatest_slots"], whole["late_packets"]), (3, 1, 1, 1)
        )
        self.assertEqual([row["late_cells"] for row in document["losses"] if row["output"] == "1"], [1, 1])

    def test_pointers_move_apart(self) -> None:
        """Two inputs that always have cells for both outputs. In slot 0 both outputs grant input 0; from slot 1 on each
        grants another one."""
        switch, both = cheaper.ISlip(2, 1), [0b11, 0b11]
        self.assertEqual([switch.match(both, []) for _ in range(3)], [[(0, 0)], [(0, 1), (1, 0)], [(0, 0), (1, 1)]])

    def test_a_second_iteration_fills_up_and_moves_no_pointer(self) -> None:
        switch, both = cheaper.ISlip(2, 2), [0b11, 0b11]
        self.assertEqual(switch.match(both, []), [(0, 0), (1, 1)])
        self.assertEqual((switch.grants, switch.accepts), ([1, 0], [1, 0]))

    def test_turns_go_round(self) -> None:
        switch = cheaper.ISlip(4, 1)
        self.assertEqual([switch.turn(0b1010, pointer) for pointer in range(4)], [1, 1, 3, 3])
        self.assertEqual(switch.turn(0b0010, 3), 1)


class Stats(InFolder):
    """Figures of a run, and what is said where there are none."""

    def test_waits_and_delays(self) -> None:
        """Input 1's first cell waits a slot. Its second packet has to wait for no one."""
        self.switch([(0, 0, False)], [(0, 0, False), (5, 1, False)])
        flows = stats.document_of(read_configuration("switch.toml"), with_log=False)["flows"]
        self.assertEqual(
            [
                (
                    row["output"],
                    row["packets"],
                    row["wait_mean_slots"],
                    row["wait_greatest_ns"],
                    row["delay_greatest_ns"],
                )
                for row in flows
                if row["class"] == 0 and row["output"] != "all"
            ],
            [(0, 2, 0.5, 512, 512), (1, 1, 0.0, 0, 0)],
        )

    def test_a_limit_refuses_packets_whole(self) -> None:
        """Output 0 takes one cell. Input 1's packet of slot 0 finds it full, and that of slot 1 does not."""
        self.switch([(0, 0, False)], [(0, 0, False), (1, 0, False)])
        tables = load("switch.toml")
        tables["port"][0]["limit"] = 1
        for name, text in (
            ("switch.toml", toml_text(tables)),
            ("trace.txt", "0 0 0 0 0\n1 0 1 1 0\n"),
            ("log.txt", "0 1 0 0 0 0\n1 1 1 0 1 0\n"),
        ):
            with open(name, "w", encoding="utf-8") as file:
                file.write(text)
        document = stats.document_of(read_configuration("switch.toml"))
        self.assertEqual(
            [
                (row["output"], row["packets"], row["refused_packets"], row["refused_cells"])
                for row in document["flows"]
                if row["class"] == 0
            ],
            [(0, 2, 1, 1), ("all", 2, 1, 1)],
        )
        self.assertEqual(len(cheaper.cells_of(read_configuration("switch.toml"))), 2)

    def told(self) -> str:
        with self.assertRaises(Fault) as caught:
            stats.document_of(read_configuration("switch.toml"))
        self.assertNotIn("\n", str(caught.exception))
        return str(caught.exception)

    def test_faults_are_lines_that_name_the_place(self) -> None:
        self.switch([(0, 0, False)], [(0, 0, False)])
        self.assertEqual(self.told(), "log.txt: No such file or directory")
        log = "0 1 0 0 0 0\n0 2 1 0 0 0\n"
        for text, said in (
            (log, None),
            ("0 1 0 0 0\n", "log.txt, line 1: not 6 numbers with a blank between two"),
            (log + "1 1 1 0 0 0\n", "log.txt: in slot 1 cell 0 of packet 0 of input 1 crosses once more"),
            ("0 1 0 1 0 0\n", "log.txt, line 1: cell 0 of packet 0 of input 0 does not wait there for output 1"),
            ("0 1 0 0 0 0\n", "trace.txt, line 2: by the log cell 0 of packet 0 of input 1 has not crossed"),
        ):
            with open("log.txt", "w", encoding="ascii") as file:
                file.write(text)
            if said is None:
                stats.document_of(read_configuration("switch.toml"))
            else:
                self.assertEqual(self.told(), said)

    def test_a_trace_that_ends_early_is_told(self) -> None:
        self.switch([(0, 0, False)], [(0, 0, False)])
        for name, text in (("trace.txt", "0 0 0 0 0\n"), ("log.txt", "0 1 0 0 0 0\n0 2 1 0 0 0\n")):
            with open(name, "w", encoding="ascii") as file:
                file.write(text)
        self.assertEqual(self.told(), "trace.txt: it ends before cell 0 of packet 0 of input 1 leaves")

    def test_configurations_that_mislead_are_told(self) -> None:
        for text, said in (
            ("version =", "switch.toml: no TOML document: Invalid value (at end of document)"),
            (
                "version = 1",
                "switch.toml: not the tables of a switch ('port'); docs/FORMATS.md has them",
            ),
            *(
                (f"{ONE_PORT}{more}", f"switch.toml: not the tables of a switch ({why}); docs/FORMATS.md has them")
                for more, why in (
                    ("limit = '1'", "'1' is no number from 1 on"),
                    ("[[class]]\nlevel = '1'", "'1' is no number from 0 on"),
                    ("[[class]]\npriority = 0.5", "0.5 is no number from 0 on"),
                    ("[[class]]\ncost = '0'", "0 is no number from 1 on"),
                    ("[[rule]]\nclass = 0.0", "0.0 is no number from 0 on"),
                    ('read = "a\\u0000b"', r"'a\x00b' is no name of a file"),
                )
            ),
        ):
            with open("switch.toml", "w", encoding="ascii") as file:
                file.write(text)
            self.assertEqual(self.told(), said)

    def test_captures_are_refused_by_the_numbers_of_the_program(self) -> None:
        cases = (
            (HEADER[:20], "1:"),
            (b"\n\r\r\n" + HEADER[4:], "2:"),
            (HEADER[:4] + b"\3" + HEADER[5:], "3:"),
            (HEADER[:20] + b"\x71\0\0\0", "4:"),
            (HEADER + bytes(9), "5 at 24:"),
            (HEADER + record(0, bytes(60))[:-1], "6 at 24:"),
            (HEADER + struct.pack("<4I", 0, 0, 262145, 0), "7 at 24:"),
        )
        for text, said in cases:
            with open("in.pcap", "wb") as file:
                file.write(text)
            with self.assertRaises(Fault) as caught:
                list(records("in.pcap"))
            self.assertTrue(str(caught.exception).startswith(f"in.pcap: refusal {said}"), caught.exception)


class Sweeps(InFolder):
    """What a sweep makes of its keys."""

    def test_the_last_key_changes_fastest(self) -> None:
        self.assertEqual(
            sweep.choices_of(["a=1,2", "b=x,y"]),
            [{"a": "1", "b": "x"}, {"a": "1", "b": "y"}, {"a": "2", "b": "x"}, {"a": "2", "b": "y"}],
        )

    def test_a_line_rate_gives_the_next_slot(self) -> None:
        """64 bytes are 512 bits: 512 ns at 1 Gbit/s, 204.8 at 2.5, 51.2 at 10, 51,200 at 10 Mbit/s."""
        self.assertEqual(
            [sweep.slot_of(rate, 64) for rate in ("1G", "2.5G", "10G", "10M", "1000000")], [512, 205, 51, 51200, 512000]
        )
        for rate in ("1000G", "fast", "0G", "-1G"):
            with self.assertRaises(Fault):
                sweep.slot_of(rate, 10)

    def test_keys_speak_of_one_row_or_of_all(self) -> None:
        tables = {
            "cell_bytes": 64,
            "trace": "t",
            "log": "l",
            "port": [{"read": "in0", "write": "a"}, {"write": "b"}],
            "class": [{"cost": 2}],
        }
        made = sweep.chosen(
            tables,
            {"cell_bytes": "48", "line_rate": "1G", "port[*].discipline": "fair", "class[0].cost": str(2**64)},
            "out/3",
        )
        self.assertEqual(
            made,
            {
                "cell_bytes": 48,
                "slot_ns": 384,
                "trace": "out/3/trace.txt",
                "log": "out/3/log.txt",
                "port": [
                    {"read": "in0", "write": "out/3/out0.pcap", "discipline": "fair"},
                    {"write": "out/3/out1.pcap", "discipline": "fair"},
                ],
                "class": [{"cost": str(2**64)}],
            },
        )
        self.assertEqual(tables["cell_bytes"], 64)
        for choice in (
            {"port[2].discipline": "fair"},
            {"rule[*].class": "1"},
            {"port.discipline": "fair"},
            {"slot_ns": "1", "line_rate": "1G"},
            {"cell_bytes": "48x", "line_rate": "1G"},
            {"trace[0].cost": "1"},
            {"cell_bytes[0].cost": "1"},
            {"port": "1"},
        ):
            with self.assertRaises(Fault):
                sweep.chosen(tables, choice, "out")

    def test_a_run_that_failed_has_a_row_without_figures(self) -> None:
        os.makedirs("0")
        self.assertEqual(
            sweep.rows(".", "0", {"cell_bytes": "1"}),
            [{"configuration": "0", "cell_bytes": "1", "output": "all", "class": "all"}],
        )

    def test_a_figure_of_a_sweep_is_told_apart(self) -> None:
        with open("sweep.csv", "w", encoding="utf-8") as file:
            file.write(
                "cell_bytes,output,class,wait\n48,all,all,3\n64,all,all,4\n48,0,0,1\n64,0,0,\n48,0,1,2\n64,0,1,5\n"
            )
        self.assertEqual(plot.Sweep("sweep.csv", "cell_bytes", "wait", [], {}).lines, {(): {"48": 3.0, "64": 4.0}})
        by_class = plot.Sweep("sweep.csv", "cell_bytes", "wait", ["class"], {"output": "0"})
        self.assertEqual(
            (by_class.lines, by_class.names),
            ({("0",): {"48": 1.0}, ("1",): {"48": 2.0, "64": 5.0}}, ["class 0", "class 1"]),
        )
        for x, y, by, where in (
            ("cell", "wait", [], {}),
            ("cell_bytes", "wait", ["output"], {"output": "7"}),
            ("class", "wait", ["class"], {"output": "0"}),
            ("cell_bytes", "output", [], {}),
        ):
            with self.assertRaises(Fault):
                plot.Sweep("sweep.csv", x, y, by, where)


class Parts(unittest.TestCase):
    """What the tools are made of."""

    def test_a_cell_goes_where_the_rules_say(self) -> None:
        """The example of docs/RULES.md: x for output 0 and y for output 1 wait, and a cell with cushion 2 comes."""

        def cell(output: int, rank: int, slot: int) -> Cell:
            return Cell((0, rank, slot, 0), 0, 0, 0, output, 0, slot, True)

        for rank, place in ((1, 0), (5, 2)):
            line = InputList()
            self.assertEqual((line.insert(cell(0, 3, 0), 0), line.insert(cell(1, 0, 1), 1)), (0, 1))
            self.assertEqual(line.insert(cell(rank // 5, rank, 2), 2), place)

    def test_marks_are_nearest_ranks(self) -> None:
        spread = Spread()
        for value in (5, 1, 4, 2):
            spread.add(value)
        self.assertEqual([spread.share(50), spread.share(75), spread.share(76), spread.share(99)], [2, 4, 5, 5])
        self.assertEqual((spread.mean(), spread.mean(10), list(spread.tail())[-1]), (3.0, 30.0, (5, 0.25)))
        self.assertEqual((Spread().mean(), Spread().share(50)), (None, None))

    def test_a_mean_is_over_all_slots(self) -> None:
        length = Mean()
        for slot, value in ((0, 2), (1, 0), (3, 4)):
            length.set(slot, value)
        self.assertEqual((length.mean(5), length.peak), (2.0, 4))

    def test_bins_grow_with_the_run(self) -> None:
        series = Series(512, max, 0)
        for slot in range(2000):
            series.add(slot, slot)
        slots, values = series.points(2000)
        self.assertEqual((slots[:2], values[:2], len(values), values[-1]), ([0, 4], [3, 7], 500, 1999))

    def test_tables_that_are_written_are_read_again(self) -> None:
        tables = {
            "trace": 'a "b"\\\n\x7fé',
            "slot_ns": 512,
            "port": [{"write": "out"}, {"write": "more", "read": "in"}],
        }
        self.assertEqual(tomllib.loads(toml_text(tables)), tables)
        for value in (True, 1.5, [1], {}):
            with self.assertRaises(Fault):
                toml_text({"slot_ns": value})


if __name__ == "__main__":
    unittest.main()
