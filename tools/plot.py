#!/usr/bin/env python3
"""Pictures of runs and of sweeps, as PNG and SVG. It needs matplotlib.

    plot.py run CONFIG [CONFIG] --out FOLDER
    plot.py late CONFIG [--iterations 1,4] [--by-rank] --out NAME
    plot.py sweep CSV --x KEY --y FIGURE [--by KEY,..] [--where KEY=VALUE,..] --out NAME

The first draws a run, or two runs side by side, from their captures, traces and logs, with names taken from the
caller's folder: `slack`, `lists`, `buffers`, `load`, `waits` and `proposals` in FOLDER. After `cq_switch ideal`,
which writes no log, give `--without-log`: then there are `load` and `waits`. The second draws how late cells
leave cheaper switches, as `cheaper.py` finds it. The third draws one figure of a sweep's CSV over one key.
"""

import argparse
import csv
import itertools
import os
from collections.abc import Iterable
from typing import Any

import cheaper
from cq.config import Configuration, read_configuration
from cq.drawing import COLOURS, STYLES, Picture, pyplot, save, unit_of
from cq.faults import Fault, guarded, reason
from cq.figures import Series, Spread
from cq.lines import NEVER
from cq.replay import Slot, replay

MOST_ROWS = 8  # ports in one picture
FINE, COARSE = 256, 64  # bins of a series over time
MARKS = ((50, "o", "median"), (99, "s", "99th of 100"), (100, "D", "greatest"))

Row = dict[str, str]


def added(one: float, other: float) -> float:
    return one + other


class Curves:
    """What is drawn of a run."""

    def __init__(self, configuration: Configuration, with_log: bool) -> None:
        ports, phases = range(configuration.ports), range(2)
        self.configuration, self.with_log, self.slots = configuration, with_log, 0
        self.slack, self.lists = [Series(FINE, min) for _ in ports], [Series(FINE, max, 0) for _ in ports]
        self.buffers, self.load = [Series(FINE, max, 0) for _ in ports], [Series(COARSE, added, 0) for _ in ports]
        self.mean, self.most = [Series(COARSE, added, 0) for _ in phases], [Series(COARSE, max, 0) for _ in phases]
        self.waits: dict[tuple[int, int], Spread] = {}
        for slot in replay(configuration, with_log).slots():
            self.add(slot)

    def add(self, slot: Slot) -> None:
        """Notes what is drawn of a slot."""
        for cell in slot.sent:
            self.slots = slot.number + 1
            self.waits.setdefault((cell.output, cell.kind), Spread()).add(slot.number - cell.slot)
            self.load[cell.output].add(slot.number, 1)
        if not self.with_log:
            return
        for cell, slack in zip(slot.arrived, slot.slacks):
            self.slack[cell.input].add(slot.number, slack)
        for lines, lengths in ((self.lists, slot.lists), (self.buffers, slot.peaks), (self.buffers, slot.buffers)):
            for line, length in zip(lines, lengths):
                if length:
                    line.add(slot.number, length)
        for phase, count in enumerate(slot.proposals):
            self.mean[phase].add(slot.number, count)
            self.most[phase].add(slot.number, count)

    @property
    def length_ns(self) -> int:
        return self.slots * self.configuration.slot_ns

    def points(self, series: Series, unit: float) -> tuple[list[float], list[float]]:
        """The times of the bins, and their values."""
        slots, values = series.points(self.slots)
        return [slot * self.configuration.slot_ns / unit for slot in slots], values

    def steps(self, series: Series, unit: float, by_width: bool = False) -> tuple[list[float], list[float]]:
        """The same with the end of the run, for steps; the values can be those for each slot of a bin."""
        times, values = self.points(series, unit)
        widths = [min(series.width, self.slots - at * series.width) if by_width else 1 for at in range(len(values))]
        values = [value / width for value, width in zip(values, widths)]
        return [*times, self.length_ns / unit], [*values, values[-1]]


def names_of(runs: list[Curves]) -> list[str]:
    return [run.configuration.name for run in runs]


def busiest(weights: dict[int, float]) -> list[int]:
    """The ports that are drawn, where there are more than a picture holds: those of the greatest weights."""
    return sorted(sorted(weights, key=lambda port: -weights[port])[:MOST_ROWS])


def weights_of(runs: list[Curves], what: str) -> dict[int, float]:
    """For each port that has a value in a run, its greatest one; for the slack the least one counts."""
    weights: dict[int, float] = {}
    for run in runs:
        for port, line in enumerate(getattr(run, what)):
            if line.bins:
                values = line.bins.values()
                weights[port] = max(weights.get(port, -NEVER), -min(values) if what == "slack" else max(values))
    return weights


def draw_ports(library: Any, runs: list[Curves], name: str, what: str, label: str, port_name: str) -> None:
    """A row for each port, over time."""
    unit, unit_name = unit_of(max(run.length_ns for run in runs))
    weights = weights_of(runs, what)
    ports = busiest(weights)
    some = f"; {len(ports)} of {len(weights)} {port_name}s" if len(ports) < len(weights) else ""
    picture = Picture(library, names_of(runs), max(1, len(ports)), 0.9, label, f"time ({unit_name}){some}")
    for run, column in zip(runs, picture.axes.T):
        for axis, port in zip(column, ports):
            line: Series = getattr(run, what)[port]
            if what == "slack":
                axis.plot(*run.points(line, unit), ".", color=COLOURS[0], markersize=3, clip_on=False)
            else:
                axis.fill_between(*run.steps(line, unit, what == "load"), step="post", color=COLOURS[0], linewidth=0)
            axis.set_ylabel(f"{port_name} {port}", fontsize="small")
            if what != "load":
                axis.yaxis.get_major_locator().set_params(integer=True, nbins=4)
    picture.axes[0][0].set_ylim(0, 1.05 if what == "load" else None)
    picture.save(name)


def draw_proposals(library: Any, runs: list[Curves], name: str) -> None:
    """The proposals of each of the two matchings of a slot: the mean and the most of a bin."""
    unit, unit_name = unit_of(max(run.length_ns for run in runs))
    picture = Picture(library, names_of(runs), 2, 1.6, "proposals of a matching", f"time ({unit_name})")
    for run, column in zip(runs, picture.axes.T):
        for phase, axis in enumerate(column):
            axis.fill_between(
                *run.steps(run.most[phase], unit), step="post", color=COLOURS[4], linewidth=0, label="most"
            )
            axis.step(*run.steps(run.mean[phase], unit, True), where="post", color=COLOURS[0], label="mean")
            axis.set_ylabel(f"phase {phase + 1}", fontsize="small")
            axis.yaxis.get_major_locator().set_params(integer=True)
    picture.axes[0][0].set_ylim(bottom=0)
    picture.legend(picture.axes[0][0].get_legend_handles_labels()[0])
    picture.save(name)


def cells_and_waits(runs: list[Curves]) -> tuple[dict[int, float], dict[int, int]]:
    """For each output that sends, how many cells it sends, and the longest wait of one in nanoseconds."""
    cells: dict[int, float] = {}
    longest: dict[int, int] = {}
    for run in runs:
        for (output, _), spread in run.waits.items():
            wait = run.configuration.slot_ns * (spread.greatest() or 0)
            cells[output] = cells.get(output, 0) + len(spread)
            longest[output] = max(longest.get(output, 0), wait)
    return cells, longest


def draw_waits(library: Any, runs: list[Curves], name: str) -> None:
    """For each output and class how many cells waited how long, with median, 99th and greatest."""
    cells, longest = cells_and_waits(runs)
    outputs = busiest({output: count for output, count in cells.items() if longest[output]} or cells)
    unit, unit_name = unit_of(max(longest.values()))
    some = f"; {len(outputs)} of {len(cells)} outputs" if len(outputs) < len(cells) else ""
    label, below = "of 100 cells wait as long or longer", f"wait of a cell ({unit_name}){some}"
    picture = Picture(library, names_of(runs), len(outputs), 1.6, label, below)
    for run, column in zip(runs, picture.axes.T):
        for axis, output in zip(column, outputs):
            for kind in (kind for at, kind in sorted(run.waits) if at == output):
                draw_wait(axis, run.waits[output, kind], run.configuration.slot_ns / unit, COLOURS[kind % len(COLOURS)])
            axis.set_ylabel(f"output {output}", fontsize="small")
            axis.set_yscale("log")
            axis.yaxis.set_major_locator(library.LogLocator(numticks=12))
            axis.yaxis.set_major_formatter(lambda value, _: f"{value:g}")
    most = max(len(spread) for run in runs for spread in run.waits.values())
    picture.axes[0][0].set_ylim(70 / most, 150)
    picture.legend(wait_legend(picture.axes[0][0], sorted({kind for run in runs for _, kind in run.waits})))
    picture.save(name)


def wait_legend(axis: Any, kinds: list[int]) -> list[Any]:
    """What stands for the classes and for the marks."""
    entries = [(COLOURS[kind % len(COLOURS)], "-", "", f"class {kind}") for kind in kinds]
    entries += [("black", "", marker, word) for _, marker, word in MARKS]
    return [
        axis.plot([], [], color=colour, linestyle=line, marker=marker, label=word)[0]
        for colour, line, marker, word in entries
    ]


def draw_wait(axis: Any, spread: Spread, scale: float, colour: str) -> None:
    """The waits of one class at one output."""
    tail = {value: 100 * share for value, share in spread.tail()}
    axis.step([value * scale for value in tail], list(tail.values()), where="pre", color=colour)
    for per_cent, marker, _ in MARKS:
        value = spread.share(per_cent) or 0
        axis.plot(value * scale, tail[value], marker, color=colour, markersize=5)


def draw_runs(configurations: list[Configuration], folder: str, with_log: bool) -> None:
    """Draws all pictures of one run, or of two side by side."""
    library = pyplot()
    runs = [Curves(configuration, with_log) for configuration in configurations]
    if not all(run.slots for run in runs):
        raise Fault("a run in which no cell leaves has no picture")
    os.makedirs(folder, exist_ok=True)
    draw_waits(library, runs, os.path.join(folder, "waits"))
    draw_ports(library, runs, os.path.join(folder, "load"), "load", "cells sent a slot", "output")
    if with_log:
        draw_ports(library, runs, os.path.join(folder, "slack"), "slack", "least slack of arriving cells", "input")
        draw_ports(library, runs, os.path.join(folder, "lists"), "lists", "most cells in the list", "input")
        draw_ports(library, runs, os.path.join(folder, "buffers"), "buffers", "most cells in the buffer", "output")
        draw_proposals(library, runs, os.path.join(folder, "proposals"))


def draw_late(configuration: Configuration, iterations: list[int], ranked: bool, out: str) -> None:
    """How many cells leave cheaper switches how much later than the ideal one."""
    library, arrivals = pyplot(), cheaper.cells_of(configuration)
    late: dict[str, Spread] = {}
    for make in cheaper.schedulers(configuration.ports, iterations):
        scheduler = make()
        left = cheaper.simulate(arrivals, configuration.ports, scheduler, ranked).left
        spread = late.setdefault(scheduler.name, Spread())
        for cell, slot in zip(arrivals, left):
            spread.add(max(0, slot - cell.ideal))
    longest = max(spread.greatest() or 0 for spread in late.values())
    if not longest:
        raise Fault("no cell leaves late, so there is nothing to draw")
    unit, unit_name = unit_of(configuration.slot_ns * longest)
    below = f"later than from the ideal switch ({unit_name}); a plain simulation, unproved"
    picture = Picture(library, [configuration.name], 1, 3.0, "of 100 cells leave as late or later", below)
    axis = picture.axes[0][0]
    for (name, spread), (style, _), colour in zip(late.items(), itertools.cycle(STYLES), itertools.cycle(COLOURS)):
        tail = {value * configuration.slot_ns / unit: 100 * share for value, share in spread.tail() if value}
        axis.step(list(tail), list(tail.values()), style, where="pre", color=colour, label=name)
    axis.set_yscale("log")
    axis.yaxis.set_major_formatter(lambda value, _: f"{value:g}")
    axis.legend()
    picture.save(out)


def number_of(text: str) -> float | None:
    """A number, where a text is one."""
    try:
        return float(text)
    except ValueError:
        return None


def read_rows(name: str, where: dict[str, str], keys: Iterable[str]) -> list[Row]:
    """The rows of a CSV that have these values, with the columns that are asked for."""
    try:
        with open(name, encoding="utf-8", newline="") as file:
            rows = list(csv.DictReader(file))
    except OSError as error:
        raise Fault(f"{name}: {reason(error)}") from None
    except UnicodeDecodeError:
        raise Fault(f"{name}: no text") from None
    missing = [key for key in keys if not rows or key not in rows[0]]
    if missing:
        raise Fault(f"{name}: no column {missing[0]}; it has {', '.join(rows[0]) if rows else 'no row'}")
    return [row for row in rows if all(row[key] == value for key, value in where.items())]


class Sweep:
    """A figure of a sweep over the values of one key, with a line for each of what is told apart."""

    def __init__(self, name: str, x: str, y: str, by: list[str], where: dict[str, str]) -> None:
        where = {key: "all" for key in ("output", "class") if key not in by} | where
        self.lines: dict[tuple[str, ...], dict[str, float]] = {}
        for row in read_rows(name, where, [x, y, *by, *where]):
            if row[y] and not any(row[key] == "all" for key in by if key not in where):
                line = self.lines.setdefault(tuple(row[key] for key in by), {})
                if row[x] in line:
                    raise Fault(f"{name}: several rows for {x} = {row[x]}; tell them apart by --by or --where")
                figure = number_of(row[y])
                if figure is None:
                    raise Fault(f"{name}: {y} is no figure, as {row[y]} shows")
                line[row[x]] = figure
        if not self.lines:
            raise Fault(f"{name}: no row has a figure {y} there")
        self.values = list(dict.fromkeys(value for line in self.lines.values() for value in line))
        numbers = [number_of(value) for value in self.values]
        self.in_words = None in numbers
        self.places = dict(zip(self.values, range(len(numbers)) if self.in_words else numbers))
        self.names = [", ".join(f"{name} {value}" for name, value in zip(by, key)) for key in self.lines]

    def greatest(self) -> float:
        return max(abs(figure) for line in self.lines.values() for figure in line.values())

    def draw(self, axis: Any, unit: float) -> None:
        """Draws bars over values that are words, and lines over numbers."""
        width = 0.8 / len(self.lines)
        for number, (name, line) in enumerate(zip(self.names, self.lines.values())):
            places, figures = zip(*sorted((self.places[value], figure / unit) for value, figure in line.items()))
            style, point = STYLES[number % len(STYLES)]
            if self.in_words:
                axis.bar([place + width * (number + 0.5) - 0.4 for place in places], figures, width, label=name)
            else:
                axis.plot(places, figures, linestyle=style, marker=point, markersize=4, label=name)
        axis.set_xticks(list(self.places.values()), self.values)


def draw_sweep(sweep: Sweep, x: str, y: str, where: dict[str, str], out: str, log: bool) -> None:
    """Draws a sweep. A figure in nanoseconds is drawn in a unit of its size."""
    library = pyplot()
    figure, axis = library.subplots(layout="constrained", figsize=(6.4, 4))
    unit, unit_name = unit_of(sweep.greatest()) if y.endswith("_ns") else (1.0, "")
    sweep.draw(axis, unit)
    axis.set_title(", ".join(f"{key} {value}" for key, value in where.items()), fontsize="medium")
    axis.set_xlabel(x.replace("_", " "))
    axis.set_ylabel(y.removesuffix("_ns").replace("_", " ") + (f" ({unit_name})" if unit_name else ""))
    if log:
        axis.set_yscale("log")
    else:
        axis.set_ylim(bottom=min(0.0, axis.get_ylim()[0]))
    if any(sweep.names):
        axis.legend()
    save(figure, out)


def pairs(text: str) -> dict[str, str]:
    """KEY=VALUE, with a comma between two."""
    return dict(part.split("=", 1) for part in text.split(","))


def names(text: str) -> list[str]:
    return text.split(",")


def words() -> argparse.ArgumentParser:
    """What the tool can be asked for."""
    parser = argparse.ArgumentParser(description="Pictures of runs and of sweeps, as PNG and SVG.")
    kinds = parser.add_subparsers(dest="kind", required=True)
    run = kinds.add_parser("run", help="draw one run, or two side by side")
    run.add_argument("configs", metavar="CONFIG", nargs="+")
    run.add_argument("--out", required=True, metavar="FOLDER")
    run.add_argument("--without-log", action="store_true", help="there is no log, as after `cq_switch ideal`")
    late = kinds.add_parser("late", help="draw how late cells leave cheaper switches")
    late.add_argument("config", metavar="CONFIG")
    late.add_argument("--iterations", type=cheaper.counts, default=[1, 4], metavar="N,..", help="of iSLIP")
    late.add_argument("--by-rank", action="store_true", help="keep the queues by the ranks of the disciplines")
    late.add_argument("--out", required=True, metavar="NAME", help="the name of the picture, without its ending")
    sweep = kinds.add_parser("sweep", help="draw a figure of a sweep")
    sweep.add_argument("csv", metavar="CSV")
    sweep.add_argument("--x", required=True, metavar="KEY")
    sweep.add_argument("--y", required=True, metavar="FIGURE")
    sweep.add_argument("--by", type=names, default=[], metavar="KEY,..", help="a line for each of their values")
    sweep.add_argument("--where", type=pairs, default={}, metavar="KEY=VALUE,..", help="only rows that have these")
    sweep.add_argument("--log", action="store_true", help="a logarithmic scale of the figure")
    sweep.add_argument("--out", required=True, metavar="NAME", help="the name of the picture, without its ending")
    return parser


def main() -> None:
    options = words().parse_args()

    def work() -> None:
        if options.kind == "sweep":
            sweep = Sweep(options.csv, options.x, options.y, options.by, options.where)
            draw_sweep(sweep, options.x, options.y, options.where, options.out, options.log)
        elif options.kind == "late":
            draw_late(read_configuration(options.config), options.iterations, options.by_rank, options.out)
        elif len(options.configs) > 2:
            raise Fault("one run, or two")
        else:
            draw_runs([read_configuration(name) for name in options.configs], options.out, not options.without_log)

    guarded("plot.py", work)


if __name__ == "__main__":
    main()
