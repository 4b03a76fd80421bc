"""Goes through a run, slot by slot, from its captures, its trace and its log.

The captures say what arrives, the log what crosses and the trace what leaves. What is told by none of them follows from
the rules in docs/RULES.md: where an arriving cell goes into its input's list, and how it is ranked at its output.
"""

import heapq
from bisect import bisect_left
from collections.abc import Iterator
from dataclasses import dataclass, field
from typing import NamedTuple

import switch_model
from switch_model import Queued

from .captures import Captures, read_captures
from .config import Configuration
from .faults import Fault
from .lines import NEVER, Lines

Key = tuple[int, ...]
SPREAD = 1 << 60  # between the labels of two neighbours in a list, as long as there is room


class Cell(NamedTuple):
    """A cell of a packet, as it arrived."""

    key: Key  # level, rank, slot and input: the lesser is the more urgent
    input: int
    packet: int
    part: int  # the cell's number in its packet
    output: int
    kind: int
    slot: int  # in which it arrived
    last: bool

    def __str__(self) -> str:
        return named(self.input, self.packet, self.part)


def named(number: int, packet: int, part: int) -> str:
    """How a fault speaks of a cell."""
    return f"cell {part} of packet {packet} of input {number}"


def queued(cell: Cell) -> Queued:
    """A cell as the model of the ranks is told of it."""
    told = switch_model.Cell(cell.input, cell.packet, cell.part, cell.output, cell.kind, cell.last)
    return Queued(*cell.key, told)


class InputList:
    """The cells that wait at an input, the most wanted first. Labels that rise along the list stand for places, and the
    cells for one output are kept once more in a queue of their own, so that no step walks the list."""

    def __init__(self) -> None:
        self.labels: list[int] = []
        self.queues: dict[int, list[tuple[Key, int]]] = {}  # per output, the keys and the labels of its cells

    def insert(self, cell: Cell, cushion: int) -> int:
        """Puts a cell where docs/RULES.md says, and answers at which place that is."""
        queue = self.queues.setdefault(cell.output, [])
        at = bisect_left(queue, (cell.key,))
        place = min(cushion, len(self.labels))
        if at < len(queue):
            place = min(place, bisect_left(self.labels, queue[at][1]))
        queue.insert(at, (cell.key, self._label(place)))
        return place

    def _label(self, place: int) -> int:
        """Makes a label at this place, and first spreads the labels anew where two neighbours leave no room."""
        labels = self.labels
        if place == len(labels):
            label = labels[-1] + SPREAD if labels else 0
        elif place == 0:
            label = labels[0] - SPREAD
        else:
            label = (labels[place - 1] + labels[place]) // 2
            if label == labels[place - 1]:
                self._spread()
                label = (self.labels[place - 1] + self.labels[place]) // 2
        self.labels.insert(place, label)
        return label

    def _spread(self) -> None:
        fresh = {label: place * SPREAD for place, label in enumerate(self.labels)}
        self.labels = list(fresh.values())
        for queue in self.queues.values():
            queue[:] = [(key, fresh[label]) for key, label in queue]

    def take(self, cell: Cell) -> bool:
        """Takes a cell out. The answer is whether it was there."""
        queue = self.queues.get(cell.output, [])
        at = bisect_left(queue, (cell.key,))
        if at == len(queue) or queue[at][0] != cell.key:
            return False
        del self.labels[bisect_left(self.labels, queue.pop(at)[1])]
        if not queue:
            del self.queues[cell.output]
        return True

    def wishes(self, partner: int | None) -> int:
        """How many proposals an input with this partner makes: down to the partner in the order of its first cells, or
        through the whole order where it has none."""
        if partner is None or partner not in self.queues:
            return len(self.queues)
        label = self.queues[partner][0][1]
        return sum(queue[0][1] <= label for queue in self.queues.values())


@dataclass
class Slot:
    """What happened in a slot. Without a log there is nothing of lists, buffers and phases."""

    number: int
    arrived: list[Cell] = field(default_factory=list)
    slacks: list[int] = field(default_factory=list)  # of the cells that arrived, in their order
    refused: list[Cell] = field(default_factory=list)
    proposals: list[int] = field(default_factory=list)  # of each phase
    sent: list[Cell] = field(default_factory=list)
    lists: list[int] = field(default_factory=list)  # how long each is after the arrivals
    left: list[int] = field(default_factory=list)  # and at the end of the slot
    peaks: list[int] = field(default_factory=list)  # how much each buffer holds after the first phase
    buffers: list[int] = field(default_factory=list)  # and at the end of the slot


class Replay:
    """A run that is gone through once, from its first slot on."""

    def __init__(self, configuration: Configuration, captures: Captures, trace: Lines, log: Lines | None) -> None:
        self.configuration, self.captures, self.trace, self.log = configuration, captures, trace, log
        ports = range(configuration.ports)
        self.ranks = configuration.ranks()
        self.fair = [j for j in ports if configuration.disciplines[j] == "fair"]
        self.levels = [kind.get("level", 0) for kind in configuration.classes]
        self.waiting: dict[tuple[int, int, int], Cell] = {}
        self.lists = [InputList() for _ in ports]
        self.buffers: list[list[tuple[Key, Cell]]] = [[] for _ in ports]
        self.held = [0 for _ in ports]  # the cells for each output, in lists and in its buffer
        self.marks = [False for _ in ports]  # the inputs whose packet is refused
        self._arrivals = iter(heapq.merge(*(packets.arrivals(i) for i, packets in enumerate(captures.inputs))))
        self._next = next(self._arrivals, None)

    def slots(self) -> Iterator[Slot]:
        """The slots in which something happens, in order."""
        after = 0
        while (
            slot := min(self._next[0] if self._next else NEVER, self.trace.slot, self.log.slot if self.log else NEVER)
        ) < NEVER:
            if slot > after:
                self._tell([])
            yield self._step(slot)
            after = slot + 1
        if self.waiting:
            raise Fault(f"{self.trace.name}: it ends before {next(iter(self.waiting.values()))} leaves")

    def _step(self, number: int) -> Slot:
        """Goes through a slot."""
        slot = Slot(number)
        while self._next and self._next[0] == number:
            self._arrive(slot, *self._next[1:])
            self._next = next(self._arrivals, None)
        if self.log is None:
            self._depart(slot)
        else:
            self._cross(slot, self.log)
        return slot

    def _cross(self, slot: Slot, log: Lines) -> None:
        """What happens in a slot once its cells have arrived."""
        crossed = self._crossed(slot, log)
        slot.lists = [len(line.labels) for line in self.lists]
        self._transfer(slot, crossed[0], log)
        slot.peaks = list(map(len, self.buffers))
        self._depart(slot)
        self._transfer(slot, crossed[1], log)
        slot.left = [len(line.labels) for line in self.lists]
        slot.buffers = list(map(len, self.buffers))

    def _arrive(self, slot: Slot, number: int, packet: int, part: int) -> None:
        """A cell comes in: it is refused, or ranked and put into the list of its input."""
        packets = self.captures.inputs[number]
        output, kind, last = packets.outputs[packet], packets.kinds[packet], part + 1 == packets.cells[packet]
        if part == 0:
            limit = self.configuration.limits[output]
            self.marks[number] = limit is not None and self.held[output] >= limit
        if self.marks[number]:
            slot.refused.append(Cell((), number, packet, part, output, kind, slot.number, last))
            return
        key = (self.levels[kind], self.ranks[output].rank(kind), slot.number, number)
        cell = Cell(key, number, packet, part, output, kind, slot.number, last)
        self.waiting[number, packet, part] = cell
        self.held[output] += 1
        slot.arrived.append(cell)
        if self.log:
            cushion = bisect_left(self.buffers[output], (key,))
            slot.slacks.append(cushion - self.lists[number].insert(cell, cushion))

    def _crossed(self, slot: Slot, log: Lines) -> tuple[list[Cell], list[Cell]]:
        """What the log says that crosses in this slot, by phase."""
        phases: tuple[list[Cell], list[Cell]] = ([], [])
        for _, phase, number, output, packet, part in log.take(slot.number):
            cell = self.waiting.get((number, packet, part))
            if phase not in (1, 2) or cell is None or cell.output != output:
                raise log.fault(f"{named(number, packet, part)} does not wait there for output {output}")
            phases[phase - 1].append(cell)
        return phases

    def _transfer(self, slot: Slot, crossed: list[Cell], log: Lines) -> None:
        """These cells cross, from the lists of their inputs to the buffers of their outputs."""
        partners = {cell.input: cell.output for cell in crossed}
        slot.proposals.append(sum(line.wishes(partners.get(i)) for i, line in enumerate(self.lists) if line.labels))
        for cell in crossed:
            if not self.lists[cell.input].take(cell):
                raise Fault(f"{log.name}: in slot {slot.number} {cell} crosses once more")
            buffer = self.buffers[cell.output]
            buffer.insert(bisect_left(buffer, (cell.key,)), (cell.key, cell))

    def _depart(self, slot: Slot) -> None:
        """What the trace says leaves."""
        for _, output, number, packet, part in self.trace.take(slot.number):
            cell = self.waiting.pop((number, packet, part), None)
            if cell is None or cell.output != output:
                raise self.trace.fault(f"{named(number, packet, part)} does not wait there for output {output}")
            if self.log:
                buffer = self.buffers[output]
                at = bisect_left(buffer, (cell.key,))
                if at == len(buffer) or buffer[at][0] != cell.key:
                    raise self.trace.fault(f"by the log {cell} has not crossed")
                del buffer[at]
            self.held[output] -= 1
            slot.sent.append(cell)
        self._tell(slot.sent)

    def _tell(self, sent: list[Cell]) -> None:
        """Tells each fair output what it sent in a slot. The others rank without a memory."""
        if not self.fair:
            return
        by_output = {cell.output: cell for cell in sent}
        for output in self.fair:
            cell = by_output.get(output)
            self.ranks[output].tell(cell and queued(cell))


def replay(configuration: Configuration, with_log: bool) -> Replay:
    """Opens the files that a configuration names."""
    trace = Lines(configuration.trace, 5)
    log = Lines(configuration.log, 6) if with_log else None
    return Replay(configuration, read_captures(configuration), trace, log)
