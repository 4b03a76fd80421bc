"""Figures that grow by one value at a time: exact distributions, and series over the slots of a run."""

import math
from collections import Counter
from collections.abc import Callable, Iterator


class Spread:
    """A distribution of whole numbers, exact: how often each came."""

    def __init__(self) -> None:
        self.counts: Counter[int] = Counter()

    def add(self, value: int) -> None:
        self.counts[value] += 1

    def __len__(self) -> int:
        return self.counts.total()

    def mean(self, factor: int = 1) -> float | None:
        """The mean, to three digits behind the point, of the values times a factor; or None where no value came."""
        total = factor * sum(value * count for value, count in self.counts.items())
        return round(total / len(self), 3) if self.counts else None

    def share(self, per_cent: int) -> int | None:
        """The least value that so many of a hundred values do not pass (the nearest rank), or None."""
        left = -(-len(self) * per_cent // 100)
        for value in sorted(self.counts):
            left -= self.counts[value]
            if left <= 0:
                return value
        return None

    def least(self) -> int | None:
        return min(self.counts, default=None)

    def greatest(self) -> int | None:
        return max(self.counts, default=None)

    def row(self, name: str, unit: str, factor: int = 1) -> dict[str, float | None]:
        """Its four figures, in a unit that is `factor` times smaller than that of the values."""
        marks = {"median": self.share(50), "p99": self.share(99), "greatest": self.greatest()}
        return {f"{name}_mean_{unit}": self.mean(factor)} | {
            f"{name}_{mark}_{unit}": None if value is None else value * factor for mark, value in marks.items()
        }

    def tail(self) -> Iterator[tuple[int, float]]:
        """Each value, and the share of all values that are as great or greater."""
        left = total = len(self)
        for value in sorted(self.counts):
            yield value, left / total
            left -= self.counts[value]


class Mean:
    """The mean over all slots of a length that changes only in some."""

    def __init__(self) -> None:
        self.peak, self._sum, self._length, self._since = 0, 0, 0, 0

    def set(self, slot: int, length: int) -> None:
        """From this slot on it is this long."""
        self._sum += self._length * (slot - self._since)
        self._length, self._since = length, slot
        self.peak = max(self.peak, length)

    def mean(self, slots: int) -> float:
        """Over so many slots, of which none is before the last change."""
        self.set(slots, self._length)
        return round(self._sum / slots, 3) if slots else 0.0


class Series:
    """Values over time, in at most so many bins of equally many slots. The bins grow with the run."""

    def __init__(self, most: int, fold: Callable[[float, float], float], empty: float = math.nan) -> None:
        self.most, self.fold, self.empty, self.width = most, fold, empty, 1
        self.bins: dict[int, float] = {}

    def add(self, slot: int, value: float) -> None:
        while slot // self.width >= self.most:
            self.widen()
        self._put(slot // self.width, value)

    def _put(self, at: int, value: float) -> None:
        self.bins[at] = self.fold(self.bins[at], value) if at in self.bins else value

    def widen(self) -> None:
        """Makes one bin of each two."""
        narrow, self.bins = self.bins, {}
        self.width *= 2
        for at, value in narrow.items():
            self._put(at // 2, value)

    def points(self, slots: int) -> tuple[list[int], list[float]]:
        """The first slot of each bin, and its value, over a run of so many slots."""
        while (slots - 1) // self.width >= self.most:
            self.widen()
        count = -(-slots // self.width)
        return [at * self.width for at in range(count)], [self.bins.get(at, self.empty) for at in range(count)]
