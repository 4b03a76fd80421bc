"""The trace and the log: lines of numbers, which are read once, in step with the slots."""

from typing import Iterator

from .faults import Fault, reason

NEVER = 1 << 64  # no slot is as late


class Lines:
    """The lines of a file, taken slot by slot. The slot of the next line is `slot`, or `NEVER`."""

    def __init__(self, name: str, numbers: int) -> None:
        self.name, self.line, self.slot = name, 0, 0
        self._rows = self._read(numbers)
        self._next: tuple[int, ...] | None = None
        self._advance()

    def _read(self, numbers: int) -> Iterator[tuple[int, ...]]:
        """The lines of the file, as they are read."""
        try:
            with open(self.name, encoding="ascii") as file:
                for line in file:
                    self.line += 1
                    row = tuple(map(int, line.split(" ")))
                    if len(row) != numbers or min(row) < 0:
                        raise ValueError
                    yield row
        except OSError as error:
            raise Fault(f"{self.name}: {reason(error)}") from None
        except ValueError:
            raise self.fault(f"not {numbers} numbers with a blank between two") from None

    def _advance(self) -> None:
        before, self._next = self.slot, next(self._rows, None)
        self.slot = NEVER if self._next is None else self._next[0]
        if self.slot < before:
            raise self.fault(f"slot {self.slot} after slot {before}")

    def take(self, slot: int) -> Iterator[tuple[int, ...]]:
        """The next lines, as long as they are of this slot."""
        while self.slot == slot and self._next is not None:
            row = self._next
            yield row
            self._advance()

    def fault(self, what: str) -> Fault:
        """Something is wrong at the line that was read last."""
        return Fault(f"{self.name}, line {self.line}: {what}")
