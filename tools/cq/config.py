"""A configuration, as the tools need it. `cq_switch check` judges it; here only what would mislead is refused."""

import re
import tomllib
from dataclasses import dataclass
from typing import Any, NamedTuple

import switch_model

from .faults import Fault, reason

GROUP_BIT = 1
MAC_BYTES = 6


class Route(NamedTuple):
    """Where a packet goes."""

    output: int
    kind: int  # its class
    destination: str  # "known", or why it goes to the default output: "unknown", "group" or "short"
    by_rule: bool  # whether a rule gave its class


@dataclass(frozen=True)
class Configuration:
    """The tables of a switch, and where its files are."""

    name: str
    tables: dict[str, Any]
    cell_bytes: int
    slot_ns: int
    trace: str
    log: str
    reads: list[str | None]
    disciplines: list[str]
    limits: list[int | None]
    classes: list[dict[str, Any]]
    defaults: tuple[int, int]  # output and class
    model: switch_model.Switch  # its defaults are None, so that a route tells whether a default decided

    @property
    def ports(self) -> int:
        return len(self.disciplines)

    @property
    def line_rate(self) -> float:
        """Bits a second that each line carries."""
        return 8 * self.cell_bytes * 1e9 / self.slot_ns

    def cells_of(self, length: int) -> int:
        """A packet without bytes has one cell of no bytes."""
        return max(1, -(-length // self.cell_bytes))

    def route(self, number: int, head: bytes) -> Route:
        """The route of a packet of this input that begins with these bytes."""
        output, kind = self.model.route(number, head)
        destination = "known"
        if output is None:
            destination = "short" if len(head) < MAC_BYTES else "group" if head[0] & GROUP_BIT else "unknown"
        return Route(
            self.defaults[0] if output is None else output,
            self.defaults[1] if kind is None else kind,
            destination,
            kind is not None,
        )

    def ranks(self) -> list[switch_model.Ranks]:
        """The machine of each output, as it opens."""
        return self.model.ranks()


def load(name: str) -> dict[str, Any]:
    """The tables of a TOML document."""
    try:
        with open(name, "rb") as file:
            return tomllib.load(file)
    except OSError as error:
        raise Fault(f"{name}: {reason(error)}") from None
    except (tomllib.TOMLDecodeError, UnicodeDecodeError) as error:
        raise Fault(f"{name}: no TOML document: {error}") from None


def configuration_of(name: str, tables: dict[str, Any]) -> Configuration:
    """The configuration of these tables, or a fault where they are no switch."""
    try:
        ports = tables["port"]
        configuration = Configuration(
            name,
            tables,
            whole(tables.get("cell_bytes", 64)),
            whole(tables.get("slot_ns", 512)),
            text(tables["trace"]),
            text(tables["log"]),
            [text(port["read"]) if "read" in port else None for port in ports],
            [port.get("discipline", "first-come") for port in ports],
            [whole(port["limit"]) if "limit" in port else None for port in ports],
            tables.get("class", [{}]),
            (tables.get("default_output", 0), tables.get("default_class", 0)),
            switch_model.Switch({**tables, "default_output": None, "default_class": None}, []),
        )
        judge(configuration)
    except (KeyError, TypeError, ValueError, AttributeError, IndexError) as error:
        raise Fault(f"{name}: not the tables of a switch ({error}); docs/FORMATS.md has them") from None
    return configuration


def read_configuration(name: str) -> Configuration:
    """The configuration of this file. The names in it are taken from the folder of the caller."""
    return configuration_of(name, load(name))


def judge(configuration: Configuration) -> None:
    """Refuses ports and classes that are not there, disciplines that are none, and classes whose numbers are none."""
    ports, kinds = configuration.ports, len(configuration.classes)
    outputs = [row["output"] for row in configuration.tables.get("address", [])] + [configuration.defaults[0]]
    given = [row["class"] for row in configuration.tables.get("rule", [])] + [configuration.defaults[1]]
    if not ports or not all(whole(output, 0) < ports for output in outputs):
        raise ValueError("no such port")
    if not all(whole(kind, 0) < kinds for kind in given):
        raise ValueError("no such class")
    if not set(configuration.disciplines) <= {"first-come", "priority", "fair"}:
        raise ValueError("no such discipline")
    for row in configuration.classes:
        wide(row.get("priority", 0), 0)
        wide(row.get("cost", 1), 1)
        whole(row.get("level", 0), 0)


def whole(value: Any, least: int = 1) -> int:
    """A number that is at least this."""
    if isinstance(value, bool) or not isinstance(value, int) or value < least:
        raise ValueError(f"{value!r} is no number from {least} on")
    return value


def wide(value: Any, least: int) -> int:
    """The same, or a text of its digits."""
    if isinstance(value, str) and re.fullmatch("[0-9]{1,39}", value):
        value = int(value)
    return whole(value, least)


def text(value: Any) -> str:
    """A name of a file."""
    if not isinstance(value, str) or not value or "\0" in value:
        raise ValueError(f"{value!r} is no name of a file")
    return value
