"""What all pictures share: the library that draws, colours, units of time, and how a picture is saved."""

from typing import Any

from .faults import Fault

# Colours that are told apart by everybody (Okabe and Ito 2008).
COLOURS = ("#0072b2", "#d55e00", "#009e73", "#cc79a7", "#56b4e9", "#e69f00", "#000000", "#999999")
UNITS = ((1e9, "s"), (1e6, "ms"), (1e3, "µs"), (1, "ns"))
STYLES = (("-", "o"), ("--", "s"), ("-.", "D"), (":", "^"))  # of lines that may lie on one another, with their points


def pyplot() -> Any:
    """The library that draws."""
    try:
        import matplotlib
    except ImportError:
        raise Fault(
            "matplotlib is not there: `apt-get install python3-matplotlib`, and call /usr/bin/python3"
        ) from None
    matplotlib.use("Agg")
    from matplotlib import pyplot as library

    library.rcParams.update(
        {
            "axes.prop_cycle": library.cycler(color=COLOURS),
            "axes.grid": True,
            "grid.alpha": 0.3,
            "axes.spines.top": False,
            "axes.spines.right": False,
            "svg.hashsalt": "cq_switch",
            "legend.frameon": False,
            "legend.fontsize": "small",
            "lines.linewidth": 1.2,
        }
    )
    return library


def unit_of(longest_ns: float) -> tuple[float, str]:
    """A unit of time in which this is a number of few digits."""
    return next((unit for unit in UNITS if longest_ns >= 2 * unit[0]), UNITS[-1])


def save(figure: Any, name: str) -> None:
    """Writes NAME.png and NAME.svg."""
    figure.savefig(name + ".png", dpi=100, bbox_inches="tight")
    figure.savefig(name + ".svg", metadata={"Date": None}, bbox_inches="tight")


class Picture:
    """A picture with a column for each title and a row for each of what is told apart, with common axes."""

    def __init__(self, library: Any, titles: list[str], rows: int, height: float, label: str, below: str) -> None:
        self.library = library
        self.figure, self.axes = library.subplots(
            rows,
            len(titles),
            sharex=True,
            sharey=True,
            squeeze=False,
            layout="constrained",
            figsize=(6.4 * len(titles), 1.1 + height * rows),
        )
        for title, column in zip(titles, self.axes.T):
            column[0].set_title(title, fontsize="medium")
            column[-1].set_xlabel(below)
        self.figure.supylabel(label, fontsize="medium")

    def legend(self, handles: list[Any]) -> None:
        """Puts a legend below the picture."""
        self.figure.legend(handles=handles, loc="upper center", bbox_to_anchor=(0.5, 0), ncols=min(6, len(handles)))

    def save(self, name: str) -> None:
        save(self.figure, name)
        self.library.close(self.figure)
