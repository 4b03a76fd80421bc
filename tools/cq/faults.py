"""What is wrong with what a tool was given, told in one line."""

import os
import sys
from typing import Callable


class Fault(Exception):
    """A line for standard error. The tool ends with status 1."""


def reason(error: OSError) -> str:
    """Why the system refused, as `No such file or directory`."""
    return error.strerror or str(error)


def guarded(tool: str, work: Callable[[], None]) -> None:
    """Does the work of a tool, and ends with one line and status 1 where it cannot be done."""
    try:
        work()
        sys.stdout.flush()
    except Fault as fault:
        sys.exit(f"{tool}: {fault}")
    except BrokenPipeError:
        os.dup2(os.open(os.devnull, os.O_WRONLY), sys.stdout.fileno())
    except OSError as error:
        sys.exit(f"{tool}: {error.filename or 'standard output'}: {reason(error)}")
    except KeyboardInterrupt:
        sys.exit(130)
