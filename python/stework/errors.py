"""What can go wrong, each with the line of Python, or of a file, that it comes from."""
from __future__ import annotations

import os
import sys
from typing import TYPE_CHECKING, NamedTuple, Optional

if TYPE_CHECKING:
    from .results import Results

_PACKAGE = __name__.split(".", 1)[0]


class Origin(NamedTuple):
    """A line of the user's Python: the file, and the number of the line, counted from 1. As text the file is named from the
    working folder on, where it lies in it."""
    file: str
    line: int

    def __str__(self) -> str:
        here = os.path.join(os.getcwd(), "")
        return f"{self.file[len(here):] if self.file.startswith(here) else self.file}:{self.line}"


def caller() -> Origin:
    """The nearest line on the stack that is not of this package."""
    frame = sys._getframe(1)
    while frame.f_back and str(frame.f_globals.get("__name__")).split(".", 1)[0] == _PACKAGE:
        frame = frame.f_back
    return Origin(frame.f_code.co_filename, frame.f_lineno)


class SteworkError(Exception):
    """Any error of this package. Each can be pickled. Where `check` raised it, `results` has what was reported of the
    other tasks."""
    results: Optional[Results] = None


class TaskError(SteworkError, ValueError):
    """What was asked for is not written, since the program would not read it, or since it would ask nothing; or a wave, since
    there is no run. `origin` is the line of Python that asked."""

    def __init__(self, message: str, origin: Optional[Origin] = None) -> None:
        self.message, self.origin = message, origin or caller()
        super().__init__(message, self.origin)

    def __str__(self) -> str:
        return f"{self.origin}: {self.message}"


class Refused(SteworkError):
    """Status 2: the program refused a file, or its words. `message` is what it said behind the place; `file` is the netlist as
    it was given to `check`, or `tasks` (None: neither), `line` a line of that file, counted from 1, and `origin` the line of
    Python that wrote that line of the tasks."""

    def __init__(self, message: str, file: Optional[str] = None, line: Optional[int] = None,
                 origin: Optional[Origin] = None) -> None:
        super().__init__(message, file, line, origin)
        self.message, self.file, self.line, self.origin = message, file, line, origin

    def __str__(self) -> str:
        return ": ".join(str(part) for part in (self.origin, self._place(), self.message) if part is not None)

    def _place(self) -> Optional[str]:
        return self.file if self.line is None else f"{self.file}:{self.line}"


class Fault(SteworkError):
    """The program could not be run or not do its work: status 3 (a file could not be read, or the report not be written), a
    status that it does not have, a signal, or words that it does not say."""


class FileChanged(SteworkError):
    """The program or the netlist was another file, on this machine, when a part of a check was run, than when the check was
    asked for."""

    def __init__(self, path: str, machine: str) -> None:
        super().__init__(path, machine)
        self.path, self.machine = path, machine

    def __str__(self) -> str:
        return f"{self.path} on {self.machine} is not the file that was there when the check was asked for"


class OutOfMemory(SteworkError):
    """Status 4."""


class TimedOut(SteworkError, TimeoutError):
    """The program was ended when `timeout` seconds had passed. It says nothing of any task of that run."""


class YosysError(SteworkError):
    """Yosys stopped before there was a netlist; the message is its own."""


class ReportError(SteworkError):
    """A text that is no report, or not one on these tasks. `line` is counted from 1."""

    def __init__(self, line: int, message: str) -> None:
        super().__init__(line, message)
        self.line, self.message = line, message

    def __str__(self) -> str:
        return f"report:{self.line}: {self.message}"
