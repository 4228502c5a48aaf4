"""How far a check is, as a value and as a line on a terminal. Begin with `Progress`."""
from __future__ import annotations

import sys
from typing import Callable, Mapping, NamedTuple

from .report import Verdict


class Progress(NamedTuple):
    """How many parts of a check are done, of how many; how many tasks have each verdict so far; how many of the parts that are
    done have none, but an error; and the seconds since the check began."""
    done: int
    parts: int
    verdicts: Mapping[Verdict, int]
    errors: int
    seconds: float

    def __str__(self) -> str:
        found = [f"{count} {verdict.value}" for verdict, count in self.verdicts.items() if count]
        found += [f"{self.errors} in error"] * bool(self.errors)
        return ", ".join([f"{self.done} of {self.parts} parts", *found, f"{self.seconds:.0f} s"])


Watcher = Callable[[Progress], None]


def watcher_of_terminal() -> Watcher:
    """What shows each progress in the place of the one before, where the error stream is a terminal, and else nothing. Of a
    check in one part nothing is shown."""
    width = 0

    def show(progress: Progress) -> None:
        nonlocal width
        line = f"stework: {progress}"
        sys.stderr.write("\r" + line.ljust(width) + "\n" * (progress.done == progress.parts))
        sys.stderr.flush()
        width = len(line)

    def pass_over(progress: Progress) -> None:
        pass

    is_terminal = sys.stderr is not None and sys.stderr.isatty()
    return (lambda progress: show(progress) if progress.parts > 1 else None) if is_terminal else pass_over
