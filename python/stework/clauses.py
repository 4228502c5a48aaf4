"""Clauses, what a task puts in and expects, and the lines of a task file that they are."""
from __future__ import annotations

import enum
import functools
import re
from dataclasses import dataclass
from typing import FrozenSet, Iterable, Iterator, List, NamedTuple, Optional, Sequence, Set, Tuple, TypeVar, Union

from .netlist import Netlist, expand
from .errors import Origin, TaskError, caller
from .expr import Bit, Bool, Vector, to_bool, to_vector, variables
from .limits import MOST_CHARACTERS, MOST_NESTING

_WORD = re.compile(r"[^ \t\r\n#]+")

Nets = Union[str, Sequence[str]]
Value = Union[Vector, Bool, int]
Self = TypeVar("Self", bound="Clauses")


class Side(enum.Enum):
    """Whether a clause is put in or expected, with the word of the task file."""
    ANTECEDENT = ".ant"
    CONSEQUENT = ".con"


class Line(NamedTuple):
    """A line of a task file, and the line of Python that wrote it."""
    text: str
    origin: Origin


def text_of(lines: Iterable[Line]) -> str:
    """The text of these lines."""
    return "".join(line.text + "\n" for line in lines)


def word(kind: str, name: str) -> str:
    """The name, where it can stand as a word of a task file and is read back as it is."""
    if not isinstance(name, str) or not _WORD.fullmatch(name):
        raise TaskError(f"{name!r} is no name of a {kind}: no blanks and no #")
    try:
        again = name.encode("utf-8", "surrogateescape").decode("utf-8", "surrogateescape")
    except UnicodeEncodeError:
        again = None
    if again != name:
        raise TaskError(f"{name!r} is no name of a {kind}: it has no bytes")
    return name


def last_word(kind: str, name: str) -> str:
    """The same of a name that may stand at the end of a line, where `\\` would continue it."""
    if word(kind, name).endswith("\\"):
        raise TaskError(f"{name!r} is no name of a {kind}: no \\ at its end")
    return name


def require_sayable(expression: Bool, origin: Optional[Origin] = None) -> None:
    """TaskError where the expression cannot be written, at this line of Python or that of the caller."""
    if expression.nesting > MOST_NESTING:
        raise TaskError(f"{expression!r} is too deep: {expression.nesting} levels of ! and brackets, of at most {MOST_NESTING}",
                        origin)
    if expression.size > MOST_CHARACTERS:
        raise TaskError(f"{expression!r} is too long: more than {MOST_CHARACTERS}; split it over lines with guards", origin)


@dataclass(frozen=True, eq=False)
class Clause:
    """These nets have these values, one for each net in its order, where the guard is 1, at these time steps (None in a graph:
    in the step of the edge). `origin` is the line of Python that wrote it."""
    side: Side
    nets: Tuple[str, ...]
    values: Tuple[Bool, ...]
    guard: Bool
    times: Optional[range]
    origin: Origin

    @functools.cached_property
    def lines(self) -> Tuple[Line, ...]:
        """A line for each net, in their order; made once, as many tasks may share a clause."""
        guard = "" if self.guard.name == "1" else f" when {self.guard}"
        times = "" if self.times is None else f" from {self.times.start} to {self.times.stop}"
        return tuple(Line(f"{self.side.value} {net} = {value}{guard}{times}", self.origin)
                     for net, value in zip(self.nets, self.values))

    @functools.cached_property
    def mentions(self) -> FrozenSet[str]:
        """The names of the vectors and of the single variables in its values and its guard."""
        seen: Set[int] = set()
        found = (v for expression in (*self.values, self.guard) for v in variables(expression, seen))
        return frozenset(v.member.vector if v.member else v.name for v in found)


class Clauses:
    """What an assertion and an edge of a graph have alike: clauses, in the order of the calls."""

    def __init__(self, netlist: Optional[Netlist]) -> None:
        self.netlist, self.origin = netlist, caller()
        self.clauses: List[Clause] = []

    def _add(self: Self, side: Side, nets: Nets, value: Value, when: Bit, times: Optional[range]) -> Self:
        """Add a clause."""
        names = tuple(word("net", name) for name in expand(nets))
        if not names:
            raise TaskError(f"{nets!r} has no net")
        fault = self.netlist.fault(names) if self.netlist else None
        if fault:
            raise TaskError(fault)
        values, guard = to_vector(value, len(names)).bits[::-1], to_bool(when)
        for expression in (*values, guard):
            require_sayable(expression)
        self.clauses.append(Clause(side, names, values, guard, times, caller()))
        return self

    def clause_lines(self) -> Iterator[Line]:
        """The lines of the clauses."""
        for clause in self.clauses:
            yield from clause.lines
