"""Reports: text to results, and back. Begin with `read_report`.

A report is taken whole or not at all: what was read is written out again, and has to be the same text.
"""
from __future__ import annotations

import enum
import re
from dataclasses import dataclass
from typing import Dict, Iterable, Iterator, List, Mapping, NamedTuple, Optional, Tuple

from .netlist import expand
from .errors import ReportError


class Verdict(enum.Enum):
    """The verdict on a task, with the words of the report."""
    PASS = "pass"
    STRONG = "strong failure"
    WEAK = "weak failure"
    CONTRADICTORY = "contradictory antecedent"
    BUDGET = "budget"


class Cubes(NamedTuple):
    """A set of assignments as a list of cubes, which have none in common. Each has a bit for some variables, in their order (for
    none: all assignments). With `more` there are others, which are not shown."""
    cubes: Tuple[Mapping[str, int], ...] = ()
    more: bool = False

    def __str__(self) -> str:
        shown = [" & ".join(("" if bit else "!") + name for name, bit in cube.items()) or "1" for cube in self.cubes]
        return " | ".join(shown + ["..."] * self.more)

    def are_in_order(self) -> bool:
        """Where a cube first differs from the next, both have one variable, with 0 in the former and 1 in the latter."""
        for cube, following in zip(self.cubes, self.cubes[1:]):
            differing = ((a, b) for a, b in zip(cube.items(), following.items()) if a != b)
            (name, bit), other = next(differing, (("", 1), ("", 1)))
            if bit != 0 or other != (name, 1):
                return False
        return True


class Place(NamedTuple):
    """A net, by its own name, and a time step, counted from 0."""
    net: str
    time: int


@dataclass(frozen=True)
class Run:
    """A run of the netlist: each shown net by its own name, in the order of the nets, with a character 0 or 1 for each time
    step, from 0 on. Two nets may have one name: then the first is meant, as it is in tasks."""
    rows: Tuple[Tuple[str, str], ...]

    @property
    def steps(self) -> int:
        """The number of time steps."""
        return len(self.rows[0][1]) if self.rows else 0

    @property
    def nets(self) -> Dict[str, str]:
        """The bits by the net's name, in the order of the rows."""
        found: Dict[str, str] = {}
        for net, bits in self.rows:
            found.setdefault(net, bits)
        return found

    def __getitem__(self, nets: str) -> List[int]:
        """The values, one for each time step, of a net or of a vector (`d[1:0]`). KeyError where a net is not shown."""
        shown = self.nets
        return [int("".join(column), 2) for column in zip(*(shown[name] for name in expand(nets)))]


@dataclass(frozen=True)
class Result:
    """What a report says of a task.

    `strong`, `weak` and `contradictory` are sets of assignments. Of a strong or weak failure there are `least`, with a bit for
    each variable in the order of `.vars`, and `fails`; of a graph also `path`, the numbers of its edges; and of some strong
    failures `run`.
    """
    name: str
    verdict: Verdict
    strong: Cubes = Cubes()
    weak: Cubes = Cubes()
    contradictory: Cubes = Cubes()
    least: Optional[Mapping[str, int]] = None
    path: Tuple[int, ...] = ()
    fails: Optional[Place] = None
    run: Optional[Run] = None

    @property
    def text(self) -> str:
        """The lines of the report on this task."""
        lines = [f"{self.name}: {self.verdict.value}"]
        lines += [f"  {title}: {cubes}" for title, cubes in self.lists().items() if cubes.cubes]
        if self.least is not None:
            lines.append("  least:" + "".join(f" {name}={bit}" for name, bit in self.least.items()))
        if self.path:
            lines.append("  path:" + "".join(f" {edge}" for edge in self.path))
        if self.fails is not None:
            lines.append(f"  fails: {self.fails.net} at {self.fails.time}")
        if self.run is not None:
            lines += ["  run:"] + [f"    {net}: {bits}" for net, bits in self.run.rows]
        return "".join(line + "\n" for line in lines)

    def lists(self) -> Dict[str, Cubes]:
        """The three sets by their titles, in the order of the report."""
        return {"strong": self.strong, "weak": self.weak, "contradictory": self.contradictory}

    def fault(self) -> Optional[str]:
        """Why no task has this result, or None."""
        for rules in (self._rules_of_lists, self._rules_of_failures):
            broken = [words for holds, words in rules() if not holds]
            if broken:
                return broken[0]
        return None

    def _rules_of_lists(self) -> List[Tuple[bool, str]]:
        """What holds of every result: which lists and lines go with which verdict, and the order of the lists."""
        failed = self.verdict in (Verdict.STRONG, Verdict.WEAK)
        is_whole = self.contradictory == Cubes(({},))
        return [
            (bool(self.strong.cubes) == (self.verdict is Verdict.STRONG), "a strong failure is what has a strong list"),
            (bool(self.weak.cubes) or self.verdict is not Verdict.WEAK, "a weak failure without its list"),
            (not self.weak.cubes or failed, "a weak list without a failure"),
            (is_whole == (self.verdict is Verdict.CONTRADICTORY), "contradictory is what is so under all assignments"),
            (self.verdict is not Verdict.BUDGET or not self.contradictory.cubes, "a list behind budget"),
            (all(cubes.are_in_order() for cubes in self.lists().values()), "cubes that are not in order, or not apart"),
            ((self.least is not None) == failed == (self.fails is not None), "a failure is what has `least` and `fails`"),
            (failed or not self.path, "a path without a failure"),
            (self.run is None or self.verdict is Verdict.STRONG, "a run without a strong failure"),
        ]

    def _rules_of_failures(self) -> List[Tuple[bool, str]]:
        """What holds of a failure whose lists are right: its least assignment is in its first cube, with 0 beside it; a path
        has a time step for each edge, and a run goes as far as the failure, or further in an assertion."""
        if self.least is None or self.fails is None:
            return []
        least, time, run = self.least, self.fails.time, self.run
        first = (self.strong if self.verdict is Verdict.STRONG else self.weak).cubes[0]
        return [
            ({**dict.fromkeys(least, 0), **first} == least, "a least assignment that is not the least of the list"),
            (not self.path or len(self.path) == time + 1, "a failure that is not at the end of its path"),
            (run is None or len({len(bits) for _, bits in run.rows}) == 1, "a run of nets of unlike lengths, or of none"),
            (run is None or run.steps > time, "a run that ends before the failure"),
            (run is None or not self.path or run.steps == len(self.path), "a run of another length than its path"),
            (run is None or self.fails.net in run.nets, "a run without the net that fails"),
        ]


_NAME = r"[^ \t\r\n#]+"
_VARIABLE = "[A-Za-z_][A-Za-z0-9_]*"
_HEAD = re.compile(f"({_NAME}): ({'|'.join(verdict.value for verdict in Verdict)})")
_LIST = re.compile("  (strong|weak|contradictory): (.+)")
_LITERAL = re.compile(f"(!?)({_VARIABLE})")
_BIT = re.compile(f" ({_VARIABLE})=([01])")
_LEAST = re.compile(f"  least:((?: {_VARIABLE}=[01])*)")
_PATH = re.compile("  path:((?: [0-9]{1,9})+)")
_FAILS = re.compile(f"  fails: ({_NAME}) at ([0-9]{{1,9}})")
_RUN = re.compile("  run:")
_ROW = re.compile(f"    ({_NAME}): ([01]+)")
_NODES = re.compile("shared nodes: ([0-9]{1,9})")


class _Lines:
    """The lines that are still to be read."""

    def __init__(self, text: str) -> None:
        self.lines, self.at = text.split("\n")[:-1], 0

    def take(self, pattern: re.Pattern[str]) -> Optional[re.Match[str]]:
        """The next line, where the pattern fits it."""
        m = pattern.fullmatch(self.lines[self.at]) if self.at < len(self.lines) else None
        self.at += m is not None
        return m

    def take_all(self, pattern: re.Pattern[str]) -> Iterator[re.Match[str]]:
        """The next lines, as long as the pattern fits them; `at` is then the number of the line, counted from 1."""
        m = self.take(pattern)
        while m:
            yield m
            m = self.take(pattern)

    def require_next(self, *patterns: re.Pattern[str]) -> None:
        """ReportError where there is a next line, and none of the patterns fits it."""
        if self.at < len(self.lines) and not any(pattern.fullmatch(self.lines[self.at]) for pattern in patterns):
            raise ReportError(self.at + 1, f"unknown line {self.lines[self.at]!r}")


def _cubes(text: str, line: int) -> Cubes:
    shown = text.split(" | ")
    more = shown[-1] == "..."
    return Cubes(tuple(_cube(cube, line) for cube in shown[:len(shown) - more]), more)


def _cube(text: str, line: int) -> Dict[str, int]:
    cube = {}
    for literal in text.split(" & ") if text != "1" else ():
        m = _LITERAL.fullmatch(literal)
        if not m:
            raise ReportError(line, f"no cube: {text!r}")
        cube[m[2]] = 0 if m[1] else 1
    return cube


def _result(head: re.Match[str], lines: _Lines) -> Result:
    """The result whose first line was taken."""
    lists = {m[1]: _cubes(m[2], lines.at) for m in lines.take_all(_LIST)}
    least, path, fails = lines.take(_LEAST), lines.take(_PATH), lines.take(_FAILS)
    rows = tuple((m[1], m[2]) for m in lines.take_all(_ROW)) if lines.take(_RUN) else None
    return Result(head[1], Verdict(head[2]), **lists,
                  least={m[1]: int(m[2]) for m in _BIT.finditer(least[1])} if least else None,
                  path=tuple(map(int, path[1].split())) if path else (),
                  fails=Place(fails[1], int(fails[2])) if fails else None,
                  run=Run(rows) if rows is not None else None)


def read_report(text: str) -> Tuple[List[Result], Optional[int]]:
    """The results in order, and the number of shared nodes where it is given. ReportError for any other text.

    Names may hold any byte: a text that was read from bytes is best decoded by `utf-8` with `surrogateescape`.
    """
    if text and not text.endswith("\n"):
        raise ReportError(text.count("\n") + 1, "the last line does not end")
    lines, results = _Lines(text), []
    for head in lines.take_all(_HEAD):
        first = lines.at
        result = _result(head, lines)
        lines.require_next(_HEAD, _NODES)
        fault = result.fault()
        if fault:
            raise ReportError(first, fault)
        results.append(result)
    shared = lines.take(_NODES)
    lines.require_next()
    nodes = int(shared[1]) if shared else None
    again = write_report(results, nodes).split("\n")[:-1]
    for number, (one, other) in enumerate(zip(lines.lines, again), 1):
        if one != other:
            raise ReportError(number, f"{one!r} where {other!r} would stand")
    if len(lines.lines) != len(again):
        raise ReportError(min(len(lines.lines), len(again)) + 1, "a line too many")
    return results, nodes


def write_report(results: Iterable[Result], nodes: Optional[int] = None) -> str:
    """The report with these results, and with the number of shared nodes where it is given."""
    return "".join(result.text for result in results) + (f"shared nodes: {nodes}\n" if nodes is not None else "")
