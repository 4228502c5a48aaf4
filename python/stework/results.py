"""What a check comes to: results, or the error that an answer of the program stands for. Begin with `Results`."""
from __future__ import annotations

import re
from typing import AbstractSet, Dict, Iterator, List, Mapping, Optional, Sequence

from .clauses import Line
from .errors import Fault, OutOfMemory, Refused, ReportError, SteworkError, TimedOut
from .expr import Bool
from .parts import Answer
from .report import Result, Verdict, read_report
from .tasks import Task


class Results(Mapping[str, Result]):
    """The results by task name, in the order of the tasks. `missing` has the names of the tasks of which nothing was reported;
    `mentions` has, by task, the names of the vectors and of the single variables that the task mentions."""

    def __init__(self, results: Mapping[str, Result], variables: Mapping[str, Bool], mentions: Mapping[str, AbstractSet[str]],
                 missing: Sequence[str] = ()) -> None:
        self._results, self._variables = dict(results), dict(variables)
        self.mentions, self.missing = dict(mentions), tuple(missing)

    def __repr__(self) -> str:
        shown = [f"{name}: {result.verdict.value}" for name, result in self.items()]
        return f"<{', '.join(shown + [f'{name}: not reported' for name in self.missing])}>"

    def __getitem__(self, name: str) -> Result:
        return self._results[name]

    def __iter__(self) -> Iterator[str]:
        return iter(self._results)

    def __len__(self) -> int:
        return len(self._results)

    @property
    def passed(self) -> bool:
        """Every task was reported, and every verdict is pass; lists `contradictory:` are not looked at."""
        return not self.missing and all(result.verdict is Verdict.PASS for result in self.values())

    @property
    def text(self) -> str:
        """The report."""
        return "".join(result.text for result in self.values())

    def assignment(self, name: str) -> Dict[str, int]:
        """The least assignment of a failed task, with the variables of a vector put together as a number, in the order of
        `.vars`: of the variables that the task mentions, and of vectors of which it mentions a bit. Of a task that did not fail,
        nothing."""
        found: Dict[str, int] = {}
        for variable, value in (self[name].least or {}).items():
            member = self._variables[variable].member
            key, shift = (member.vector, member.bit) if member else (variable, 0)
            if key in self.mentions[name]:
                found[key] = found.get(key, 0) | value << shift
        return found


def read_answer(answer: Answer, tasks: Sequence[Task], variables: Sequence[str], lines: Sequence[Line],
                net: str) -> List[Result]:
    """The results of just these tasks over these variables, or the exception that the answer stands for."""
    if answer.status not in (0, 1):
        raise failure(answer, lines, net)
    if answer.err:
        raise ReportError(1, f"a report, and on the error stream {answer.err!r}")
    results, nodes = read_report(answer.out)
    found, names = [result.name for result in results], [task.name for task in tasks]
    if found != names or nodes is not None:
        raise ReportError(1, f"a report on {found} in place of {names}" if nodes is None else "shared nodes were not asked for")
    if (answer.status == 0) != all(result.verdict is Verdict.PASS for result in results):
        raise ReportError(1, f"status {answer.status} with these verdicts")
    line = 1
    for task, result in zip(tasks, results):
        misfit = task.misfit(result) or _misfit_of_variables(result, variables)
        if misfit:
            raise ReportError(line, misfit)
        line += result.text.count("\n")
    return results


def _misfit_of_variables(result: Result, variables: Sequence[str]) -> Optional[str]:
    """Why this is no result over these variables, in this order; or None."""
    if result.least is not None and list(result.least) != list(variables):
        return "a least assignment of other variables"
    place = {name: number for number, name in enumerate(variables)}
    for cubes in result.lists().values():
        for cube in cubes.cubes:
            places = [place.get(name, -1) for name in cube]
            if -1 in places or places != sorted(places):
                return "a cube of other variables, or in another order"
    return None


_REFUSAL = re.compile(r"stework: (?:(NET|TASKS):(?:([0-9]{1,9}):)? )?([^\n]*)\n")
_USAGE = re.compile(r"(usage: [^\n]*)\n")


def failure(answer: Answer, lines: Sequence[Line], net: str) -> SteworkError:
    """What a status other than 0 and 1 says."""
    if answer.status is None:
        return TimedOut(answer.err)
    if answer.status == 4 and not answer.out and answer.err in ("", "stework: out of memory\n"):
        return OutOfMemory("out of memory")
    refusal, usage = _REFUSAL.fullmatch(answer.err), _USAGE.fullmatch(answer.err)
    if answer.status == 2 and not answer.out and usage:
        return Refused(usage[1])
    if answer.status == 2 and not answer.out and refusal:
        file, number, message = refusal.groups()
        origins = {line: written.origin for line, written in enumerate(lines, 1)} if file == "TASKS" else {}
        at = int(number) if number else None
        return Refused(message, {"NET": net, "TASKS": "tasks"}.get(file), at, origins.get(at or 0))
    return Fault(f"status {answer.status}: {answer.err.rstrip(chr(10)) or 'no message'}")
