"""Runs as waves: VCD, which GTKWave and others read, and what GTKWave shows of it. Begin with `vcd`."""
from __future__ import annotations

import re
from typing import Collection, Dict, Iterator, List, NamedTuple, Optional, Set, Tuple

from .netlist import has_no_gap, vector_of, vectors
from .errors import TaskError
from .report import Result, Run


class _Signal(NamedTuple):
    """A net, or the bits of a vector: its name with its indices, the nets, and the rows of their bits, the most significant
    first."""
    name: str
    nets: List[str]
    rows: List[str]

    def at(self, time: int) -> str:
        """The bits at a time step."""
        return "".join(row[time] for row in self.rows)


class _Scope:
    """The signals of one instance, and the instances in it."""

    def __init__(self) -> None:
        self.signals: List[_Signal] = []
        self.instances: Dict[str, _Scope] = {}


def _shown(name: str) -> str:
    """The name as GTKWave takes it: to it a `:` is that of a range, and `$end` ends a line."""
    return re.sub(r":|^\$(?=end$)", "_", name)


def _top_scope(run: Run) -> _Scope:
    """The nets by instance (0/1/x is x in 1 in 0), with the bits of a vector put together where they are all there."""
    top, nets = _Scope(), run.nets
    wide = vectors(nets)
    done: Set[str] = set()
    for name in nets:
        base = (vector_of(name) or (name, 0))[0]
        *path, local = base.split("/")
        scope = top
        while path and path[0].isdigit():
            scope = scope.instances.setdefault(path.pop(0), _Scope())
        local = _shown("/".join([*path, local]))
        indices = wide.get(base, [])
        if len(indices) < 2 or not has_no_gap(indices) or base in nets:
            scope.signals.append(_Signal(local + name[len(base):], [name], [nets[name]]))
        elif base not in done:
            done.add(base)
            bits = [f"{base}[{i}]" for i in indices]
            shown = f"{local} [{indices[0]}:{indices[-1]}]"
            scope.signals.append(_Signal(shown, bits, [nets[bit] for bit in bits]))
    return top


def _code(number: int) -> str:
    """The number as VCD's short name of a signal: printed characters, from `!` to `~`."""
    code = ""
    while True:
        number, digit = divmod(number, 94)
        code += chr(33 + digit)
        if not number:
            return code


def _declarations(name: str, scope: _Scope, declared: List[_Signal]) -> Iterator[str]:
    """The lines that declare a scope; its signals go to the end of `declared`, and their codes go by their places there."""
    yield f"$scope module {name} $end"
    for signal in scope.signals:
        yield f"$var wire {len(signal.rows)} {_code(len(declared))} {signal.name} $end"
        declared.append(signal)
    for inner, instance in scope.instances.items():
        yield from _declarations(inner, instance, declared)
    yield "$upscope $end"


def vcd(result: Result) -> str:
    """The run of a failed task as VCD, the same text each time. One time step is 1 ns. The signal `stework_fails` is 1 in the
    step in which the task fails; a comment at the head has task, verdict, net and time. TaskError where there is no run."""
    if result.run is None or result.fails is None:
        raise TaskError(f"{result.name}: {result.verdict.value}, without a run")
    steps = range(result.run.steps)
    top = _top_scope(result.run)
    top.signals.insert(0, _Signal("stework_fails", [], ["".join(str(int(t == result.fails.time)) for t in steps)]))
    declared: List[_Signal] = []
    lines = [f"$comment {result.name}: {result.verdict.value}, fails: {_shown(result.fails.net)} at {result.fails.time} $end",
             "$comment 1 ns is one time step $end",
             "$timescale 1 ns $end",
             *_declarations("run", top, declared),
             "$enddefinitions $end"]
    for time in steps:
        lines.append(f"#{time}")
        for number, signal in enumerate(declared):
            bits = signal.at(time)
            if time == 0 or bits != signal.at(time - 1):
                lines.append(f"{bits}{_code(number)}" if len(bits) == 1 else f"b{bits} {_code(number)}")
    return "\n".join([*lines, f"#{len(steps)}", ""])


def _paths(path: str, scope: _Scope) -> Iterator[Tuple[str, _Signal]]:
    """Each signal with its whole name, as GTKWave calls it, in the order of the declarations. A name that has a dot, which
    parts scopes, has a backslash before it there."""
    for signal in scope.signals:
        escape = "\\" * ("." in signal.name)
        yield f"{path}.{escape}{signal.name.replace(' [', '[')}", signal
    for inner, instance in scope.instances.items():
        yield from _paths(f"{path}.{inner}", instance)


def gtkw(result: Result, wave: str, nets: Optional[Collection[str]] = None) -> str:
    """What GTKWave is to show of the wave of a failed task, which the file `wave` has: a save file. It shows these nets, vectors
    whole (without `nets` all), and has its marker at the time step in which the task fails. TaskError where there is no run."""
    if result.run is None or result.fails is None:
        raise TaskError(f"{result.name}: {result.verdict.value}, without a run")
    lines = [f'[dumpfile] "{wave}"', "[timestart] 0", f"*0.000000 {result.fails.time}{' -1' * 26}", "@28", "run.stework_fails"]
    for name, signal in _paths("run", _top_scope(result.run)):
        if nets is None or not set(signal.nets).isdisjoint(nets):
            lines += ["@28" if len(signal.rows) == 1 else "@22", name]
    return "\n".join([*lines, ""])
