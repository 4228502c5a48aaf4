"""Task files: assertions (`.ste`) and assertion graphs (`.gste`). Begin with `Tasks`.

What is written hangs on no netlist. What the program would refuse by its form, or would pass though it asks nothing, is an error
at the line of Python that wrote it; with a netlist, so is a net that this does not have.
"""
from __future__ import annotations

from dataclasses import replace
from typing import Dict, Iterable, Iterator, List, Optional, Set, Tuple, Union

from .netlist import Netlist, PathLike
from .clauses import Clause, Clauses, Line, Nets, Side, Value, last_word, require_sayable, text_of
from .errors import Origin, TaskError, caller
from .expr import Bit, Bool, Op, Vector, counted, variables
from .limits import MOST_EDGES, MOST_TASKS, MOST_TIME, MOST_VARIABLES, MOST_VERTICES
from .report import Result, Run

Times = Union[int, range]


def _times(at: Times) -> range:
    times = range(at, at + 1) if isinstance(at, int) else at
    if not isinstance(times, range) or times.step != 1 or not 0 <= times.start < times.stop <= MOST_TIME:
        raise TaskError(f"at={at!r}: a time step, or a range of at least one, from 0 to {MOST_TIME}, with step 1")
    return times


def _asking(clauses: Iterable[Clause], clause: Clause, alone: Clause) -> List[Clause]:
    """The antecedents among these clauses, and one consequent in the place of another."""
    return [alone if c is clause else c for c in clauses if c is clause or c.side is Side.ANTECEDENT]


class Assertion(Clauses):
    """A `.ste` task, of as many time steps as its clauses speak of. With `reset` latches begin with their initial bits, else
    with any.

    In `ant` and `con`, `nets` is a name, a vector as `d[7:0]`, or a list of such; `value` has a bit for each net, the most
    significant for the first, and is an expression, a vector or an int; `at` is a time step, counted from 0, or a range of
    them. Both give the assertion back. TaskError where the task file could not say it.
    """

    def __init__(self, name: str, reset: bool, netlist: Optional[Netlist]) -> None:
        super().__init__(netlist)
        self.name, self.reset = last_word("task", name), reset

    def ant(self, nets: Nets, value: Value, at: Times, when: Bit = 1) -> Assertion:
        """Put the value in at these time steps, where `when` is 1."""
        return self._add(Side.ANTECEDENT, nets, value, when, _times(at))

    def con(self, nets: Nets, value: Value, at: Times, when: Bit = 1) -> Assertion:
        """Expect the value at these time steps, where `when` is 1."""
        return self._add(Side.CONSEQUENT, nets, value, when, _times(at))

    @property
    def depth(self) -> int:
        """The number of time steps."""
        return max((c.times.stop for c in self.clauses if c.times), default=0)

    def parts(self) -> List[Clauses]:
        """What has clauses: the assertion itself."""
        return [self]

    def lines(self) -> Iterator[Line]:
        """The lines of the task."""
        yield Line(f".ste {self.name}" + " reset" * self.reset, self.origin)
        yield from self.clause_lines()
        yield Line(".end", self.origin)

    def asking(self, name: str, clause: Clause, alone: Clause) -> Assertion:
        """This assertion under another name, with one consequent alone, in the place of one of its own."""
        other = Assertion(name, self.reset, self.netlist)
        other.clauses = _asking(self.clauses, clause, alone)
        return other

    def misfit(self, result: Result) -> Optional[str]:
        """Why this is no result of this assertion, or None."""
        if result.path:
            return "a path, in an assertion"
        if result.fails is not None and result.fails.time >= self.depth:
            return f"a failure at {result.fails.time}, of {counted(self.depth, 'time step')}"
        if result.run is not None and result.run.steps != self.depth:
            return f"a run of {counted(result.run.steps, 'time step')} in place of {self.depth}"
        return None


def _require_no_time(at: object) -> None:
    if at is not None:
        raise TaskError(f"at={at!r}: in a graph the edge is the step, and a clause has no time")


class Edge(Clauses):
    """A time step of a graph. `ant` and `con` are as those of an assertion, without times, and give the edge back."""

    def __init__(self, tail: str, head: str, netlist: Optional[Netlist]) -> None:
        super().__init__(netlist)
        self.tail, self.head = last_word("vertex", tail), last_word("vertex", head)

    def ant(self, nets: Nets, value: Value, when: Bit = 1, *, at: None = None) -> Edge:
        """Put the value in in this step, where `when` is 1."""
        _require_no_time(at)
        return self._add(Side.ANTECEDENT, nets, value, when, None)

    def con(self, nets: Nets, value: Value, when: Bit = 1, *, at: None = None) -> Edge:
        """Expect the value in this step, where `when` is 1."""
        _require_no_time(at)
        return self._add(Side.CONSEQUENT, nets, value, when, None)


class Graph:
    """A `.gste` task, whose paths begin at the vertex `start`. With `reset` latches begin there with their initial bits, else
    with any. A vertex is a name, and is there as soon as an edge has it."""

    def __init__(self, name: str, start: str, reset: bool, netlist: Optional[Netlist]) -> None:
        self.name, self.start, self.reset = last_word("task", name), last_word("vertex", start), reset
        self.netlist, self.origin = netlist, caller()
        self.edges: List[Edge] = []
        self._vertices = {start}

    def edge(self, tail: str, head: str) -> Edge:
        """A new edge, from `tail` to `head`. Edges are numbered from 0, in the order of the calls."""
        edge = Edge(tail, head, self.netlist)
        vertices = self._vertices | {tail, head}
        if len(self.edges) == MOST_EDGES or len(vertices) > MOST_VERTICES:
            raise TaskError(f"{self.name!r} has more than {MOST_VERTICES} vertices or {MOST_EDGES} edges")
        self.edges.append(edge)
        self._vertices = vertices
        return edge

    def parts(self) -> List[Clauses]:
        """What has clauses: the edges, by number."""
        return list(self.edges)

    def lines(self) -> Iterator[Line]:
        """The lines of the task. TaskError for an edge to which no path leads: it would not be looked at."""
        reached = self._reached()
        for edge in self.edges:
            if edge.tail not in reached:
                raise TaskError(f"no path from {self.start!r} to vertex {edge.tail!r} of {self.name!r}: is it misspelt?",
                                edge.origin)
        yield Line(f".gste {self.name} {self.start}" + " reset" * self.reset, self.origin)
        for edge in self.edges:
            yield Line(f".edge {edge.tail} {edge.head}", edge.origin)
            yield from edge.clause_lines()
        yield Line(".end", self.origin)

    def _reached(self) -> Set[str]:
        """The vertices to which a path leads."""
        heads: Dict[str, List[str]] = {}
        for edge in self.edges:
            heads.setdefault(edge.tail, []).append(edge.head)
        reached, todo = {self.start}, [self.start]
        while todo:
            new = set(heads.get(todo.pop(), ())) - reached
            reached |= new
            todo += new
        return reached

    def asking(self, name: str, clause: Clause, alone: Clause) -> Graph:
        """This graph under another name, with one consequent alone, in the place of one of its own."""
        other = Graph(name, self.start, self.reset, self.netlist)
        for edge in self.edges:
            other.edge(edge.tail, edge.head).clauses = _asking(edge.clauses, clause, alone)
        return other

    def misfit(self, result: Result) -> Optional[str]:
        """Why this is no result of this graph, or None."""
        if result.fails is not None and not result.path:
            return "no path, in a graph"
        at = self.start
        for number in result.path:
            if number >= len(self.edges) or self.edges[number].tail != at:
                return f"a path that {self.name!r} does not have"
            at = self.edges[number].head
        return None


Task = Union[Assertion, Graph]


def clauses_of(task: Task) -> Iterator[Clause]:
    """The clauses of a task, in the order of the text."""
    return (clause for part in task.parts() for clause in part.clauses)


class Tasks:
    """The tasks of a check, in order, over common variables.

    With `net`, a BLIF file, the names of nets are looked up as they are written. `order` has the variables that come first in
    `.vars`, and with it in the decision diagrams; the others follow as the text mentions them. Of a vector the most significant
    bit comes first, so that the least assignment of a failure has the least number.
    """

    def __init__(self, net: Union[Netlist, PathLike, None] = None, order: Iterable[Union[Bool, Vector]] = ()) -> None:
        self.netlist = net if net is None or isinstance(net, Netlist) else Netlist.read(net)
        self.order = [b for o in order for b in (o.bits[::-1] if isinstance(o, Vector) else (o,))]
        for b in self.order:
            if not isinstance(b, Bool) or b.op is not Op.VARIABLE:
                raise TaskError(f"order: {b!r} is no variable")
        self.tasks: Dict[str, Task] = {}
        self.origin = caller()

    def ste(self, name: str, reset: bool = False) -> Assertion:
        """A new assertion."""
        task = Assertion(name, reset, self.netlist)
        self._register(task)
        return task

    def gste(self, name: str, start: str, reset: bool = False) -> Graph:
        """A new graph."""
        task = Graph(name, start, reset, self.netlist)
        self._register(task)
        return task

    def _register(self, task: Task) -> None:
        if task.name in self.tasks:
            raise TaskError(f"two tasks {task.name!r}: the other is at {self.tasks[task.name].origin}")
        self.tasks[task.name] = task

    def variables(self) -> Dict[str, Bool]:
        """The variables by name, in the order of `.vars`. TaskError where two vectors, or a vector and a variable, share a
        name."""
        found: Dict[str, Bool] = {}
        kinds: Dict[str, str] = {}
        seen: Set[int] = set()
        for expression, origin in self._expressions():
            for variable in variables(expression, seen):
                member = variable.member
                other = found.setdefault(variable.name, variable).member
                if other != member:
                    raise TaskError(f"variable {variable.name!r} is {other or 'one by itself'} and "
                                    f"{member or 'one by itself'}", origin)
                name = member.vector if member else variable.name
                kind = f"a vector of {counted(member.width, 'bit')}" if member else "a variable"
                if kinds.setdefault(name, kind) != kind:
                    raise TaskError(f"{name!r} is {kinds[name]} and {kind}", origin)
                if len(found) > MOST_VARIABLES:
                    raise TaskError(f"more than {MOST_VARIABLES} variables", origin)
        return found

    def _expressions(self) -> Iterator[Tuple[Bool, Origin]]:
        """All expressions in the order of the text, each with the line of Python that wrote it."""
        for variable in self.order:
            yield variable, self.origin
        for task in self.tasks.values():
            for clause in clauses_of(task):
                for value in clause.values:
                    yield value, clause.origin
                    yield clause.guard, clause.origin

    def files(self, size: int) -> List[List[Line]]:
        """The lines of task files of `size` tasks each (1 to 256), the last perhaps of fewer. All declare the variables of all
        tasks, so that cubes and least assignments do not hang on how the tasks are parted."""
        if not self.tasks:
            raise TaskError("no task", self.origin)
        if not 1 <= size <= MOST_TASKS:
            raise TaskError(f"{counted(size, 'task')} in a file: from 1 to {MOST_TASKS}")
        names = list(self.variables())
        head = [Line(" ".join([".vars", *names]), self.origin)] if names else []
        tasks = [list(self._lines(task)) for task in self.tasks.values()]
        return [head + [line for lines in tasks[at:at + size] for line in lines] for at in range(0, len(tasks), size)]

    def _lines(self, task: Task) -> Iterator[Line]:
        if not any(clause.side is Side.CONSEQUENT for clause in clauses_of(task)):
            raise TaskError(f"{task.name!r} has no consequent: it would pass whatever the netlist does", task.origin)
        return task.lines()

    def text(self) -> str:
        """The task file with all tasks, of which there are at most 256."""
        return text_of(self.files(len(self.tasks))[0])

    def failing(self, result: Result) -> List[Tuple[Clause, int]]:
        """The consequents that fail at the net and the time that the result names, under its least assignment, each with the
        bit that it expects. None where it names none, or calls the net by another name than the task does (the own name of
        a net inside an instance)."""
        place, least = result.fails, result.least
        if place is None or least is None:
            return []
        found = []
        actual = result.run.nets[place.net][place.time] if result.run else None
        for clause in self.tasks[result.name].parts()[result.path[-1] if result.path else 0].clauses:
            applies = clause.side is Side.CONSEQUENT and (clause.times is None or place.time in clause.times)
            if applies and clause.guard.under(least):
                bits = [value.under(least) for net, value in zip(clause.nets, clause.values) if net == place.net]
                found += [(clause, bit) for bit in bits if str(bit) != actual]
        return found

    def nets_of(self, result: Result) -> Set[str]:
        """The nets that the task of this result names, and the one that fails."""
        named = {net for clause in clauses_of(self.tasks[result.name]) for net in clause.nets}
        return named if result.fails is None else named | {result.fails.net}

    def brief(self, result: Result) -> str:
        """The lines of the report on this result, of its run those nets alone that the task names, and the one that fails."""
        if result.run is None:
            return result.text
        shown = self.nets_of(result)
        return replace(result, run=Run(tuple(row for row in result.run.rows if row[0] in shown))).text

    def negated(self) -> Tuple[Tasks, Dict[str, Clause]]:
        """For each bit of each consequent its task with that bit alone expected, and the wrong way round; and by the name of
        that task the consequent. Where such a task passes the consequent asks nothing, or nothing was checked."""
        other = Tasks(self.netlist, self.variables().values())
        source: Dict[str, Clause] = {}
        for task in self.tasks.values():
            for clause in (c for c in clauses_of(task) if c.side is Side.CONSEQUENT):
                for net, value in zip(clause.nets, clause.values):
                    require_sayable(~value, clause.origin)
                    name = f"{task.name}.{len(source)}"
                    source[name] = replace(clause, nets=(net,), values=(~value,))
                    other._register(task.asking(name, clause, source[name]))
        return other, source
