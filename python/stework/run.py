"""Running the program on tasks. Begin with `check`."""
from __future__ import annotations

import functools
import os
import shutil
import time
from concurrent.futures import Executor, Future, as_completed
from pathlib import Path
from typing import Any, Callable, Counter, Dict, Iterator, List, Optional, Sequence, Tuple, Union

from .clauses import Clause, text_of
from .errors import Fault, SteworkError, TaskError
from .limits import MOST_CUBES, MOST_STEPS, MOST_TASKS, MOST_WORKERS
from .netlist import PathLike
from .parts import Answer, File, Part, bytes_of, hash_of, run_part, save_parts, saved_answer
from .progress import Progress, Watcher, watcher_of_terminal
from .report import Result, Verdict
from .results import Results, read_answer
from .tasks import Tasks, clauses_of

# The results of a part, or its error.
Outcome = Union[List[Result], SteworkError]


def find_program() -> str:
    """The program: $STEWORK, or the one that is built in the repository of this package, or `stework` on the path."""
    built = Path(__file__).resolve().parents[2] / "crates" / "stework" / "out" / "stework"
    found = os.environ.get("STEWORK") or (str(built) if built.is_file() else shutil.which("stework"))
    if not found:
        raise Fault("no program: set STEWORK to it, or put `stework` on the path")
    return found


def _file(path: str, doing: str) -> File:
    """The file as it is now."""
    return File(path, hash_of(bytes_of(path, doing)))


class Plan:
    """A check that is planned, and not run: its `parts`, and how their answers become results. The options and the errors are
    those of `check`; nothing is wrong in any task."""

    def __init__(self, net: PathLike, tasks: Tasks, *, workers: int = 4, steps: int = 1_000_000, cubes: int = 8,
                 wave: bool = False, timeout: Optional[float] = None, program: Optional[PathLike] = None, parts: int = 1) -> None:
        _require_numbers(workers, steps, cubes, parts)
        size = min(MOST_TASKS, MOST_STEPS // steps, -(-len(tasks.tasks) // parts) or 1)
        self._lines = tasks.files(size)
        self._variables = tasks.variables()
        self._tasks = list(tasks.tasks.values())
        self._groups = [self._tasks[at:at + size] for at in range(0, len(self._tasks), size)]
        self._net = os.fspath(net)
        options = (f"--workers={workers:d}", f"--steps={steps:d}", f"--cubes={cubes:d}") + (("--wave",) if wave else ())
        runs = _file(os.path.abspath(program or find_program()), "run")
        # The message has the name as it was given.
        on = File(os.path.abspath(net), hash_of(bytes_of(self._net, "read")))
        self.parts = [Part(runs, on, text_of(lines), options, timeout) for lines in self._lines]

    def outcome(self, number: int, act: Callable[[], Answer]) -> Outcome:
        """The results of the part of this number, whose answer the act gives, or the error of it."""
        try:
            return read_answer(act(), self._groups[number], list(self._variables), self._lines[number], self._net)
        except SteworkError as e:
            return e

    def results(self, outcomes: Sequence[Outcome]) -> Results:
        """The results of all tasks, from those of the parts, in their order; or the first error, with the results of the other
        parts."""
        found = {result.name: result for outcome in outcomes if isinstance(outcome, list) for result in outcome}
        mentions = {task.name: {name for clause in clauses_of(task) for name in clause.mentions} for task in self._tasks}
        names = [task.name for task in self._tasks]
        results = Results(found, self._variables, mentions, [name for name in names if name not in found])
        for outcome in outcomes:
            if isinstance(outcome, SteworkError):
                outcome.results = results
                raise outcome
        return results

    def save(self, folder: PathLike) -> List[Path]:
        """Write each part to a file of this folder, for a batch queue: the files 0.part, 1.part, .. as they are to be given to
        `python3 -m stework part`."""
        return save_parts(self.parts, Path(folder))

    def collect(self, folder: PathLike) -> Results:
        """The results, from the answers that stand beside the parts in this folder. A part without an answer, or whose answer is
        to another part, is a Fault."""
        return self.results([self.outcome(number, functools.partial(saved_answer, part, Path(folder), number))
                             for number, part in enumerate(self.parts)])


def _require_numbers(workers: int, steps: int, cubes: int, parts: int) -> None:
    """TaskError where one of these is out of its range."""
    for name, value, most in (("workers", workers, MOST_WORKERS), ("steps", steps, MOST_STEPS), ("cubes", cubes, MOST_CUBES),
                              ("parts", parts, None)):
        if not isinstance(value, int) or value < 1 or (most is not None and value > most):
            raise TaskError(f"{name}={value!r} is not a number from 1" + f" to {most}" * (most is not None))


def _lost(error: Exception) -> Callable[[], Answer]:
    """The answer of a part that the executor lost, or did not take."""
    def act() -> Answer:
        if isinstance(error, SteworkError):
            raise error
        raise Fault(f"a part was not run: {type(error).__name__}: {error}") from error
    return act


def _given(future: Future[Answer]) -> Callable[[], Answer]:
    """What a future that is done came to."""
    def act() -> Answer:
        try:
            return future.result()
        except Exception as e:          # whatever the executor says of a worker that has died
            return _lost(e)()
    return act


def _answers(parts: Sequence[Part], executor: Optional[Executor]) -> Iterator[Tuple[int, Callable[[], Answer]]]:
    """The number of each part with what gives its answer, as they are done; without an executor, one after another, here."""
    if executor is None:
        yield from ((number, functools.partial(run_part, part)) for number, part in enumerate(parts))
        return
    numbers: Dict[Future[Answer], int] = {}
    try:
        for number, part in enumerate(parts):
            try:
                numbers[executor.submit(run_part, part)] = number
            except Exception as e:      # a pool whose workers have died takes no more
                yield number, _lost(e)
        for future in as_completed(numbers):
            yield numbers[future], _given(future)
    finally:
        for future in numbers:
            future.cancel()


def _outcomes(plan: Plan, executor: Optional[Executor], watcher: Watcher) -> List[Outcome]:
    """The outcome of each part, in their order; the watcher is told of each as it is done."""
    started, errors = time.monotonic(), 0
    verdicts: Counter[Verdict] = Counter()
    outcomes: Dict[int, Outcome] = {}
    for number, act in _answers(plan.parts, executor):
        outcome = outcomes[number] = plan.outcome(number, act)
        if isinstance(outcome, list):
            verdicts.update(result.verdict for result in outcome)
        else:
            errors += 1
        counts = {verdict: verdicts[verdict] for verdict in Verdict}
        watcher(Progress(len(outcomes), len(plan.parts), counts, errors, time.monotonic() - started))
    return [outcomes[number] for number in range(len(plan.parts))]


def check(net: PathLike, tasks: Tasks, *, workers: int = 4, steps: int = 1_000_000, cubes: int = 8, wave: bool = False,
          timeout: Optional[float] = None, program: Optional[PathLike] = None, executor: Optional[Executor] = None,
          parts: int = 1, progress: Optional[Watcher] = None) -> Results:
    """Check every task on the netlist, a BLIF file, and give the results in the order of the tasks.

    `workers` (1 to 64) are threads of a run of the program, and `steps` (1 to 16,000,000) node steps of each task; of a list at
    most `cubes` (1 to 64) are listed; with `wave` runs show all nets, else those that the task names; `timeout` is in seconds,
    for each run of the program, which is `program`, or else by `find_program`.

    The tasks are shared out, in order, to `parts` files of about one size, each checked by a run of its own; as the steps of a
    file are limited, it has at most 16,000,000 / `steps` tasks, and at most 256, so there may be more files. They are run one
    after another, or by `executor`, at once and perhaps on other machines. These have the program and the netlist at the same
    absolute paths, and FileChanged says where they are other files.

    `progress` is called as each part is done. Without it a line on the error stream says how far the check is, where that is a
    terminal and there are several parts.

    TaskError before anything is run; Refused, Fault, FileChanged, OutOfMemory, TimedOut and ReportError when all files were
    run, of the first that has one. Its `results` has what the others reported.
    """
    plan = Plan(net, tasks, workers=workers, steps=steps, cubes=cubes, wave=wave, timeout=timeout, program=program, parts=parts)
    return plan.results(_outcomes(plan, executor, progress or watcher_of_terminal()))


def unasked(net: PathLike, tasks: Tasks, **options: Any) -> List[Tuple[Clause, Verdict]]:
    """The consequents, bit by bit, that are not seen to ask anything: that one alone, and the wrong way round, is no failure.

    With the verdict PASS it holds the wrong way round too, as its guard is never 1, or no run gets there; with CONTRADICTORY
    nothing was checked; with BUDGET it was not decided. Options and errors are those of `check`.
    """
    negated, clauses = tasks.negated()
    asking = (Verdict.STRONG, Verdict.WEAK)
    return [(clauses[name], result.verdict) for name, result in check(net, negated, **options).items()
            if result.verdict not in asking]
