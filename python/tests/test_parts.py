"""Checks in parts: how tasks are shared out, that results are put together, what executors do, and parts that lie in a folder."""
from __future__ import annotations

import concurrent.futures
import io
import json
import os
import pickle
import subprocess
import sys
import threading
from pathlib import Path
from typing import Any, Callable, List
from unittest import mock

from stework import Fault, FileChanged, Plan, Progress, Refused, SteworkError, TaskError, Tasks, Verdict, bit, check
from stework.parts import run_part

from .reader import read
from .support import Case, TOP

NET = ".model m\n.inputs a\n.outputs y\n.end\n"

# What the tasks of its file are called.
NAMES = """
import os, pathlib, signal, time
text = pathlib.Path(sys.argv[-1]).read_bytes().decode("latin-1")
names = [line.split()[1] for line in text.split("\\n") if line.startswith(".ste ")]
"""

# A program that passes each task, and is the slower the earlier the task stands.
SLOW_FIRST = NAMES + """
time.sleep(0.05 * (5 - min([5, *(int(name[1:]) for name in names if name[1:].isdigit())])))
told(*(name + ": pass" for name in names))
"""

# The same at once; it refuses t4.
SOME_FAIL = NAMES + """
if "t4" in names: sys.stderr.write("stework: TASKS: too large\\n"); sys.exit(2)
told(*(name + ": pass" for name in names))
"""


class Later(concurrent.futures.Executor):
    """An executor that runs all that it was given when it is told to, the last first, and does something before each."""

    def __init__(self, before: Callable[[], Any] = lambda: None) -> None:
        self.before = before
        self.given: List[Any] = []

        self.timer = threading.Timer(0.05, self.run_all)

    def submit(self, function: Any, *words: Any, **options: Any) -> Any:
        self.given.append((future := concurrent.futures.Future(), function, words))
        if len(self.given) == 1:
            self.timer.start()
        return future

    def shutdown(self, *words: Any, **options: Any) -> None:
        self.timer.join()

    def run_all(self) -> None:
        for future, function, words in reversed(self.given):
            if future.set_running_or_notify_cancel():
                self.before()
                try:
                    future.set_result(function(*words))
                except Exception as e:
                    future.set_exception(e)


class Dying(Later):
    """The same with a worker that dies when it has run so many; with 0 it takes nothing."""

    def __init__(self, lives: int) -> None:
        super().__init__(self.live)
        self.lives = lives

    def live(self) -> None:
        self.lives -= 1

    def submit(self, function: Any, *words: Any, **options: Any) -> Any:
        if not self.lives:
            raise concurrent.futures.BrokenExecutor("a worker has died")
        return super().submit(self.unless_dead, function, *words)

    def unless_dead(self, function: Any, *words: Any) -> Any:
        if self.lives < 0:
            raise concurrent.futures.BrokenExecutor("a worker has died")
        return function(*words)

    def shutdown(self, *words: Any, **options: Any) -> None:
        if self.given:
            super().shutdown()


class Parts(Case):
    def tasks(self, count: int) -> Tasks:
        tasks = Tasks()
        for k in range(count):
            tasks.ste(f"t{k}").con("y", bit(f"p{k}"), at=0)
        return tasks

    def text(self, count: int) -> str:
        return "".join(f"t{k}: pass\n" for k in range(count))

    def test_sizes(self) -> None:
        net, stand_in = self.netlist(NET), self.stand_in(SLOW_FIRST)
        for count, parts, steps, sizes in ((6, 1, 1, [6]), (6, 2, 1, [3, 3]), (7, 2, 1, [4, 3]), (3, 5, 1, [1, 1, 1]), (1, 1, 1, [1]),
                                           (20, 1, 1_000_000, [16, 4]), (20, 3, 1_000_000, [7, 7, 6]), (6, 2, 8_000_000, [2, 2, 2])):
            plan = Plan(net, self.tasks(count), program=stand_in, parts=parts, steps=steps)
            files = [read(part.text) for part in plan.parts]
            self.assertEqual([len(file.tasks) for file in files], sizes)
            self.assertEqual({tuple(file.variables) for file in files}, {tuple(f"p{k}" for k in range(count))})
            self.assertEqual({part.options[1] for part in plan.parts}, {f"--steps={steps}"})
        for parts in 0, -1, 1.5, "2":
            error = self.error(TaskError, lambda: check(net, self.tasks(2), program=stand_in, parts=parts))  # type: ignore[arg-type]
            self.assertEqual(error.message, f"parts={parts!r} is not a number from 1")

    def test_executors(self) -> None:
        net, stand_in = self.netlist(NET), self.stand_in(SLOW_FIRST)
        pools: List[Callable[[], concurrent.futures.Executor]] = [
            lambda: concurrent.futures.ThreadPoolExecutor(3), lambda: concurrent.futures.ProcessPoolExecutor(2), Later]
        for pool in pools:
            with pool() as executor:
                results = check(net, self.tasks(7), program=stand_in, executor=executor, parts=4)
                self.assertEqual((results.text, results.missing, results.passed), (self.text(7), (), True))

    def test_a_relative_path_is_that_of_the_caller(self) -> None:
        self.netlist(NET)
        stand_in, here = self.stand_in(SLOW_FIRST), os.getcwd()
        self.addCleanup(os.chdir, here)
        os.chdir(self.folder)
        with Later(lambda: os.chdir("/")) as executor:
            self.assertTrue(check("n.blif", self.tasks(3), program=os.path.relpath(stand_in), executor=executor, parts=3).passed)

    def test_one_part_fails(self) -> None:
        net, stand_in, shown = self.netlist(NET), self.stand_in(SOME_FAIL), []
        later = Later()
        self.addCleanup(later.shutdown)
        for executor in None, later:
            shown.clear()
            error = self.error(Refused, lambda: check(net, self.tasks(6), program=stand_in, executor=executor, parts=3, progress=shown.append))
            self.assertEqual((str(error), list(error.results), error.results.missing),
                             ("tasks: too large", ["t0", "t1", "t2", "t3"], ("t4", "t5")))
            self.assertEqual([(p.done, p.parts) for p in shown], [(1, 3), (2, 3), (3, 3)])
            self.assertEqual((shown[-1].errors, shown[-1].verdicts[Verdict.PASS], sum(shown[-1].verdicts.values())), (1, 4, 4))

    def test_a_worker_dies(self) -> None:
        net, stand_in = self.netlist(NET), self.stand_in(SOME_FAIL)
        with Dying(2) as executor:
            error = self.error(Fault, lambda: check(net, self.tasks(4), program=stand_in, executor=executor, parts=4))
            self.assertEqual(str(error), "a part was not run: BrokenExecutor: a worker has died")
            self.assertEqual((list(error.results), error.results.missing), (["t2", "t3"], ("t0", "t1")))
            self.assertEqual(type(pickle.loads(pickle.dumps(error))), Fault)
        # and a pool that takes nothing more
        with Dying(0) as executor:
            error = self.error(Fault, lambda: check(net, self.tasks(2), program=stand_in, executor=executor, parts=2))
            self.assertEqual(error.results.missing, ("t0", "t1"))

    def test_a_file_that_changes(self) -> None:
        net, stand_in = self.netlist(NET), self.stand_in(SOME_FAIL)
        for path in net, stand_in:
            before = Path(path).read_bytes()
            with Later(lambda: Path(path).write_bytes(before + b"#\n")) as executor:
                error = self.error(FileChanged, lambda: check(net, self.tasks(3), program=stand_in, executor=executor, parts=3))
            Path(path).write_bytes(before)
            self.assertEqual((error.path, error.results.missing), (path, ("t0", "t1", "t2")))
            self.assertIn("is not the file that was there when the check was asked for", str(error))
            self.assertEqual(str(pickle.loads(pickle.dumps(error))), str(error))
        part = Plan(net, self.tasks(1), program=stand_in).parts[0]
        self.assertEqual(run_part(part).status, 0)
        os.unlink(net)
        self.assertEqual(str(self.error(Fault, lambda: run_part(part))), f"cannot read {net}: No such file or directory")

    def test_what_is_not_begun_is_given_up(self) -> None:
        net, stand_in, executor = self.netlist(NET), self.stand_in(SOME_FAIL), Later()

        def stop(progress: Progress) -> None:
            raise KeyboardInterrupt

        executor.before = lambda: threading.Event().wait(0.2)
        with self.assertRaises(KeyboardInterrupt):
            check(net, self.tasks(4), program=stand_in, executor=executor, parts=4, progress=stop)
        executor.shutdown()
        self.assertTrue(executor.given[0][0].cancelled())

    def test_the_line_on_a_terminal(self) -> None:
        net, stand_in = self.netlist(NET), self.stand_in(SOME_FAIL)
        for is_terminal, parts, lines in ((True, 3, 3), (True, 1, 0), (False, 3, 0)):
            stream = io.StringIO()
            with mock.patch.object(stream, "isatty", return_value=is_terminal, create=True), mock.patch("sys.stderr", stream):
                try:
                    check(net, self.tasks(6), program=stand_in, parts=parts)
                except SteworkError:
                    pass
            self.assertEqual(stream.getvalue().count("\r"), lines)
            if lines:
                first, *_, last = stream.getvalue().split("\r")[1:]
                self.assertRegex(first, r"^stework: 1 of 3 parts, 2 pass, \d s$")
                self.assertRegex(last, r"^stework: 3 of 3 parts, 4 pass, 1 in error, \d s\n$")

    def test_parts_in_a_folder(self) -> None:
        net, stand_in = self.netlist(NET), self.stand_in(SLOW_FIRST)
        tasks, folder = self.tasks(2), self.folder / "deep" / "parts"
        tasks.ste("t\udcff\u00e9").con("y", 1, at=0)
        plan = Plan(net, tasks, program=stand_in, parts=3, timeout=60)
        paths = plan.save(folder)
        self.assertEqual([path.name for path in paths], ["0.part", "1.part", "2.part"])
        env = {**os.environ, "PYTHONPATH": str(TOP / "python")}

        def run_it(*names: Path) -> "subprocess.CompletedProcess[bytes]":
            return subprocess.run([sys.executable, "-m", "stework", "part", *map(str, names)], env=env, stdout=subprocess.PIPE,
                                  stderr=subprocess.PIPE, check=False)

        self.assertEqual(run_it(paths[0], paths[2]).stdout.decode().split(), [str(folder / "0.answer"), str(folder / "2.answer")])
        error = self.error(Fault, lambda: plan.collect(folder))
        self.assertEqual(str(error), f"cannot read {folder / '1.answer'}: No such file or directory")
        self.assertEqual((list(error.results), error.results.missing), (["t0", "t\udcff\u00e9"], ("t1",)))
        run_it(paths[1])
        again = Plan(net, tasks, program=stand_in, parts=3, timeout=60)
        self.assertEqual(again.collect(folder).text, "t0: pass\nt1: pass\nt\udcff\u00e9: pass\n")
        # of other steps, or of another netlist, these are no answers
        for other in (Plan(net, tasks, program=stand_in, parts=3, timeout=60, steps=7), Plan(net, tasks, program=stand_in, parts=2)):
            error = self.error(Fault, lambda: other.collect(folder))
            self.assertEqual(str(error), f"{folder / '0.answer'} is the answer to another part")
        Path(net).write_text(NET + "#\n")
        done = run_it(paths[1])
        self.assertEqual((done.returncode, done.stdout), (2, b""))
        self.assertRegex(done.stderr.decode(), r"^stework part: .*n\.blif on .* is not the file that was there")
        self.assertEqual(sorted(path.name for path in folder.iterdir()),
                         sorted(f"{k}.{kind}" for k in range(3) for kind in ("part", "answer")))
        self.assertEqual(json.loads((folder / "1.answer").read_text())[1:], [0, "t1: pass\n", ""])
        self.assertEqual(run_it(folder / "9.part").stderr.decode(), f"stework part: {folder / '9.part'}: No such file or directory\n")
        for words in "", "{}", "[1]", "[[], 2, 3, 4, 5]", "\u00e9":
            (folder / "9.part").write_text(words)
            self.assertEqual(run_it(folder / "9.part").stderr.decode(), f"stework part: {folder / '9.part'} is no part of a check\n")
            (folder / "0.answer").write_text(words)
            self.assertEqual(str(self.error(Fault, lambda: again.collect(folder))), f"{folder / '0.answer'} is no answer to a part")
