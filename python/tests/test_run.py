"""Running: what a program is handed, and what each of its answers is. Programs that stand in for the real one are enough here."""
from __future__ import annotations

import json
import os
import pickle
import time
from typing import Any, Dict, List, Optional, Tuple
from unittest import mock

from stework import (Fault, Origin, OutOfMemory, Refused, ReportError, Results, SteworkError, TaskError, Tasks, TimedOut, Verdict, bit, bits, check,
                     read_report, unasked)
from stework.run import find_program

from .reader import read
from .support import Case

NET = ".model m\n.inputs a\udcff\n.outputs y\n.end\n"
p = bit("p")

# A program that tells `pass` of each task, and writes down what it was handed.
PASSES = """
import json, os, pathlib
tasks = pathlib.Path(sys.argv[-1]).read_bytes().decode("latin-1")
names = [line.split()[1] for line in tasks.split("\\n") if line.startswith((".ste ", ".gste "))]
seen = {"words": sys.argv[1:], "net": pathlib.Path(sys.argv[-2]).read_bytes().decode("latin-1"), "tasks": tasks, "folder": os.getcwd()}
with open(pathlib.Path(__file__).parent / "seen", "a") as file: file.write(json.dumps(seen) + "\\n")
told(*(name + ": pass" for name in names))
"""

# Statuses, error streams, and what the error is; `p` is the line of Python of the first clause.
STATUSES: Tuple[Tuple[int, str, type, str], ...] = (
    (2, "stework: TASKS:3: unknown node z\n", Refused, "{p}: tasks:3: unknown node z"),
    (2, "stework: TASKS:99: bad line\n", Refused, "tasks:99: bad line"),
    (2, "stework: TASKS:0: bad line\n", Refused, "tasks:0: bad line"),
    (2, "stework: TASKS: too large\n", Refused, "tasks: too large"),
    (2, "stework: NET:3: double model \n", Refused, "{net}:3: double model "),
    (2, "stework: NET: loop at x: y\n", Refused, "{net}: loop at x: y"),
    (2, "stework: too many steps\n", Refused, "too many steps"),
    (2, "usage: stework (check NET TASKS\n", Refused, "usage: stework (check NET TASKS"),
    (2, "", Fault, "status 2: no message"),
    (2, "stework: TASKS:3: bad line", Fault, "status 2: stework: TASKS:3: bad line"),
    (2, "stework: TASKS:3: bad line\nmore\n", Fault, "status 2: stework: TASKS:3: bad line\nmore"),
    (3, "stework: cannot read NET\n", Fault, "status 3: stework: cannot read NET"),
    (3, "stework: TASKS:3: bad line\n", Fault, "status 3: stework: TASKS:3: bad line"),
    (4, "stework: out of memory\n", OutOfMemory, "out of memory"),
    (4, "", OutOfMemory, "out of memory"),
    (4, "stework: TASKS:3: bad line\n", Fault, "status 4: stework: TASKS:3: bad line"),
    (70, "stework: the build failed\n", Fault, "status 70: stework: the build failed"),
    (5, "stework: TASKS:3: bad line\n", Fault, "status 5: stework: TASKS:3: bad line"),
)

# Statuses and outputs that are no report on the tasks `t`, an assertion of two time steps, and `g`, a graph with edges v w, w w.
MISFITS: Tuple[Tuple[int, str, str, int, str], ...] = (
    (1, "t: pass\ng: pass\n", "", 1, "status 1 with these verdicts"),
    (0, "t: pass\ng: budget\n", "", 1, "status 0 with these verdicts"),
    (0, "", "", 1, "a report on [] in place of ['t', 'g']"),
    (0, "t: pass\n", "", 1, "a report on ['t'] in place of ['t', 'g']"),
    (0, "g: pass\nt: pass\n", "", 1, "a report on ['g', 't'] in place of ['t', 'g']"),
    (0, "t: pass\ng: pass\nt: pass\n", "", 1, "a report on ['t', 'g', 't'] in place of ['t', 'g']"),
    (0, "t: pass\nG: pass\n", "", 1, "a report on ['t', 'G'] in place of ['t', 'g']"),
    (0, "t: pass\ng: pass\nshared nodes: 1\n", "", 1, "shared nodes were not asked for"),
    (0, "t: pass\ng: pass\n", "x", 1, "a report, and on the error stream 'x'"),
    (0, "t: pass\ng: pass", "", 2, "the last line does not end"),
    (1, "t: pass\ng: weak failure\n  weak: 1\n  least: p=0 v1=0\n  path: 0\n  fails: y at 0\n", "", 2, "a least assignment of other variables"),
    (1, "t: pass\ng: weak failure\n  weak: 1\n  least: p=0 v0=0 v1=0\n  path: 0\n  fails: y at 0\n", "", 2, "a least assignment of other variables"),
    (1, "t: pass\ng: weak failure\n  weak: !p\n  contradictory: q\n  least: p=0 v1=0 v0=0\n  path: 0\n  fails: y at 0\n", "", 2,
     "a cube of other variables, or in another order"),
    (1, "t: pass\ng: weak failure\n  weak: !v1 & !p\n  least: p=0 v1=0 v0=0\n  path: 0\n  fails: y at 0\n", "", 2,
     "a cube of other variables, or in another order"),
    (1, "t: pass\ng: weak failure\n  weak: 1\n  least: p=0 v1=0 v0=0\n  fails: y at 0\n", "", 2, "no path, in a graph"),
    (1, "t: pass\ng: weak failure\n  weak: 1\n  least: p=0 v1=0 v0=0\n  path: 1\n  fails: y at 0\n", "", 2, "a path that 'g' does not have"),
    (1, "t: pass\ng: weak failure\n  weak: 1\n  least: p=0 v1=0 v0=0\n  path: 0 2\n  fails: y at 1\n", "", 2, "a path that 'g' does not have"),
    (1, "t: pass\ng: weak failure\n  weak: 1\n  least: p=0 v1=0 v0=0\n  path: 0 0\n  fails: y at 1\n", "", 2, "a path that 'g' does not have"),
    (1, "t: weak failure\n  weak: 1\n  least: p=0 v1=0 v0=0\n  path: 0\n  fails: y at 0\ng: pass\n", "", 1, "a path, in an assertion"),
    (1, "t: weak failure\n  weak: 1\n  least: p=0 v1=0 v0=0\n  fails: y at 2\ng: pass\n", "", 1, "a failure at 2, of 2 time steps"),
    (1, "t: strong failure\n  strong: 1\n  least: p=0 v1=0 v0=0\n  fails: y at 0\n  run:\n    y: 0\ng: pass\n", "", 1,
     "a run of 1 time step in place of 2"),
)


class Running(Case):
    def tasks(self, net: Optional[str] = None) -> Tasks:
        tasks = Tasks(net)
        tasks.ste("t").con("y", p, at=range(0, 2), when=bits("v", 2) == 0)
        g = tasks.gste("g", "v")
        g.edge("v", "w").con("y", 1)
        g.edge("w", "w")
        return tasks

    def seen(self) -> List[Dict[str, Any]]:
        """What the stand-in was handed, run by run."""
        return [json.loads(line) for line in (self.folder / "seen").read_text().splitlines()]

    def test_what_the_program_is_handed(self) -> None:
        other = self.folder / "other.blif"
        other.write_text(".model other\n.inputs y\n.end\n")
        net, tasks, stand_in = self.netlist(NET), self.tasks(str(other)), self.stand_in(PASSES)
        tasks.ste("\udcff\u00e9").con("y", 1, at=0)
        for options, words in (({}, ["--workers=4", "--steps=1000000", "--cubes=8"]),
                               ({"workers": 64, "steps": 7, "cubes": 64, "wave": True}, ["--workers=64", "--steps=7", "--cubes=64", "--wave"]),
                               ({"workers": True, "steps": 5_000_000, "cubes": 1}, ["--workers=1", "--steps=5000000", "--cubes=1"])):
            results = check(net, tasks, program=stand_in, **options)  # type: ignore[arg-type]
            self.assertTrue(results.passed)
            seen = self.seen()[-1]
            self.assertEqual(seen["words"], ["check", *words, "--", "NET", "TASKS"])
            self.assertEqual(seen["net"].encode("latin-1"), (self.folder / "n.blif").read_bytes())
            self.assertEqual(seen["tasks"].encode("latin-1"), tasks.text().encode("utf-8", "surrogateescape"))
            self.assertFalse(os.path.exists(seen["folder"]))
        self.assertEqual((list(results), results.missing), (["t", "g", "\udcff\u00e9"], ()))
        self.assertEqual(results.text, "t: pass\ng: pass\n\udcff\u00e9: pass\n")

    def test_more_tasks_than_a_file_takes(self) -> None:
        net, stand_in = self.netlist(NET), self.stand_in(PASSES)
        for count, steps, sizes in ((16, 1_000_000, [16]), (35, 1_000_000, [16, 16, 3]), (3, 16_000_000, [1, 1, 1]), (4, 8_000_000, [2, 2]),
                                    (300, 1, [256, 44]), (3, 5_333_334, [2, 1])):
            (self.folder / "seen").write_text("")
            tasks = Tasks()
            for k in range(count):
                tasks.ste(f"t{k}").con("y", bit(f"p{k}"), at=0)
            results = check(net, tasks, program=stand_in, steps=steps)
            self.assertEqual(list(results), [f"t{k}" for k in range(count)])
            files = [read(seen["tasks"]) for seen in self.seen()]
            self.assertEqual([len(file.tasks) for file in files], sizes)
            self.assertEqual([file.variables for file in files], [[f"p{k}" for k in range(count)]] * len(sizes))
            self.assertLessEqual(max(sizes) * steps, 16_000_000)

    def test_statuses(self) -> None:
        net, tasks = self.netlist(NET), self.tasks()
        place = tasks.tasks["t"].parts()[0].clauses[0].origin
        for status, err, kind, text in STATUSES:
            with self.subTest(err, status=status):
                stand_in = self.stand_in(f"sys.stderr.write({err!r}); sys.exit({status})")
                error = self.error(kind, lambda: check(net, tasks, program=stand_in))
                self.assertEqual(str(error), text.format(p=place, net=net))
                self.assertEqual((list(error.results), error.results.missing, error.results.passed), ([], ("t", "g"), False))
                again = pickle.loads(pickle.dumps(error))
                self.assertEqual((type(again), str(again), again.results.missing), (kind, str(error), ("t", "g")))
        for status, err in ((2, "stework: too many steps\n"), (2, "usage: x\n"), (4, "stework: out of memory\n")):
            stand_in = self.stand_in(f"told('t: pass'); sys.stderr.write({err!r}); sys.exit({status})")
            self.assertEqual(str(self.error(Fault, lambda: check(net, tasks, program=stand_in))), f"status {status}: {err.strip()}")
        stand_in = self.stand_in("import os, signal; os.kill(os.getpid(), signal.SIGKILL)")
        self.assertEqual(str(self.error(Fault, lambda: check(net, tasks, program=stand_in))), "status -9: no message")

    def test_a_refusal_has_its_parts(self) -> None:
        net, tasks = self.netlist(NET), self.tasks()
        stand_in = self.stand_in("sys.stderr.write('stework: TASKS:6: unknown node z\\n'); sys.exit(2)")
        error = self.error(Refused, lambda: check(net, tasks, program=stand_in))
        graph = tasks.tasks["g"].parts()[0]
        self.assertEqual((error.message, error.file, error.line, error.origin), ("unknown node z", "tasks", 6, graph.origin))
        self.assertEqual(tasks.files(9)[0][5].text, ".edge v w")

    def test_answers_that_are_no_report_on_these_tasks(self) -> None:
        net, tasks = self.netlist(NET), self.tasks()
        tasks.order = [p, *reversed(list(bits("v", 2)))]
        for status, out, err, line, words in MISFITS:
            with self.subTest(words, out=out):
                stand_in = self.stand_in(f"sys.stdout.write({out!r}); sys.stderr.write({err!r}); sys.exit({status})")
                error = self.error(ReportError, lambda: check(net, tasks, program=stand_in))
                self.assertEqual((error.message, error.line), (words, line))

    def test_the_first_error_comes_behind_all_files(self) -> None:
        stand_in = self.stand_in(PASSES + """
if "t1" in names: sys.exit(7)
if "t2" in names: sys.stdout = sys.stderr = None; sys.exit(3)
""")
        tasks = Tasks()
        for k in range(4):
            tasks.ste(f"t{k}").con("y", p, at=0)
        error = self.error(Fault, lambda: check(self.netlist(NET), tasks, program=stand_in, steps=16_000_000))
        self.assertEqual(str(error), "status 7: no message")
        self.assertEqual((list(error.results), error.results.missing, len(self.seen())), (["t0", "t3"], ("t1", "t2"), 4))
        self.assertFalse(error.results.passed)

    def test_values_are_put_together(self) -> None:
        tasks = self.tasks()
        tasks.order = [p, *reversed(list(bits("v", 2)))]
        for cube, least, values in (("p", "p=1 v1=0 v0=0", {"p": 1, "v": 0}), ("p & v1", "p=1 v1=1 v0=0", {"p": 1, "v": 2}),
                                    ("p & v0", "p=1 v1=0 v0=1", {"p": 1, "v": 1}), ("!p & v1 & v0", "p=0 v1=1 v0=1", {"p": 0, "v": 3})):
            text = f"t: strong failure\n  strong: {cube}\n  least: {least}\n  fails: y at 1\ng: budget\n"
            results = check(self.netlist(NET), tasks, program=self.stand_in(f"sys.stdout.write({text!r}); sys.exit(1)"))
            self.assertEqual((results.assignment("t"), list(results.assignment("t"))), (values, ["p", "v"]))
            self.assertEqual((results.assignment("g"), results["g"].verdict, results.passed, results.text), ({}, Verdict.BUDGET, False, text))
            self.assertEqual(pickle.loads(pickle.dumps(results)).assignment("t"), values)

    def test_values_are_of_what_the_task_mentions(self) -> None:
        tasks, w = Tasks(order=[bit("unused"), bits("w", 2)]), bits("w", 2)
        tasks.ste("a").con("y", p, at=0, when=w[1])
        tasks.ste("b").ant("x[1:0]", w, at=0).con("y", 1, at=0)
        g = tasks.gste("c", "v")
        g.edge("v", "v").con("y", 1)
        g.edge("v", "v").ant("x", bit("q"))
        tasks.ste("d").con("y", 1, at=0)
        least = "  least: unused=1 w1=1 w0=1 p=1 q=1\n"
        text = "".join(f"{name}: weak failure\n  weak: unused & w1 & w0 & p & q\n{least}{path}  fails: y at 0\n"
                       for name, path in (("a", ""), ("b", ""), ("c", "  path: 0\n"), ("d", "")))
        results = check(self.netlist(NET), tasks, program=self.stand_in(f"sys.stdout.write({text!r}); sys.exit(1)"))
        tasks.tasks["d"].parts()[0].clauses.clear()
        self.assertEqual([results.assignment(name) for name in "abcd"], [{"w": 3, "p": 1}, {"w": 3}, {"q": 1}, {}])
        self.assertEqual(list(results["d"].least or {}), ["unused", "w1", "w0", "p", "q"])
        again = pickle.loads(pickle.dumps(results))
        self.assertEqual((again.assignment("a"), repr(again)), ({"w": 3, "p": 1}, repr(results)))

    def test_time_is_out(self) -> None:
        slow = self.folder / "slow"
        slow.write_text("#!/bin/sh\nsleep 20\nsleep 20\n")
        slow.chmod(0o755)
        started = time.monotonic()
        error = self.error(TimedOut, lambda: check(self.netlist(NET), self.tasks(), program=slow, timeout=0.5))
        self.assertLess(time.monotonic() - started, 10)
        self.assertEqual((str(error), error.results.missing), ("no answer within 0.5 s", ("t", "g")))
        self.assertIsInstance(error, TimeoutError)

    def test_what_is_not_there(self) -> None:
        tasks, net = self.tasks(), self.netlist(NET)
        none = str(self.folder / "none")
        for act, text in ((lambda: check(none, tasks, program=net), f"cannot read {none}: No such file or directory"),
                          (lambda: check(net, tasks, program=none), f"cannot run {none}: No such file or directory"),
                          (lambda: check(net, tasks, program=net), f"cannot run {net}: Permission denied")):
            self.assertEqual(str(self.error(Fault, act)), text)

    def test_which_program(self) -> None:
        on_path = self.folder / "stework"
        on_path.write_text("#!/bin/sh\n")
        on_path.chmod(0o755)
        with mock.patch.dict(os.environ, {"STEWORK": "of/the/variable", "PATH": str(self.folder)}):
            self.assertEqual(find_program(), "of/the/variable")
            del os.environ["STEWORK"]
            with mock.patch("pathlib.Path.is_file", return_value=True):
                self.assertEqual(find_program()[-len("/crates/stework/out/stework"):], "/crates/stework/out/stework")
            with mock.patch("pathlib.Path.is_file", return_value=False):
                self.assertEqual(find_program(), str(on_path))
                on_path.unlink()
                self.assertEqual(str(self.error(Fault, find_program)), "no program: set STEWORK to it, or put `stework` on the path")

    def test_what_is_not_asked(self) -> None:
        tasks = Tasks()
        t = tasks.ste("t").con("y[1:0]", 1, at=0).con("z", p, at=0, when=p)
        stand_in = self.stand_in("""
told("t.0: pass", "t.1: budget", "t.2: contradictory antecedent", "  contradictory: 1")
sys.exit(1)
""")
        found = unasked(self.netlist(NET), tasks, program=stand_in)
        self.assertEqual([(clause.nets, str(clause.values[0]), verdict, clause.origin) for clause, verdict in found],
                         [(("y[1]",), "1", Verdict.PASS, t.clauses[0].origin), (("y[0]",), "0", Verdict.BUDGET, t.clauses[0].origin),
                          (("z",), "!p", Verdict.CONTRADICTORY, t.clauses[1].origin)])
        stand_in = self.stand_in("""
told("t.0: weak failure", "  weak: 1", "  least: p=0", "  fails: y[1] at 0", "t.1: pass")
told("t.2: strong failure", "  strong: p", "  least: p=1", "  fails: z at 0")
sys.exit(1)
""")
        self.assertEqual([clause.nets for clause, _ in unasked(self.netlist(NET), tasks, program=stand_in)], [("y[0]",)])
        self.assertEqual(len(unasked(self.netlist(NET), tasks, program=self.stand_in(PASSES), workers=2)), 3)
        self.assertIn("--workers=2", self.seen()[0]["words"])

    def test_an_origin_is_told_from_the_working_folder_on(self) -> None:
        self.assertEqual(str(Origin(os.path.join(os.getcwd(), "a", "b.py"), 3)), os.path.join("a", "b.py") + ":3")
        self.assertEqual(str(Origin(os.getcwd() + "b.py", 3)), os.getcwd() + "b.py:3")
        self.assertEqual(str(Origin("<stdin>", 3)), "<stdin>:3")

    def test_all_errors_are_of_one_kind(self) -> None:
        for kind in (Fault, OutOfMemory, Refused, ReportError, TaskError, TimedOut):
            self.assertTrue(issubclass(kind, SteworkError))
        self.assertTrue(issubclass(TaskError, ValueError))

    def test_whether_all_passed(self) -> None:
        for text, missing, passed in (("a: pass\nb: pass\n", [], True), ("a: pass\nb: pass\n", ["c"], False), ("a: pass\nb: budget\n", [], False),
                                      ("a: contradictory antecedent\n  contradictory: 1\nb: pass\n", [], False)):
            results = Results({result.name: result for result in read_report(text)[0]}, {}, {}, missing)
            self.assertEqual((results.passed, len(results), results.text), (passed, 2, text))

    def test_shown(self) -> None:
        found = {result.name: result for result in read_report("a: pass\n  contradictory: p\nb: budget\n")[0]}
        self.assertEqual(repr(Results(found, {}, {})), "<a: pass, b: budget>")
        self.assertEqual(str(Results(found, {}, {}, ["c"])), "<a: pass, b: budget, c: not reported>")
        self.assertTrue(Results({"a": found["a"]}, {}, {}).passed)
