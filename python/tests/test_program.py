"""With the program itself. `support.program` says when these are skipped."""
from __future__ import annotations

import os
import random
import re
import sys
import types
from typing import Any
from unittest import mock

from stework import Netlist, Refused, Tasks, Verdict, bit, bits, check, read_report, unasked

from .support import Case, EXAMPLES, TOP, program, random_tasks

INVERTER = ".model inverter\n.inputs a\n.outputs y\n.names a y\n0 1\n.end\n"
p, q = bit("p"), bit("q")


class Failed(Exception):
    """What `pytest.fail` was told."""


def stand_in_for_pytest() -> types.ModuleType:
    """As much of pytest as the example needs."""
    def fail(told: str, pytrace: bool) -> None:
        raise Failed(told)

    def as_it_is(*words: Any, **options: Any) -> Any:
        return lambda function: function

    module: Any = types.ModuleType("pytest")
    module.fail, module.fixture, module.mark = fail, as_it_is, types.SimpleNamespace(parametrize=as_it_is)
    return module


class Program(Case):
    def setUp(self) -> None:
        super().setUp()
        self.program = program()
        self.addCleanup(os.chdir, os.getcwd())
        os.chdir(TOP)

    def example(self, name: str, **modules: types.ModuleType) -> Any:
        """A file of the examples, as a module."""
        module = types.ModuleType(name)
        path = TOP / "python" / "examples" / f"{name}.py"
        module.__file__ = str(path)
        with mock.patch.dict(sys.modules, modules):
            exec(compile(path.read_text(), str(path), "exec"), module.__dict__)
        return module

    def test_an_inverter(self) -> None:
        net = self.netlist(INVERTER)
        tasks = Tasks(net)
        for k in range(5):
            tasks.ste(f"t{k}").ant("a", p, at=0).con("y", ~p if k != 3 else p, at=0)
        results = check(net, tasks, program=self.program)
        self.assertEqual([r.verdict is Verdict.PASS for r in results.values()], [True, True, True, False, True])
        self.assertEqual((results.passed, results.missing, results.assignment("t3"), results.assignment("t0")), (False, (), {"p": 0}, {}))
        failed = results["t3"]
        assert failed.run is not None
        self.assertEqual((failed.run["y"], tasks.failing(failed)), ([1], [(tasks.tasks["t3"].parts()[0].clauses[1], 0)]))
        for steps in (8_000_000, 16_000_000):
            self.assertEqual(check(net, tasks, program=self.program, steps=steps).text, results.text)

    def test_a_vector_of_variables(self) -> None:
        tasks = Tasks()
        tasks.ste("t").ant("a", bits("v", 3) == 5, at=0).con("y", 1, at=0)
        results = check(self.netlist(INVERTER), tasks, program=self.program)
        self.assertEqual((results.assignment("t"), results["t"].strong.cubes), ({"v": 5}, ({"v2": 1, "v1": 0, "v0": 1},)))

    def test_names_of_any_bytes(self) -> None:
        a, y = "\udcff\u00e9\u2028\\", "$y\x0b:\\z"
        net = self.netlist(f".model m\n.inputs {a} clk\n.outputs {y}\n.names {a} {y}\n0 1\n.end\n")
        tasks = Tasks(net)
        tasks.ste("\x85\udcfe").ant(a, p, at=0).con(y, p, at=0)
        (result,) = check(net, tasks, program=self.program).values()
        assert result.run is not None
        self.assertEqual((result.name, result.fails, list(result.run.nets)), ("\x85\udcfe", (y, 0), [a, y]))
        self.assertEqual([bit for _, bit in tasks.failing(result)], [0])

    def test_a_refusal_has_its_line_of_python(self) -> None:
        tasks = Tasks()
        tasks.ste("t").con("y", 1, at=0).con("zz", 1, at=0)
        error = self.error(Refused, lambda: check(self.netlist(INVERTER), tasks, program=self.program))
        self.assertEqual(str(error), f"{tasks.tasks['t'].parts()[0].clauses[1].origin}: tasks:3: unknown node zz")
        error = self.error(Refused, lambda: check(self.netlist(INVERTER + "x\n"), tasks, program=self.program))
        self.assertEqual(str(error), f"{self.folder / 'n.blif'}:7: bad line")

    def test_what_is_not_asked(self) -> None:
        tasks = Tasks()
        tasks.ste("t").ant("a", p, at=0).con("y", ~p, at=0).con("y", p, at=0, when=p & ~p).con("a", p, at=0, when=p ^ q)
        found = unasked(self.netlist(INVERTER), tasks, program=self.program)
        self.assertEqual([(clause.nets, str(clause.values[0]), verdict) for clause, verdict in found], [(("y",), "!p", Verdict.PASS)])

    def test_the_memory(self) -> None:
        net = str(EXAMPLES / "ram16.blif")
        tasks = self.example("memory").memory(net)
        self.assertEqual(tasks.text().count("\n"), 465)
        self.assertEqual(tasks.text().count(".ant mem[5][7] = u7 when !k3 & k2 & !k1 & k0 from 0 to 1\n"), 3)
        results = check(net, tasks, program=self.program, cubes=64)
        self.assertEqual(repr(results), "<written: pass, kept: pass, disabled: pass, careless: weak failure>")
        careless = results["careless"]
        self.assertEqual((len(careless.weak.cubes), careless.weak.more), (16, False))
        self.assertTrue(all(cube[f"i{k}"] == cube[f"k{k}"] for cube in careless.weak.cubes for k in range(4)))
        self.assertEqual([str(clause.guard) for clause, _ in tasks.failing(careless)], ["1"])
        self.assertEqual((results.assignment("careless"), len(careless.least or {})), ({"i": 0, "k": 0, "u": 0}, 24))
        self.assertEqual(unasked(net, tasks, program=self.program), [])

    def test_an_address_that_differs_is_an_edge_for_each_bit(self) -> None:
        net = str(EXAMPLES / "ram16.blif")
        tasks, k, v = Tasks(net), bits("k", 4), bits("v", 8)
        for name, differing in ("kept", k), ("lost", k[2:0]):
            g = tasks.gste(name, "start")
            g.edge("start", "hold").ant("we", 1).ant("addr[3:0]", k).ant("d[7:0]", v)
            for b, bit_of_k in enumerate(differing):
                g.edge("hold", "hold").ant("we", 1).ant(f"addr[{b}]", ~bit_of_k)
            if name == "lost":
                g.edge("hold", "hold").ant("we", 1)
            g.edge("hold", "hold").ant("we", 0)
            g.edge("hold", "end").ant("addr[3:0]", k).con("q[7:0]", v)
        results = check(net, tasks, program=self.program)
        self.assertEqual([result.verdict for result in results.values()], [Verdict.PASS, Verdict.WEAK])

    def test_a_bug_that_is_weak_is_strong_with_variables(self) -> None:
        good = ".model m\n.inputs enable d z\n.outputs q\n.names enable d q next\n11- 1\n0-1 1\n.latch next q\n.end\n"
        bad = good.replace(".names enable d q next\n11- 1\n0-1 1\n", ".names enable d q z next\n11-- 1\n0-1- 1\n0--1 1\n")
        tasks = Tasks()
        tasks.ste("t").ant("enable", 0, at=0).ant("q", p, at=0).con("q", p, at=1)
        self.assertTrue(check(self.netlist(good), tasks, program=self.program).passed)
        (result,) = check(self.netlist(bad), tasks, program=self.program).values()
        self.assertEqual((result.verdict, result.run), (Verdict.WEAK, None))
        tasks = Tasks()
        tasks.ste("t").ant("enable", 0, at=0).ant("q", p, at=0).con("q", p, at=1).ant("d", bit("d"), at=0).ant("z", bit("z"), at=0)
        self.assertTrue(check(self.netlist(good), tasks, program=self.program).passed)
        (result,) = check(self.netlist(bad), tasks, program=self.program).values()
        assert result.run is not None
        self.assertEqual((result.verdict, result.run["z"][0], result.run["q"]), (Verdict.STRONG, 1, [0, 1]))

    def test_the_queue_in_pytest(self) -> None:
        example = self.example("test_fifo", pytest=stand_in_for_pytest(), fifo=self.example("fifo"))
        results = example.results()
        example.test_task(results, "first_in", self.folder)
        with self.assertRaises(Failed) as failed:
            example.test_task(results, "early", self.folder)
        shown = re.sub(r"^wave: .*", "wave: early.vcd", str(failed.exception), flags=re.MULTILINE)
        page = (TOP / "docs" / "PYTHON.md").read_text()
        lines = re.search(r"^    early: strong failure\n(    .*\n)*?    wave: .*\n", page, re.MULTILINE)
        assert lines is not None
        told = re.sub(r"wave: .*", "wave: early.vcd", re.sub(r"^    ", "", lines[0], flags=re.MULTILINE))
        self.assertEqual(shown + "\n", told)
        for signal in "din [1:0]", "count [2:0]":
            self.assertIn(f" {signal} $end\n", (self.folder / "early.vcd").read_text())

    def test_names_that_the_program_takes(self) -> None:
        rng = random.Random(6)
        for name in ("fifo", "or_of_two"):
            net = str(EXAMPLES / f"{name}.blif")
            netlist = Netlist.read(net)
            words = sorted({*netlist.signals, *re.findall(r"[^ \n=]+", (EXAMPLES / f"{name}.blif").read_text())} - {"\\"})
            chosen = rng.sample([word for word in words if "#" not in word], min(len(words) - 1, 25)) + ["0/a", "0/0/r", "1/0/r", "2/r", "0/x", "0/0/0/a"]
            for word in chosen:
                tasks = Tasks()
                tasks.ste("t").con(word, 1, at=0)
                try:
                    check(net, tasks, program=self.program)
                    self.assertIsNone(netlist.fault([word]))
                except Refused as refused:
                    self.assertEqual(refused.message, f"unknown node {word}")
                    self.assertTrue("/" in word or netlist.fault([word]), word)

    def test_random_tasks(self) -> None:
        rng, failures, runs = random.Random(7), 0, 0
        for name in ["ram", "fifo", "arbiter", "pipeline"] * 5:
            net = str(EXAMPLES / f"{name}.blif")
            tasks = random_tasks(rng, net, 4)
            options: Any = {"program": self.program, "wave": rng.random() < 0.5, "cubes": rng.choice([1, 64])}
            results = check(net, tasks, **options)
            self.assertEqual(read_report(results.text)[0], list(results.values()))
            self.assertEqual("".join(map(tasks.brief, results.values())), check(net, tasks, **{**options, "wave": False}).text)
            self.assertEqual(check(net, tasks, steps=16_000_000, workers=1, **options).text, results.text)
            for result in results.values():
                failing = tasks.failing(result)
                self.assertEqual(bool(failing), result.fails is not None, tasks.text())
                failures += bool(failing)
                runs += result.run is not None
                if result.run is not None and result.fails is not None:
                    self.assertEqual({result.run[result.fails.net][result.fails.time]}, {1 - bit for _, bit in failing})
        self.assertGreater(min(failures, runs), 15)
