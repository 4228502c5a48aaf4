"""Task files: one whole, and what is told of wrong tasks."""
from __future__ import annotations

import pickle
from typing import Any, Callable, Tuple

from stework import Netlist, Side, TaskError, Tasks, bit, bits, cat, check, interleave, read_report

from .reader import read
from .support import Case

p, q = bit("p"), bit("q")
i = bits("i", 2)


def deep(levels: int) -> Any:
    """An expression with so many levels of `!` and brackets."""
    e = (~p if levels % 2 else p) & q
    for _ in range(levels // 2):
        e = ~(e & p) & q
    return e


def two_of_one_name() -> Any:
    return cat(bits("p", 11)[10], bits("p1", 1))


# What is done with a new `Tasks`, and what is told: the name of a file stands for `FILE`.
WRONG: Tuple[Tuple[Callable[[Tasks], Any], str], ...] = (
    (lambda t: t.ste("a b"), "'a b' is no name of a task: no blanks and no #"),
    (lambda t: t.ste("a#"), "'a#' is no name of a task: no blanks and no #"),
    (lambda t: t.ste("a\n"), "'a\\n' is no name of a task: no blanks and no #"),
    (lambda t: t.ste("a\\"), "'a\\\\' is no name of a task: no \\ at its end"),
    (lambda t: t.ste(""), "'' is no name of a task: no blanks and no #"),
    (lambda t: t.ste("\ud800"), "'\\ud800' is no name of a task: it has no bytes"),
    (lambda t: t.ste("\udcc3\udca9"), "'\\udcc3\\udca9' is no name of a task: it has no bytes"),
    (lambda t: t.gste("g", "v\\"), "'v\\\\' is no name of a vertex: no \\ at its end"),
    (lambda t: t.gste("g", "v").edge("v", "w x"), "'w x' is no name of a vertex: no blanks and no #"),
    (lambda t: t.ste("a").con("x y", 1, at=0), "'x y' is no name of a net: no blanks and no #"),
    (lambda t: t.ste("a").con("", 1, at=0), "'' is no name of a net: no blanks and no #"),
    (lambda t: t.ste("a").con(i, "x", at=0), "<2 bits i1, i0> is no name of a net, and no list of names"),
    (lambda t: t.ste("a").con(["x", 1], i, at=0), "1 is no name of a net, and no list of names"),
    (lambda t: t.ste("a").con([], i, at=0), "[] has no net"),
    (lambda t: t.ste("a").con([], cat(), at=0), "[] has no net"),
    (lambda t: t.ste("a").con("d[999999999:0]", 0, at=0), "'d[999999999:0]' is more than the 200000 nets that a netlist may have"),
    (lambda t: t.ste("a").con("x[3:0]", i, at=0), "2 bits where 4 are wanted: <2 bits i1, i0>"),
    (lambda t: t.ste("a").con("x[3:0]", 16, at=0), "16 is no value of 4 bits"),
    (lambda t: t.ste("a").con("x[3:0]", p, at=0), "1 bit where 4 are wanted: <p>"),
    (lambda t: t.ste("a").con("x", [p], at=0), "[<p>] is no value of 1 bit"),
    (lambda t: t.ste("a").con("x", i, at=0), "2 bits where 1 is wanted: <2 bits i1, i0>"),
    (lambda t: t.gste("g", "v").edge("v", "v").ant("x", 1, at=0), "at=0: in a graph the edge is the step, and a clause has no time"),
    (lambda t: t.gste("g", "v").edge("v", "v").con("x", p, when=q, at=range(1, 3)),
     "at=range(1, 3): in a graph the edge is the step, and a clause has no time"),
    (lambda t: t.ste("a").con("x", 1, at=0, when=i), "<2 bits i1, i0> is no bit: compare it, or take one bit of it"),
    (lambda t: t.ste("a").con("x", 1, at=range(2, 2)), "at=range(2, 2): a time step, or a range of at least one, from 0 to 100000, with step 1"),
    (lambda t: t.ste("a").con("x", 1, at=range(0, 4, 2)), "at=range(0, 4, 2): a time step, or a range of at least one, from 0 to 100000, with step 1"),
    (lambda t: t.ste("a").con("x", 1, at=100_000), "at=100000: a time step, or a range of at least one, from 0 to 100000, with step 1"),
    (lambda t: t.ste("a").con("x", 1, at=-1), "at=-1: a time step, or a range of at least one, from 0 to 100000, with step 1"),
    (lambda t: t.ste("a").con("x", 1, at="0"), "at='0': a time step, or a range of at least one, from 0 to 100000, with step 1"),
    (lambda t: t.ste("a").con("x", deep(101), at=0), "<expression of 556 characters> is too deep: 101 levels of ! and brackets, of at most 100"),
    (lambda t: t.ste("a").con("x", 1, at=0, when=deep(102)), "<expression of 566 characters> is too deep: 102 levels of ! and brackets, of at most 100"),
    (lambda t: Tasks(order=[p & q]), "order: <p & q> is no variable"),
    (lambda t: Tasks(order=[1]), "order: 1 is no variable"),
    (lambda t: Tasks("nowhere.blif"), "cannot read nowhere.blif: No such file or directory"),
    (lambda t: t.text(), "no task"),
    (lambda t: ([t.ste(f"t{k}").con("x", 1, at=0) for k in range(257)], t.text()), "257 tasks in a file: from 1 to 256"),
    (lambda t: (t.ste("a").con("x", 1, at=0), t.files(0)), "0 tasks in a file: from 1 to 256"),
    (lambda t: check("n", t), "no task"),
    (lambda t: (t.ste("a").ant("x", 1, at=0), t.text()), "'a' has no consequent: it would pass whatever the netlist does"),
    (lambda t: (t.gste("g", "v").edge("v", "v").ant("x", 1), t.text()), "'g' has no consequent: it would pass whatever the netlist does"),
    (lambda t: (t.gste("g", "v").edge("u", "v").con("x", 1), t.text()), "no path from 'v' to vertex 'u' of 'g': is it misspelt?"),
    (lambda t: (t.ste("a").con("x[1:0]", two_of_one_name(), at=0), t.text()),
     "variable 'p10' is bit 10 of 'p' with 11 bits and bit 0 of 'p1' with 1 bit"),
    (lambda t: (t.ste("a").con("x", bits("p", 2)[0] & bit("p0"), at=0), t.text()),
     "variable 'p0' is bit 0 of 'p' with 2 bits and one by itself"),
    (lambda t: (t.ste("a").con("x", p & bits("p", 2)[0], at=0), t.text()), "'p' is a variable and a vector of 2 bits"),
    (lambda t: (t.ste("a").con("x", bits("v", 3)[0] & bits("v", 2)[1], at=0), t.text()), "'v' is a vector of 3 bits and a vector of 2 bits"),
    (lambda t: (t.ste("a").con("x", (bits("v", 4000) == 0) & p, at=0), t.text()), "more than 4000 variables"),
    (lambda t: (t.ste("a").con("x", 1, at=0), check("n", t, steps=0)), "steps=0 is not a number from 1 to 16000000"),
    (lambda t: (t.ste("a").con("x", 1, at=0), check("n", t, workers=65)), "workers=65 is not a number from 1 to 64"),
    (lambda t: (t.ste("a").con("x", 1, at=0), check("n", t, cubes=65)), "cubes=65 is not a number from 1 to 64"),
    (lambda t: (t.ste("a").con("x", 1, at=0), check("n", t, cubes=8.0)), "cubes=8.0 is not a number from 1 to 64"),
)


class TaskFiles(Case):
    def tasks(self) -> Tasks:
        tasks = Tasks(order=[*interleave(i, bits("k", 2)), bit("unused"), i])
        tasks.ste("one", reset=True).ant("d[1:0]", i, at=0).ant("e[0:1]", 1, at=range(1, 3), when=p).con(["a", "b[3]"], cat(p, q), at=2)
        g = tasks.gste("two", "v")
        g.edge("v", "w").ant("d[0]", 1).con("x", p & q, when=~p)
        g.edge("w", "w").con("y", 1, when=0)
        tasks.ste("three").con("mem[2][1:0]", bits("z", 2), at=99_999)
        tasks.gste("four", "reset", reset=True).edge("reset", "end").con("0/1/x", 0)
        return tasks

    def test_a_file(self) -> None:
        text = self.tasks().text()
        self.assertEqual(text, """.vars i1 k1 i0 k0 unused p q z1 z0
.ste one reset
.ant d[1] = i1 from 0 to 1
.ant d[0] = i0 from 0 to 1
.ant e[0] = 0 when p from 1 to 3
.ant e[1] = 1 when p from 1 to 3
.con a = p from 2 to 3
.con b[3] = q from 2 to 3
.end
.gste two v
.edge v w
.ant d[0] = 1
.con x = p & q when !p
.edge w w
.con y = 1 when 0
.end
.ste three
.con mem[2][1] = z1 from 99999 to 100000
.con mem[2][0] = z0 from 99999 to 100000
.end
.gste four reset reset
.edge reset end
.con 0/1/x = 0
.end
""")
        self.assertEqual([task.name for task in read(text).tasks], ["one", "two", "three", "four"])
        self.assertEqual(self.tasks().text(), text)
        self.assertEqual(pickle.loads(pickle.dumps(self.tasks())).text(), text)

    def test_how_many_time_steps(self) -> None:
        t = Tasks().ste("t")
        self.assertEqual((t.depth, t.con("x", 1, at=1).depth, t.ant("x", 1, at=range(1, 5)).depth, t.con("x", 1, at=0).depth), (0, 2, 5, 5))

    def test_no_variables(self) -> None:
        tasks = Tasks()
        tasks.ste("t").con("x", 1, at=0)
        self.assertEqual(tasks.text(), ".ste t\n.con x = 1 from 0 to 1\n.end\n")

    def test_as_many_variables_as_there_may_be(self) -> None:
        tasks = Tasks()
        tasks.ste("t").con("x", bits("v", 3_999) == 0, at=0, when=p)
        self.assertEqual(len(read(tasks.text()).variables), 4000)

    def test_files_of_some_tasks_each(self) -> None:
        whole = read(self.tasks().text())
        for size in range(1, 6):
            files = [read("".join(line.text + "\n" for line in lines)) for lines in self.tasks().files(size)]
            self.assertEqual([task for file in files for task in file.tasks], whole.tasks)
            self.assertEqual({tuple(file.variables) for file in files}, {tuple(whole.variables)})
            self.assertEqual([len(file.tasks) for file in files], [min(size, 4 - at) for at in range(0, 4, size)])

    def test_each_line_has_its_origin(self) -> None:
        tasks = Tasks()
        first = tasks.origin.line
        tasks.ste("t")
        tasks.tasks["t"].ant("a[1:0]", i, at=0).con(
            "b", p, at=0)
        tasks.gste("g", "v").edge("v", "v") \
            .con("b", 1)
        origins = [(line.text.split(" ")[0], line.origin.line - first) for line in tasks.files(9)[0]]
        kinds = [kind for kind, _ in origins]
        self.assertEqual(kinds, [".vars", ".ste", ".ant", ".ant", ".con", ".end", ".gste", ".edge", ".con", ".end"])
        lines = [line for _, line in origins]
        self.assertEqual(lines[:3] + lines[5:8], [0, 2, 3, 2, 5, 5])
        self.assertIn(lines[4], (3, 4))        # of a call over several lines Python tells one
        self.assertEqual({line.origin.file for line in tasks.files(9)[0]}, {__file__})

    def test_the_deepest(self) -> None:
        tasks = Tasks()
        tasks.ste("t").con("x", deep(100), at=0, when=deep(100))
        read(tasks.text())
        error = self.error(TaskError, tasks.negated)
        self.assertRegex(error.message, "is too deep: 102 levels of ! and brackets, of at most 100$")
        wide = bits("a", 64) + bits("b", 64)
        self.assertEqual(wide[63].nesting, 63)

    def test_graphs_have_limits(self) -> None:
        g = Tasks().gste("g", "v")
        for k in range(999):
            g.edge("v", f"v{k}")
        self.assertEqual(self.error(TaskError, lambda: g.edge("v", "w")).message, "'g' has more than 1000 vertices or 10000 edges")
        g = Tasks().gste("g", "v")
        for _ in range(10_000):
            g.edge("v", "v")
        self.assertEqual(self.error(TaskError, lambda: g.edge("v", "v")).message, "'g' has more than 1000 vertices or 10000 edges")

    def test_a_long_expression_is_refused(self) -> None:
        e = p
        for _ in range(64):
            e = (e & q) | (~e & i[0])
        self.assertRegex(self.error(TaskError, lambda: Tasks().ste("t").con("x", e & q, at=0)).message, "is too (long|deep)")
        wide = p
        for k in range(20):
            wide = (wide & q) ^ (wide & i[k % 2])
        self.assertRegex(self.error(TaskError, lambda: Tasks().ste("t").con("x", wide, at=0)).message,
                         "is too long: more than 1000000; split it over lines with guards$")

    def test_wrong_ones_are_told_where_they_are_written(self) -> None:
        for wrong, text in WRONG:
            with self.subTest(text):
                tasks = Tasks()
                error = self.error(TaskError, lambda: wrong(tasks))
                self.assertEqual(error.message, text)
                self.assertEqual(error.origin.file, __file__)
                self.assertEqual(str(error), f"{error.origin}: {text}")
                again = pickle.loads(pickle.dumps(error))
                self.assertEqual((type(again), str(again), again.origin), (TaskError, str(error), error.origin))

    def test_two_tasks_of_one_name(self) -> None:
        tasks = Tasks()
        tasks.ste("a")
        error = self.error(TaskError, lambda: tasks.gste("a", "v"))
        self.assertEqual(error.message, f"two tasks 'a': the other is at {tasks.tasks['a'].origin}")

    def test_the_failing_consequents(self) -> None:
        tasks = Tasks()
        t = tasks.ste("t").ant("b", 1, at=1).con(["a", "b"], i, at=range(1, 3)).con("b", 1, at=1, when=i == 3).con("b", 0, at=1).con("b", ~i[0], at=2)
        head = "t: strong failure\n  strong: i1 & !i0\n  least: i1=1 i0=0\n"
        for tail, wanted in (("  fails: b at 1\n", [(1, 0), (3, 0)]), ("  fails: b at 1\n  run:\n    b: 010\n", [(1, 0), (3, 0)]),
                             ("  fails: b at 2\n  run:\n    b: 111\n", [(1, 0)]), ("  fails: b at 2\n", [(1, 0), (4, 1)]),
                             ("  fails: a at 2\n", [(1, 1)]), ("  fails: 0/b at 1\n", [])):
            with self.subTest(tail):
                (result,), _ = read_report(head + tail)
                self.assertEqual([(t.clauses.index(clause), bit) for clause, bit in tasks.failing(result)], wanted)
        g = tasks.gste("g", "v")
        g.edge("v", "w").con("b", 1)
        clauses = g.edge("w", "w").con("b", i[0] ^ 1).con("b", 1, when=i[1]).clauses
        (result,), _ = read_report("g: weak failure\n  weak: 1\n  least: i1=0 i0=0\n  path: 0 1\n  fails: b at 1\n")
        self.assertEqual(tasks.failing(result), [(clauses[0], 1)])
        (result,), _ = read_report("t: pass\n")
        self.assertEqual(tasks.failing(result), [])

    def test_in_brief(self) -> None:
        tasks = Tasks()
        tasks.ste("t").ant("d[1:0]", 0, at=0).con("b", 1, at=0).con("0/x", 1, at=1)
        tasks.gste("g", "v").edge("v", "v").con("b", 1)
        head = "t: strong failure\n  strong: 1\n  least:\n  fails: 0/y at 1\n  run:\n"
        (result,), _ = read_report(head + "    d[1]: 01\n    d[2]: 01\n    c: 01\n    b: 11\n    0/y: 00\n    0/z: 00\n")
        self.assertEqual(tasks.brief(result), head + "    d[1]: 01\n    b: 11\n    0/y: 00\n")
        for text in "t: pass\n", "g: weak failure\n  weak: 1\n  least:\n  path: 0\n  fails: b at 0\n":
            (result,), _ = read_report(text)
            self.assertEqual(tasks.brief(result), text)

    def test_each_consequent_alone_and_negated(self) -> None:
        other, source = self.tasks().negated()
        self.assertEqual(list(source), ["one.0", "one.1", "two.2", "two.3", "three.4", "three.5", "four.6"])
        file = read(other.text())
        self.assertEqual([task.name for task in file.tasks], list(source))
        self.assertEqual(file.variables, read(self.tasks().text()).variables)
        for old, new in zip(("one", "one", "two", "two", "three", "three", "four"), file.tasks):
            before = next(task for task in read(self.tasks().text()).tasks if task.name == old)
            self.assertEqual((new.start, new.reset), (before.start, before.reset))
            self.assertEqual([c for c in new.clauses if c.side == ".ant"], [c for c in before.clauses if c.side == ".ant"])
            self.assertEqual([(e.tail, e.head) for e in new.edges], [(e.tail, e.head) for e in before.edges])
            self.assertEqual(sum(c.side == ".con" for c in new.clauses + [c for e in new.edges for c in e.clauses]), 1)
        self.assertIn(".con b[3] = !q from 2 to 3\n", other.text())
        self.assertIn(".con x = !(p & q) when !p\n", other.text())
        self.assertIn(".con 0/1/x = 1\n", other.text())
        self.assertEqual((source["one.1"].side, source["one.1"].nets), (Side.CONSEQUENT, ("b[3]",)))

    def test_a_netlist_is_looked_at_as_names_are_written(self) -> None:
        net = self.netlist(".model m\n.inputs a[0] a[1]\n.outputs y\n.end\n")
        tasks = Tasks(Netlist.read(net))
        tasks.ste("t").ant("a[1:0]", 0, at=0).con("y", 1, at=0)
        error = self.error(TaskError, lambda: Tasks(net).gste("g", "v").edge("v", "v").con("a[2:0]", 0))
        self.assertEqual((error.message, error.origin.file), (f"no net 'a[2]' in {net}: it has a[1:0]", __file__))
