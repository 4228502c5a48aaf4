"""Random expressions, tasks and reports, with a fixed seed, against what Python's ints and the tests' own readers say of them."""
from __future__ import annotations

import itertools
import random
import re
from typing import Any, Callable, Dict, List, NamedTuple, Optional, Sequence, Tuple

from stework import (Bool, ReportError, Tasks, Vector, Verdict, all_of, any_of, bit, bits, cat, decode, mux, onehot, read_report, select, write_report)

from .reader import Clause, expression, read
from .support import Case

Env = Dict[str, int]                   # the values of `a` and `b`, of three bits, and of `p`
WIDTHS = {"a": 3, "b": 3, "p": 1}


class Made(NamedTuple):
    """What the package made, and its value by Python's ints."""
    made: Any
    value: Callable[[Env], int]


def environments() -> List[Tuple[Env, Env]]:
    """All values, and the assignments of the variables that they are."""
    found = []
    for values in itertools.product(*(range(1 << width) for width in WIDTHS.values())):
        env = dict(zip(WIDTHS, values))
        under = {f"{name}{k}": value >> k & 1 for name, value in env.items() for k in range(3) if name != "p"}
        found.append((env, {**under, "p": env["p"]}))
    return found


class Maker:
    """Makes expressions at random."""

    def __init__(self, rng: random.Random) -> None:
        self.rng = rng
        self.words = {name: bits(name, WIDTHS[name]) for name in "ab"}

    def constant(self, width: int) -> Made:
        value = self.rng.randrange(1 << width)
        return Made(value, lambda env: value)

    def word(self, width: int, depth: int) -> Made:
        """A vector of this width."""
        if depth == 0 or (width <= 3 and self.rng.random() < 0.2):
            return self.variables(width)
        kind = self.rng.choice(["not", "and", "or", "xor", "add", "mux", "cat", "decode", "select"])
        x, mask = self.word(width, depth - 1), (1 << width) - 1
        y = self.constant(width) if self.rng.random() < 0.2 else self.word(width, depth - 1)
        if self.rng.random() < 0.3 and kind != "not":
            x, y = (y, x) if kind in ("and", "or", "xor", "add", "mux") else (x, y)
        if kind == "not":
            return Made(~x.made, lambda env: mask - x.value(env))
        if kind == "mux":
            c = self.bit(depth - 1)
            return Made(mux(c.made, x.made, y.made), lambda env: x.value(env) if c.value(env) else y.value(env))
        if kind == "cat" and width > 1:
            low = self.rng.randrange(1, width)
            h, l = self.word(width - low, depth - 1), self.word(low, depth - 1)
            return Made(cat(h.made[0] if width - low == 1 else h.made, l.made), lambda env: h.value(env) << low | l.value(env))
        if kind == "decode":
            index = self.word(2, depth - 1)
            return Made(decode(index.made, width), lambda env: (1 << index.value(env)) & mask)
        if kind == "select":
            index, table = self.word(2, depth - 1), [x, y, self.word(width, depth - 1)][:self.rng.randint(1, 3)]
            return Made(select(index.made, [t.made for t in table]), lambda env: ([t.value(env) for t in table] + [0] * 3)[index.value(env)])
        made, value = {
            "and": (lambda: x.made & y.made, lambda env: x.value(env) & y.value(env)),
            "or": (lambda: x.made | y.made, lambda env: x.value(env) | y.value(env)),
            "xor": (lambda: x.made ^ y.made, lambda env: x.value(env) ^ y.value(env)),
        }.get(kind, (lambda: x.made + y.made, lambda env: (x.value(env) + y.value(env)) & mask))
        return Made(made(), value)

    def variables(self, width: int) -> Made:
        """Bits of the variables of a vector, all of it where it is too narrow."""
        name = self.rng.choice("ab")
        if width > 3:
            rest = self.variables(width - 3)
            return Made(cat(self.words[name], rest.made), lambda env: env[name] << (width - 3) | rest.value(env))
        low = self.rng.randint(0, 3 - width)
        return Made(self.words[name][low + width - 1:low], lambda env: env[name] >> low & ((1 << width) - 1))

    def bit(self, depth: int) -> Made:
        """A Bool."""
        if depth == 0:
            return Made(bit("p"), lambda env: env["p"])
        kind = self.rng.choice(["not", "and", "or", "xor", "same", "equal", "unequal", "onehot", "mux", "index", "all", "any"])
        width = self.rng.randint(1, 4)
        if kind in ("equal", "unequal", "onehot", "index"):
            x, k = self.word(width, depth - 1), self.rng.randrange(width)
            y = self.constant(width) if self.rng.random() < 0.4 else self.word(width, depth - 1)
            return {
                "equal": Made(y.made == x.made, lambda env: int(x.value(env) == y.value(env))),
                "unequal": Made(x.made != y.made, lambda env: int(x.value(env) != y.value(env))),
                "onehot": Made(onehot(x.made), lambda env: int(bin(x.value(env)).count("1") == 1)),
                "index": Made(x.made[k], lambda env: x.value(env) >> k & 1),
            }[kind]
        some = [self.bit(depth - 1) for _ in range(3)]
        c, d, e = some
        if self.rng.random() < 0.2:
            d = self.constant(1)
        return {
            "not": lambda: Made(~c.made, lambda env: 1 - c.value(env)),
            "and": lambda: Made(d.made & c.made, lambda env: c.value(env) & d.value(env)),
            "or": lambda: Made(c.made | d.made, lambda env: c.value(env) | d.value(env)),
            "xor": lambda: Made(d.made ^ c.made, lambda env: c.value(env) ^ d.value(env)),
            "same": lambda: Made(c.made == d.made, lambda env: int(c.value(env) == d.value(env))),
            "mux": lambda: Made(mux(c.made, d.made, e.made), lambda env: d.value(env) if c.value(env) else e.value(env)),
            "all": lambda: Made(all_of(t.made for t in some), lambda env: min(t.value(env) for t in some)),
            "any": lambda: Made(any_of(t.made for t in some), lambda env: max(t.value(env) for t in some)),
        }[kind]()


class Expressions(Case):
    def test_their_texts_have_their_values(self) -> None:
        maker, every = Maker(random.Random(2)), environments()
        for _ in range(150):
            for made, value in (maker.bit(3), maker.word(maker.rng.randint(1, 4), 3)):
                expressions = list(made) if isinstance(made, Vector) else [made]
                trees = []
                for e in expressions:
                    tree, nesting = expression(str(e))
                    trees.append(tree)
                    self.assertEqual((e.size, e.nesting), (len(str(e)), nesting))
                for env, under in maker.rng.sample(every, 40):
                    self.assertEqual(sum(tree.value(under) << k for k, tree in enumerate(trees)), value(env), made)
                    self.assertEqual(sum(e.under(under) << k for k, e in enumerate(expressions)), value(env), made)


class Said(NamedTuple):
    """What a call said: a side, the nets from the left, and the value, the guard and the times."""
    side: str
    nets: Sequence[str]
    value: Callable[[Env], int]
    guard: Callable[[Env], int]
    times: Optional[Tuple[int, int]]


class TaskFiles(Case):
    def test_what_is_said_is_what_is_read(self) -> None:
        rng = random.Random(3)
        maker, every = Maker(rng), environments()
        for _ in range(40):
            order = rng.sample([*maker.words.values(), *maker.words["a"], bit("p")], rng.randint(0, 3))
            tasks = Tasks(order=order)
            said = [self.task(tasks, f"t{number}", maker) for number in range(rng.randint(1, 4))]
            file = read(tasks.text())
            self.assertEqual([task.name for task in file.tasks], list(tasks.tasks))
            for task, (start, reset, parts) in zip(file.tasks, said):
                self.assertEqual((task.start, task.reset), (start, reset))
                self.assertEqual([(edge.tail, edge.head) for edge in task.edges], [ends for ends, _ in parts if start])
                clauses = [edge.clauses for edge in task.edges] if start else [task.clauses]
                for read_clauses, (_, calls) in zip(clauses, parts):
                    self.compare(read_clauses, calls, rng.sample(every, 20))
            self.assertEqual(file.variables, self.in_order(order, tasks.text()))

    def task(self, tasks: Tasks, name: str, maker: Maker) -> Any:
        """Adds a task, and gives what was said of it: start, reset, and for each part its ends and its calls."""
        rng, reset = maker.rng, maker.rng.random() < 0.5
        if rng.random() < 0.5:
            task = tasks.ste(name, reset=reset)
            return None, reset, [(None, self.calls(task, maker, is_timed=True))]
        graph, parts, reached = tasks.gste(name, "v0", reset=reset), [], ["v0"]
        for _ in range(rng.randint(1, 4)):
            ends = (rng.choice(reached), f"v{rng.randint(0, 3)}")
            reached.append(ends[1])
            parts.append((ends, self.calls(graph.edge(*ends), maker, is_timed=False)))
        return "v0", reset, parts

    def calls(self, part: Any, maker: Maker, is_timed: bool) -> List[Said]:
        said, rng = [], maker.rng
        for number in range(rng.randint(1, 3)):
            width, side = rng.randint(1, 4), rng.choice(["ant", "con"]) if number else "con"
            low = rng.randint(0, 9)
            nets, names = rng.choice([
                (f"n[{low + width - 1}:{low}]", [f"n[{low + k}]" for k in reversed(range(width))]),
                (f"0/m[2][{low}:{low + width - 1}]", [f"0/m[2][{low + k}]" for k in range(width)]),
                ([f"s{k}" for k in range(width)], [f"s{k}" for k in range(width)]),
                (["x", f"y[{low + width}:{low + 2}]"] if width > 1 else "x", ["x", *(f"y[{low + k}]" for k in range(width, 1, -1))][:width]),
            ])
            value = maker.constant(width) if rng.random() < 0.3 else maker.word(width, 2)
            guard = maker.constant(1) if rng.random() < 0.2 else maker.bit(2)
            options: Dict[str, Any] = {} if rng.random() < 0.3 else {"when": guard.made}
            start, stop = rng.randint(0, 50), rng.randint(51, 100)
            if is_timed:
                options["at"] = rng.choice([start, range(start, stop)])
            times = (start, start + 1 if options["at"] == start else stop) if is_timed else None
            self.assertIs(getattr(part, side)(nets, value.made, **options), part)
            said.append(Said("." + side, names, value.value, guard.value if "when" in options else lambda env: 1, times))
        return said

    def compare(self, clauses: List[Clause], calls: List[Said], some: List[Tuple[Env, Env]]) -> None:
        wanted = [(call.side, net, call.times) for call in calls for net in call.nets]
        self.assertEqual([(clause.side, clause.net, clause.times) for clause in clauses], wanted)
        shifts = [(call, len(call.nets) - 1 - k) for call in calls for k in range(len(call.nets))]
        for clause, (call, shift) in zip(clauses, shifts):
            for env, under in some:
                self.assertEqual((clause.value.value(under), clause.guard.value(under)), (call.value(env) >> shift & 1, call.guard(env)))

    def in_order(self, order: List[Any], text: str) -> List[str]:
        """The variables of that order, of a vector from the high bit down, and then as the text mentions them."""
        names = [str(v) for o in order for v in ([o] if isinstance(o, Bool) else reversed(list(o)))]
        for line in text.split("\n"):
            if line.startswith((".ant ", ".con ")):
                names += re.findall(r"\b(?:[ab][0-9]|p)\b", line.split(" = ", 1)[1])
        return list(dict.fromkeys(names))


NAMES = ["t", "a:b", "t-1", "$x[3]", "\udcff", "0/1/q", "shared", "pass"]

NAME, VARIABLE, DIGITS = r"[^ \n\t\r#]+", "[A-Za-z_][A-Za-z_0-9]*", "(?:0|[1-9][0-9]*)"
CUBE = f"(?:1|!?{VARIABLE}(?: & !?{VARIABLE})*)"
LIST = fr"{CUBE}(?: \| {CUBE})*(?: \| \.\.\.)?\n"
FAILURE = fr"  least:(?: {VARIABLE}=[01])*\n(?:  path:(?: {DIGITS})+\n)?  fails: {NAME} at {DIGITS}\n"
RUN = fr"(?:  run:\n(?:    {NAME}: [01]+\n)+)?"
CONTRADICTORY = f"(?:  contradictory: {LIST})?"
FORMAT = re.compile(
    fr"(?:{NAME}: (?:pass\n{CONTRADICTORY}|contradictory antecedent\n  contradictory: 1\n|budget\n"
    fr"|weak failure\n  weak: {LIST}{CONTRADICTORY}{FAILURE}|strong failure\n  strong: {LIST}(?:  weak: {LIST})?{CONTRADICTORY}{FAILURE}{RUN}))*"
    fr"(?:shared nodes: {DIGITS}\n)?", re.ASCII)


def cubes_of(chosen: Sequence[bool], variables: Sequence[str]) -> List[Tuple[Tuple[str, int], ...]]:
    """The cubes of a set of assignments, given as a bit for each of these, in their order."""
    if not any(chosen) or all(chosen):
        return [()] if any(chosen) else []
    zero, one = chosen[:len(chosen) // 2], chosen[len(chosen) // 2:]
    if zero == one:
        return cubes_of(zero, variables[1:])
    return [((variables[0], bit), *cube) for bit, half in ((0, zero), (1, one)) for cube in cubes_of(half, variables[1:])]


class Reports(Case):
    def report(self, rng: random.Random) -> Tuple[str, List[Dict[str, Any]], Optional[int]]:
        """The text of a report, what it says of each task, and the number of shared nodes."""
        text, said = "", []
        variables = rng.sample(["p", "q1", "q0", "_x", "to_"], rng.randint(0, 4))
        for name in rng.sample(NAMES, rng.randint(1, 4)):
            lines, facts = self.task(rng, name, variables)
            text += "".join(line + "\n" for line in lines)
            said.append(facts)
        nodes = rng.choice([None, 0, rng.randint(1, 16_000_000)])
        return text + (f"shared nodes: {nodes}\n" if nodes is not None else ""), said, nodes

    def task(self, rng: random.Random, name: str, variables: Sequence[str]) -> Tuple[List[str], Dict[str, Any]]:
        every = list(itertools.product((0, 1), repeat=len(variables)))
        kinds = [rng.choice(["none", "strong", "weak", "contradictory"][:rng.randint(1, 4)]) for _ in every]
        if rng.random() < 0.2:
            kinds = [rng.choice(["none", "strong", "weak", "contradictory"])] * len(every)
        verdict = next((v for kind, v in (("strong", Verdict.STRONG), ("weak", Verdict.WEAK)) if kind in kinds),
                       Verdict.CONTRADICTORY if set(kinds) == {"contradictory"} else Verdict.PASS)
        if rng.random() < 0.1:
            return [f"{name}: budget"], {"name": name, "verdict": Verdict.BUDGET}
        lines = [f"{name}: {verdict.value}"]
        facts: Dict[str, Any] = {"name": name, "verdict": verdict}
        most = rng.randint(1, 8)
        for kind in ("strong", "weak", "contradictory"):
            cubes = cubes_of([k == kind for k in kinds], variables)
            if cubes:
                texts = [" & ".join(v if bit else "!" + v for v, bit in cube) or "1" for cube in cubes[:most]]
                lines.append(f"  {kind}: " + " | ".join(texts + ["..."] * (len(cubes) > most)))
            facts[kind] = ([list(cube) for cube in cubes[:most]], len(cubes) > most)
        if verdict in (Verdict.STRONG, Verdict.WEAK):
            least = list(zip(variables, every[kinds.index("strong" if verdict is Verdict.STRONG else "weak")]))
            time, is_graph = rng.randint(0, 3), rng.random() < 0.5
            path = [rng.choice([0, 1, 12, 9_999]) for _ in range(time + 1)] if is_graph else []
            rows = [(net, "".join(rng.choice("01") for _ in range(time + 1 + (0 if is_graph else 2)))) for net in rng.sample(NAMES, rng.randint(1, 4))]
            lines.append("  least:" + "".join(f" {v}={bit}" for v, bit in least))
            lines += ["  path: " + " ".join(map(str, path))] if path else []
            lines.append(f"  fails: {rows[-1][0]} at {time}")
            facts.update(least=least, path=tuple(path), fails=(rows[-1][0], time), rows=None)
            if verdict is Verdict.STRONG and rng.random() < 0.5:
                lines += ["  run:"] + [f"    {net}: {row}" for net, row in rows]
                facts.update(rows=tuple(rows))
        return lines, facts

    def test_what_is_written_is_what_is_read(self) -> None:
        rng = random.Random(4)
        for _ in range(300):
            text, said, nodes = self.report(rng)
            self.assertTrue(FORMAT.fullmatch(text), text)
            results, told = read_report(text)
            self.assertEqual((told, write_report(results, nodes)), (nodes, text))
            for result, facts in zip(results, said):
                for kind in ("strong", "weak", "contradictory"):
                    cubes = result.lists()[kind]
                    self.assertEqual(([list(cube.items()) for cube in cubes.cubes], cubes.more), facts.get(kind, ([], False)))
                self.assertEqual((result.name, result.verdict), (facts["name"], facts["verdict"]))
                self.assertEqual(None if result.least is None else list(result.least.items()), facts.get("least"))
                self.assertEqual((result.path, result.fails), (facts.get("path", ()), facts.get("fails")))
                self.assertEqual(None if result.run is None else result.run.rows, facts.get("rows"))
            self.assertEqual(len(results), len(said))

    def test_broken_ones(self) -> None:
        rng, taken = random.Random(5), 0
        for _ in range(3000):
            text = self.report(rng)[0]
            broken = self.broken(rng, text)
            try:
                results, nodes = read_report(broken)
            except ReportError:
                continue
            taken += broken != text
            self.assertTrue(FORMAT.fullmatch(broken), broken)
            self.assertEqual(write_report(results, nodes), broken)
        self.assertGreater(taken, 100)

    def broken(self, rng: random.Random, text: str) -> str:
        """The text with a line or a character changed, left out, or twice."""
        separator = rng.choice(["\n", ""])
        pieces = text.split("\n") if separator else list(text)
        at = rng.randrange(len(pieces))
        kind = rng.choice(["out", "twice", "swap", "other"])
        if kind == "swap":
            other = rng.randrange(len(pieces))
            pieces[at], pieces[other] = pieces[other], pieces[at]
        else:
            pieces[at:at + 1] = {"out": [], "twice": [pieces[at]] * 2, "other": [rng.choice(list("01 !&|:=pq\t\r#\n.") + pieces)]}[kind]
        return separator.join(pieces)
