"""The program at 4,000 variables and 100,000 times: how deep its recursions go no clause says. The texts are written by hand, since
sums are to be written from the last variable to the first."""
from __future__ import annotations

import subprocess
from typing import Dict, List, Tuple

from .support import Case, program

COUNT = 4000
NAMES = [f"x{n}" for n in range(COUNT)]
NETS: Dict[str, str] = {
    "buffer": ".model m\n.inputs a\n.outputs y\n.names a y\n1 1\n.end\n",
    "inverter": ".model m\n.inputs a\n.outputs y\n.names a y\n0 1\n.end\n",
    "and": ".model m\n.inputs a b\n.outputs y\n.names a b y\n11 1\n.end\n",
    "majority": ".model m\n.inputs a b c\n.outputs y\n.names a b c y\n11- 1\n1-1 1\n-11 1\n.end\n",
}


def joined(sign: str, first: int = 0, each: int = 1) -> str:
    """The variables from one on, every so many, from the last to the first."""
    return sign.join(reversed(NAMES[first::each]))


def assertion(name: str, value: str, to: int = 1, **inputs: str) -> str:
    clauses = "".join(f".ant {net} = {given} from 0 to 1\n" for net, given in inputs.items())
    return f".ste {name}\n{clauses}.con y = {value} from 0 to {to}\n.end\n"


def and_task(name: str) -> str:
    return assertion(name, joined(" & "), a=joined(" & ", 0, 2), b=joined(" & ", 1, 2))


class Wide(Case):
    def checked(self, net: str, tasks: str, *words: str, names: Tuple[str, ...] = tuple(NAMES)) -> "subprocess.CompletedProcess[str]":
        (self.folder / "n.blif").write_text(NETS[net])
        (self.folder / "t.ste").write_text(f".vars {' '.join(names)}\n{tasks}")
        command: List[str] = [program(), "check", "n.blif", "t.ste", *words]
        return subprocess.run(command, cwd=self.folder, stdout=subprocess.PIPE, stderr=subprocess.PIPE, universal_newlines=True)

    def test_an_and_of_all_variables(self) -> None:
        self.assertEqual(self.checked("and", and_task("t")).stdout, "t: pass\n")

    def test_two_of_them_over_one_table(self) -> None:
        done = self.checked("and", and_task("t") + and_task("u"), "--workers", "4")
        self.assertEqual(done.stdout, "t: pass\nu: pass\n")

    def test_an_exclusive_or_against_its_negation(self) -> None:
        value = joined(" ^ ")
        lines = self.checked("buffer", assertion("t", f"!({value})", a=value), "--cubes", "1").stdout.split("\n")
        self.assertEqual(lines[:2], ["t: strong failure", "  strong: 1"])
        self.assertEqual(lines[2], "  least: " + " ".join(f"{name}=0" for name in NAMES))
        self.assertEqual(lines[3:], ["  fails: y at 0", "  run:", "    a: 0", "    y: 0", ""])

    def test_a_gate_of_three_inputs_by_its_table(self) -> None:
        a, b, c = (joined(" & ", first, 3) for first in range(3))
        task = assertion("t", f"({a}) & ({b}) | ({a}) & ({c}) | ({b}) & ({c})", a=a, b=b, c=c)
        self.assertEqual(self.checked("majority", task).stdout, "t: pass\n")

    def test_one_variable_too_many(self) -> None:
        done = self.checked("inverter", assertion("t", "x0", a="x0"), names=(*NAMES, "x"))
        self.assertEqual((done.returncode, done.stdout, done.stderr), (2, "", "stework: t.ste:1: too many\n"))

    def test_the_greatest_time_and_one_more(self) -> None:
        done = self.checked("inverter", assertion("t", "!x0", 100000, a="x0"), "--steps", "8000000")
        self.assertEqual(done.stdout.split("\n")[0], "t: weak failure")
        done = self.checked("inverter", assertion("t", "!x0", 100001, a="x0"))
        self.assertEqual((done.returncode, done.stderr), (2, "stework: t.ste:4: too many\n"))
