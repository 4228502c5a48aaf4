"""Names of nets, and those of a netlist."""
from __future__ import annotations

import random
from typing import List, Tuple

from stework import Netlist, TaskError
from stework.netlist import expand

from .support import Case

FIFO = """# .inputs nothing
.model fifo # the top
.inputs rst push \\
 din[1]\tdin[0] # and no more
.outputs q[0] q[1] empty\r
.clock clk
.subckt inner a=rst y=w z=e=f
.names rst push n
11 1
.latch n q[0] re ctl 0
.latch n q[1]
.latch n2 g[0] 2
.latch n g[2] fe NIL
.names one
1
.end
.model inner
.inputs inside
.subckt fifo
.end
"""
SIGNALS = "rst push din[1] din[0] q[0] q[1] empty clk w e=f n ctl n2 g[0] g[2] one"

# Names, and what is told of them behind `no net 'NAME' in FILE`; None where all of them are known.
NAMES: Tuple[Tuple[str, object], ...] = (
    (SIGNALS, None), ("0/inside", None), ("0/anything", None), ("1/y", ": its top model has 1 instances"), ("00/y", ""), ("0/", ""),
    ("din", ": it has din[1:0]"), ("din[2]", ": it has din[1:0]"), ("din[00]", ": it has din[1:0]"), ("dinn[0]", ": it has din[1:0]"),
    ("emty", ": it has empty"), ("g[1]", ": it has g[2], g[0]"), ("zzzzz", ""), ("nothing", ""), ("inside", ""), ("NIL", ""), ("re", ""),
    ("11", ""), ("fifo", ""),
)


class Names(Case):
    def test_vectors_of_names(self) -> None:
        for text, names in (("d[2:0]", "d[2] d[1] d[0]"), ("d[0:2]", "d[0] d[1] d[2]"), ("d[3:3]", "d[3]"), ("m[3][1:0]", "m[3][1] m[3][0]"),
                            ("d", "d"), ("d[1]", "d[1]"), ("d[01:0]", "d[01:0]"), ("d[1:0]x", "d[1:0]x"), ("[1:0]", "[1:0]"), ("0/d[1:0]", "0/d[1] 0/d[0]")):
            self.assertEqual(expand(text), tuple(names.split(" ")))
        self.assertEqual(expand(["a", "d[1:0]", ("b", "c")]), ("a", "d[1]", "d[0]", "b", "c"))

    def test_names_of_a_netlist(self) -> None:
        net = self.netlist(FIFO)
        for text in (FIFO, FIFO.replace("\n", "\r\n")):
            self.netlist(text)
            netlist = Netlist.read(net)
            self.assertEqual(netlist.signals, frozenset(SIGNALS.split(" ")))
            for names, told in NAMES:
                with self.subTest(names):
                    wanted = None if told is None else f"no net {names!r} in {net}{told}"
                    self.assertEqual(netlist.fault(names.split(" ")), wanted)

    def test_any_bytes(self) -> None:
        self.assertEqual(Netlist.read(self.netlist(".model m\n.inputs \udcff\x0b\x85 \u2028 é")).signals, {"\udcff\x0b\x85", "\u2028", "é"})

    def test_a_line_that_is_continued_behind_the_end(self) -> None:
        self.assertEqual(Netlist.read(self.netlist(".model m\n.inputs a \\")).signals, {"a"})
        self.assertEqual(Netlist.read(self.netlist(".model m\n.inputs a\\\n\\\nb \\ \n c\n d")).signals, {"a", "b", "c"})

    def test_no_file(self) -> None:
        self.assertEqual(self.error(TaskError, lambda: Netlist.read(self.folder)).message, f"cannot read {self.folder}: Is a directory")

    def test_random_texts(self) -> None:
        rng = random.Random(1)
        for _ in range(200):
            text, signals, instances = random_netlist(rng)
            netlist = Netlist.read(self.netlist(text))
            self.assertEqual((netlist.signals, netlist.instances), (frozenset(signals), instances), text)


def random_netlist(rng: random.Random) -> Tuple[str, List[str], int]:
    """A netlist with its top model's signals and number of instances, written with blanks, comments and continued lines."""
    def name() -> str:
        return "".join(rng.choice("ab$\\/:.=[]019-") for _ in range(rng.randint(1, 4))) + "z"

    signals: List[str] = []
    lines, instances = [[".model", "top"]], 0
    for _ in range(rng.randint(1, 8)):
        words = [name() for _ in range(rng.randint(1, 4))]
        kind = rng.choice([".inputs", ".outputs", ".clock", ".names", ".latch", ".subckt", ".area"])
        if kind == ".latch":
            words = (words * 2)[:2]
            signals += words
            control = rng.choice([name(), "NIL"])
            tail = rng.choice([[], ["3"], ["re", control], ["fe", control, "0"]])
            signals += [control] if len(tail) > 1 and control != "NIL" else []
            lines.append([kind, *words, *tail])
        elif kind == ".subckt":
            instances += 1
            signals += words
            lines.append([kind, "m", *(f"f{k}={word}" for k, word in enumerate(words))])
        else:
            signals += words if kind != ".area" else []
            lines.append([kind, *words])
    lines += [[".end"], [".model", "other"], [".inputs", "other_z"], [".subckt", "m"]]
    text = ""
    for line in lines:
        for number, word in enumerate(line):
            if number:
                text += rng.choice([" ", " ", "  ", "\t", " \\\n", "\\ \r\n  "])
            text += word
        text += rng.choice(["\n", " \n", "\r\n", " # .inputs c\n", "#\n", "\n# .model x \\\n", "\n\n"])
    return text, signals, instances
