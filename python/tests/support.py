"""What several tests need: the program, netlists, and programs that stand in for it."""
from __future__ import annotations

import functools
import os
import pathlib
import random
import re
import stat
import sys
import tempfile
import unittest
from typing import Any, Callable, List

from stework import Fault, SteworkError, Tasks, bits
from stework.run import find_program

TOP = pathlib.Path(__file__).resolve().parents[2]
EXAMPLES = TOP / "examples"


def program() -> str:
    """The program. Where there is none, the test is skipped, unless $STEWORK asks for one."""
    try:
        return os.path.abspath(find_program())
    except Fault as e:
        _say_once(f"{e}; the tests that need it are skipped")
        raise unittest.SkipTest(str(e))


@functools.lru_cache(maxsize=None)
def _say_once(words: str) -> None:
    print(words, file=sys.stderr)


def random_tasks(rng: random.Random, net: str, count: int) -> Tasks:
    """So many assertions and graphs on the nets of this netlist, of which most fail."""
    tasks = Tasks(net)
    assert tasks.netlist is not None
    nets, v = sorted(tasks.netlist.signals), bits("v", 3)
    inputs: List[str] = [word for line in re.findall(r"^\.inputs (.*)", pathlib.Path(net).read_text(), re.MULTILINE) for word in line.split()]
    values = [v[0], ~v[1], v[1] ^ v[2], v == 3, 0, 1]
    for number in range(count):
        if rng.random() < 0.5:
            t = tasks.ste(f"t{number}", reset=rng.random() < 0.5)
            for _ in range(rng.randint(0, 6)):
                t.ant(rng.choice(inputs), rng.choice(values), at=rng.choice([0, 1, range(0, 3)]), when=rng.choice([1, v[0], v != 2]))
            for _ in range(rng.randint(1, 4)):
                t.con(rng.choice(nets), rng.choice(values), at=rng.choice([0, 1, 2, range(1, 3)]), when=rng.choice([1, v[2], v != 5]))
        else:
            g = tasks.gste(f"t{number}", "a", reset=rng.random() < 0.5)
            for tail, head in (("a", "b"), ("b", "b"), ("b", "c"), ("c", "a")):
                edge = g.edge(tail, head)
                for _ in range(rng.randint(0, 3)):
                    edge.ant(rng.choice(inputs), rng.choice(values), when=rng.choice([1, v[0]]))
                edge.con(rng.choice(nets), rng.choice(values), when=rng.choice([1, v[1]]))
    return tasks


TOLD = """
import sys

def told(*lines):
    for line in lines:
        sys.stdout.buffer.write((line + "\\n").encode("latin-1"))
"""


class Case(unittest.TestCase):
    """A test with a folder of its own, `self.folder`."""
    maxDiff = None

    def setUp(self) -> None:
        room = tempfile.TemporaryDirectory(prefix="stework-test-")
        self.addCleanup(room.cleanup)
        self.folder = pathlib.Path(room.name)

    def netlist(self, text: str) -> str:
        """A file with this text."""
        path = self.folder / "n.blif"
        path.write_bytes(text.encode("utf-8", "surrogateescape"))
        return str(path)

    def stand_in(self, body: str) -> str:
        """A program of these lines of Python; `sys` is there, and `told(line, ..)` writes lines to the output, with a byte for
        each character."""
        path = self.folder / "stand_in"
        path.write_text(f"#!{sys.executable} -IS\n{TOLD}\n{body}\n")
        path.chmod(path.stat().st_mode | stat.S_IXUSR)
        return str(path)

    def error(self, kind: type, act: Callable[[], Any]) -> Any:
        """The error of this very kind that the act raises."""
        with self.assertRaises(SteworkError) as raised:
            act()
        self.assertIs(type(raised.exception), kind, str(raised.exception))
        return raised.exception
