"""docs/PYTHON.md: its commands write what stands behind them, its sessions print what they show, and its table of mistakes has the
words that are told.

A command is a line `    $ ..` of an indented block, and what it writes is the lines behind it. `...` stands for any text. Of
commands `cat` and `python3` are tried, and that of pytest where this is installed.
"""
from __future__ import annotations

import doctest
import os
import re
import subprocess
import sys
import unittest
from typing import List, Tuple
from unittest import mock

from stework import TaskError, Tasks, bit, bits

from .support import TOP, program

PAGE = TOP / "docs" / "PYTHON.md"


def commands(text: str) -> List[Tuple[str, str]]:
    """Each command of the page, and what stands behind it in its block."""
    found: List[List[str]] = []
    is_open = False
    for line in text.split("\n"):
        is_open = line.startswith("    $ ") or (is_open and line[:4] in ("    ", ""))
        if line.startswith("    $ "):
            found.append([])
        if is_open:
            found[-1].append(line[4:])
    return [(asked[2:], "\n".join(shown).strip("\n")) for asked, *shown in found]


class Page(unittest.TestCase):
    maxDiff = None

    def setUp(self) -> None:
        here = os.getcwd()
        os.chdir(TOP)
        self.addCleanup(os.chdir, here)

    def same(self, shown: str, written: str) -> None:
        """They are the same, but for what `...` stands for."""
        if not doctest.OutputChecker().check_output(shown + "\n", written, doctest.ELLIPSIS):
            self.assertEqual(shown + "\n", written)

    def test_commands(self) -> None:
        tried: List[str] = []
        environment = {**os.environ, "PYTHONPATH": "python", "STEWORK": program()}
        for asked, shown in commands(PAGE.read_text()):
            words = asked.split(" ")
            if words[0] not in ("cat", "python3"):
                continue
            with self.subTest(asked):
                if "pytest" in words and subprocess.run([sys.executable, "-m", "pytest", "--version"], stderr=subprocess.DEVNULL,
                                                        stdout=subprocess.DEVNULL, check=False).returncode:
                    self.skipTest("pytest is not installed")
                words[0] = sys.executable if words[0] == "python3" else words[0]
                done = subprocess.run(words, stdout=subprocess.PIPE, stderr=subprocess.STDOUT, env=environment, check=False)
                self.same(shown, done.stdout.decode())
                tried.append(asked)
        self.assertGreaterEqual(len(tried), 4)

    def test_sessions(self) -> None:
        test = doctest.DocTestParser().get_doctest(PAGE.read_text(), {}, PAGE.name, str(PAGE), 0)
        self.assertGreater(len(test.examples), 20)
        told: List[str] = []
        with mock.patch.dict(os.environ, {"STEWORK": program()}):
            outcome = doctest.DocTestRunner(verbose=False).run(test, out=told.append)
        self.assertEqual((outcome.failed, "".join(told)), (0, ""))

    def test_the_table_of_mistakes(self) -> None:
        rows = re.findall(r"^\| `((?:t|g|i|bit)[ .\[(].*?)` \| (?:`` (.*) ``|`(.*)`) \|$", PAGE.read_text(), re.MULTILINE)
        self.assertGreater(len(rows), 10)
        for written, *told in rows:
            with self.subTest(written):
                tasks = Tasks("examples/ram16.blif")
                names = {"t": tasks.ste("t"), "g": tasks.gste("g", "start"), "i": bits("i", 4), "p": bit("p"), "bit": bit, "bits": bits}
                with self.assertRaises(TaskError) as raised:
                    eval(written, names)
                    del tasks.tasks["t"]
                    tasks.text()
                self.assertEqual(raised.exception.message, "".join(told).replace("\\|", "|"))
