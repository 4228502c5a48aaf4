"""Netlists out of Verilog. The tests that need Yosys are skipped where it is not installed."""
from __future__ import annotations

import os
import shutil
import stat
import sys
import unittest
import warnings
from typing import List

from stework import Fault, TaskError, TimedOut, YosysError, YosysWarning, blif

from .support import EXAMPLES, Case

GATE = "module m(input a, output y);\n  assign y = ~a;\nendmodule\n"
TRISTATE = "module m(input a, input e, output y);\n  assign y = e ? a : 1'bz;\nendmodule\n"


class Netlists(Case):
    def source(self, text: str, name: str = "m.v") -> str:
        path = self.folder / name
        path.write_text(text)
        return str(path)

    def left(self) -> List[str]:
        """What lies in the folder."""
        return sorted(path.name for path in self.folder.iterdir())

    def yosys(self, body: str) -> str:
        """A stand-in for Yosys."""
        path = self.folder / "yosys"
        path.write_text(f"#!{sys.executable} -IS\nimport sys\n{body}\n")
        path.chmod(path.stat().st_mode | stat.S_IXUSR)
        return str(path)

    @unittest.skipUnless(shutil.which("yosys"), "yosys is not installed")
    def test_the_queue(self) -> None:
        out = self.folder / "fifo.blif"
        netlist = blif(EXAMPLES / "fifo.v", "fifo", out)
        known = (EXAMPLES / "fifo.blif").read_text()
        if known.split("\n", 1)[0] == out.read_text().split("\n", 1)[0]:
            self.assertEqual(out.read_text(), known)
        self.assertEqual((netlist.path, netlist.fault(["din[1]", "full", "count[2]"])), (str(out), None))
        self.assertEqual(self.left(), ["fifo.blif"])

    @unittest.skipUnless(shutil.which("yosys"), "yosys is not installed")
    def test_several_files_with_odd_names(self) -> None:
        top = self.source("module top(input a, output y);\n  m inner(.a(a), .y(y));\nendmodule\n", "a b;c.v")
        inner = self.source(GATE.replace("input a", "input logic a"), "m.sv")
        out = self.folder / "o p.blif"
        self.assertLessEqual({"a", "y", "inner.a"}, blif([top, inner], "top", out).signals)
        self.assertIn("a", blif([inner], "m", str(out)).signals)
        with self.assertRaises(YosysError):
            blif([self.source(GATE.replace("input a", "input logic [0:0] a[1]"), "n.v")], "m", out)

    @unittest.skipUnless(shutil.which("yosys"), "yosys is not installed")
    def test_clocks(self) -> None:
        edges = "module m(input c, input d, output reg p, output reg n);\n" \
                "  always @(posedge c) p <= d;\n  always @(negedge c) n <= d;\nendmodule\n"
        out = self.folder / "m.blif"
        for several_clocks, kinds in ((False, {"re", "fe"}), (True, set())):
            blif(self.source(edges), "m", out, several_clocks=several_clocks)
            latches = [line.split() for line in out.read_text().split("\n") if line.startswith(".latch")]
            self.assertEqual((several_clocks, {words[3] for words in latches} & {"re", "fe"}), (len(latches) > 2, kinds))

    @unittest.skipUnless(shutil.which("yosys"), "yosys is not installed")
    def test_what_yosys_says(self) -> None:
        out = self.folder / "m.blif"
        out.write_text("before")
        self.assertEqual(str(self.error(YosysError, lambda: blif(self.source(GATE), "nix", out))), "ERROR: Module `nix' not found!")
        bad = self.source(GATE.replace("~a", "~"), "bad.v")
        self.assertRegex(str(self.error(YosysError, lambda: blif(bad, "m", out))), rf"^{bad}:2: ERROR: syntax error")
        self.assertRegex(str(self.error(YosysError, lambda: blif("none.v", "m", out))), "^ERROR: Can't open input file `none.v'")
        self.assertEqual((out.read_text(), self.left()), ("before", ["bad.v", "m.blif", "m.v"]))
        with self.assertWarns(YosysWarning) as told:
            blif(self.source(TRISTATE), "m", out)
        self.assertRegex(str(told.warning), "^Warning: Yosys has only limited support for tri-state logic")
        self.assertEqual(os.path.basename(told.filename), "test_yosys.py")

    def test_what_it_is_handed(self) -> None:
        yosys = self.yosys("print(*sys.argv[1:], sep='\\n', file=open(sys.argv[0] + '.seen', 'w'))\n"
                           "open(sys.argv[3].split('\"')[-2], 'w').write('.model m\\n.inputs a\\n')")
        with warnings.catch_warnings():
            warnings.simplefilter("error")
            blif(["a.v", "b.sv"], "m", self.folder / "m.blif", yosys=yosys)
        words, said = (self.folder / "yosys.seen").read_text().rstrip("\n").rsplit("\n", 1)
        self.assertEqual(words, "-q\n-p")
        self.assertRegex(said, r'^read_verilog "a\.v"; read_verilog -sv "b\.sv"; hierarchy -top m; synth -flatten -noabc -nofsm; async2sync; '
                         r'dfflegalize -cell \$_DFF_P_ 01; simplemap; opt_expr; opt_merge; opt_clean; abc -g AND,OR,XOR; opt_clean; write_blif "')

    def test_what_is_wrong(self) -> None:
        out = self.folder / "m.blif"
        for act, kind, text in (
                (lambda: blif("m.v", "m", out, yosys="/none/yosys"), Fault, "cannot run /none/yosys: No such file or directory"),
                (lambda: blif("m.v", "m", self.folder / "none" / "m.blif"), Fault, f"cannot write {self.folder}/none/m.blif: No such file or directory"),
                (lambda: blif("m.v", "m", out, yosys=self.yosys("")), Fault, f"cannot write {out}: No such file or directory"),
                (lambda: blif("m.v", "m", out, yosys=self.yosys("sys.exit(3)")), YosysError, "status 3"),
                (lambda: blif("m.v", "m", out, yosys=self.yosys("import time; time.sleep(30)"), timeout=0.3), TimedOut, "no netlist within 0.3 s")):
            self.assertEqual(str(self.error(kind, act)), text)
        for source, top in (('a"b.v', "m"), ("m.v", "m; exec"), ("m.v", ""), ("m\n.v", "m")):
            self.error(TaskError, lambda: blif(source, top, out))
        self.assertFalse(out.exists())
