"""Waves, and the command that writes them."""
from __future__ import annotations

import os
import subprocess
import sys
from typing import Dict, List, Tuple

from stework import TaskError, gtkw, read_report, vcd

from .support import Case, TOP

RUN = """g: strong failure
  strong: 1
  least:
  fails: d[1] at 1
  run:
    clk: 000
    d[1]: 011
    d[0]: 010
    d[2]: 100
    h[0]: 111
    h[2]: 010
    s[3]: 110
    w[0]: 001
    w[1]: 100
    w: 010
    0/x: 101
    0/1/m[2][1]: 011
    0/1/m[2][0]: 010
    0/1/a/b: 110
    1x/y: 100
    $a.cc:3$f:x[1]: 010
    $end: 001
    0/x: 111
"""
WAVE = """$comment g: strong failure, fails: d[1] at 1 $end
$comment 1 ns is one time step $end
$timescale 1 ns $end
$scope module run $end
$var wire 1 ! stework_fails $end
$var wire 1 " clk $end
$var wire 3 # d [2:0] $end
$var wire 1 $ h[0] $end
$var wire 1 % h[2] $end
$var wire 1 & s[3] $end
$var wire 1 ' w[0] $end
$var wire 1 ( w[1] $end
$var wire 1 ) w $end
$var wire 1 * 1x/y $end
$var wire 1 + $a.cc_3$f_x[1] $end
$var wire 1 , _end $end
$scope module 0 $end
$var wire 1 - x $end
$scope module 1 $end
$var wire 2 . m[2] [1:0] $end
$var wire 1 / a/b $end
$upscope $end
$upscope $end
$upscope $end
$enddefinitions $end
#0
0!
0"
b100 #
1$
0%
1&
0'
1(
0)
1*
0+
0,
1-
b00 .
1/
#1
1!
b011 #
1%
0(
1)
0*
1+
0-
b11 .
#2
0!
b010 #
0%
0&
1'
0)
0+
1,
1-
b10 .
0/
#3
"""


def values(wave: str) -> Dict[str, str]:
    """The bits by the whole name of each signal, a character for each time step, by a reader of VCD of its own."""
    scopes: List[str] = []
    names: Dict[str, List[str]] = {}
    now: Dict[str, str] = {}
    found: Dict[str, str] = {}
    for line in wave.split("\n"):
        words = line.split(" ")
        if words[0] == "$scope":
            scopes.append(words[2])
        elif words[0] == "$upscope":
            scopes.pop()
        elif words[0] == "$var":
            indices = range(0, 1)
            if len(words) == 7:
                high, low = map(int, words[5][1:-1].split(":"))
                indices = range(high, low - 1, -1)
            path = "/".join([*scopes[1:], words[4]])
            names[words[3]] = [f"{path}[{i}]" for i in indices] if len(words) == 7 else [path]
        elif line.startswith("#"):
            for code, bits in now.items():
                for name, bit in zip(names[code], bits):
                    found[name] = found.get(name, "") + bit
        elif line[:1] in ("0", "1", "b"):
            bits, code = (line[1:].split(" ")) if line[0] == "b" else (line[0], line[1:])
            now[code] = bits
    return found


class Waves(Case):
    def test_a_wave(self) -> None:
        (result,), _ = read_report(RUN)
        self.assertEqual(vcd(result), WAVE)

    def test_it_has_the_values_of_the_run(self) -> None:
        (result,), _ = read_report(RUN)
        assert result.run is not None
        wanted = {name.replace(":", "_").replace("$end", "_end"): bits for name, bits in result.run.nets.items()}
        self.assertEqual(values(vcd(result)), {**wanted, "stework_fails": "010"})

    def test_what_is_shown(self) -> None:
        (result,), _ = read_report(RUN)
        head = f'[dumpfile] "x y.vcd"\n[timestart] 0\n*0.000000 1{" -1" * 26}\n@28\nrun.stework_fails\n'
        bit, wide = "@28\nrun.", "@22\nrun."
        for nets, shown in ((None, f"{bit}clk\n{wide}d[2:0]\n{bit}h[0]\n{bit}h[2]\n{bit}s[3]\n{bit}w[0]\n{bit}w[1]\n{bit}w\n{bit}1x/y\n"
                             f"{bit}\\$a.cc_3$f_x[1]\n{bit}_end\n{bit}0.x\n{wide}0.1.m[2][1:0]\n{bit}0.1.a/b\n"),
                            ({"d[0]", "0/x", "no"}, f"{wide}d[2:0]\n{bit}0.x\n"), (set(), "")):
            self.assertEqual(gtkw(result, "x y.vcd", nets), head + shown)
        (other,), _ = read_report("t: pass\n")
        self.assertEqual(self.error(TaskError, lambda: gtkw(other, "w.vcd")).message, "t: pass, without a run")

    def test_many_signals(self) -> None:
        rows = "".join(f"    n{k}: {k % 2}\n" for k in range(9000))
        (result,), _ = read_report(f"t: strong failure\n  strong: 1\n  least:\n  fails: n7 at 0\n  run:\n{rows}")
        self.assertEqual(values(vcd(result)), {**{f"n{k}": str(k % 2) for k in range(9000)}, "stework_fails": "1"})
        self.assertRegex(vcd(result), r"\A[!-~ \n]+\Z")

    def test_no_run(self) -> None:
        for text, verdict in (("t: pass\n", "pass"), ("t: weak failure\n  weak: 1\n  least:\n  fails: y at 0\n", "weak failure")):
            (result,), _ = read_report(text)
            error = self.error(TaskError, lambda: vcd(result))
            self.assertEqual((error.message, error.origin.file), (f"t: {verdict}, without a run", __file__))
            self.assertIsInstance(error, ValueError)


class Command(Case):
    def run_it(self, *words: str, stdin: bytes = b"") -> Tuple[int, str, str]:
        done = subprocess.run([sys.executable, "-m", "stework", *words], input=stdin, stdout=subprocess.PIPE, stderr=subprocess.PIPE, cwd=self.folder,
                              env={**os.environ, "PYTHONPATH": str(TOP / "python")}, check=False)
        return done.returncode, done.stdout.decode(), done.stderr.decode()

    def test_a_wave_for_each_run(self) -> None:
        other = RUN.replace("g:", "a/\udcff*:", 1)
        text = (RUN + "p: pass\n" + other + other.replace("a/", "a:", 1) + "shared nodes: 3\n").encode("utf-8", "surrogateescape")
        (self.folder / "r").write_bytes(text)
        (self.folder / "out").mkdir()
        names = ["g.vcd", "a___.vcd", "a___-2.vcd"]
        for words, stdin, folder in ((["vcd", "r"], b"", "."), (["vcd", "-", "--out", "out"], text, "out")):
            paths = [os.path.join(folder, name) if folder != "." else name for name in names]
            self.assertEqual(self.run_it(*words, stdin=stdin), (0, "".join(path + "\n" for path in paths), ""))
            results, _ = read_report(text.decode("utf-8", "surrogateescape"))
            for path, result in zip(paths, (results[0], *results[2:])):
                self.assertEqual((self.folder / path).read_bytes(), vcd(result).encode("utf-8", "surrogateescape"))
                self.assertEqual((self.folder / path).with_suffix(".gtkw").read_bytes(),
                                 gtkw(result, os.path.basename(path)).encode("utf-8", "surrogateescape"))
        shown = [name.replace(".vcd", ".gtkw") for name in names]
        self.assertEqual(sorted(path.name for path in self.folder.iterdir()), sorted(["r", "out", *names, *shown]))

    def test_what_is_told_of_wrong_words(self) -> None:
        (self.folder / "r").write_text("t: passed\n")
        (self.folder / "s").write_text(RUN)
        self.assertEqual(self.run_it("vcd", "r"), (2, "", "stework vcd: report:1: unknown line 't: passed'\n"))
        self.assertEqual(self.run_it("vcd", "none"), (2, "", "stework vcd: none: No such file or directory\n"))
        self.assertEqual(self.run_it("vcd", "s", "--out", "none"), (2, "", "stework vcd: none/g.vcd: No such file or directory\n"))
        self.assertEqual(self.run_it()[0], 2)
