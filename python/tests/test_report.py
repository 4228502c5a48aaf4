"""Reports: one with all kinds of results, and texts that are none."""
from __future__ import annotations

from typing import Tuple

from stework import Cubes, Place, ReportError, Verdict, read_report, write_report

from .support import Case, EXAMPLES

REPORT = """a: strong failure
  strong: !p & i0 | p & !i1 | ...
  weak: p & i1
  contradictory: !p & !i0
  least: p=0 i1=0 i0=1
  path: 0 12
  fails: d[1] at 1
  run:
    d[0]: 01
    d[1]: 11
    0/x: 10
b: pass
c: contradictory antecedent
  contradictory: 1
d: budget
e: pass
  contradictory: !p | p & i1
f: weak failure
  weak: 1
  least: p=0 i1=0 i0=0
  fails: \u2028\udcff at 9999
g:: strong failure
  strong: 1
  least:
  fails: $a.cc:3:x at 0
  run:
    0/n: 1
    $a.cc:3:x: 1
    0/n: 0
"""

# What is put in the place of what in that report, and the line and the words that are told.
BROKEN: Tuple[Tuple[str, str, int, str], ...] = (
    ("b: pass", "b: passed", 12, "unknown line 'b: passed'"),
    ("b: pass", "b : pass", 12, "unknown line 'b : pass'"),
    ("b: pass", "", 12, "unknown line ''"),
    ("b: pass", "  b: pass", 12, "unknown line '  b: pass'"),
    ("b: pass", "b: pass\r", 12, "unknown line 'b: pass\\r'"),
    ("b: pass", "b: pass\n", 13, "unknown line ''"),
    ("b: pass", "shared nodes: 1\nb: pass", 13, "unknown line 'b: pass'"),
    ("d: budget", "d: budget\n  least: p=0", 15, "a failure is what has `least` and `fails`"),
    ("d: budget", "d: budget\n  contradictory: p", 15, "a list behind budget"),
    ("d: budget", "d: budget\n  weak: p", 15, "a weak list without a failure"),
    ("d: budget", "d: budget\n  path: 1", 15, "a path without a failure"),
    ("b: pass", "b: pass\n  strong: p", 12, "a strong failure is what has a strong list"),
    ("b: pass", "b: pass\n  weak: p", 12, "a weak list without a failure"),
    ("b: pass", "b: pass\n  contradictory: 1", 12, "contradictory is what is so under all assignments"),
    ("b: pass", "b: pass\n  run:\n    a: 1", 12, "a run without a strong failure"),
    ("b: pass", "b: pass\n  fails: a at 1", 12, "a failure is what has `least` and `fails`"),
    ("  contradictory: 1\n", "", 13, "contradictory is what is so under all assignments"),
    ("  contradictory: 1\n", "  contradictory: p\n", 13, "contradictory is what is so under all assignments"),
    ("  contradictory: 1\n", "  contradictory: 1 | ...\n", 13, "contradictory is what is so under all assignments"),
    ("  weak: 1\n", "", 18, "a weak failure without its list"),
    ("  weak: 1\n", "  strong: p\n  weak: 1\n", 18, "a strong failure is what has a strong list"),
    ("  weak: 1\n", "  weak: 1\n  weak: 1\n", 20, "'  weak: 1' where '  least: p=0 i1=0 i0=0' would stand"),
    ("  weak: 1\n", "  weak: 1\n  run:\n", 21, "unknown line '  least: p=0 i1=0 i0=0'"),
    ("  weak: 1\n", "  weak:  1\n", 19, "no cube: ' 1'"),
    ("  weak: 1\n", "  weak: p & 1\n", 19, "no cube: 'p & 1'"),
    ("  weak: 1\n", "  weak: ...\n", 18, "a weak failure without its list"),
    ("  weak: 1\n", "  weak: 1 | 1\n", 18, "cubes that are not in order, or not apart"),
    ("  weak: 1\n", "  weak: p | !p\n", 18, "cubes that are not in order, or not apart"),
    ("  weak: 1\n", "  weak: !p | i1\n", 18, "cubes that are not in order, or not apart"),
    ("  weak: 1\n", "  weak: !p | !p & i1\n", 18, "cubes that are not in order, or not apart"),
    ("  weak: 1\n", "  weak: !p & !p\n", 19, "'  weak: !p & !p' where '  weak: !p' would stand"),
    ("  weak: 1\n", "  weak: i1\n", 18, "a least assignment that is not the least of the list"),
    ("  weak: 1\n", "  weak: !q\n", 18, "a least assignment that is not the least of the list"),
    ("p & i1\n", "p & i1 |\n", 3, "no cube: 'p & i1 |'"),
    ("p & i1\n", "p & i1 | ...x\n", 3, "no cube: '...x'"),
    ("p & i1\n", "p & é\n", 3, "no cube: 'p & é'"),
    ("i0 | p", "i0 |  p", 2, "no cube: ' p & !i1'"),
    (" | ...", "", 0, ""),
    ("p=0 i1=0 i0=1", "p=0 i1=1 i0=1", 1, "a least assignment that is not the least of the list"),
    ("p=0 i1=0 i0=1", "p=0 i1=0", 1, "a least assignment that is not the least of the list"),
    ("p=0 i1=0 i0=1", "p=0 i1=0 i0=1 p=0", 5, "'  least: p=0 i1=0 i0=1 p=0' where '  least: p=0 i1=0 i0=1' would stand"),
    ("p=0 i1=0 i0=1", "p=0 i1=0 i0=2", 5, "unknown line '  least: p=0 i1=0 i0=2'"),
    ("  least: p=0 i1=0 i0=1\n", "", 1, "a failure is what has `least` and `fails`"),
    ("  fails: d[1] at 1\n", "", 1, "a failure is what has `least` and `fails`"),
    ("  fails: d[1] at 1\n", "  fails: d[1] at 1\n  fails: d[1] at 1\n", 8, "unknown line '  fails: d[1] at 1'"),
    ("path: 0 12", "path: 0 012", 6, "'  path: 0 012' where '  path: 0 12' would stand"),
    ("path: 0 12", "path: 0", 1, "a failure that is not at the end of its path"),
    ("path: 0 12", "path: 0 1 2", 1, "a failure that is not at the end of its path"),
    ("path: 0 12", "path:", 6, "unknown line '  path:'"),
    ("d[1] at 1\n", "d[1] at 01\n", 7, "'  fails: d[1] at 01' where '  fails: d[1] at 1' would stand"),
    ("d[1] at 1\n", "d[1] at 2\n", 1, "a failure that is not at the end of its path"),
    ("d[1] at 1\n", "d[2] at 1\n", 1, "a run without the net that fails"),
    ("d[1] at 1\n", "d[1] at 1" + 50 * "0" + "\n", 7, "unknown line '  fails: d[1] at 1" + 50 * "0" + "'"),
    ("d[1]: 11", "d[1]: 111", 1, "a run of nets of unlike lengths, or of none"),
    ("d[1]: 11", "d[1]: 1x", 10, "unknown line '    d[1]: 1x'"),
    (": 01\n    d[1]: 11\n    0/x: 10", ": 011\n    d[1]: 111\n    0/x: 101", 1, "a run of another length than its path"),
    ("$a.cc:3:x at 0", "$a.cc:3:x at 1", 22, "a run that ends before the failure"),
    ("    0/n: 1\n    $a.cc:3:x: 1\n    0/n: 0\n", "", 22, "a run of nets of unlike lengths, or of none"),
    ("    0/n: 0\n", "    0/n: 0\n  path: 0\n", 30, "unknown line '  path: 0'"),
    ("    0/n: 0\n", "    0/n: 0", 29, "the last line does not end"),
    ("a: strong failure", "a: strong failure\na: strong failure", 1, "a strong failure is what has a strong list"),
    ("strong: !p & i0", "Strong: !p & i0", 2, "unknown line '  Strong: !p & i0 | p & !i1 | ...'"),
    ("  weak: p & i1\n  contradictory: !p & !i0\n", "  contradictory: !p & !i0\n  weak: p & i1\n", 3,
     "'  contradictory: !p & !i0' where '  weak: p & i1' would stand"),
)


class Reports(Case):
    def test_one_of_all_kinds(self) -> None:
        for nodes in (None, 0, 12):
            text = REPORT + ("" if nodes is None else f"shared nodes: {nodes}\n")
            results, told = read_report(text)
            self.assertEqual(told, nodes)
            self.assertEqual(write_report(results, nodes), text)
        a, b, c, d, e, f, g = results
        self.assertEqual([r.name for r in results], ["a", "b", "c", "d", "e", "f", "g:"])
        self.assertEqual([r.verdict for r in results], [Verdict.STRONG, Verdict.PASS, Verdict.CONTRADICTORY, Verdict.BUDGET, Verdict.PASS,
                                                        Verdict.WEAK, Verdict.STRONG])
        self.assertEqual(a.strong, Cubes(({"p": 0, "i0": 1}, {"p": 1, "i1": 0}), more=True))
        self.assertEqual((a.weak, a.contradictory), (Cubes(({"p": 1, "i1": 1},)), Cubes(({"p": 0, "i0": 0},))))
        self.assertEqual((a.least, a.path, a.fails), ({"p": 0, "i1": 0, "i0": 1}, (0, 12), Place("d[1]", 1)))
        assert a.run is not None and g.run is not None
        self.assertEqual((a.run["d[1:0]"], a.run["d[0:1]"], a.run["0/x"], a.run.steps), ([2, 3], [1, 3], [1, 0], 2))
        with self.assertRaises(KeyError):
            a.run["d[2:0]"]
        self.assertEqual((b.least, b.path, b.fails, b.run, b.strong), (None, (), None, None, Cubes()))
        self.assertEqual((c.contradictory, e.contradictory), (Cubes(({},)), Cubes(({"p": 0}, {"p": 1, "i1": 1}))))
        self.assertEqual((f.fails, f.weak, g.least), (Place("\u2028\udcff", 9999), Cubes(({},)), {}))
        self.assertEqual(list(g.run.nets.items()), [("0/n", "1"), ("$a.cc:3:x", "1")])

    def test_no_task(self) -> None:
        self.assertEqual(read_report(""), ([], None))

    def test_the_reports_of_the_examples(self) -> None:
        reports = sorted(EXAMPLES.glob("*.report"))
        self.assertGreater(len(reports), 4)
        for path in reports:
            text = path.read_text()
            self.assertEqual(write_report(read_report(text)[0]), text)

    def test_texts_that_are_none(self) -> None:
        for old, new, line, words in BROKEN:
            with self.subTest(f"{old!r} to {new!r}"[:200]):
                self.assertIn(old, REPORT)
                text = REPORT.replace(old, new, 1)
                if not words:
                    read_report(text)
                    continue
                error = self.error(ReportError, lambda: read_report(text))
                self.assertEqual((error.line, error.message), (line, words))
                self.assertEqual(str(error), f"report:{line}: {words}")
