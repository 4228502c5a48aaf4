"""Expressions and vectors: their texts, their values, and what is told of wrong ones."""
from __future__ import annotations

import itertools
from typing import Any, Callable, Dict, Tuple

from stework import (ONE, ZERO, Bool, TaskError, Vector, all_of, any_of, bit, bits, cat, decode, interleave, mux, onehot, select)

from .reader import expression
from .support import Case

p, q, r = bit("p"), bit("q"), bit("r")
i = bits("i", 2)

TEXTS: Tuple[Tuple[Bool, str], ...] = (
    (p & q | r, "p & q | r"), (p & (q | r), "p & (q | r)"), (~(p & q), "!(p & q)"), (~~p, "p"), (p & (q & r), "p & q & r"),
    (p == q, "!(p ^ q)"), (p != q, "p ^ q"), (p == 1, "p"), (p == 0, "!p"), (p != 1, "!p"), (0 == p, "!p"),
    (p & 0, "0"), (p & 1, "p"), (p | 0, "p"), (p | 1, "1"), (p ^ 0, "p"), (p ^ 1, "!p"), (p ^ q ^ 1, "!(p ^ q)"),
    (True & p, "p"), (1 | p, "1"), (1 ^ p, "!p"), (~ZERO, "1"), (~ONE, "0"), (ZERO ^ ZERO, "0"), (ONE ^ 1, "0"), (ONE & ONE, "1"),
    (p | ~(q ^ r), "p | !(q ^ r)"), (p ^ q & r, "p ^ q & r"), ((p ^ q) & r, "(p ^ q) & r"), ((p | q) ^ r, "(p | q) ^ r"),
    (~p & ~q, "!p & !q"), (all_of([]), "1"), (any_of([]), "0"), (all_of([p, 1, q & r]), "p & q & r"), (any_of([p, 0, q | r]), "p | q | r"),
    (i == 2, "i1 & !i0"), (2 == i, "i1 & !i0"), (i != 1, "i1 | !i0"), (i == 3, "i1 & i0"),
    (mux(p, q, r), "p & q | !p & r"), (mux(p, 1, 0), "p"), (mux(1, q, r), "q"), (mux(p, i, 2)[1], "p & i1 | !p"),
    (onehot(i), "i0 & !i1 | !i0 & i1"), (onehot(Vector([])), "0"), (decode(i, 4)[3], "i1 & i0"), (decode(i, 4)[1], "!i1 & i0"),
    (select(i, [bits("a", 1), bits("b", 1)])[0], "!i1 & !i0 & a0 | !i1 & i0 & b0"), (select(i, [1, bits("b", 2)])[0], "!i1 & !i0 | !i1 & i0 & b0"),
    (select(i, [p, q]), "!i1 & !i0 & p | !i1 & i0 & q"), (select(i, [p, 0, 1, q & r]), "!i1 & !i0 & p | i1 & !i0 | i1 & i0 & q & r"),
    (select(bits("s", 1), bits("m", 2)), "!s0 & m0 | s0 & m1"), (select(i, cat(p, q, ONE)), "!i1 & !i0 | !i1 & i0 & q | i1 & !i0 & p"),
    ((i + 1)[0], "!i0"), ((i + 1)[1], "i1 ^ i0"), ((1 + i)[1], "i1 ^ i0"),
    (cat(p, i)[2], "p"), (cat(p, i)[1], "i1"), (cat(i, p)[0], "p"), (i[1:0][1], "i1"), (i[1:1][0], "i1"), (i[:1][0], "i1"), (i[0:][0], "i0"),
)

BRACKETS = " (a comparison beside & | ^ needs brackets: (i == k) & p)"
NO_ORDER = "a vector has no order: compare by ==, or write it out, as any_of(i == n for n in range(3)) for i < 3"
WRONG: Tuple[Tuple[Callable[[], Any], str], ...] = (
    (lambda: bit("1a"), "'1a' is no variable: letters, digits and _, not a digit first, and none of when, from, to"),
    (lambda: bit("from"), "'from' is no variable: letters, digits and _, not a digit first, and none of when, from, to"),
    (lambda: bit("é"), "'é' is no variable: letters, digits and _, not a digit first, and none of when, from, to"),
    (lambda: bit("p\n"), "'p\\n' is no variable: letters, digits and _, not a digit first, and none of when, from, to"),
    (lambda: bits("", 2), "'0' is no variable: letters, digits and _, not a digit first, and none of when, from, to"),
    (lambda: bits("p", 0), "'p' of 0 bits: from 1 to 4000"),
    (lambda: bits("p", 4001), "'p' of 4001 bits: from 1 to 4000"),
    (lambda: p and q, "<p> has no bit until it is checked: write & | ~ and mux, not `and`, `or`, `not`, `if` or a chain `a == b == c`"),
    (lambda: p == q == r, "<!(p ^ q)> has no bit until it is checked: write & | ~ and mux, not `and`, `or`, `not`, `if` or a chain `a == b == c`"),
    (lambda: i == q == 1, "1 bit where 2 are wanted: <q>" + BRACKETS),
    (lambda: i == 2 == 1, "<i1 & !i0> has no bit until it is checked: write & | ~ and mux, not `and`, `or`, `not`, `if` or a chain `a == b == c`"),
    (lambda: not i, "<2 bits i1, i0> has no value until it is checked: write & | ~ and mux, not `and`, `or`, `not`, `if` or a chain `a == b == c`"),
    (lambda: p & 2, "2 is no bit" + BRACKETS),
    (lambda: i == 3 & p, "3 is no bit" + BRACKETS),
    (lambda: i != 1 | p, "1 bit where 2 are wanted: <1>" + BRACKETS),
    (lambda: p == None, "None is no bit"),  # noqa: E711
    (lambda: p & i, "<2 bits i1, i0> is no bit: compare it, or take one bit of it" + BRACKETS),
    (lambda: p | i == 2, "<2 bits i1, i0> is no bit: compare it, or take one bit of it" + BRACKETS),
    (lambda: i & p == 1, "1 bit where 2 are wanted: <p>" + BRACKETS),
    (lambda: i == bits("k", 2) ^ p, "1 bit where 2 are wanted: <p>" + BRACKETS),
    (lambda: (i == 2) | i, "<2 bits i1, i0> is no bit: compare it, or take one bit of it" + BRACKETS),
    (lambda: i | (i == 2), "1 bit where 2 are wanted: <i1 & !i0>" + BRACKETS),
    (lambda: i + p, "1 bit where 2 are wanted: <p>"),
    (lambda: p ^ None, "None is no bit"),
    (lambda: i == 4, "4 is no value of 2 bits"),
    (lambda: i == -1, "-1 is no value of 2 bits"),
    (lambda: i & 1.0, "1.0 is no value of 2 bits"),
    (lambda: i ^ bits("j", 3), "3 bits where 2 are wanted: <3 bits j2, j1, j0>"),
    (lambda: i == p, "1 bit where 2 are wanted: <p>" + BRACKETS),
    (lambda: bits("j", 1) & i, "2 bits where 1 is wanted: <2 bits i1, i0>"),
    (lambda: i < 3, NO_ORDER), (lambda: 3 > i, NO_ORDER), (lambda: i >= i, NO_ORDER), (lambda: i <= 0, NO_ORDER), (lambda: max(i, i), NO_ORDER),
    (lambda: i - 1, "a vector has no -: write a + ~b + 1, or for an int a + (4 - b)"),
    (lambda: 1 - bits("j", 3), "a vector has no -: write a + ~b + 1, or for an int a + (8 - b)"),
    (lambda: i[2], "[2] of <2 bits i1, i0>: bits are [1:0]"),
    (lambda: i[-1], "[-1] of <2 bits i1, i0>: bits are [1:0]"),
    (lambda: i[bits("j", 1)], "[<1 bit j0>] of <2 bits i1, i0>: the number of a bit is an int; for a vector of variables take select"),
    (lambda: i[0:1], "[0:1] of <2 bits i1, i0>: bits are [1:0], the high one first, both included"),
    (lambda: i[2:0], "[2:0] of <2 bits i1, i0>: bits are [1:0], the high one first, both included"),
    (lambda: i[1:0:1], "[1:0] of <2 bits i1, i0>: bits are [1:0], the high one first, both included"),
    (lambda: cat(i, 1), "1 has no width: write a vector, or ZERO or ONE"),
    (lambda: mux(p, i, bits("j", 3)), "3 bits where 2 are wanted: <3 bits j2, j1, j0>"),
    (lambda: mux(p, 3, 0), "3 is no bit"),
    (lambda: mux(i, p, q), "<2 bits i1, i0> is no bit: compare it, or take one bit of it"),
    (lambda: decode(i, 5), "4 is no value of 2 bits"),
    (lambda: select(i, [1, 2]), "no bit and no vector among [1, 2]: an int has no width"),
    (lambda: select(i, []), "no bit and no vector among []: an int has no width"),
    (lambda: select(i, [p, i]), "bits and vectors in one table: [<p>, <2 bits i1, i0>]"),
    (lambda: select(i, [bits("j", 1), 0, q]), "bits and vectors in one table: [<1 bit j0>, 0, <q>]"),
    (lambda: select(i, [p, 2]), "2 is no bit"),
    (lambda: select(i, bits("m", 5)), "4 is no value of 2 bits"),
    (lambda: select(i, [i, bits("j", 3)]), "3 bits where 2 are wanted: <3 bits j2, j1, j0>"),
)


class Expressions(Case):
    def test_texts(self) -> None:
        for e, text in TEXTS:
            with self.subTest(text):
                self.assertEqual(str(e), text)
                self.assertEqual((e.size, e.nesting), (len(text), expression(text)[1]))

    def test_wrong_ones_are_told_where_they_are_written(self) -> None:
        for wrong, text in WRONG:
            with self.subTest(text):
                error = self.error(TaskError, wrong)
                self.assertEqual(error.message, text)
                self.assertEqual((error.origin.file, error.origin.line), (__file__, wrong.__code__.co_firstlineno))

    def test_a_module_of_a_like_name_is_the_users(self) -> None:
        error = self.error(TaskError, lambda: exec(compile("\nbit('1')", "mine.py", "exec"), {"__name__": "stework_of_mine", "bit": bit}))
        self.assertEqual(error.origin, ("mine.py", 2))

    def test_values_of_vectors(self) -> None:
        a, b = bits("a", 3), bits("b", 3)
        for x, y in itertools.product(range(8), repeat=2):
            under = {f"{name}{k}": value >> k & 1 for name, value in (("a", x), ("b", y)) for k in range(3)}
            for vector, value in ((a + b, (x + y) % 8), (a + 5, (x + 5) % 8), (a & b, x & y), (a | 6, x | 6), (3 ^ a, 3 ^ x), (~a, 7 - x),
                                  (cat(a, b), 8 * x + y), (a[2:1], x >> 1), (mux(a[0], b, 5), y if x & 1 else 5), (decode(a, 8), 1 << x),
                                  (select(a, [b, 1, ~b, 7, 0]), (y, 1, 7 - y, 7, 0)[x] if x < 5 else 0)):
                self.assertEqual(number(vector, under), value)
            self.assertEqual(number(a + ~b + 1, under), (x - y) % 8)
            for e, holds in ((a == b, x == y), (a != b, x != y), (a == 5, x == 5), (a != 5, x != 5), (onehot(a), x in (1, 2, 4)),
                             (select(a, b), x < 3 and y >> x & 1), (select(a, [*b, a[0], 1]), (y >> x if x < 3 else x == 4 or x % 2) & 1 if x < 5 else 0),
                             (any_of(a == n for n in range(3)), x < 3)):
                self.assertEqual(e.under(under), int(holds))

    def test_interleaved(self) -> None:
        self.assertEqual([str(v) for v in interleave(i, bits("k", 3))], ["k2", "i1", "k1", "i0", "k0"])
        self.assertEqual(interleave(), [])

    def test_what_is_shared_is_refused_without_being_written(self) -> None:
        e = p
        for _ in range(64):
            e = (e & q) | (~e & r)
        self.assertGreater(e.size, 10 ** 19)
        self.assertRegex(repr(e), r"^<expression of [0-9.]+e\+[0-9]+ characters>$")

    def test_shown(self) -> None:
        self.assertEqual(repr(bits("k", 5)), "<5 bits k4, k3, k2, k1, k0>")
        self.assertEqual(repr(bits("k", 40)), "<40 bits k39, k38, .., k1, k0>")
        self.assertEqual([str(b) for b in i], ["i0", "i1"])


def number(vector: Vector, under: Dict[str, int]) -> int:
    """The vector's value: bit k counts 2^k."""
    return sum(b.under(under) << k for k, b in enumerate(vector))
