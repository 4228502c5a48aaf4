"""Expressions of one bit over the variables of a task file, and vectors of them. Begin with `bit` and `bits`.

Bit i of a vector v is `v[i]`; bit 0 is the least significant. `v[7:4]` is bits 7 to 4, both included, as in Verilog.

Python binds `&`, `|` and `^` tighter than `==` and `!=`: comparisons need their brackets, as in `(i == k) & p`.
"""
from __future__ import annotations

import enum
import re
from typing import (TYPE_CHECKING, Iterable, Iterator, List, Mapping, NamedTuple, NoReturn, Optional, Sequence, Set, Tuple,
                    Union, overload)

from .errors import TaskError
from .limits import MOST_VARIABLES

_VARIABLE = re.compile(r"[A-Za-z_][A-Za-z0-9_]*")
_KEYWORDS = ("when", "from", "to")


class Op(enum.IntEnum):
    """What an expression is, in the order of how tightly it binds."""
    OR = 0
    XOR = 1
    AND = 2
    NOT = 3
    CONSTANT = 4
    VARIABLE = 5


_SIGN = {Op.OR: " | ", Op.XOR: " ^ ", Op.AND: " & "}
_BRACKETS = " (a comparison beside & | ^ needs brackets: (i == k) & p)"
_INSTEAD = "write & | ~ and mux, not `and`, `or`, `not`, `if` or a chain `a == b == c`"


class Member(NamedTuple):
    """Which bit of which vector a variable is: `bits("p", 8)[3]` is Member("p", 3, 8)."""
    vector: str
    bit: int
    width: int

    def __str__(self) -> str:
        return f"bit {self.bit} of {self.vector!r} with {counted(self.width, 'bit')}"


class Bool:
    """An expression of one bit. Operators are `&`, `|`, `^`, `~`, `==` and `!=`, with a Bool, 0 or 1 on the other side.

    Written out, its text has `size` characters, and `nesting` levels of `!` and brackets within one another.
    """
    __slots__ = ("op", "args", "name", "member", "size", "nesting")

    def __init__(self, op: Op, args: Tuple[Bool, ...] = (), name: str = "", member: Optional[Member] = None) -> None:
        self.op, self.args, self.name, self.member = op, args, name, member
        inner = [(a.size + 2, a.nesting + 1) if a.op <= op else (a.size, a.nesting) for a in args]
        signs = 1 if op is Op.NOT else 3 * max(0, len(args) - 1)
        self.size: int = len(name) + signs + sum(size for size, _ in inner)
        self.nesting: int = max((nesting for _, nesting in inner), default=0) + (op is Op.NOT)

    def __str__(self) -> str:
        parts = [f"({a})" if a.op <= self.op else str(a) for a in self.args]
        if self.op is Op.NOT:
            return "!" + parts[0]
        return _SIGN[self.op].join(parts) if parts else self.name

    def __repr__(self) -> str:
        return f"<{self}>" if self.size < 200 else f"<expression of {self.size:.3g} characters>"

    def __bool__(self) -> bool:
        raise TaskError(f"{self!r} has no bit until it is checked: {_INSTEAD}")

    def under(self, assignment: Mapping[str, int]) -> int:
        """The bit, 0 or 1, under an assignment of bits to its variables. KeyError where one is missing."""
        if self.op is Op.CONSTANT:
            return int(self.name)
        if self.op is Op.VARIABLE:
            return assignment[self.name]
        bits = [a.under(assignment) for a in self.args]
        if self.op is Op.NOT:
            return 1 - bits[0]
        if self.op is Op.XOR:
            return sum(bits) % 2
        return int(all(bits) if self.op is Op.AND else any(bits))

    def __invert__(self) -> Bool:
        if self.op is Op.CONSTANT:
            return constant(1 - int(self.name))
        return self.args[0] if self.op is Op.NOT else Bool(Op.NOT, (self,))

    def __and__(self, other: Bit) -> Bool:
        return _chain(Op.AND, (self, _beside(other)))

    def __or__(self, other: Bit) -> Bool:
        return _chain(Op.OR, (self, _beside(other)))

    def __xor__(self, other: Bit) -> Bool:
        return _chain(Op.XOR, (self, _beside(other)))

    def __eq__(self, other: Bit) -> Bool:  # type: ignore[override]
        return ~(self ^ other)

    def __ne__(self, other: Bit) -> Bool:  # type: ignore[override]
        return self ^ other

    __rand__, __ror__, __rxor__, __hash__ = __and__, __or__, __xor__, object.__hash__


Bit = Union[Bool, int]                 # an int is 0 or 1
ZERO, ONE = Bool(Op.CONSTANT, name="0"), Bool(Op.CONSTANT, name="1")


def constant(value: int) -> Bool:
    """The constant 0 or 1."""
    return ONE if value else ZERO


def counted(number: int, noun: str) -> str:
    """`1 bit`, `2 bits`."""
    return f"{number} {noun}{'s' * (number != 1)}"


def to_bool(value: object, hint: str = "") -> Bool:
    """An expression of a bit: itself, or of 0 or 1 the constant. The hint stands at the end of the error."""
    if isinstance(value, Bool):
        return value
    if isinstance(value, int) and value in (0, 1):
        return constant(value)
    what = ": compare it, or take one bit of it" if isinstance(value, Vector) else ""
    raise TaskError(f"{value!r} is no bit{what}{hint}")


def _beside(other: object) -> Bool:
    """The bit on the other side of an operator."""
    return to_bool(other, _BRACKETS if isinstance(other, (Vector, int)) else "")


def _chain(op: Op, args: Sequence[Bool]) -> Bool:
    """A chain of one operator, flat: parts that are such chains give their own parts. Constants are folded."""
    flat = [b for a in args for b in (a.args if a.op is op else (a,))]
    rest = [b for b in flat if b.op is not Op.CONSTANT]
    constants = [int(b.name) for b in flat if b.op is Op.CONSTANT]
    whole = Bool(op, tuple(rest)) if len(rest) > 1 else rest[0] if rest else constant(op is Op.AND)
    if op is Op.XOR:
        return ~whole if sum(constants) % 2 else whole
    decides = 0 if op is Op.AND else 1
    return constant(decides) if decides in constants else whole


def all_of(bits: Iterable[Bit]) -> Bool:
    """1 where every one is 1; of none, 1."""
    return _chain(Op.AND, [to_bool(b) for b in bits])


def any_of(bits: Iterable[Bit]) -> Bool:
    """1 where some one is 1; of none, 0."""
    return _chain(Op.OR, [to_bool(b) for b in bits])


class Vector:
    """Bits, given the least significant first.

    Operators are `&`, `|`, `^`, `~`, and `+` without the carry out, which give a vector of the same width, and `==` and `!=`,
    which give a Bool. On the other side stands a vector of the same width, or an int that fits the width, from 0 on.
    """
    __slots__ = ("bits",)

    def __init__(self, bits: Iterable[Bit]) -> None:
        self.bits: Tuple[Bool, ...] = tuple(to_bool(b) for b in bits)

    def __len__(self) -> int:
        return len(self.bits)

    def __iter__(self) -> Iterator[Bool]:
        """The bits, bit 0 first."""
        return iter(self.bits)

    def __repr__(self) -> str:
        shown = [repr(b)[1:-1] for b in reversed(self.bits)]
        return f"<{counted(len(self), 'bit')} {', '.join(shown if len(shown) <= 16 else [*shown[:2], '..', *shown[-2:]])}>"

    def __bool__(self) -> bool:
        raise TaskError(f"{self!r} has no value until it is checked: {_INSTEAD}")

    @overload
    def __getitem__(self, at: int) -> Bool: ...

    @overload
    def __getitem__(self, at: slice) -> Vector: ...

    def __getitem__(self, at: Union[int, slice]) -> Union[Bool, Vector]:
        if isinstance(at, slice):
            high = len(self) - 1 if at.start is None else at.start
            low = 0 if at.stop is None else at.stop
            if at.step is None and isinstance(high, int) and isinstance(low, int) and 0 <= low <= high < len(self):
                return Vector(self.bits[low:high + 1])
            raise TaskError(f"[{high}:{low}] of {self!r}: bits are [{len(self) - 1}:0], the high one first, both included")
        if not isinstance(at, int):
            raise TaskError(f"[{at!r}] of {self!r}: the number of a bit is an int; for a vector of variables take select")
        if not 0 <= at < len(self):
            raise TaskError(f"[{at}] of {self!r}: bits are [{len(self) - 1}:0]")
        return self.bits[at]

    def _pairs(self, other: Word, hint: str = _BRACKETS) -> Iterator[Tuple[Bool, Bool]]:
        return zip(self.bits, to_vector(other, len(self), hint if isinstance(other, Bool) else "").bits)

    def __and__(self, other: Word) -> Vector:
        return Vector(a & b for a, b in self._pairs(other))

    def __or__(self, other: Word) -> Vector:
        return Vector(a | b for a, b in self._pairs(other))

    def __xor__(self, other: Word) -> Vector:
        return Vector(a ^ b for a, b in self._pairs(other))

    def __invert__(self) -> Vector:
        return Vector(~a for a in self.bits)

    def __add__(self, other: Word) -> Vector:
        carry, total = ZERO, []
        for a, b in self._pairs(other, hint=""):
            total.append(a ^ b ^ carry)
            carry = (a & b) | ((a ^ b) & carry)
        return Vector(total)

    def __eq__(self, other: Word) -> Bool:  # type: ignore[override]
        return all_of(reversed([a == b for a, b in self._pairs(other)]))

    def __ne__(self, other: Word) -> Bool:  # type: ignore[override]
        return any_of(reversed([a != b for a, b in self._pairs(other)]))

    __rand__, __ror__, __rxor__, __radd__, __hash__ = __and__, __or__, __xor__, __add__, object.__hash__

    if not TYPE_CHECKING:              # a type checker reports these by itself
        def _no_order(self, other: object) -> NoReturn:
            raise TaskError("a vector has no order: compare by ==, or write it out, as any_of(i == n for n in range(3)) "
                            "for i < 3")

        def _no_minus(self, other: object) -> NoReturn:
            raise TaskError(f"a vector has no -: write a + ~b + 1, or for an int a + ({1 << len(self)} - b)")

        __lt__ = __le__ = __gt__ = __ge__ = _no_order
        __sub__ = __rsub__ = _no_minus


Word = Union[Vector, int]              # an int has the width of what it meets


def to_vector(value: object, width: int, hint: str = "") -> Vector:
    """A vector of that width: itself, or a Bool where the width is 1, or an int from 0 to 2^width - 1. The hint stands at the
    end of the error on another width."""
    whole = Vector([value]) if isinstance(value, Bool) else value
    if isinstance(whole, Vector):
        if len(whole) != width:
            wanted = f"{width} {'is' if width == 1 else 'are'} wanted"
            raise TaskError(f"{counted(len(whole), 'bit')} where {wanted}: {value!r}{hint}")
        return whole
    if not isinstance(whole, int) or not 0 <= whole < 1 << width:
        raise TaskError(f"{whole!r} is no value of {counted(width, 'bit')}")
    return Vector((whole >> i) & 1 for i in range(width))


def _variable(name: str, member: Optional[Member] = None) -> Bool:
    if not _VARIABLE.fullmatch(name) or name in _KEYWORDS:
        raise TaskError(f"{name!r} is no variable: letters, digits and _, not a digit first, and none of when, from, to")
    return Bool(Op.VARIABLE, name=name, member=member)


def bit(name: str) -> Bool:
    """The variable of that name: a letter or `_`, then letters, digits and `_`; not `when`, `from` or `to`."""
    return _variable(name)


def bits(name: str, width: int) -> Vector:
    """A vector of variables: `bits("p", 2)` is p1 p0, with p0 as its bit 0. The width is from 1 to 4,000."""
    if not 1 <= width <= MOST_VARIABLES:
        raise TaskError(f"{name!r} of {counted(width, 'bit')}: from 1 to {MOST_VARIABLES}")
    return Vector(_variable(f"{name}{i}", Member(name, i, width)) for i in range(width))


def cat(*parts: Union[Vector, Bool]) -> Vector:
    """One vector of several, the most significant part first: Verilog's {a, b}. An int has no width, so it is no part."""
    found: List[Bool] = []
    for part in reversed(parts):
        if not isinstance(part, (Vector, Bool)):
            raise TaskError(f"{part!r} has no width: write a vector, or ZERO or ONE")
        found += part.bits if isinstance(part, Vector) else (part,)
    return Vector(found)


@overload
def mux(choice: Bit, one: Bit, zero: Bit) -> Bool: ...


@overload
def mux(choice: Bit, one: Vector, zero: Word) -> Vector: ...


@overload
def mux(choice: Bit, one: Word, zero: Vector) -> Vector: ...


def mux(choice: Bit, one: Union[Vector, Bit], zero: Union[Vector, Bit]) -> Union[Vector, Bool]:
    """`one` where the choice is 1, and `zero` where it is 0: two bits, or two words of one width."""
    c = to_bool(choice)
    widths = [len(word) for word in (one, zero) if isinstance(word, Vector)]
    if widths:
        return Vector(mux(c, a, b) for a, b in zip(to_vector(one, widths[0]), to_vector(zero, widths[0])))
    return (c & to_bool(one)) | (~c & to_bool(zero))


def decode(index: Vector, count: int) -> Vector:
    """The index as one of `count` bits: bit k is `index == k`. At most 2^width of them."""
    return Vector(index == k for k in range(count))


@overload
def select(index: Vector, words: Union[Vector, Sequence[Bit]]) -> Bool: ...  # type: ignore[misc]


@overload
def select(index: Vector, words: Sequence[Word]) -> Vector: ...


def select(index: Vector, words: Union[Vector, Sequence[Bit], Sequence[Word]]) -> Union[Vector, Bool]:
    """`words[index]`, and 0 where there is no such word: of bits, or of a vector, a bit; of vectors of one width, a vector. An
    int is of the kind of the others."""
    table: List[Union[Vector, Bit]] = list(words)
    widths = [len(word) for word in table if isinstance(word, Vector)]
    has_bit = any(isinstance(word, Bool) for word in table)
    if not widths and not has_bit:
        raise TaskError(f"no bit and no vector among {table!r}: an int has no width")
    if widths and has_bit:
        raise TaskError(f"bits and vectors in one table: {table!r}")
    chosen = list(zip(decode(index, len(table)), table))
    if has_bit:
        return any_of(here & to_bool(word) for here, word in chosen)
    columns = zip(*([here & b for b in to_vector(word, widths[0])] for here, word in chosen))
    return Vector(any_of(column) for column in columns)


def onehot(vector: Vector) -> Bool:
    """Exactly one bit is 1."""
    return any_of(all_of(b if i == k else ~b for i, b in enumerate(vector)) for k in range(len(vector)))


def interleave(*vectors: Vector) -> List[Bool]:
    """The bits side by side, the most significant first (a1 b1 a0 b0): an order to declare vectors in that are compared."""
    width = max((len(v) for v in vectors), default=0)
    return [v[i] for i in reversed(range(width)) for v in vectors if i < len(v)]


def variables(expression: Bool, seen: Set[int]) -> Iterator[Bool]:
    """The variables in the order in which the text mentions them, but for those in expressions whose `id` was seen."""
    todo = [expression]
    while todo:
        e = todo.pop()
        if id(e) not in seen:
            seen.add(id(e))
            todo.extend(reversed(e.args))
            if e.op is Op.VARIABLE:
                yield e
