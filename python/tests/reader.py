"""A reader of task files that is independent of the package: tests compare what the package writes with what this reads.

It has the whole grammar, but for comments and continued lines, which the package does not write: where a text has another form
than the grammar's it is Unreadable.
"""
from __future__ import annotations

import re
from typing import Dict, List, NamedTuple, Optional, Sequence, Tuple


class Unreadable(Exception):
    """The text is no task file."""


class Tree(NamedTuple):
    """An expression: `kind` is 0, 1, !, &, ^, | or `var`."""
    kind: str
    parts: Tuple[Tree, ...] = ()
    name: str = ""

    def value(self, assignment: Dict[str, int]) -> int:
        """Its bit under an assignment."""
        bits = [part.value(assignment) for part in self.parts]
        if self.kind == "var":
            return assignment[self.name]
        if self.kind == "!":
            return 1 - bits[0]
        return {"0": 0, "1": 1, "&": min(bits, default=1), "|": max(bits, default=0), "^": sum(bits) & 1}[self.kind]


class Clause(NamedTuple):
    side: str
    net: str
    value: Tree
    guard: Tree
    times: Optional[Tuple[int, int]]


class Edge(NamedTuple):
    tail: str
    head: str
    clauses: List[Clause]


class Task(NamedTuple):
    name: str
    start: Optional[str]               # of a graph
    reset: bool
    clauses: List[Clause]
    edges: List[Edge]


class File(NamedTuple):
    variables: List[str]
    tasks: List[Task]


class _Expression:
    """An expression, read from the left, with the greatest nesting in what was read last."""

    def __init__(self, text: str) -> None:
        self.tokens: List[str] = re.findall(r"[A-Za-z_][A-Za-z_0-9]*|[01!&^|()]|[^ ]", text)[::-1]

    def whole(self) -> Tuple[Tree, int]:
        tree, nesting = self.chain(0)
        if self.tokens:
            raise Unreadable(f"{self.tokens[-1]} behind an expression")
        return tree, nesting

    def chain(self, level: int) -> Tuple[Tree, int]:
        if level == 3:
            return self.factor()
        sign, parts = "|^&"[level], [self.chain(level + 1)]
        while self.tokens and self.tokens[-1] == sign:
            self.tokens.pop()
            parts.append(self.chain(level + 1))
        if len(parts) == 1:
            return parts[0]
        return Tree(sign, tuple(tree for tree, _ in parts)), max(nesting for _, nesting in parts)

    def factor(self) -> Tuple[Tree, int]:
        token = self.tokens.pop() if self.tokens else ""
        if token == "!":
            tree, nesting = self.factor()
            return Tree("!", (tree,)), nesting + 1
        if token == "(":
            tree, nesting = self.chain(0)
            if not self.tokens or self.tokens.pop() != ")":
                raise Unreadable("a bracket is open")
            return tree, nesting + 1
        if token in ("0", "1"):
            return Tree(token), 0
        if re.fullmatch(r"[A-Za-z_]\w*", token, re.ASCII) and token not in ("when", "from", "to"):
            return Tree("var", name=token), 0
        raise Unreadable(f"{token!r} in an expression")


def expression(text: str) -> Tuple[Tree, int]:
    """The tree, and its nesting."""
    return _Expression(text).whole()


def _names(tree: Tree) -> List[str]:
    return [tree.name] if tree.kind == "var" else [name for part in tree.parts for name in _names(part)]


def _expression_of(words: Sequence[str], variables: Sequence[str]) -> Tree:
    tree, nesting = expression(" ".join(words))
    if nesting > 100 or not set(_names(tree)) <= set(variables):
        raise Unreadable(" ".join(words))
    return tree


def _clause(words: List[str], variables: Sequence[str], is_timed: bool) -> Clause:
    side, net, equals, *rest = words
    times = None
    if is_timed:
        *rest, word_from, first, word_to, last = rest
        times = (int(first), int(last))
        if (word_from, word_to) != ("from", "to") or not times[0] <= times[1] <= 100_000:
            raise Unreadable(" ".join(words))
    at = rest.index("when") if "when" in rest else len(rest)
    guard = rest[at + 1:] if at < len(rest) else ["1"]
    if equals != "=" or side not in (".ant", ".con"):
        raise Unreadable(" ".join(words))
    return Clause(side, net, _expression_of(rest[:at], variables), _expression_of(guard, variables), times)


def read(text: str) -> File:
    """The variables and the tasks."""
    if text and not text.endswith("\n"):
        raise Unreadable("the last line does not end")
    variables: List[str] = []
    tasks: List[Task] = []
    is_open = False
    for number, line in enumerate(text.split("\n")[:-1], 1):
        words: List[str] = line.split(" ")
        if any(not word or set(word) & set("#\t\r") for word in words) or line.endswith("\\"):
            raise Unreadable(f"{number}: words are parted by single blanks, and there are no comments")
        head, rest = words[0], words[1:]
        try:
            if head == ".vars" and rest and not tasks:
                variables += rest
            elif head in (".ste", ".gste"):
                least = 1 if head == ".ste" else 2
                if len(rest) not in (least, least + 1) or rest[least:] not in ([], ["reset"]):
                    raise Unreadable("a head")
                tasks.append(Task(rest[0], rest[1] if head == ".gste" else None, len(rest) > least, [], []))
                is_open = True
            elif head == ".end" and not rest and is_open:
                is_open = False
            elif head == ".edge" and len(rest) == 2 and is_open and tasks[-1].start is not None:
                tasks[-1].edges.append(Edge(*rest, clauses=[]))
            elif is_open:
                task = tasks[-1]
                place = task.clauses if task.start is None else task.edges[-1].clauses
                place.append(_clause(words, variables, task.start is None))
            else:
                raise Unreadable("a line that may not stand there")
        except (ValueError, IndexError, Unreadable) as e:
            raise Unreadable(f"{number}: {line}: {e}")
    names = [task.name for task in tasks]
    for many, most in (variables, 4_000), (names, 256):
        if len(many) > most or len(set(many)) < len(many):
            raise Unreadable("too many, or a double name")
    return File(variables, tasks)
