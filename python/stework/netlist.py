"""Names of nets, and those that a BLIF file has, so that a misspelt one is reported where it is written.

The file is read lightly here, and nothing is judged: the program reads it by itself, and refuses what it has to.
"""
from __future__ import annotations

import difflib
import os
import re
from typing import Dict, FrozenSet, Iterable, Iterator, List, NamedTuple, Optional, Sequence, Tuple, Union

from .errors import TaskError
from .limits import MOST_NETS

PathLike = Union[str, "os.PathLike[str]"]
_BIT = re.compile(r"(.+)\[(0|[1-9][0-9]*)\]")
_RANGE = re.compile(r"(.+)\[(0|[1-9][0-9]*):(0|[1-9][0-9]*)\]")
_INNER = re.compile(r"(0|[1-9][0-9]*)/.")


def expand(nets: Union[str, Sequence[str]]) -> Tuple[str, ...]:
    """The names of single nets, the most significant first: `d[1:0]` is d[1], d[0], and `d[0:1]` is d[0], d[1]. A list is put
    together in its order, as Verilog's {a, b} is. Any other text is one net."""
    if isinstance(nets, (list, tuple)):
        return tuple(name for part in nets for name in expand(part))
    if not isinstance(nets, str):
        raise TaskError(f"{nets!r} is no name of a net, and no list of names")
    m = _RANGE.fullmatch(nets)
    if not m:
        return (nets,)
    left, right = int(m[2]), int(m[3])
    if abs(left - right) >= MOST_NETS:
        raise TaskError(f"{nets!r} is more than the {MOST_NETS} nets that a netlist may have")
    step = -1 if left >= right else 1
    return tuple(f"{m[1]}[{i}]" for i in range(left, right + step, step))


def vector_of(name: str) -> Optional[Tuple[str, int]]:
    """The vector and the index that a net's name gives: mem[2][0] is bit 0 of mem[2]."""
    m = _BIT.fullmatch(name)
    return (m[1], int(m[2])) if m else None


def vectors(names: Iterable[str]) -> Dict[str, List[int]]:
    """The indices of the names that have one, by vector, the highest first, each once."""
    found: Dict[str, List[int]] = {}
    for base, index in filter(None, map(vector_of, names)):
        found.setdefault(base, []).append(index)
    return {base: sorted(set(indices), reverse=True) for base, indices in found.items()}


def has_no_gap(indices: Sequence[int]) -> bool:
    """Whether these, the highest first, are all from the highest to the lowest."""
    return len(indices) == indices[0] - indices[-1] + 1


def _spelled(base: str, indices: Sequence[int]) -> List[str]:
    """A vector as a task would name it: `d[1:0]`, or bit by bit where there are gaps."""
    if len(indices) > 1 and has_no_gap(indices):
        return [f"{base}[{indices[0]}:{indices[-1]}]"]
    return [f"{base}[{i}]" for i in indices]


def _logical_lines(text: str) -> Iterator[List[str]]:
    """The words of each line: `#` begins a comment, and `\\` at the end continues a line."""
    joined = ""
    for piece in text.split("\n"):
        piece = piece.split("#", 1)[0].rstrip(" \t\r")
        if piece.endswith("\\"):
            joined += piece[:-1] + " "
        else:
            yield re.split("[ \t\r]+", (joined + piece).strip(" \t\r"))
            joined = ""
    yield re.split("[ \t\r]+", joined.strip(" \t\r"))


class Netlist(NamedTuple):
    """The names of a BLIF file's top model, which is its first: its signals, and how many instances it has."""
    path: str
    signals: FrozenSet[str]
    instances: int

    @staticmethod
    def read(path: PathLike) -> Netlist:
        """Scan the file. TaskError where it cannot be read."""
        try:
            with open(path, "rb") as file:
                text = file.read().decode("utf-8", "surrogateescape")
        except OSError as e:
            raise TaskError(f"cannot read {os.fspath(path)}: {e.strerror}") from None
        signals: List[str] = []
        models = instances = 0
        for first, *words in _logical_lines(text):
            models += first == ".model"
            if models > 1:
                break
            if first in (".inputs", ".outputs", ".clock", ".names"):
                signals += words
            elif first == ".latch":            # in, out, and perhaps type and control; perhaps a first bit
                signals += words[:2] + [control for control in words[3:4] if control != "NIL"]
            elif first == ".subckt":           # a model, and formal=actual ..
                instances += 1
                signals += [word.split("=", 1)[-1] for word in words[1:]]
        return Netlist(os.fspath(path), frozenset(signals), instances)

    def fault(self, names: Sequence[str]) -> Optional[str]:
        """Why one of these names of single nets is none of this netlist, with near ones; or None. An inner name (`0/1/x`)
        passes where the top model has such an instance."""
        for name in names:
            m = _INNER.match(name)
            if name in self.signals or (m and int(m[1]) < self.instances):
                continue
            unknown = f"no net {name!r} in {self.path}"
            if m:
                return f"{unknown}: its top model has {self.instances} instances"
            near = self._near(name)
            return f"{unknown}: it has {', '.join(near)}" if near else unknown
        return None

    def _near(self, name: str) -> List[str]:
        """The vector that the name, or a bit of it, has in this netlist; else what is spelled in a like way."""
        wide = vectors(self.signals)
        base = (vector_of(name) or (name, 0))[0]
        if base in wide:
            return _spelled(base, wide[base])
        bases = sorted({*wide, *(s for s in self.signals if not vector_of(s))})
        close = difflib.get_close_matches(base, bases, 3)
        return [text for b in close for text in (_spelled(b, wide[b]) if b in wide else [b])]
