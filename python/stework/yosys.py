"""Netlists out of Verilog, by Yosys. Begin with `blif`."""
from __future__ import annotations

import os
import re
import subprocess
import tempfile
import warnings
from pathlib import Path
from typing import List, Optional, Sequence, Union

from .errors import Fault, SteworkError, TaskError, TimedOut, YosysError
from .netlist import Netlist, PathLike

# From a top module to gates and registers of one kind, as docs/NETLISTS.md has it; `{clocked}` is what is done to registers.
_RECIPE = ("hierarchy -top {top}; synth -flatten -noabc -nofsm; {clocked}; dfflegalize -cell $_DFF_P_ 01; simplemap; "
           "opt_expr; opt_merge; opt_clean; abc -g AND,OR,XOR; opt_clean; write_blif {out}")


class YosysWarning(UserWarning):
    """What Yosys warned of as it made a netlist."""


def _quoted(name: str) -> str:
    """A name of a file as a word of Yosys'."""
    if re.search(r'["\n\r]', name):
        raise TaskError(f"{name!r}: a name with quotes or line ends cannot be given to Yosys")
    return f'"{name}"'


def _script(sources: Sequence[str], top: str, out: str, several_clocks: bool) -> str:
    """The commands for these sources."""
    if not re.fullmatch(r'[^\s;"#]+', top):
        raise TaskError(f"{top!r} is no name of a module")
    reads = [f"read_verilog {'-sv ' * name.endswith('.sv')}{_quoted(name)}" for name in sources]
    clocked = "clk2fflogic; simplemap" if several_clocks else "async2sync"
    return "; ".join([*reads, _RECIPE.format(top=top, clocked=clocked, out=_quoted(out))])


def _run(words: List[str], timeout: Optional[float]) -> List[str]:
    """Run Yosys; the lines that it wrote to its error stream."""
    try:
        done = subprocess.run(words, stdin=subprocess.DEVNULL, stdout=subprocess.DEVNULL, stderr=subprocess.PIPE,
                              timeout=timeout, check=False)
    except subprocess.TimeoutExpired:
        raise TimedOut(f"no netlist within {timeout:g} s") from None
    except OSError as e:
        raise Fault(f"cannot run {words[0]}: {e.strerror}") from None
    told = [line for line in done.stderr.decode("utf-8", "replace").splitlines() if line.strip()]
    if done.returncode:
        errors = [line for line in told if "ERROR:" in line]
        raise YosysError("\n".join(errors or told) or f"status {done.returncode}")
    return told


def blif(sources: Union[PathLike, Sequence[PathLike]], top: str, out: PathLike, *, several_clocks: bool = False,
         yosys: PathLike = "yosys", timeout: Optional[float] = None) -> Netlist:
    """Make the netlist `out`, a BLIF file, of the module `top` in these Verilog files; the names that it has.

    Files that end in .sv are read as SystemVerilog. Every register is made to step with one clock; with `several_clocks` a time
    step is finer than a clock cycle, and clocks are inputs that the antecedent has to drive (docs/NETLISTS.md). What Yosys warns
    of is a YosysWarning.

    YosysError with its message where Yosys stops, and then `out` is as it was; Fault where it cannot be run or the file not be
    written; TimedOut where it took more than `timeout` seconds.
    """
    given = [sources] if isinstance(sources, (str, os.PathLike)) else sources
    target = Path(out)
    try:
        with tempfile.TemporaryDirectory(dir=target.parent, prefix=f"{target.name}-") as folder:
            made = os.path.join(folder, "made.blif")
            script = _script([os.fspath(source) for source in given], top, made, several_clocks)
            for line in _run([os.fspath(yosys), "-q", "-p", script], timeout):
                warnings.warn(line, YosysWarning, stacklevel=2)
            os.replace(made, target)
    except SteworkError:
        raise                           # (TimedOut is an OSError too)
    except OSError as e:
        raise Fault(f"cannot write {os.fspath(out)}: {e.strerror}") from None
    return Netlist.read(out)
