"""A front end to `stework`, the proved checker of netlists by symbolic trajectory evaluation: it writes task files, runs the
program, and reads reports. It decides nothing: each verdict is a line that the program wrote.

Begin with `Tasks` for what is to hold, `bits` for values, and `check` for the results.
"""
from .clauses import Clause, Line, Side
from .errors import (Fault, FileChanged, Origin, OutOfMemory, Refused, ReportError, SteworkError, TaskError, TimedOut,
                     YosysError)
from .expr import (ONE, ZERO, Bool, Vector, all_of, any_of, bit, bits, cat, decode, interleave, mux, onehot, select)
from .netlist import Netlist
from .progress import Progress
from .report import Cubes, Place, Result, Run, Verdict, read_report, write_report
from .results import Results
from .run import Plan, check, unasked
from .tasks import Assertion, Edge, Graph, Tasks
from .vcd import gtkw, vcd
from .yosys import YosysWarning, blif

__all__ = [
    "Assertion", "Bool", "Clause", "Cubes", "Edge", "Fault", "FileChanged", "Graph", "Line", "Netlist", "ONE", "Origin",
    "OutOfMemory", "Place", "Plan", "Progress", "Refused", "ReportError", "Result", "Results", "Run", "Side", "SteworkError",
    "TaskError", "Tasks", "TimedOut", "Vector", "Verdict", "YosysError", "YosysWarning", "ZERO", "all_of", "any_of", "bit",
    "bits", "blif", "cat", "check", "decode", "gtkw", "interleave", "mux", "onehot", "read_report", "select", "unasked", "vcd",
    "write_report",
]
