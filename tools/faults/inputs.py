"""The command lines that are tried, a dozen or more of each kind, and their files.

In a text here ' / ' stands for the end of a line.
"""

import re
from dataclasses import dataclass
from pathlib import Path

NETS = {
    "row": ".model m / .inputs a / .outputs y / .names a y / 0- 1 / .end",
    "outside": ".inputs a / .end",
    "empty": "",
    "comment": "# no model",
    "word": ".model m / .area 1 / .wrong / .end",
    "gate": ".model m / .gate and2 a=b / .end",
    "latch-type": ".model m / .latch d q as c 0 / .end",
    "double": ".model m / .end / .model m / .end",
    "unknown": ".model m / .subckt n a=b / .end",
    "recursive": ".model m / .inputs a / .subckt m a=a / .end",
    "bad-formal": ".model m / .inputs a / .subckt n b=a / .end / .model n / .outputs y / .end",
    "missing-formal": ".model m / .inputs a / .subckt n / .end / .model n / .inputs a / .end",
    "driven-twice": ".model m / .outputs y / .names y / 1 / .names y / 1 / .end",
    "mixed-clocks": ".model m / .inputs d c / .latch d p re c 0 / .latch d q fe c 0 / .end",
    "loop": ".model m / .outputs y / .names y n / 0 1 / .names n y / 1 1 / .end",
    "wide": ".model m / .inputs "
    + " ".join(f"a{i}" for i in range(32))
    + " / .outputs y / .names "
    + " ".join(f"a{i}" for i in range(32))
    + " y / "
    + " / ".join("--" * i + "11" + "--" * (15 - i) + " 1" for i in range(16))
    + " / .end",
}

TASKS = {
    "empty": "",
    "head": ".vars p / .ste / .end",
    "end": ".vars p / .ste t / .ant a = p from 0 to 1 / .fin",
    "outside": ".vars p / .ant a = p from 0 to 1",
    "late-vars": ".ste t / .end / .vars p",
    "backwards": ".ste t / .ant a = 1 from 2 to 1 / .end",
    "deep": ".vars p / .ste t / .ant a = " + "(" * 101 + "p" + ")" * 101 + " from 0 to 1 / .end",
    "open": ".vars p / .ste t / .ant a = ((p from 0 to 1 / .end",
    "double-variable": ".vars p q p",
    "double-task": ".ste t / .end / .gste t v / .edge v v / .end",
    "variable": ".vars p / .ste t / .ant a = p & q from 0 to 1 / .end",
    "time": ".ste t / .ant a = 1 from 0 to 10001 / .end",
    "node": ".ste t / .ant a = 1 from 0 to 1 / .con b = 1 from 0 to 1 / .end",
    "no-edge": ".gste t v / .ant a = 1 / .edge v v / .end",
}

INPUTS = {
    "empty": "",
    "head": "a / 0",
    "order": ".orders a / 0",
    "short": ".order a / ",
    "long": ".order a / 0 / 01",
    "digit": ".order a / 2",
    "words": ".order a / 0 1",
    "no-bits": ".order a / -",
    "double": ".order a a / 00",
    "node": ".order a b / 00",
    "output": ".order a y / 00",
    "many": ".order a / " + "0 / " * 10001,
}

USAGES = [
    "",
    "check",
    "check inverter.blif",
    "check inverter.blif inverter.ste inverter.ste",
    "inform inverter.blif",
    "info",
    "sim inverter.blif",
    "bench 0",
    "bench 1001",
    "check inverter.blif inverter.ste --workers 65",
    "check inverter.blif inverter.ste --workers 1 --workers 1",
    "check inverter.blif inverter.ste --help",
]

MISSING = [
    "check missing.blif inverter.ste",
    "check inverter.blif missing.ste",
    "check missing.blif missing.ste",
    "check folder inverter.ste",
    "check inverter.blif folder",
    "check net-row.blif missing.ste",
    "check missing.blif tasks-empty.ste",
    "info missing.blif",
    "info folder",
    "sim missing.blif inverter.in",
    "sim inverter.blif missing.in",
    "sim inverter.blif folder",
]

# Numbers of tasks in a file.
COUNTS = [2, 3, 4, 5, 6, 8, 10, 12, 16, 24, 40, 64]


def chain(depth):
    """So many models, each but the last with one instance of the next; the last is a buffer."""
    inner = [
        f".model m{i} / .inputs a / .outputs y / .subckt m{i + 1} a=a y=y / .end / " for i in range(depth)
    ]
    return "".join(inner) + f".model m{depth} / .inputs a / .outputs y / .names a y / 1 1 / .end"


def tree(depth):
    """The same with two instances of the next, one behind the other; the last is an inverter."""
    inner = [
        f".model m{i} / .inputs a / .outputs y / .subckt m{i + 1} a=a y=n / .subckt m{i + 1} a=n y=y / .end / "
        for i in range(depth)
    ]
    return "".join(inner) + f".model m{depth} / .inputs a / .outputs y / .names a y / 0 1 / .end"


def delay(length):
    """So many latches in a row."""
    latches = " / ".join(f".latch q{i} q{i + 1} 2" for i in range(length))
    return f".model m / .inputs q0 / .outputs q{length} / {latches} / .end"


def delayed(length, value):
    """A graph in which what goes in comes out behind so many steps, as this value."""
    steps = " / ".join(f".edge v{i + 1} v{i + 2}" for i in range(length))
    return f".vars p / .gste g v0 / .edge v0 v1 / .ant q0 = p / {steps} / .con q{length} = {value} / .end"


def tasks(count):
    """So many tasks on an inverter, of which every third does not pass."""
    task = ".ste t{} / .ant a = p & q from 0 to 1 / .con y = {}(p & q) from 0 to 1 / .end / "
    return ".vars p q / " + "".join(task.format(i, "" if i % 3 == 2 else "!") for i in range(count))


@dataclass(frozen=True)
class Case:
    kind: str
    words: str

    def with_one_worker(self):
        """The command line whose report this one has, too."""
        return re.sub(r"--workers (4|64)\b", "--workers 1", self.words)


class Inputs:
    """The files by name, and the command lines."""

    def __init__(self, examples: Path):
        texts = (file for file in examples.iterdir() if file.suffix in (".blif", ".ste"))
        self.files = {file.name: file.read_text() for file in texts}
        self.cases = []
        self.add_examples()
        self.add_hierarchies()
        self.add_graphs()
        self.add_tasks()
        self.add_refusals()

    def add(self, kind, *lines):
        self.cases += [Case(kind, line) for line in lines]

    def put(self, name, text):
        self.files[name] = text.replace(" / ", "\n") + ("\n" if text else "")

    def add_examples(self):
        pairs = [f"{name[:-4]}.blif {name}" for name in sorted(self.files) if name.endswith(".ste")]
        checks = [f"check {pair} --workers 1 --steps 20000" for pair in pairs]
        fewer = "check arbiter.blif arbiter.ste --workers 1 --steps 1"
        self.put("none.in", ".order / - / - / -")
        self.add("check", *checks, fewer, "check inverter.blif inverter.ste")
        self.add("--nodes", *(f"{check} --nodes" for check in checks), f"{fewer} --nodes", "bench 2 --nodes")
        self.add("--wave", *(f"{check} --wave" for check in checks), f"{fewer} --wave", "bench 2 --wave")
        self.add("info", *(f"info {pair.split()[0]}" for pair in pairs))
        self.add("sim", *(f"sim {pair.split()[0]} none.in" for pair in pairs), "sim inverter.blif inverter.in")
        self.add("bench", *(f"bench {count} --workers 1 --steps 1000" for count in range(1, 13)))
        self.put("inverter.in", ".order a / 0 / 1")

    def add_hierarchies(self):
        for depth in range(1, 7):
            for name, text in ((f"chain{depth}", chain(depth)), (f"tree{depth}", tree(depth))):
                nodes = f".con y = p from 0 to 1 / .con {'0/' * depth}y = p from 0 to 1"
                self.put(f"{name}.blif", text)
                self.put(f"{name}.ste", f".vars p / .ste t / .ant a = p from 0 to 1 / {nodes} / .end")
                self.add("hierarchy", f"check {name}.blif {name}.ste --workers 1 --steps 100")
                self.add("info", f"info {name}.blif")
                self.add("sim", f"sim {name}.blif none.in")

    def add_graphs(self):
        for length in range(1, 7):
            self.put(f"delay{length}.blif", delay(length))
            for name, value in ((f"late{length}", "p"), (f"wrong{length}", "!p")):
                self.put(f"{name}.ste", delayed(length, value))
                self.add("graph", f"check delay{length}.blif {name}.ste --workers 1 --steps 1000")

    def add_tasks(self):
        for count in COUNTS:
            self.put(f"tasks{count}.ste", tasks(count))
            check = f"check inverter.blif tasks{count}.ste --steps 100 --nodes"
            self.add("tasks", f"{check} --workers 1")
            self.add("four workers", f"{check} --workers 4")

    def add_refusals(self):
        for name, text in NETS.items():
            self.put(f"net-{name}.blif", text)
            self.add("refused netlist", f"check net-{name}.blif inverter.ste")
        for name, text in TASKS.items():
            self.put(f"tasks-{name}.ste", text)
            self.add("refused tasks", f"check inverter.blif tasks-{name}.ste")
        for name, text in INPUTS.items():
            self.put(f"inputs-{name}.in", text)
            self.add("refused inputs", f"sim inverter.blif inputs-{name}.in")
        self.add("refused netlist", "info net-loop.blif", "sim net-row.blif none.in", "check none.in inverter.ste")
        self.add("refused tasks", "check inverter.blif tasks40.ste --steps 1000000")
        self.add("refused words", *USAGES)
        self.add("missing file", *MISSING)


# Checks that are tried on one processor, with more workers than it can run at a time.
MANY_WORKERS = [
    Case(f"{workers} workers on one processor", f"check {check} --workers {workers}")
    for workers in (4, 64)
    for check in (
        "inverter.blif tasks2.ste --steps 100",
        "inverter.blif tasks12.ste --steps 100",
        "inverter.blif tasks64.ste --steps 100 --nodes",
        "multiplexer.blif multiplexer.ste --steps 20000",
    )
]
