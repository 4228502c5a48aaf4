"""Tries checks on several machines, or processes that stand in for them, with engines that this package does not bring:

    /usr/bin/python3 python/tests/try_clusters.py [PROGRAM]

It wants Dask and MPI for this Python (on Debian: python3-distributed, python3-mpi4py and openmpi-bin), which no other test does;
so it is run by hand, before a release. What it tries:

    parts       random files with several tasks: the reports of two and more parts, put together, are that of the file, whose
                bytes the program wrote by itself; with executors of threads and processes too. In half of the files tasks
                have few steps: there they are the same but for budgets
    dask        a scheduler and two workers on the loopback; once a worker is killed by force in the middle
    mpi         three processes under mpiexec
    folder      parts that are run by commands of their own, as a batch queue does, two of them at a time

Each line has what was tried and the seconds; the status is 1 where something differs.
"""
from __future__ import annotations

import contextlib
import os
import random
import signal
import subprocess
import sys
import tempfile
import time
from collections import Counter
from concurrent.futures import Executor, ProcessPoolExecutor, ThreadPoolExecutor
from pathlib import Path
from typing import Any, Callable, Iterator, List, Optional, Tuple

TOP = Path(__file__).resolve().parents[2]
sys.path.insert(0, str(TOP / "python"))

from stework import Plan, Progress, Tasks, Verdict, check, read_report  # noqa: E402
from tests.support import random_tasks  # noqa: E402

PROGRAM = os.path.abspath(sys.argv[1] if len(sys.argv) > 1 else TOP / "crates" / "stework" / "out" / "stework")
ENVIRONMENT = {**os.environ, "PYTHONPATH": str(TOP / "python")}
NETS = [str(TOP / "examples" / f"{name}.blif") for name in ("ram", "fifo", "arbiter", "pipeline")]
STEPS = 100_000


def report_on_file(net: str, tasks: Tasks, folder: Path, steps: int = STEPS) -> str:
    """What the program writes on all tasks in one file."""
    path = folder / "whole.ste"
    path.write_bytes(tasks.text().encode("utf-8", "surrogateescape"))
    words = [PROGRAM, "check", "--workers=1", f"--steps={steps}", "--cubes=8", "--wave", "--", net, str(path)]
    done = subprocess.run(words, stdout=subprocess.PIPE, stderr=subprocess.PIPE, check=False)
    assert done.returncode in (0, 1) and not done.stderr, done
    return done.stdout.decode("utf-8", "surrogateescape")


def same(found: str, wanted: str, what: str) -> None:
    """They are the same bytes, on each task once."""
    names = [result.name for result in read_report(found)[0]]
    if len(set(names)) != len(names):
        raise AssertionError(f"{what}: a task twice")
    if found != wanted:
        raise AssertionError(f"{what}: another report")


def same_but_for_budgets(found: str, wanted: str, what: str) -> None:
    """They are on the same tasks, and what is told of each is the same, or one of both says budget."""
    ones, others = read_report(found)[0], read_report(wanted)[0]
    if [one.name for one in ones] != [other.name for other in others]:
        raise AssertionError(f"{what}: other tasks")
    for one, other in zip(ones, others):
        if one.text != other.text and Verdict.BUDGET not in (one.verdict, other.verdict):
            raise AssertionError(f"{what}: another report on {one.name}")


def options(**more: Any) -> Any:
    return {"workers": 1, "steps": STEPS, "wave": True, "program": PROGRAM, "timeout": 300, **more}


def try_parts(folder: Path) -> str:
    rng = random.Random(1)
    verdicts: Counter[str] = Counter()
    with ThreadPoolExecutor(2) as threads, ProcessPoolExecutor(2) as processes:
        executors: List[Optional[Executor]] = [None, threads, processes]
        for number in range(300):
            net = rng.choice(NETS)
            tasks = random_tasks(rng, net, rng.randint(2, 6))
            steps, is_so = rng.choice([(STEPS, same), (rng.randint(1, 60), same_but_for_budgets)])
            whole = report_on_file(net, tasks, folder, steps)
            parts = rng.randint(2, len(tasks.tasks))
            found = check(net, tasks, **options(executor=executors[number % 3], parts=parts, steps=steps))
            is_so(found.text, whole, f"file {number} in {parts} parts")
            verdicts.update(result.verdict.value for result in found.values())
    return "300 files, the same: " + ", ".join(f"{count} {verdict}" for verdict, count in sorted(verdicts.items()))


@contextlib.contextmanager
def started(words: List[str], folder: Path, **more: Any) -> Iterator["subprocess.Popen[bytes]"]:
    """A command that goes on beside this one, and is ended at the end."""
    with open(folder / f"{Path(words[2]).name}-log", "ab") as log, \
            subprocess.Popen(words, cwd=folder, env=ENVIRONMENT, stdout=log, stderr=log, **more) as process:
        try:
            yield process
        finally:
            if process.poll() is None:
                process.kill()


def slow_program(folder: Path) -> str:
    """The program, behind a wait of a third of a second, so that there is a middle in which a worker can be killed."""
    path = folder / "slow"
    path.write_text(f"#!/bin/sh\nsleep 0.3\nexec {PROGRAM} \"$@\"\n")
    path.chmod(0o755)
    return str(path)


def try_dask(folder: Path) -> str:
    import distributed
    tasks = random_tasks(random.Random(2), NETS[1], 24)
    whole = report_on_file(NETS[1], tasks, folder)
    address = folder / "scheduler.json"
    command = [sys.executable, "-m"]
    words = ["--host", "127.0.0.1", "--port", "0", "--no-dashboard", "--scheduler-file", str(address)]
    worker = [*command, "distributed.cli.dask_worker", "--scheduler-file", str(address), "--nthreads", "1", "--no-nanny",
              "--no-dashboard", "--host", "127.0.0.1"]
    with started([*command, "distributed.cli.dask_scheduler", *words], folder), started(worker, folder) as first, \
            started(worker, folder), distributed.Client(scheduler_file=str(address), timeout=60) as client:
        client.wait_for_workers(2)
        same(check(NETS[1], tasks, **options(executor=client.get_executor(), parts=24)).text, whole, "Dask")
        seen: List[Progress] = []

        def kill_one(progress: Progress) -> None:
            seen.append(progress)
            if progress.done == 5:
                os.kill(first.pid, signal.SIGKILL)

        found = check(NETS[1], tasks, **options(executor=client.get_executor(), parts=24, program=slow_program(folder), progress=kill_one))
        same(found.text, whole, "Dask with a worker killed")
        if [progress.done for progress in seen] != list(range(1, 25)) or first.wait() != -signal.SIGKILL:
            raise AssertionError("Dask: a part was lost or counted twice, or no worker was killed")
        left = len(client.scheduler_info()["workers"])
    return f"Dask {distributed.__version__}: 24 tasks in 24 parts, the same; one of two workers killed behind part 5, the same by {left}"


def by_mpi() -> None:
    """The main program of the run under mpiexec."""
    from mpi4py.futures import MPIPoolExecutor
    net, text, parts = NETS[0], Path("whole").read_bytes().decode("utf-8", "surrogateescape"), 9
    tasks = random_tasks(random.Random(3), net, parts)
    with MPIPoolExecutor() as executor:
        same(check(net, tasks, **options(executor=executor, parts=parts)).text, text, "MPI")
        print(len(set(executor.map(_process, range(50), unordered=True))))


def _process(number: int) -> int:
    time.sleep(0.01)
    return os.getpid()


def try_mpi(folder: Path) -> str:
    import mpi4py
    (folder / "whole").write_bytes(report_on_file(NETS[0], random_tasks(random.Random(3), NETS[0], 9), folder).encode("utf-8", "surrogateescape"))
    words = ["mpiexec", "--allow-run-as-root", "--oversubscribe", "-n", "3", sys.executable, "-m", "mpi4py.futures", __file__, PROGRAM, "mpi"]
    done = subprocess.run(words, cwd=folder, env=ENVIRONMENT, stdout=subprocess.PIPE, stderr=subprocess.PIPE, timeout=300, check=False)
    if done.returncode:
        raise AssertionError(f"MPI: {done.stderr.decode()[-2000:]}")
    return f"mpi4py {mpi4py.__version__}: 9 tasks in 9 parts under mpiexec -n 3, the same, by {done.stdout.decode().strip()} processes"


def try_folder(folder: Path) -> str:
    tasks = random_tasks(random.Random(4), NETS[2], 10)
    plan = Plan(NETS[2], tasks, **options(parts=5))
    paths = plan.save(folder / "parts")
    running = [subprocess.Popen([sys.executable, "-m", "stework", "part", *map(str, paths[k::2])], env=ENVIRONMENT, stdout=subprocess.DEVNULL)
               for k in range(2)]
    if any(process.wait() for process in running):
        raise AssertionError("a command failed")
    same(plan.collect(folder / "parts").text, report_on_file(NETS[2], tasks, folder), "parts in a folder")
    return f"10 tasks in {len(paths)} parts, run by 2 commands, the same"


def main() -> int:
    failed = 0
    tries: List[Tuple[str, Callable[[Path], str]]] = [("parts", try_parts), ("dask", try_dask), ("mpi", try_mpi), ("folder", try_folder)]
    for name, trial in tries:
        start = time.monotonic()
        with tempfile.TemporaryDirectory(prefix="clusters-") as folder:
            try:
                told = trial(Path(folder))
            except Exception as e:
                failed, told = 1, f"FAILED: {type(e).__name__}: {e}"
        print(f"{name}: {told}: {time.monotonic() - start:.0f} s", flush=True)
    return failed


if __name__ == "__main__":
    sys.exit(by_mpi() if sys.argv[2:] == ["mpi"] else main())
