"""The tasks of fifo.py in pytest, one test for each. A failure shows what is known of it; one with a run leaves a wave."""
import pathlib

import pytest

from stework import Results, Verdict, check, vcd

from fifo import fifo

NET = str(pathlib.Path(__file__).parents[2] / "examples" / "fifo.blif")
TASKS = fifo(NET)


@pytest.fixture(scope="session")
def results() -> Results:
    """All tasks, by one run of the program."""
    return check(NET, TASKS, wave=True, timeout=600)


@pytest.mark.parametrize("name", TASKS.tasks)
def test_task(results: Results, name: str, tmp_path: pathlib.Path) -> None:
    result = results[name]
    if result.verdict is Verdict.PASS and not result.contradictory.cubes:
        return
    message = f"{TASKS.brief(result)}values: {results.assignment(name)}"
    for clause, bit in TASKS.failing(result):
        message += f"\n{clause.origin}: expects {bit}"
    if result.run is not None:
        wave = tmp_path / f"{name}.vcd"
        wave.write_text(vcd(result))
        message += f"\nwave: {wave}"
    pytest.fail(message, pytrace=False)
