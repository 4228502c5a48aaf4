"""python3 -m stework vcd REPORT [--out FOLDER]: a wave for each run of a report.
python3 -m stework part FILE ..: run parts of a check that `Plan.save` wrote."""
import argparse
import pathlib
import re
import sys
from typing import Set

from .errors import ReportError, SteworkError
from .parts import answer_file
from .report import read_report
from .vcd import gtkw, vcd


def main() -> int:
    """Status 0, or 2 where a file cannot be read or written, is no report, or a part could not be run."""
    parser = argparse.ArgumentParser(prog="python3 -m stework")
    actions = parser.add_subparsers(dest="action", required=True)
    waves = actions.add_parser(
        "vcd", help="write TASK.vcd for each run of a report, and print its name; TASK.gtkw beside it shows it in GTKWave")
    waves.add_argument("report", metavar="REPORT", help="what `stework check` wrote; - is the standard input")
    waves.add_argument("--out", metavar="FOLDER", default=".", type=pathlib.Path, help="where to write, or else here")
    parts = actions.add_parser("part", help="run parts of a check, and write the answer of each beside it")
    parts.add_argument("parts", metavar="FILE", nargs="+", type=pathlib.Path, help="a file that `Plan.save` wrote")
    words = parser.parse_args()
    try:
        if words.action == "vcd":
            _write_waves(words.report, words.out)
        else:
            for path in words.parts:
                print(answer_file(path))
    except OSError as e:
        print(f"stework {words.action}: {e.filename}: {e.strerror}", file=sys.stderr)
        return 2
    except (ReportError, SteworkError) as e:
        print(f"stework {words.action}: {e}", file=sys.stderr)
        return 2
    return 0


def _write_waves(report: str, out: pathlib.Path) -> None:
    """A VCD file for each run of the report, and what GTKWave shows of it."""
    data = sys.stdin.buffer.read() if report == "-" else pathlib.Path(report).read_bytes()
    results, _ = read_report(data.decode("utf-8", "surrogateescape"))
    taken: Set[str] = set()
    for result in results:
        if result.run is not None:
            path = out / f"{_file_name(result.name, taken)}.vcd"
            path.write_text(vcd(result), encoding="utf-8", errors="surrogateescape")
            shown = gtkw(result, path.name)
            path.with_suffix(".gtkw").write_text(shown, encoding="utf-8", errors="surrogateescape")
            print(path)


def _file_name(task: str, taken: Set[str]) -> str:
    """The task's name with `_` for what a file's name should not have, and a number behind it where that is taken."""
    plain = re.sub(r"[^A-Za-z0-9._-]", "_", task)
    name, number = plain, 2
    while name in taken:
        name, number = f"{plain}-{number}", number + 1
    taken.add(name)
    return name


if __name__ == "__main__":
    sys.exit(main())
