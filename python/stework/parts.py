"""A part of a check: what one run of the program is given, and what it did. Begin with `run_part`.

A part names its files, and has the hash of each as it was where the check was asked for. So it may be run on another machine
that has them at the same places, and says so where they are other files there.
"""
from __future__ import annotations

import hashlib
import json
import os
import socket
import subprocess
import tempfile
from pathlib import Path
from typing import List, NamedTuple, Optional, Tuple

from .errors import Fault, FileChanged


class File(NamedTuple):
    """A file: its absolute path, and the SHA-256 of its bytes."""
    path: str
    hash: str


class Part(NamedTuple):
    """What one run of the program is given: the program and the netlist, the text of a task file, options, and the seconds that
    it may take (None: any number)."""
    program: File
    net: File
    text: str
    options: Tuple[str, ...]
    timeout: Optional[float]

    def written(self) -> str:
        """The part as a text, of ASCII alone."""
        return json.dumps(self) + "\n"


class Answer(NamedTuple):
    """What the program did: its status (below 0: the number of a signal; None: it was ended, since time was out), and what it
    wrote to its output and its error stream."""
    status: Optional[int]
    out: str
    err: str


def read_part(path: Path) -> Tuple[str, Part]:
    """The text of a part that this file has, and the part. OSError where it cannot be read, and Fault where it is none."""
    try:
        text = path.read_text(encoding="ascii")
        program, net, tasks, options, timeout = json.loads(text)
        return text, Part(File(*program), File(*net), tasks, tuple(options), timeout)
    except (ValueError, TypeError):
        raise Fault(f"{path} is no part of a check") from None


def bytes_of(path: str, doing: str) -> bytes:
    """The bytes of a file. Fault where it cannot be read, with what was to be done: `cannot read NET: ..`."""
    try:
        return Path(path).read_bytes()
    except OSError as e:
        raise Fault(f"cannot {doing} {path}: {e.strerror}") from None


def hash_of(data: bytes) -> str:
    """The SHA-256 of these bytes."""
    return hashlib.sha256(data).hexdigest()


def _bytes_as_asked(file: File, doing: str) -> bytes:
    """The bytes of a file. FileChanged where they are others than those of the hash."""
    data = bytes_of(file.path, doing)
    if hash_of(data) != file.hash:
        raise FileChanged(file.path, socket.gethostname())
    return data


def run_part(part: Part) -> Answer:
    """Run the program once, in a folder of its own. Done again it answers the same, but perhaps for budgets.

    FileChanged where the program or the netlist is another file than the part says, and Fault where one of them cannot be read
    or the program not be run.
    """
    words = [part.program.path, "check", *part.options, "--", "NET", "TASKS"]
    _bytes_as_asked(part.program, "run")
    net = _bytes_as_asked(part.net, "read")
    try:
        with tempfile.TemporaryDirectory(prefix="stework-") as folder:
            room = Path(folder)
            (room / "NET").write_bytes(net)
            (room / "TASKS").write_bytes(part.text.encode("utf-8", "surrogateescape"))
            # Files and not pipes: what a program that was ended leaves running may hold a pipe open.
            with open(room / "out", "wb") as out, open(room / "err", "wb") as err:
                status = subprocess.run(words, cwd=room, stdin=subprocess.DEVNULL, stdout=out, stderr=err,
                                        timeout=part.timeout, check=False).returncode
            texts = [(room / name).read_bytes().decode("utf-8", "surrogateescape") for name in ("out", "err")]
            return Answer(status, *texts)
    except subprocess.TimeoutExpired:
        return Answer(None, "", f"no answer within {part.timeout:g} s")
    except OSError as e:
        raise Fault(f"cannot run {part.program.path}: {e.strerror}") from None


def _path(folder: Path, number: int, kind: str) -> Path:
    return folder / f"{number}.{kind}"


def save_parts(parts: List[Part], folder: Path) -> List[Path]:
    """Write the files 0.part, 1.part, .. into this folder, which is made where it is not there; their paths."""
    folder.mkdir(parents=True, exist_ok=True)
    paths = [_path(folder, number, "part") for number in range(len(parts))]
    for path, part in zip(paths, parts):
        path.write_text(part.written(), encoding="ascii")
    return paths


def answer_file(path: Path) -> Path:
    """Run the part that this file has, and put the answer beside it, whole or not at all; the path of the answer. Errors are
    those of `run_part`."""
    text, part = read_part(path)
    answer = run_part(part)
    target = path.with_suffix(".answer")
    # (another run of this part may write at the same time)
    own = target.with_name(f"{target.name}-{socket.gethostname()}-{os.getpid()}")
    own.write_text(json.dumps([hash_of(text.encode("ascii")), *answer]), encoding="ascii")
    os.replace(own, target)
    return target


def saved_answer(part: Part, folder: Path, number: int) -> Answer:
    """The answer to the part of this number in this folder. Fault where there is none, or one to another part."""
    path = _path(folder, number, "answer")
    data = bytes_of(str(path), "read")
    try:
        asked, *answer = json.loads(data)
        told = Answer(*answer)
    except (ValueError, TypeError):
        raise Fault(f"{path} is no answer to a part") from None
    if asked != hash_of(part.written().encode("ascii")):
        raise Fault(f"{path} is the answer to another part")
    return told
