"""Runs the proved program on a book and questions, and takes its lines apart."""

import os
import re
import subprocess
import tempfile
from collections.abc import Sequence
from pathlib import Path
from typing import NamedTuple

from .causes import Refusal
from .faults import Fault

VARIABLE = "RABBITSTEEL_ENGINE"
BUILT = Path(__file__).resolve().parents[2] / "target" / "bin" / "engine"

SIZES = r"(?P<states>\d+) (?P<moves>\d+) (?P<depth>\d+)"
FIRST_LINE = re.compile(rf"book (?:{SIZES}|refused (?P<cause>1[0-4]|[1-9]) (?P<value>\d+))")
ANSWER_LINE = re.compile(r"(?P<number>\d+) (?:(?P<word>yes|no)|refused (?P<cause>1[0-5]|[1-9]))")


class Transcript(NamedTuple):
    """What was said: a book refused, or its sizes and depth, and an answer (yes, no or a refusal) a question."""

    refusal: Refusal | None
    states: int
    moves: int
    depth: int
    answers: list[str | Refusal]

    def all_answered(self) -> bool:
        return not self.refusal and not any(isinstance(answer, Refusal) for answer in self.answers)


def find(option: str | None) -> Path:
    """Where the program is: the option, else the environment, else where tools/answers builds it."""
    path = Path(option or os.environ.get(VARIABLE) or BUILT).resolve()
    if not path.is_file():
        raise Fault(f"{path}: no engine here; build it with `tools/answers`, or name it with --engine or {VARIABLE}")
    return path


def ask(engine: Path, book: bytes, questions: Sequence[bytes]) -> Transcript:
    """One run in a folder of its own."""
    with tempfile.TemporaryDirectory() as folder:
        Path(folder, "book.rlb").write_bytes(book)
        run = subprocess.run([engine], cwd=folder, input=b"".join(questions), stdout=subprocess.PIPE, check=False)
    return read_transcript(engine, run.stdout.decode(errors="replace").splitlines(), len(questions))


def read_transcript(engine: Path, lines: list[str], count: int) -> Transcript:
    """The lines taken apart. Any other output is no answer, so it is a fault."""
    first = FIRST_LINE.fullmatch(lines[0]) if lines else None
    if first and first["cause"] and len(lines) == 1:
        return Transcript(Refusal(int(first["cause"]), int(first["value"])), 0, 0, 0, [])
    answers = [ANSWER_LINE.fullmatch(line) for line in lines[1:]]
    numbers = [answer and int(answer["number"]) for answer in answers]
    if not first or first["cause"] or numbers != list(range(count)):
        raise Fault(f"{engine}: its output is not an engine's: {lines[:1] + lines[-1:]}")
    said = [answer["word"] or Refusal(int(answer["cause"])) for answer in answers if answer]
    return Transcript(None, int(first["states"]), int(first["moves"]), int(first["depth"]), said)
