"""A text with its file name: its lines as words, and places in it as FILE:LINE:COLUMN."""

import re
from bisect import bisect_right
from typing import NamedTuple

from .faults import Fault

ARROW = "->"

# An arrow ends a word without a space too; a name may hold '-' but not '>'.
WORD = re.compile(r"->|(?:(?!->)\S)+")


class Word(NamedTuple):
    """A word and where it begins in the text."""

    text: str
    offset: int


class Source:
    """Lines end at a line feed alone, as editors count them; columns count characters from 1."""

    def __init__(self, file: str, text: str) -> None:
        self.file = file
        self.text = text
        self.starts = [0] + [end.end() for end in re.finditer("\n", text)]

    @staticmethod
    def decoded(file: str, data: bytes) -> "Source":
        """The text in a file's bytes, which are UTF-8; a byte order mark is no part of it."""
        try:
            return Source(file, data.decode().removeprefix("\ufeff"))
        except UnicodeDecodeError as error:
            front = Source.decoded(file, data[: error.start])
            raise front.fault(len(front.text), "this is not UTF-8 text") from None

    def fault(self, offset: int, message: str) -> Fault:
        """A fault at a place of this text."""
        line = bisect_right(self.starts, offset)
        column = offset - self.starts[line - 1] + 1
        return Fault(f"{self.file}:{line}:{column}: {message}")

    def lines(self) -> list[list[Word]]:
        """The words of each line that has any; '#' begins a comment."""
        lines = []
        for start, line in zip(self.starts, self.text.split("\n")):
            words = WORD.finditer(line.partition("#")[0])
            lines.append([Word(word[0], start + word.start()) for word in words])
        return [line for line in lines if line]
