"""Questions, one a line: `ROLE: CHAIN`, such as `due: part part sits let` or `inv due: inv let inv sits`."""

from typing import NamedTuple

from .faults import Faults
from .file_format import role_bytes, two_bytes
from .model import Role, chain_words
from .names import INV
from .role_words import Limit, read_roles
from .source import Source, Word

ASKED = Limit(1, "more than one role before ':'")
CHAIN = Limit(65535, "more than 65,535 links")  # what two bytes can count; the engine judges any shorter chain


class Question(NamedTuple):
    """Does the chain bind the role? Or, where that is asked, is it derived from the role?"""

    role: Role
    chain: tuple[Role, ...]

    def __str__(self) -> str:
        return f"{self.role}: {chain_words(self.chain) or '(no link)'}"

    def encoded(self, names: tuple[str, ...]) -> bytes:
        """Role byte, chain length, chain."""
        return role_bytes(names, (self.role,)) + two_bytes(len(self.chain)) + role_bytes(names, self.chain)


def read_questions(source: Source, names: tuple[str, ...]) -> tuple[list[Question], Faults]:
    """The questions that can be put, and what is wrong with the other lines."""
    questions: list[Question] = []
    faults = Faults()
    for line in source.lines():
        with faults:
            questions.append(read_question(source, line, names))
    return questions, faults


def read_question(source: Source, line: list[Word], names: tuple[str, ...]) -> Question:
    """The colon ends the asked role's last word; names may have colons of their own, so only that one is taken off."""
    length = 2 if line[0].text == INV and len(line) > 1 else 1
    last = line[length - 1]
    if not last.text.endswith(":"):
        raise source.fault(last.offset, f"no ':' after {last.text!r}: a question is ROLE: CHAIN")
    asked = line[: length - 1] + [Word(last.text[:-1], last.offset)]
    if not asked[-1].text:
        raise source.fault(last.offset, "no role before ':'")
    (role,) = read_roles(source, asked, names, ASKED)
    return Question(role, read_roles(source, line[length:], names, CHAIN))
