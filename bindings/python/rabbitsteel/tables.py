"""The tables of a book, and questions to them."""

from collections.abc import Iterable
from dataclasses import dataclass

from .books import read
from .calls import call, data, lent_words, question, words
from .limits import MOVES_LEN, NAMES_MAX


@dataclass(frozen=True)
class Tables:
    """The automata of a book: a head to a name, and moves as from, label and to, in one row."""

    heads: tuple[int, ...]
    moves: tuple[int, ...]
    states: int
    depth: int

    @staticmethod
    def of(book: bytes) -> "Tables":
        """Builds the tables of a book: causes 1 to 10."""
        heads, moves = lent_words(NAMES_MAX), lent_words(MOVES_LEN)
        states, count, depth = call("build", data(book), heads, moves)
        return Tables(tuple(heads[: read(book).names]), tuple(moves[: 3 * count]), states, depth)

    def ask(self, role: int, chain: Iterable[int]) -> bool:
        """Whether the chain is derived from the role: causes 13 and 14."""
        return ask(self.heads, self.moves, role, chain)


def ask(heads: Iterable[int], moves: Iterable[int], role: int, chain: Iterable[int]) -> bool:
    """Whether some path from the name's head to head + 1 spells the chain, silent moves free: causes 12 to 14."""
    (answer,) = call("ask", words(heads), words(moves), *question(role, chain))
    return answer == 1


def derived(book: bytes, role: int, chain: Iterable[int]) -> bool:
    """Builds the tables of a book and asks them: causes 1 to 10, then 13 and 14. Build once and ask often instead."""
    (answer,) = call("derived", data(book), lent_words(NAMES_MAX), lent_words(MOVES_LEN), *question(role, chain))
    return answer == 1
