"""Derivations, written out step by step and checked."""

from collections.abc import Iterable
from dataclasses import dataclass

from .calls import call, data, lent_bytes, question
from .limits import STEPS_LEN


@dataclass(frozen=True)
class Step:
    """A link of the present chain, by its place from 0, is replaced by the left side of a rule or of its inverse."""

    place: int
    rule: int
    inverse: bool


@dataclass(frozen=True)
class Derivation:
    """Steps from the asked role to the chain, as they were written: place, low byte first, rule, 1 for the inverse."""

    data: bytes

    @property
    def steps(self) -> tuple[Step, ...]:
        fours = (self.data[start : start + 4] for start in range(0, len(self.data), 4))
        return tuple(Step(low + 256 * high, rule, side == 1) for low, high, rule, side in fours)


def write_derivation(book: bytes, role: int, chain: Iterable[int]) -> Derivation | None:
    """A derivation of the chain from the role, or None where it is not derived: causes 1 to 8 and 13 to 15.

    The book may have any number of states. Which of the chain's derivations it is is left open.
    """
    lent = lent_bytes(STEPS_LEN)
    derived, count = call("write_derivation", data(book), *question(role, chain), lent)
    return Derivation(bytes(lent[: 4 * count])) if derived else None


def check_derivation(book: bytes, role: int, chain: Iterable[int], steps: Derivation | bytes) -> bool:
    """Whether steps, of any number, lead from the role to the chain: causes 1 to 8, 13 to 15 and 17."""
    written = steps.data if isinstance(steps, Derivation) else data(steps)
    (answer,) = call("check_derivation", data(book), *question(role, chain), written)
    return answer == 1
