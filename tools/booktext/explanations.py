"""Why a chain binds a role or does not: its derivation, or that of a walk along it, or a network without the link."""

from collections.abc import Sequence
from typing import NamedTuple

from . import derivations, networks, walks
from .causes import Refusal
from .file_format import role_bytes
from .library import called, rabbitsteel
from .model import Book
from .networks import NamedNetwork
from .questions import Question


class Explained(NamedTuple):
    """An answer (yes, no or a refusal), lines that say why, and the network behind a no."""

    answer: str | Refusal
    lines: Sequence[str] = ()
    network: NamedNetwork | None = None


def explain(data: bytes, book: Book, question: Question) -> Explained:
    """Asks whether the chain binds the role, and for what shows it."""
    (role,), chain = role_bytes(book.names, (question.role,)), role_bytes(book.names, question.chain)
    binding = called(rabbitsteel.binds, data, role, chain)
    if isinstance(binding, Refusal):
        return Explained(binding)
    if binding.network:
        network = networks.named(question, book.names, binding.network)
        return Explained("no", networks.lines(network), network)
    steps = derivations.derivation(data, role, chain)
    if isinstance(steps, Refusal):
        return Explained(steps)
    if steps is None:
        return Explained("yes", to_and_fro(data, book, question, role, chain))
    return Explained("yes", derivations.lines(book, question.role, steps))


def to_and_fro(data: bytes, book: Book, question: Question, role: int, chain: bytes) -> list[str]:
    """Of a chain that binds and is not derived: the derivation of a walk along it, where one is found."""
    walk = walks.shortest(data, role, chain)
    steps = derivations.derivation(data, role, walk.chain) if walk else None
    if walk is None or steps is None or isinstance(steps, Refusal):
        return [f"binds, not derived: {question.role} links its ends in every network that obeys the rules"]
    places = " ".join(map(str, walk.places))
    derived = derivations.lines(book, question.role, steps)
    return [f"binds, not derived: a walk to and fro along it is, over places {places}", *derived]
