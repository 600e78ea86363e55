"""Roles as words, in rules and in questions: `part`, or `inv part` for the inverse."""

from collections.abc import Collection, Iterable
from typing import NamedTuple

from .model import Role
from .names import INV, trouble
from .source import Source, Word


class Limit(NamedTuple):
    """How many roles may stand somewhere, and what to say of one more."""

    most: int
    message: str


def read_roles(source: Source, words: Iterable[Word], names: Collection[str], limit: Limit) -> tuple[Role, ...]:
    """The roles that the words spell, from left to right."""
    roles: list[Role] = []
    rest = iter(words)
    for word in rest:
        if len(roles) == limit.most:
            raise source.fault(word.offset, limit.message)
        inverse = word.text == INV
        named = next(rest, word) if inverse else word
        if named.text == INV:
            raise source.fault(word.offset, "no name after 'inv'")
        roles.append(Role(known(source, named, names), inverse))
    return tuple(roles)


def known(source: Source, word: Word, names: Collection[str]) -> str:
    """The word, if it is one of the names."""
    if word.text in names:
        return word.text
    reason = trouble(word.text)
    if reason:
        raise source.fault(word.offset, f"{word.text!r} is no name: {reason}")
    raise source.fault(word.offset, f"unknown name {word.text!r}")
