"""Books read, and checked for a regular order."""

from dataclasses import dataclass

from .calls import call, data, lent_bytes
from .limits import NAMES_MAX


@dataclass(frozen=True)
class Header:
    """How many names and rules a book has."""

    names: int
    rules: int


@dataclass(frozen=True)
class Order:
    """What the order check finds: the header, the highest level, and one level to a name.

    The level of a name, and of its inverse, is 1 where none of its rules has an inner role, else 1 more than the
    highest level among its rules' inner names.
    """

    names: int
    rules: int
    depth: int
    levels: tuple[int, ...]


def read(book: bytes) -> Header:
    """Reads a book: causes 1 to 7."""
    return Header(*call("read", data(book)))


def order(book: bytes) -> Order:
    """Reads a book, checks that its rules have a regular order and gives the levels: causes 1 to 8."""
    levels = lent_bytes(NAMES_MAX)
    names, rules, depth = call("order", data(book), levels)
    return Order(names, rules, depth, tuple(levels[:names]))
