"""A book in memory: its names in order, and its rules over roles written with those names."""

from collections.abc import Sequence
from typing import NamedTuple

MOST_NAMES = 64
MOST_RULES = 256
MOST_LEFT_ROLES = 8


class Role(NamedTuple):
    """A name, or its inverse."""

    name: str
    inverse: bool = False

    def inv(self) -> "Role":
        return Role(self.name, not self.inverse)

    def __str__(self) -> str:
        return f"inv {self.name}" if self.inverse else self.name


class Rule(NamedTuple):
    """A role inclusion axiom: the chain on the left is included in the role on the right."""

    left: tuple[Role, ...]
    right: Role

    def mirror(self) -> "Rule":
        """The inverse axiom, which says the same."""
        return Rule(tuple(role.inv() for role in reversed(self.left)), self.right.inv())

    def __str__(self) -> str:
        return f"{chain_words(self.left)} -> {self.right}"


class Book(NamedTuple):
    """Names, numbered from 0 by their order, and rules, likewise."""

    names: tuple[str, ...]
    rules: tuple[Rule, ...]

    def renamed(self, names: Sequence[str]) -> "Book":
        """The same book with other names, given in the same order."""
        new = dict(zip(self.names, names, strict=True))

        def rename(role: Role) -> Role:
            return Role(new[role.name], role.inverse)

        rules = (Rule(tuple(map(rename, rule.left)), rename(rule.right)) for rule in self.rules)
        return Book(tuple(names), tuple(rules))


def chain_words(chain: Sequence[Role]) -> str:
    """A chain as it is written in a rule or a question."""
    return " ".join(map(str, chain))
