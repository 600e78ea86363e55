"""A network in names: what the proved archive wrote of a chain that does not bind."""

from typing import NamedTuple

from .library import rabbitsteel
from .questions import Question


class Arrow(NamedTuple):
    """The names that link one place to another, or to itself."""

    start: int
    end: int
    names: tuple[str, ...]


class NamedNetwork(NamedTuple):
    """A question whose chain does not bind, and the links that the rules force on it: pairs of places, by name."""

    question: Question
    links: dict[str, list[tuple[int, int]]]

    @property
    def last(self) -> int:
        """The place where the chain ends; it begins at 0."""
        return len(self.question.chain)

    def own(self) -> list[tuple[int, int, str]]:
        """The chain's links, as places and names: an inverse leads from its later place to its earlier one."""
        chain = enumerate(self.question.chain)
        return [(place + role.inverse, place + (not role.inverse), role.name) for place, role in chain]

    def forced(self) -> list[Arrow]:
        """The other links, by their places."""
        own = set(self.own())
        names: dict[tuple[int, int], list[str]] = {}
        for name, pairs in self.links.items():
            for start, end in pairs:
                if (start, end, name) not in own:
                    names.setdefault((start, end), []).append(name)
        return [Arrow(start, end, tuple(found)) for (start, end), found in sorted(names.items())]


def named(question: Question, names: tuple[str, ...], network: rabbitsteel.Network) -> NamedNetwork:
    """The links by name, in the order of the names; a name without a link is left out."""
    links: dict[str, list[tuple[int, int]]] = {}
    for number, start, end in network:
        links.setdefault(names[number], []).append((start, end))
    return NamedNetwork(question, links)


def lines(network: NamedNetwork) -> list[str]:
    """The chain over its places, then a line a name: 0-1 is a link from place 0 to place 1."""
    question, last = network.question, network.last
    chain = "".join(f" {role} {place}" for place, role in enumerate(question.chain, 1))
    return [
        f"the chain over places: 0{chain}",
        f"these links obey the rules, without {question.role} from 0 to {last}:",
        *(f"  {name}: {', '.join(f'{start}-{end}' for start, end in pairs)}" for name, pairs in network.links.items()),
    ]
