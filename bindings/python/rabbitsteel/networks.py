"""Whether a chain binds a role, and a network that shows where it does not."""

from collections.abc import Iterable, Iterator
from dataclasses import dataclass
from typing import NamedTuple

from .calls import call, data, lent_bytes, question
from .limits import NETWORK_LEN


class Link(NamedTuple):
    """A name that links one place to another, or to itself."""

    name: int
    start: int
    end: int


@dataclass(frozen=True)
class Network:
    """A network that obeys the book and holds the chain, from place 0 to the last, without the asked link between them.

    Its links are those that the rules force on the chain alone. The data has a byte, 1 for a link and 0 for none, for
    each name, place from and place to, in this order.
    """

    places: int
    data: bytes

    def links(self, name: int, start: int, end: int) -> bool:
        """Whether the name links the one place to the other. A name or place that there is not is linked to nothing."""
        place = (name * self.places + start) * self.places + end
        within = name >= 0 and start in range(self.places) and end in range(self.places)
        return within and self.data[place : place + 1] == b"\1"

    def __iter__(self) -> Iterator[Link]:
        """All links, by name, then by the place from and by the place to."""
        for place, byte in enumerate(self.data):
            if byte:
                row, end = divmod(place, self.places)
                yield Link(*divmod(row, self.places), end)


@dataclass(frozen=True)
class Binding:
    """True where a chain binds a role; else it has a network in which the role does not link the chain's ends."""

    network: Network | None = None

    def __bool__(self) -> bool:
        return self.network is None


def binds(book: bytes, role: int, chain: Iterable[int]) -> Binding:
    """Whether the chain binds the role: causes 1 to 8 and 13 to 15.

    It does where in every finite network that obeys the book and holds the chain, from one place to another or back to
    itself, the role links the chain's ends. A derived chain binds; not every chain that binds is derived. The book may
    have any number of states.
    """
    given, (asked, links) = data(book), question(role, chain)
    lent = lent_bytes(NETWORK_LEN)
    (answer,) = call("binds", given, asked, links, lent)
    if answer == 1:
        return Binding()
    names, places = given[5], len(links) + 1
    return Binding(Network(places, bytes(lent[: names * places * places])))
