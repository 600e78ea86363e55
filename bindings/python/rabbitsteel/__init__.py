"""Calls of the proved relation engine, in Python's own types.

A book holds rules over links. The engine reads a book, checks that its rules have a regular order and how deep it is,
builds tables, answers whether a chain of links is derived from a role, writes down how, and checks such a derivation.
It answers whether a chain binds a role, in every finite network that obeys the rules, or gives one where it does not.
A role byte is twice the name, plus 1 for the inverse; `role` and `inverse` make them. What is refused raises `Refused`.

    >>> import rabbitsteel
    >>> part, sits, let, due = map(rabbitsteel.role, range(4))
    >>> hall = b"RLB" + bytes([1, 0, 4, 3, 0, part, 2, part, part, sits, 2, part, sits, due, 2, sits, let])
    >>> rabbitsteel.order(hall)
    Order(names=4, rules=3, depth=3, levels=(1, 2, 1, 3))
    >>> tables = rabbitsteel.Tables.of(hall)
    >>> tables.ask(due, [part, part, sits, let]), tables.ask(due, [sits, part, let])
    (True, False)
    >>> rabbitsteel.write_derivation(hall, due, [part, sits, let]).steps
    (Step(place=0, rule=2, inverse=False), Step(place=0, rule=1, inverse=False))
    >>> bool(rabbitsteel.binds(hall, due, [part, sits, let]))
    True
    >>> list(rabbitsteel.binds(hall, due, [sits, part, let]).network)
    [Link(name=0, start=1, end=2), Link(name=1, start=0, end=1), Link(name=2, start=2, end=3)]
    >>> tables.ask(due, [])
    Traceback (most recent call last):
    rabbitsteel.refusal.Refused: refused 13: the chain has 0 or over 1,024 links

The calls are those of `librabbitsteel.a`; `archive` says where it is looked for.
"""

from .archive import NoArchive
from .books import Header, Order, order, read
from .derivations import Derivation, Step, check_derivation, write_derivation
from .limits import (
    BINDS_MAX,
    BOOK_MAX,
    CHAIN_MAX,
    DERIVED_MAX,
    MOVES_LEN,
    MOVES_MAX,
    NAMES_MAX,
    NETWORK_LEN,
    RULES_MAX,
    SILENT,
    STATES_MAX,
    STEPS_LEN,
    STEPS_MAX,
)
from .networks import Binding, Link, Network, binds
from .refusal import Cause, Refused
from .roles import inverse, role
from .tables import Tables, ask, derived

__all__ = [
    "BINDS_MAX",
    "BOOK_MAX",
    "CHAIN_MAX",
    "DERIVED_MAX",
    "MOVES_LEN",
    "MOVES_MAX",
    "NAMES_MAX",
    "NETWORK_LEN",
    "RULES_MAX",
    "SILENT",
    "STATES_MAX",
    "STEPS_LEN",
    "STEPS_MAX",
    "Binding",
    "Cause",
    "Derivation",
    "Header",
    "Link",
    "Network",
    "NoArchive",
    "Order",
    "Refused",
    "Step",
    "Tables",
    "ask",
    "binds",
    "check_derivation",
    "derived",
    "inverse",
    "order",
    "read",
    "role",
    "write_derivation",
]
