"""A walk to and fro along a chain, where the walk is derived and the chain is not: a search in the book's tables.

The search is not proved. What it finds is a chain like any other, and its derivation is checked before it is shown.
"""

from collections import deque
from typing import NamedTuple

from .causes import Refusal
from .library import called, rabbitsteel

Node = tuple[int, int]  # a state of the tables and a place of the chain


class Walk(NamedTuple):
    """The places that it goes through, and the chain that it spells."""

    places: tuple[int, ...]
    chain: bytes


def shortest(data: bytes, role: int, chain: bytes) -> Walk | None:
    """The shortest walk from the first place to the last that the role derives; none where the book has no tables."""
    tables = called(rabbitsteel.Tables.of, data)
    if isinstance(tables, Refusal):
        return None
    # The tables have paths for names alone, so the walk of an inverse is looked for backwards.
    ends = (0, len(chain)) if role % 2 == 0 else (len(chain), 0)
    places = search(tables, tables.heads[role // 2], chain, *ends)
    if places is None:
        return None
    if role % 2 == 1:
        places.reverse()
    links = (chain[here] if here < there else chain[there] ^ 1 for here, there in zip(places, places[1:]))
    return Walk(tuple(places), bytes(links))


def search(tables: rabbitsteel.Tables, head: int, chain: bytes, start: int, end: int) -> list[int] | None:
    """The places of a walk of as few links as can be that spells a path from the head to head + 1."""
    leaving: dict[int, list[tuple[int, int]]] = {}
    for number in range(0, len(tables.moves), 3):
        state, label, to = tables.moves[number : number + 3]
        leaving.setdefault(state, []).append((label, to))
    before: dict[Node, Node | None] = {}
    waiting: deque[tuple[Node, Node | None]] = deque([((head, start), None)])
    while waiting:
        node, last = waiting.popleft()
        if node in before:
            continue
        before[node] = last
        state, place = node
        if node == (head + 1, end):
            return backwards(before, node)
        for label, to in leaving.get(state, ()):
            if label == rabbitsteel.SILENT:
                waiting.appendleft(((to, place), node))
                continue
            if place < len(chain) and label == chain[place]:
                waiting.append(((to, place + 1), node))
            if place > 0 and label == chain[place - 1] ^ 1:
                waiting.append(((to, place - 1), node))
    return None


def backwards(before: dict[Node, Node | None], last: Node) -> list[int]:
    """The places on the way to a node, the first first; a silent move has none."""
    places = [last[1]]
    node: Node | None = last
    while node:
        if node[1] != places[-1]:
            places.append(node[1])
        node = before[node]
    return places[::-1]
