"""What a name is, and the names of a book that has none of its own."""

import re

INV = "inv"  # stands before a name for the inverse, so it is reserved

NAME = re.compile(r"[A-Za-z_][A-Za-z0-9_.:-]*")
FOREIGN = re.compile(r"[^A-Za-z0-9_.:-]")


def trouble(word: str) -> str | None:
    """Why a word cannot be a name; None where it can."""
    if word == INV:
        return "'inv' is reserved"
    foreign = FOREIGN.search(word)
    if foreign:
        return f"{foreign[0]!r} cannot stand in a name"
    if not NAME.fullmatch(word):
        return "a name starts with a letter or '_'"
    return None


def generated(count: int) -> tuple[str, ...]:
    """r0, r1 and so on: book.rlb holds numbers alone."""
    return tuple(f"r{number}" for number in range(count))
