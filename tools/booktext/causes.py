"""The causes of refusal, 1 to 17, in words."""

from collections.abc import Sequence
from typing import NamedTuple

from .model import Rule


class Refusal(NamedTuple):
    """A cause and the value beside it."""

    cause: int
    value: int = 0


WORDS = {
    1: "the file has fewer than 8 or more than 2,568 bytes",
    2: "the file does not begin with the mark RLB",
    3: "the version is not 1",
    4: "the names are not 1 to 64, or the rules are more than 256",
    5: "this rule has no role or more than 8 on the left, or is cut short, or bytes follow the last rule",
    6: "this rule has a role whose name the book does not have",
    7: "this rule equals an earlier rule or its mirror",
    8: "the rules up to this one have no regular order",
    9: "the tables have more than 2,048 states",
    10: "the tables have more than 5,120 moves",
    11: "the memory lent for the tables is too short",
    12: "the tables are out of bounds",
    13: "the chain has no link or more than 1,024",
    14: "a role that the book or the tables do not have",
    15: "the chain has more than 16 links",
    16: "the memory lent for the steps or the network is too short",
    17: "the steps are not in fours of bytes, or one is impossible",
}

VALUE_IS_RULE = {5, 6, 7, 8}


def book_words(refusal: Refusal, rules: Sequence[Rule]) -> str:
    """Why a book is refused, with the rule that the value names, if it can be read."""
    cause, value = refusal
    if cause not in VALUE_IS_RULE:
        return WORDS[cause]
    rule = f", {rules[value]}" if value < len(rules) else ""
    return f"{WORDS[cause]}: rule {value}{rule}"
