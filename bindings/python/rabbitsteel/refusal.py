"""Why an input is refused: the causes, their numbers, words and the value beside each."""

from enum import IntEnum


class Cause(IntEnum):
    """The first cause met, in the order of their numbers, is the whole answer."""

    SIZE = 1
    MARK = 2
    VERSION = 3
    RANGE = 4
    MALFORMED = 5
    UNDECLARED = 6
    REPEATED = 7
    NO_ORDER = 8
    STATES = 9
    MOVES = 10
    SHORT = 11
    TABLES = 12
    CHAIN = 13
    ROLE = 14
    LONG = 15
    BUFFER = 16
    STEP = 17

    @property
    def words(self) -> str:
        return WORDS[self]


WORDS = {
    Cause.SIZE: "the book has fewer than 8 or more than 2,568 bytes",
    Cause.MARK: "the book does not begin with the mark RLB",
    Cause.VERSION: "the version is not 1",
    Cause.RANGE: "the names are not 1 to 64, or the rules over 256",
    Cause.MALFORMED: "a left side of 0 or over 8 roles, a rule cut short, or bytes after the last rule",
    Cause.UNDECLARED: "a role of a name that the book does not have",
    Cause.REPEATED: "a rule equals an earlier rule or its mirror",
    Cause.NO_ORDER: "no regular order",
    Cause.STATES: "the tables have over 2,048 states",
    Cause.MOVES: "the tables have over 5,120 moves",
    Cause.SHORT: "heads or moves lent too short",
    Cause.TABLES: "the tables are out of bounds",
    Cause.CHAIN: "the chain has 0 or over 1,024 links",
    Cause.ROLE: "a role of a name that the book or the tables do not have",
    Cause.LONG: "the chain has over 16 links",
    Cause.BUFFER: "fewer bytes lent than the steps or the network need",
    Cause.STEP: "steps not in fours of bytes, or an impossible step",
}

# What the value beside a cause means, where it is not always 0.
VALUES = {
    Cause.MALFORMED: "at rule {}",
    Cause.UNDECLARED: "in rule {}",
    Cause.REPEATED: "rule {} is the lowest that does",
    Cause.NO_ORDER: "rule {} ends the shortest front part without one",
    Cause.STEP: "step {}",
}


class Refused(Exception):
    """A cause and the value beside it: a rule number for causes 5 to 8, a step's number for 17, else 0."""

    def __init__(self, cause: int, value: int = 0) -> None:
        super().__init__(cause, value)
        self.cause = Cause(cause)
        self.value = value

    @property
    def words(self) -> str:
        """The cause in words, with what the value means."""
        meant = VALUES.get(self.cause)
        return f"{self.cause.words}; {meant.format(self.value)}" if meant else self.cause.words

    def __str__(self) -> str:
        return f"refused {self.cause.value}: {self.words}"
