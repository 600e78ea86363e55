"""The text form of a book: lines of names and one rule a line, read and written.

What the engine refuses (repeated rules, no order, too large) is no fault of a text.
"""

import textwrap
from collections.abc import Collection, Sequence

from .faults import Faults
from .model import MOST_LEFT_ROLES, MOST_NAMES, MOST_RULES, Book, Rule
from .names import trouble
from .role_words import Limit, read_roles
from .source import ARROW, Source, Word

NAMES = "names"
LEFT = Limit(MOST_LEFT_ROLES, f"more than {MOST_LEFT_ROLES} roles before '->'")
RIGHT = Limit(1, "more than one role after '->'")


def read(source: Source) -> Book:
    """The book that a text says. A fault tells of each wrong line; wrong names come alone, since rules lean on them."""
    lines = source.lines()
    names = read_names(source, listed_words(source, lines))
    rules = [line for line in lines if not lists_names(line)]
    return Book(names, read_rules(source, rules, names))


def lists_names(line: Sequence[Word]) -> bool:
    """A line with an arrow is a rule even if it begins with `names`, which may be a name too."""
    return line[0].text == NAMES and all(word.text != ARROW for word in line)


def listed_words(source: Source, lines: Sequence[Sequence[Word]]) -> list[Word]:
    """The words after `names`, over all such lines."""
    listed = [line for line in lines if lists_names(line)]
    if not listed:
        raise source.fault(lines[0][0].offset if lines else 0, "no line of names: names NAME ...")
    for line in listed:
        if len(line) == 1:
            raise source.fault(line[0].offset, "no name after 'names'")
    return [word for line in listed for word in line[1:]]


def read_names(source: Source, words: Sequence[Word]) -> tuple[str, ...]:
    """The names that the words list, each once."""
    names: dict[str, None] = {}
    faults = Faults()
    for number, word in enumerate(words[: MOST_NAMES + 1]):
        with faults:
            if number == MOST_NAMES:
                raise source.fault(word.offset, f"more than {MOST_NAMES} names")
            check_new_name(source, word, names)
            names[word.text] = None
    faults.settle()
    return tuple(names)


def check_new_name(source: Source, word: Word, names: Collection[str]) -> None:
    reason = trouble(word.text)
    if reason:
        raise source.fault(word.offset, f"{word.text!r} is no name: {reason}")
    if word.text in names:
        raise source.fault(word.offset, f"name {word.text!r} is repeated")


def read_rules(source: Source, lines: Sequence[list[Word]], names: Collection[str]) -> tuple[Rule, ...]:
    """A rule for each line."""
    rules: list[Rule] = []
    faults = Faults()
    for number, line in enumerate(lines[: MOST_RULES + 1]):
        with faults:
            if number == MOST_RULES:
                raise source.fault(line[0].offset, f"more than {MOST_RULES} rules")
            rules.append(read_rule(source, line, names))
    faults.settle()
    return tuple(rules)


def read_rule(source: Source, line: list[Word], names: Collection[str]) -> Rule:
    arrows = [place for place, word in enumerate(line) if word.text == ARROW]
    if not arrows:
        raise source.fault(line[0].offset, "no '->' in this rule")
    if len(arrows) > 1:
        raise source.fault(line[arrows[1]].offset, "a second '->'")
    arrow = arrows[0]
    left = read_roles(source, line[:arrow], names, LEFT)
    if not left:
        raise source.fault(line[arrow].offset, "no role before '->'")
    right = read_roles(source, line[arrow + 1 :], names, RIGHT)
    if not right:
        raise source.fault(line[arrow].offset, "no role after '->'")
    return Rule(left, right[0])


def write(book: Book) -> str:
    """A text that reads as the book."""
    wrapped = textwrap.wrap(" ".join(book.names), break_long_words=False, break_on_hyphens=False)
    names = "".join(f"{NAMES} {line}\n" for line in wrapped)
    rules = "".join(f"{rule}\n" for rule in book.rules)
    return f"{names}\n{rules}" if rules else names
