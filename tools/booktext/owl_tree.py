"""OWL functional-style syntax as a tree: WORD( parts ), where a part is a tree again or a single token."""

import re
from collections.abc import Iterator
from typing import NamedTuple

from .source import Source, Word

# '#' begins a comment only outside of an IRI and a string.
TOKEN = re.compile(r'(?P<blank>\s+|#[^\n]*)|[()=]|<[^<>\s]*>|"(?:[^"\\]|\\.)*"|[^\s()=<>"#]+', re.DOTALL)
KEYWORD = re.compile(r"[A-Za-z]+")


class Node(NamedTuple):
    """A keyword, where it begins, and what stands in its brackets."""

    keyword: str
    offset: int
    parts: list["Node | Word"]


def tokens(source: Source) -> Iterator[Word]:
    place = 0
    while place < len(source.text):
        token = TOKEN.match(source.text, place)
        if not token:
            kind = "string" if source.text[place] == '"' else "IRI"
            raise source.fault(place, f"{source.text[place]!r} without a whole {kind}")
        if not token["blank"]:
            yield Word(token[0], place)
        place = token.end()


def read_tree(source: Source) -> list[Node | Word]:
    """The parts of the whole document. Open brackets are kept on a stack, so nesting may be deep."""
    open_nodes = [Node("", 0, [])]
    for token in tokens(source):
        parts = open_nodes[-1].parts
        if token.text == "(":
            node = opened(source, token, parts)
            parts.append(node)
            open_nodes.append(node)
        elif token.text != ")":
            parts.append(token)
        elif len(open_nodes) == 1:
            raise source.fault(token.offset, "')' without '('")
        else:
            open_nodes.pop()
    if len(open_nodes) > 1:
        raise source.fault(open_nodes[-1].offset, f"{open_nodes[-1].keyword}( without ')'")
    return open_nodes[0].parts


def opened(source: Source, bracket: Word, parts: list[Node | Word]) -> Node:
    """A new node, whose keyword is the token before the bracket."""
    if not parts or isinstance(parts[-1], Node) or not KEYWORD.fullmatch(parts[-1].text):
        raise source.fault(bracket.offset, "no word before '('")
    keyword = parts.pop()
    return Node(keyword.text, keyword.offset, [])
