"""The IRIs of an ontology document: full or by a prefix, and the name that each gives."""

import re

from .names import trouble
from .owl_terms import STANDARD_PREFIXES
from .owl_tree import Node
from .source import Source, Word

IRI = re.compile(r"<|[A-Za-z0-9_.-]*:")  # how a full one and an abbreviated one begin


class Iris:
    """A document's prefixes, and where each IRI was first met."""

    def __init__(self, source: Source) -> None:
        self.source = source
        self.prefixes: dict[str, str] = {}
        self.first: dict[str, int] = {}

    def declare(self, node: Node) -> None:
        """Takes up Prefix( NAME: = <IRI> )."""
        match node.parts:
            case [Word(prefix, offset), Word("="), Word(iri)] if prefix.endswith(":") and iri.startswith("<"):
                if prefix in self.prefixes:
                    raise self.source.fault(offset, f"prefix {prefix!r} is repeated")
                self.prefixes[prefix] = iri[1:-1]
            case _:
                raise self.source.fault(node.offset, "a prefix is Prefix( NAME: = <IRI> )")

    def expand(self, part: Node | Word) -> str:
        """The full IRI that a token stands for."""
        if isinstance(part, Node) or not IRI.match(part.text):
            shown = part.keyword if isinstance(part, Node) else part.text
            raise self.source.fault(part.offset, f"{shown!r} stands where an IRI should be")
        iri = part.text[1:-1] if part.text.startswith("<") else self.unabbreviated(part)
        self.first.setdefault(iri, part.offset)
        return iri

    def unabbreviated(self, word: Word) -> str:
        prefix, colon, local = word.text.partition(":")
        for known in (self.prefixes, STANDARD_PREFIXES):
            if prefix + colon in known:
                return known[prefix + colon] + local
        raise self.source.fault(word.offset, f"prefix {prefix + colon!r} is not declared")

    def name(self, iri: str) -> str:
        """The last part of the IRI, after '#' or '/', or after ':' where it has neither."""
        name = re.split("[#/]" if re.search("[#/]", iri) else ":", iri)[-1]
        reason = trouble(name) if name else "nothing stands after its last '#' or '/'"
        if reason:
            raise self.source.fault(self.first[iri], f"<{iri}> gives no name: {reason}")
        return name
