"""An ontology document in OWL functional-style syntax as a book: its object properties and its role axioms."""

from collections.abc import Sequence
from itertools import takewhile

from .faults import Faults
from .model import MOST_NAMES, MOST_RULES, Book, Rule
from .owl_axioms import Unheld, plain_parts, property_of, rules_of
from .owl_iris import Iris
from .owl_terms import ANNOTATION_AXIOMS, OTHER_ENTITIES
from .owl_tree import Node, read_tree
from .source import Source, Word


class Gathered:
    """What a document says, in its order: properties and rules over IRIs, and what a book cannot hold."""

    def __init__(self, source: Source) -> None:
        self.source = source
        self.iris = Iris(source)
        self.properties: dict[str, None] = {}
        self.rules: list[Rule] = []
        self.places: list[int] = []  # of each rule's axiom
        self.unheld: list[str] = []

    def take(self, part: Node | Word) -> None:
        """Takes up one part of the ontology: an axiom, or an annotation, which is passed over."""
        if isinstance(part, Word):
            raise self.source.fault(part.offset, f"{part.text!r} stands where an axiom should be")
        if part.keyword == "Annotation" or part.keyword in ANNOTATION_AXIOMS:
            return
        try:
            self.take_axiom(part)
        except Unheld as unheld:
            self.unheld += self.source.fault(unheld.offset, f"a book cannot hold {unheld.what}").messages

    def take_axiom(self, axiom: Node) -> None:
        if axiom.keyword == "Declaration":
            self.take_declaration(axiom)
            return
        for rule in rules_of(axiom, self.iris):
            self.rules.append(rule)
            self.places.append(axiom.offset)
            self.properties |= dict.fromkeys(role.name for role in (*rule.left, rule.right))

    def take_declaration(self, axiom: Node) -> None:
        """Object properties become names; annotation properties say nothing about roles."""
        (entity,) = plain_parts(axiom, self.iris, 1)
        kind = entity.keyword if isinstance(entity, Node) else entity.text
        if kind in OTHER_ENTITIES:
            raise Unheld(axiom.offset, f"Declaration of a {kind}")
        if not isinstance(entity, Node) or kind not in ("ObjectProperty", "AnnotationProperty"):
            raise self.source.fault(entity.offset, f"{kind!r} cannot be declared")
        (part,) = plain_parts(entity, self.iris, 1)
        if kind == "ObjectProperty":
            self.properties[property_of(part, self.iris)] = None


def gather(source: Source) -> Gathered:
    """Reads prefixes and then the one ontology; the ontology's IRI and version come before its axioms."""
    gathered = Gathered(source)
    document = read_tree(source)
    for part in document[:-1]:
        if not isinstance(part, Node) or part.keyword != "Prefix":
            raise source.fault(part.offset, "only Prefix( .. ) may stand before Ontology( .. ), and nothing after it")
        gathered.iris.declare(part)
    ontology = document[-1] if document else None
    if not isinstance(ontology, Node) or ontology.keyword != "Ontology":
        raise source.fault(ontology.offset if ontology else 0, "no Ontology( .. )")
    faults = Faults()
    for part in after_header(ontology, gathered.iris):
        with faults:
            gathered.take(part)
    faults.settle()
    return gathered


def after_header(ontology: Node, iris: Iris) -> list[Node | Word]:
    """The parts after the ontology's IRI and version IRI, either of which may be missing."""
    header = list(takewhile(lambda part: isinstance(part, Word), ontology.parts[:2]))
    for part in header:
        iris.expand(part)
    return ontology.parts[len(header) :]


def book_of(gathered: Gathered) -> Book:
    """The book, with a name for each IRI."""
    source, iris = gathered.source, gathered.iris
    properties = tuple(gathered.properties)
    if not properties:
        raise source.fault(0, "no object property, and a book has at least one name")
    if len(properties) > MOST_NAMES:
        raise source.fault(iris.first[properties[MOST_NAMES]], f"more than {MOST_NAMES} object properties")
    if len(gathered.rules) > MOST_RULES:
        raise source.fault(gathered.places[MOST_RULES], f"more than {MOST_RULES} rules")
    return Book(properties, tuple(gathered.rules)).renamed(names_of(properties, iris))


def names_of(properties: Sequence[str], iris: Iris) -> list[str]:
    """A name for each IRI; IRIs that would share one are refused."""
    owners: dict[str, str] = {}
    faults = Faults()
    for iri in properties:
        with faults:
            owner = owners.setdefault(iris.name(iri), iri)
            if owner != iri:
                raise iris.source.fault(iris.first[iri], f"<{owner}> and <{iri}> give the same name")
    faults.settle()
    return list(owners)
