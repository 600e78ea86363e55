"""One axiom of OWL as rules over IRIs, if a book can hold it."""

from collections.abc import Callable, Sequence

from .model import MOST_LEFT_ROLES, Role, Rule
from .owl_iris import Iris
from .owl_terms import UNHELD_AXIOMS, UNHELD_PROPERTIES
from .owl_tree import Node
from .source import Word

Part = Node | Word


class Unheld(Exception):
    """What a book cannot hold, and where it stands."""

    def __init__(self, offset: int, what: str) -> None:
        super().__init__(offset, what)
        self.offset = offset
        self.what = what


def rules_of(axiom: Node, iris: Iris) -> list[Rule]:
    """The rules that say the same as the axiom."""
    if axiom.keyword in UNHELD_AXIOMS:
        raise Unheld(axiom.offset, axiom.keyword)
    if axiom.keyword not in READERS:
        raise iris.source.fault(axiom.offset, f"{axiom.keyword!r} is no axiom of OWL")
    return READERS[axiom.keyword](axiom, iris)


def plain_parts(node: Node, iris: Iris, count: int, or_more: bool = False) -> list[Part]:
    """The node's parts without its annotations, when there are as many as there should be."""
    parts = [part for part in node.parts if not (isinstance(part, Node) and part.keyword == "Annotation")]
    if len(parts) < count or (len(parts) > count and not or_more):
        wanted = f"{count} or more" if or_more else f"{count}"
        raise iris.source.fault(node.offset, f"{node.keyword}( .. ) holds {len(parts)} where {wanted} should stand")
    return parts


def property_of(part: Part, iris: Iris) -> str:
    """The IRI of a named object property."""
    iri = iris.expand(part)
    if iri in UNHELD_PROPERTIES:
        raise Unheld(part.offset, UNHELD_PROPERTIES[iri])
    return iri


def role_of(part: Part, iris: Iris) -> Role:
    """A property or ObjectInverseOf( property ); OWL has no inverse of an inverse."""
    if isinstance(part, Node) and part.keyword == "ObjectInverseOf":
        (inner,) = plain_parts(part, iris, 1)
        return Role(property_of(inner, iris), True)
    return Role(property_of(part, iris))


def chain_of(part: Part, iris: Iris) -> tuple[Role, ...]:
    """A role, or ObjectPropertyChain( roles )."""
    if not isinstance(part, Node) or part.keyword != "ObjectPropertyChain":
        return (role_of(part, iris),)
    chain = tuple(role_of(inner, iris) for inner in plain_parts(part, iris, 2, or_more=True))
    if len(chain) > MOST_LEFT_ROLES:
        raise Unheld(part.offset, f"ObjectPropertyChain of {len(chain)} roles, over {MOST_LEFT_ROLES}")
    return chain


def inclusion(axiom: Node, iris: Iris) -> list[Rule]:
    left, right = plain_parts(axiom, iris, 2)
    return [Rule(chain_of(left, iris), role_of(right, iris))]


def transitive(axiom: Node, iris: Iris) -> list[Rule]:
    (part,) = plain_parts(axiom, iris, 1)
    role = role_of(part, iris)
    return [Rule((role, role), role)]


def symmetric(axiom: Node, iris: Iris) -> list[Rule]:
    (part,) = plain_parts(axiom, iris, 1)
    role = role_of(part, iris)
    return [Rule((role.inv(),), role)]


def equivalent(axiom: Node, iris: Iris) -> list[Rule]:
    return circle([role_of(part, iris) for part in plain_parts(axiom, iris, 2, or_more=True)])


def inverses(axiom: Node, iris: Iris) -> list[Rule]:
    first, second = (role_of(part, iris) for part in plain_parts(axiom, iris, 2))
    return circle([first, second.inv()])


def circle(roles: Sequence[Role]) -> list[Rule]:
    """Rules from each role to the next and from the last to the first: all of them mean the same.

    Two names in a circle have no regular order, and the engine says so; an axiom left out would turn a yes into a no
    without a word. A rule that says nothing (R to R) or the same again is not written, so a role that is its own
    inverse has one rule.
    """
    rules: list[Rule] = []
    for left, right in zip(roles, [*roles[1:], roles[0]]):
        rule = Rule((left,), right)
        if left != right and rule not in rules and rule.mirror() not in rules:
            rules.append(rule)
    return rules


READERS: dict[str, Callable[[Node, Iris], list[Rule]]] = {
    "SubObjectPropertyOf": inclusion,
    "TransitiveObjectProperty": transitive,
    "SymmetricObjectProperty": symmetric,
    "EquivalentObjectProperties": equivalent,
    "InverseObjectProperties": inverses,
}
