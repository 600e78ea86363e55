"""A book as an ontology document in OWL functional-style syntax."""

import re

from .model import Book, Role, Rule

ONTOLOGY = "http://example.org/book"
NAMESPACE = f"{ONTOLOGY}#"

# An abbreviated name has no colon of its own and does not end in a dot.
ABBREVIATED = re.compile(r"[A-Za-z0-9_.-]*[A-Za-z0-9_-]")


def write(book: Book) -> str:
    """Declarations give the names in order; then an axiom a rule."""
    declarations = [f"Declaration(ObjectProperty({write_iri(name)}))" for name in book.names]
    axioms = [write_axiom(rule) for rule in book.rules]
    lines = [f"Prefix(:=<{NAMESPACE}>)", "", f"Ontology(<{ONTOLOGY}>", *declarations, "", *axioms, ")"]
    return "".join(f"{line}\n" for line in lines)


def write_axiom(rule: Rule) -> str:
    """Transitive and symmetric roles have axioms of their own."""
    left, right = rule
    if left == (right, right):
        return f"TransitiveObjectProperty({write_role(right)})"
    if left == (right.inv(),):
        return f"SymmetricObjectProperty({write_role(right)})"
    return f"SubObjectPropertyOf({write_chain(left)} {write_role(right)})"


def write_chain(roles: tuple[Role, ...]) -> str:
    words = " ".join(map(write_role, roles))
    return words if len(roles) == 1 else f"ObjectPropertyChain({words})"


def write_role(role: Role) -> str:
    return f"ObjectInverseOf({write_iri(role.name)})" if role.inverse else write_iri(role.name)


def write_iri(name: str) -> str:
    return f":{name}" if ABBREVIATED.fullmatch(name) else f"<{NAMESPACE}{name}>"
