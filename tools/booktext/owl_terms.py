"""Words of OWL 2: the axioms that a book cannot hold, those that say nothing about roles, and reserved IRIs."""

OWL = "http://www.w3.org/2002/07/owl#"

STANDARD_PREFIXES = {
    "owl:": OWL,
    "rdf:": "http://www.w3.org/1999/02/22-rdf-syntax-ns#",
    "rdfs:": "http://www.w3.org/2000/01/rdf-schema#",
    "xsd:": "http://www.w3.org/2001/XMLSchema#",
}

# The universal role and the empty one: a book's names are relations of its own.
UNHELD_PROPERTIES = {
    OWL + "topObjectProperty": "owl:topObjectProperty",
    OWL + "bottomObjectProperty": "owl:bottomObjectProperty",
}

# Annotations have no meaning in the logic, so passing over them loses nothing.
ANNOTATION_AXIOMS = frozenset(
    "AnnotationAssertion SubAnnotationPropertyOf AnnotationPropertyDomain AnnotationPropertyRange".split()
)

OTHER_ENTITIES = frozenset("Class Datatype DataProperty NamedIndividual".split())

# Known by name, so that a misspelt axiom is never passed over as one of these.
UNHELD_AXIOMS = frozenset(
    """
    Import DatatypeDefinition HasKey DLSafeRule
    SubClassOf EquivalentClasses DisjointClasses DisjointUnion
    DisjointObjectProperties ObjectPropertyDomain ObjectPropertyRange
    FunctionalObjectProperty InverseFunctionalObjectProperty
    ReflexiveObjectProperty IrreflexiveObjectProperty AsymmetricObjectProperty
    SubDataPropertyOf EquivalentDataProperties DisjointDataProperties
    DataPropertyDomain DataPropertyRange FunctionalDataProperty
    SameIndividual DifferentIndividuals ClassAssertion
    ObjectPropertyAssertion NegativeObjectPropertyAssertion
    DataPropertyAssertion NegativeDataPropertyAssertion
    """.split()
)
