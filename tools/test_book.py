"""Tests of tools/book: the text form, book.rlb, OWL, questions and reasons. Run: python3 tools/test_book.py

Questions are put to the real engine (RABBITSTEEL_ENGINE, else target/bin/engine) and to the real archive
(RABBITSTEEL_LIB_DIR, else target/staticlib); without them those tests fail.
"""

import contextlib
import io
import os
import random
import re
import shlex
import subprocess
import sys
import tempfile
import textwrap
import unittest
import xml.etree.ElementTree as ElementTree
from pathlib import Path
from typing import NamedTuple
from unittest import mock

TOOLS = Path(__file__).resolve().parent
sys.path.insert(0, str(TOOLS))

from booktext import engine, explanations, file_format, owl_reader, owl_writer, text_form, walks  # noqa: E402
from booktext.causes import WORDS, Refusal, book_words  # noqa: E402
from booktext.command_line import main  # noqa: E402
from booktext.commands import answer_words  # noqa: E402
from booktext.faults import Fault  # noqa: E402
from booktext.library import rabbitsteel  # noqa: E402
from booktext.model import Book, Role, Rule  # noqa: E402
from booktext.names import generated, trouble  # noqa: E402
from booktext.questions import Question  # noqa: E402
from booktext.source import Source  # noqa: E402
from rabbitsteel import Refused, archive  # noqa: E402

HALL_TEXT = """\
# The hall book.
names part sits let due

part part -> part   # a part of a part is a part
part sits -> sits
sits let  -> due
"""
HALL_BYTES = bytes.fromhex("524C420100040300 00020000 02020002 06020204")
HALL_BARE = "names part sits let due\n\npart part -> part\npart sits -> sits\nsits let -> due\n"

ENGINE = Path(os.environ.get(engine.VARIABLE) or engine.BUILT).resolve()
NO_ENGINE = f"no engine at {ENGINE}, so no question can be put to it: run `tools/answers` first"

ARCHIVE = Path(os.environ.get(archive.VARIABLE) or archive.REPOSITORY / "target" / "staticlib").resolve()

# What the tool says of each cause.
CAUSES = {
    1: "the file has fewer than 8 or more than 2,568 bytes",
    2: "the file does not begin with the mark RLB",
    3: "the version is not 1",
    4: "the names are not 1 to 64, or the rules are more than 256",
    5: "this rule has no role or more than 8 on the left, or is cut short, or bytes follow the last rule",
    6: "this rule has a role whose name the book does not have",
    7: "this rule equals an earlier rule or its mirror",
    8: "the rules up to this one have no regular order",
    9: "the tables have more than 2,048 states",
    10: "the tables have more than 5,120 moves",
    11: "the memory lent for the tables is too short",
    12: "the tables are out of bounds",
    13: "the chain has no link or more than 1,024",
    14: "a role that the book or the tables do not have",
    15: "the chain has more than 16 links",
    16: "the memory lent for the steps or the network is too short",
    17: "the steps are not in fours of bytes, or one is impossible",
}


class Run(NamedTuple):
    status: int
    output: str
    errors: str


def run(*arguments: str, stdin: str = "") -> Run:
    """Runs the tool in this process."""
    output, errors = io.TextIOWrapper(io.BytesIO(), "utf-8"), io.StringIO()
    given = io.TextIOWrapper(io.BytesIO(stdin.encode()), "utf-8")
    with contextlib.redirect_stdout(output), contextlib.redirect_stderr(errors), mock.patch("sys.stdin", given):
        status = main(list(arguments))
        output.flush()
    return Run(status, output.buffer.getvalue().decode("utf-8", "surrogateescape"), errors.getvalue())


class InFolder(unittest.TestCase):
    """Each test works in an empty folder of its own."""

    def setUp(self) -> None:
        folder = tempfile.TemporaryDirectory()
        self.addCleanup(folder.cleanup)
        self.addCleanup(os.chdir, os.getcwd())
        os.chdir(folder.name)
        named = mock.patch.dict(os.environ, {engine.VARIABLE: str(ENGINE), archive.VARIABLE: str(ARCHIVE)})
        named.start()
        self.addCleanup(named.stop)

    def write(self, file: str, text: str) -> str:
        Path(file).parent.mkdir(exist_ok=True)
        Path(file).write_text(text, encoding="utf-8")
        return file


class WithEngine(InFolder):
    """Each test puts something to the engine."""

    def setUp(self) -> None:
        if not ENGINE.is_file():
            self.fail(NO_ENGINE)
        super().setUp()


# Names that try the form: marks inside and at the end, words of the text form and of OWL.
ODD_NAMES = "_ a-b x. a:b e- due: names inv2 Inv Prefix Ontology A1 _. z-:. owl:topObjectProperty".split()


def random_book(rng: random.Random, most_names: int = 64, most_rules: int = 12) -> Book:
    count = rng.randint(1, most_names)
    names = tuple(rng.sample(ODD_NAMES + [f"n{number}" for number in range(count)], count))

    def role() -> Role:
        return Role(rng.choice(names), rng.random() < 0.4)

    def rule() -> Rule:
        right = role()
        chain = tuple(role() for _ in range(rng.randint(1, 8)))
        return Rule(rng.choice([chain, chain, (right, right), (right.inv(),), (right,)]), right)

    return Book(names, tuple(rule() for _ in range(rng.randint(0, most_rules))))


def random_books(count: int, seed: int) -> list[Book]:
    rng = random.Random(seed)
    return [random_book(rng) for _ in range(count - 1)] + [random_book(rng, 64, 256)]


def read_text(text: str) -> Book:
    return text_form.read(Source("book.txt", text))


def read_owl(text: str) -> Book:
    gathered = owl_reader.gather(Source("o.ofn", text))
    assert not gathered.unheld, gathered.unheld
    return owl_reader.book_of(gathered)


class HallBook(InFolder):
    def test_packs_to_the_bytes_of_the_format(self) -> None:
        self.write("hall/hall.txt", HALL_TEXT)
        self.assertEqual(run("pack", "hall/hall.txt"), (0, "hall/book.rlb: names 4, rules 3, bytes 20\n", ""))
        self.assertEqual(Path("hall/book.rlb").read_bytes(), HALL_BYTES)

    def test_output_file(self) -> None:
        self.write("hall.txt", HALL_TEXT)
        self.assertEqual(run("pack", "hall.txt", "-o", "x.rlb").status, 0)
        self.assertEqual(Path("x.rlb").read_bytes(), HALL_BYTES)
        self.assertFalse(Path("book.rlb").exists())
        self.assertEqual(run("unpack", "x.rlb", "--names", "part,sits,let,due", "-o", "y.txt"), (0, "", ""))
        self.assertEqual(Path("y.txt").read_text(), HALL_BARE)

    def test_standard_input_and_output(self) -> None:
        self.assertEqual(run("pack", "-", "-o", "-", stdin=HALL_TEXT), (0, HALL_BYTES.decode(), ""))
        self.assertEqual(run("unpack", "-", stdin=HALL_BYTES.decode()).status, 0)

    def test_unpacks(self) -> None:
        Path("book.rlb").write_bytes(HALL_BYTES)
        self.assertEqual(run("unpack", "book.rlb", "--names", "part,sits,let,due"), (0, HALL_BARE, ""))
        generic = "names r0 r1 r2 r3\n\nr0 r0 -> r0\nr0 r1 -> r1\nr1 r2 -> r3\n"
        self.assertEqual(run("unpack", "book.rlb"), (0, generic, ""))

    def test_names_option(self) -> None:
        Path("book.rlb").write_bytes(HALL_BYTES)
        for names, message in [
            ("a,b,c", "--names: 3 names for a book that has 4"),
            ("", "--names: 0 names for a book that has 4"),
            ("a,b,a,c", "--names:1:5: name 'a' is repeated"),
            ("a,b,inv,c", "--names:1:5: 'inv' is no name: 'inv' is reserved"),
            ("a,b,c,d/e", "--names:1:7: 'd/e' is no name: '/' cannot stand in a name"),
        ]:
            with self.subTest(names):
                self.assertEqual(run("unpack", "book.rlb", "--names", names), (1, "", message + "\n"))


class TextForm(InFolder):
    def test_spacing_comments_and_line_ends(self) -> None:
        text = "\ufeff# c\r\n\tnames a b-c#d\r\nnames  _ \r\n\r\na inv b-c->inv _ # x -> y\r\ninv a->a"
        rules = (Rule((Role("a"), Role("b-c", True)), Role("_", True)), Rule((Role("a", True),), Role("a")))
        self.assertEqual(text_form.read(Source.decoded("f", text.encode())), Book(("a", "b-c", "_"), rules))

    def test_names_is_a_name_too(self) -> None:
        book = read_text("names names a\nnames a -> names\nnames b\n")
        self.assertEqual(book, Book(("names", "a", "b"), (Rule((Role("names"), Role("a")), Role("names")),)))

    def test_the_engine_judges_rules(self) -> None:
        self.assertEqual(len(read_text("names a b\na -> a\na -> b\na -> b\nb -> a\n").rules), 4)

    def test_limits_are_reached(self) -> None:
        names = " ".join(f"n{number}" for number in range(64))
        book = read_text(f"names {names}\n" + ("n63 " * 8 + "-> inv n0\n") * 256)
        data = file_format.encode(book)
        self.assertEqual((len(book.names), len(book.rules), len(data)), (64, 256, 2568))
        self.assertEqual(file_format.decode(data).renamed(book.names), book)

    def test_random_books(self) -> None:
        for book in random_books(150, seed=1):
            self.assertEqual(read_text(text_form.write(book)), book)

    def test_long_lists_of_names_are_wrapped(self) -> None:
        book = Book(tuple(f"is-a-part-of-{number}" for number in range(63)) + ("x" * 100,), ())
        lines = text_form.write(book).splitlines()
        self.assertEqual(read_text("\n".join(lines)), book)
        self.assertLess(max(map(len, lines[:-1])), 80)


N65 = " ".join(f"n{number}" for number in range(65))

# Text, line, column, message.
WRONG_TEXTS = [
    ("", 1, 1, "no line of names: names NAME ..."),
    ("# only a comment\n\n", 1, 1, "no line of names: names NAME ..."),
    ("\n  a -> a\n", 2, 3, "no line of names: names NAME ..."),
    ("names\n", 1, 1, "no name after 'names'"),
    ("names a\nnames # none\n", 2, 1, "no name after 'names'"),
    ("names a b a\n", 1, 11, "name 'a' is repeated"),
    ("names a b\nnames c a\n", 2, 9, "name 'a' is repeated"),
    ("names a inv\n", 1, 9, "'inv' is no name: 'inv' is reserved"),
    ("names a 3b\n", 1, 9, "'3b' is no name: a name starts with a letter or '_'"),
    ("names a -b\n", 1, 9, "'-b' is no name: a name starts with a letter or '_'"),
    ("names a b/c\n", 1, 9, "'b/c' is no name: '/' cannot stand in a name"),
    ("names a, b\n", 1, 7, "'a,' is no name: ',' cannot stand in a name"),
    ("names a größe\n", 1, 9, "'größe' is no name: 'ö' cannot stand in a name"),
    ("names a\x00b\n", 1, 7, "'a\\x00b' is no name: '\\x00' cannot stand in a name"),
    (f"names {N65}\n", 1, 6 + len(N65) - 2, "more than 64 names"),
    ("names a b\na b\n", 2, 1, "no '->' in this rule"),
    ("names a b\n\n  a b = a\n", 3, 3, "no '->' in this rule"),
    ("names a b\n -> a\n", 2, 2, "no role before '->'"),
    ("names a b\na b -> # a\n", 2, 5, "no role after '->'"),
    ("names a b\na -> a b\n", 2, 8, "more than one role after '->'"),
    ("names a b\na -> a inv b\n", 2, 8, "more than one role after '->'"),
    ("names a b\na -> b -> a\n", 2, 8, "a second '->'"),
    ("names a b\na a a a a a a a a -> b\n", 2, 17, "more than 8 roles before '->'"),
    ("names a b\na a a a a a a a inv a -> b\n", 2, 17, "more than 8 roles before '->'"),
    ("names a b\na c -> b\n", 2, 3, "unknown name 'c'"),
    ("names a b\na b -> inv c\n", 2, 12, "unknown name 'c'"),
    ("names a b\nnames -> a\n", 2, 1, "unknown name 'names'"),
    ("names a b\na inv -> b\n", 2, 3, "no name after 'inv'"),
    ("names a b\ninv inv a -> b\n", 2, 1, "no name after 'inv'"),
    ("names a b\na -> inv\n", 2, 6, "no name after 'inv'"),
    ("names a b\na (b) -> b\n", 2, 3, "'(b)' is no name: '(' cannot stand in a name"),
    ("names a b\na => b -> b\n", 2, 3, "'=>' is no name: '=' cannot stand in a name"),
    ("names a\n" + "a -> a\n" * 257, 258, 1, "more than 256 rules"),
]


class WrongTexts(InFolder):
    def test_each_kind_with_its_place(self) -> None:
        for text, line, column, message in WRONG_TEXTS:
            with self.subTest(text[:40], message=message):
                self.write("b.txt", text)
                self.assertEqual(run("pack", "b.txt"), (1, "", f"b.txt:{line}:{column}: {message}\n"))
                self.assertFalse(Path("book.rlb").exists())

    def test_every_wrong_line_is_told(self) -> None:
        self.write("b.txt", "names a\na\na -> a\nb -> a\n")
        told = "b.txt:2:1: no '->' in this rule\nb.txt:4:1: unknown name 'b'\n"
        self.assertEqual(run("to-owl", "b.txt"), (1, "", told))

    def test_wrong_names_come_alone(self) -> None:
        self.write("b.txt", "names a b/c 3\nb -> a\n")
        told = run("pack", "b.txt").errors.splitlines()
        self.assertEqual([line.split(" ")[0] for line in told], ["b.txt:1:9:", "b.txt:1:13:"])

    def test_not_utf_8(self) -> None:
        Path("b.txt").write_bytes("names a\nö ".encode() + b"\xff -> a\n")
        self.assertEqual(run("pack", "b.txt"), (1, "", "b.txt:2:3: this is not UTF-8 text\n"))

    def test_no_such_file(self) -> None:
        for command in ("pack", "unpack", "from-owl", "to-owl"):
            self.assertEqual(run(command, "none"), (1, "", "none: No such file or directory\n"))


# Bytes that causes 1 to 6 refuse, with the cause and its value.
HEADER = b"RLB\1\0"
DAMAGED = [
    (b"", 1, 0),
    (b"RLB\1\0\1\0", 1, 0),
    (HALL_BYTES + bytes(2549), 1, 0),
    (b"RLC\1\0\1\0\0", 2, 0),
    (b"RLB\2\0\1\0\0", 3, 0),
    (b"RLB\1\1\1\0\0", 3, 0),
    (HEADER + b"\0\0\0", 4, 0),
    (HEADER + b"\x41\0\0", 4, 0),
    (HEADER + b"\1\1\1", 4, 0),
    (HEADER + b"\1\1\0", 5, 0),
    (HEADER + b"\1\1\0\0", 5, 0),
    (HEADER + b"\1\1\0\0\0", 5, 0),
    (HEADER + b"\1\1\0\0\x09" + bytes(9), 5, 0),
    (HEADER + b"\1\2\0\0\1\1\0\2\1", 5, 1),
    (HEADER + b"\1\1\0\0\1\1\0", 5, 1),
    (HEADER + b"\1\0\0\0", 5, 0),
    (HEADER + b"\1\1\0\2\1\0", 6, 0),
    (HEADER + b"\1\2\0\0\1\1\0\1\2", 6, 1),
]


def damage(cause: int, value: int) -> str:
    """The words for damaged bytes: causes 5 and 6 name a rule, of which nothing can be shown."""
    return f"{CAUSES[cause]}: rule {value}" if cause in (5, 6) else CAUSES[cause]


class Causes(unittest.TestCase):
    def test_words(self) -> None:
        self.assertEqual(WORDS, CAUSES)

    def test_the_value_names_a_rule(self) -> None:
        rules = read_text("names a b\na -> b\nb a -> b\n").rules
        for cause, words in CAUSES.items():
            with self.subTest(cause):
                named = ": rule 1, b a -> b" if cause in (5, 6, 7, 8) else ""
                self.assertEqual(book_words(Refusal(cause, 1), rules), words + named)

    def test_refused_questions(self) -> None:
        for cause in (12, 13, 14, 15, 16):
            self.assertEqual(answer_words(Refusal(cause)), f"refused {cause}: {CAUSES[cause]}")


class Bytes(InFolder):
    def test_damaged_bytes(self) -> None:
        for data, cause, value in DAMAGED:
            with self.subTest(data[:20].hex()):
                Path("book.rlb").write_bytes(data)
                told = f"book.rlb: no well-formed book, cause {cause} with {value}: {damage(cause, value)}\n"
                self.assertEqual(run("unpack", "book.rlb"), (1, "", told))

    def test_well_formed_bytes_come_back(self) -> None:
        rng = random.Random(2)
        for _ in range(150):
            names, rules = rng.randint(1, 64), rng.choice([0, 1, 2, 9, 256])
            data = HEADER + bytes([names]) + rules.to_bytes(2, "little")
            for _ in range(rules):
                left = bytes(rng.randrange(2 * names) for _ in range(rng.randint(1, 8)))
                data += bytes([rng.randrange(2 * names), len(left)]) + left
            self.assertEqual(file_format.encode(read_text(text_form.write(file_format.decode(data)))), data)

    def test_books_come_back(self) -> None:
        for book in random_books(150, seed=3):
            self.assertEqual(file_format.decode(file_format.encode(book)).renamed(book.names), book)


class EngineCauses(WithEngine):
    def test_the_engine_gives_the_same_causes(self) -> None:
        rng = random.Random(4)
        samples = [data for data, _, _ in DAMAGED]
        for book in random_books(60, seed=5):
            data = bytearray(file_format.encode(book))
            for _ in range(rng.randint(0, 2)):
                data[rng.randrange(len(data))] = rng.choice([0, 1, 2, 8, 9, 64, 255])
            samples.append(bytes(data[: rng.choice([len(data), rng.randint(0, len(data))])]))
        for data in samples:
            try:
                file_format.decode(data)
                mine = None
            except file_format.Malformed as malformed:
                mine = malformed.refusal
            said = engine.ask(ENGINE, data, []).refusal
            self.assertEqual(said if said and said.cause <= 6 else None, mine, data.hex())


# As an ontology editor saves it.
EDITOR = """\
Prefix(:=<http://www.example.org/hall#>)
Prefix(owl:=<http://www.w3.org/2002/07/owl#>)
Prefix(rdf:=<http://www.w3.org/1999/02/22-rdf-syntax-ns#>)
Prefix(xml:=<http://www.w3.org/XML/1998/namespace>)
Prefix(xsd:=<http://www.w3.org/2001/XMLSchema#>)
Prefix(rdfs:=<http://www.w3.org/2000/01/rdf-schema#>)
Prefix(skos:=<http://www.w3.org/2004/02/skos/core#>)


Ontology(<http://www.example.org/hall>
<http://www.example.org/hall/1.0.0>
Annotation(rdfs:comment "Links in a hall, e.g. \\"due\\" # (not a comment"@en)
Annotation(owl:versionInfo "1"^^xsd:string)

Declaration(ObjectProperty(:part))
Declaration(ObjectProperty(:sits))
Declaration(ObjectProperty(<http://www.example.org/hall#let>))
Declaration(Annotation(rdfs:comment "owed") ObjectProperty(:due))
Declaration(ObjectProperty(:near))
Declaration(AnnotationProperty(skos:note))

############################
#   Object Properties
############################

# Object Property: :part (part of)

AnnotationAssertion(rdfs:label :part "part of"@en)
TransitiveObjectProperty(Annotation(rdfs:comment "a part of a part (is a part)") :part)

# Object Property: :near (:near)

AnnotationAssertion(Annotation(rdfs:comment "said twice") rdfs:comment :near "near
by")
SymmetricObjectProperty(:near)
SubObjectPropertyOf(Annotation(skos:note Annotation(rdfs:label "x") "y") <http://www.example.org/hall#part> :near)
SubObjectPropertyOf(ObjectInverseOf(:near) ObjectInverseOf(:due))


SubObjectPropertyOf(ObjectPropertyChain(:part :sits) :sits)
SubObjectPropertyOf(ObjectPropertyChain(:sits ObjectInverseOf( :let )) :due)
)
"""

EDITOR_TEXT = """\
names part sits let due near

part part -> part
inv near -> near
part -> near
inv near -> inv due
part sits -> sits
sits inv let -> due
"""

DOCUMENT = """\
Prefix(:=<http://x.org/a#>)
Prefix(b:=<http://x.org/b/>)
Ontology(
Declaration(ObjectProperty(:p))
{}
)
"""

# An axiom that stands in line 5, and its rules.
TRANSLATED = [
    ("SubObjectPropertyOf( :p :q )", ["p -> q"]),
    ("SubObjectPropertyOf(ObjectPropertyChain(:p b:q ObjectInverseOf(:p)) :r)", ["p q inv p -> r"]),
    ("TransitiveObjectProperty(ObjectInverseOf(:p))", ["inv p inv p -> inv p"]),
    ("SymmetricObjectProperty(ObjectInverseOf(:p))", ["p -> inv p"]),
    ("SubObjectPropertyOf(:p :p)", ["p -> p"]),
    ("SubObjectPropertyOf(:p <urn:x:q>)", ["p -> q"]),
    ("SubObjectPropertyOf(:p <http://x.org/a#q:r>)", ["p -> q:r"]),
    ("SubObjectPropertyOf(:p rdfs:q)", ["p -> q"]),
    ("InverseObjectProperties(:p :q)", ["p -> inv q", "inv q -> p"]),
    ("InverseObjectProperties(:p :p)", ["p -> inv p"]),
    ("InverseObjectProperties(:p ObjectInverseOf(:p))", []),
    ("EquivalentObjectProperties(:p :q)", ["p -> q", "q -> p"]),
    ("EquivalentObjectProperties(:p ObjectInverseOf(:q) :r)", ["p -> inv q", "inv q -> r", "r -> p"]),
    ("EquivalentObjectProperties(:p ObjectInverseOf(:p))", ["p -> inv p"]),
    ("EquivalentObjectProperties(:p :q ObjectInverseOf(:p) ObjectInverseOf(:q))", ["p -> q", "q -> inv p"]),
]

# Axioms that a book cannot hold, their column in line 5, and what is said of them.
UNHELD = [
    ("DisjointObjectProperties(:p :q)", 1, "DisjointObjectProperties"),
    ("FunctionalObjectProperty(:p)", 1, "FunctionalObjectProperty"),
    ("ReflexiveObjectProperty(:p)", 1, "ReflexiveObjectProperty"),
    ("ObjectPropertyDomain(:p :C)", 1, "ObjectPropertyDomain"),
    ("SubClassOf(:C ObjectSomeValuesFrom(:p :D))", 1, "SubClassOf"),
    ("Import(<http://x.org/c>)", 1, "Import"),
    ("ObjectPropertyAssertion(:p :a _:b)", 1, "ObjectPropertyAssertion"),
    ("Declaration(Class(:C))", 1, "Declaration of a Class"),
    ("Declaration(DataProperty(:d))", 1, "Declaration of a DataProperty"),
    ("Declaration(ObjectProperty(owl:topObjectProperty))", 28, "owl:topObjectProperty"),
    ("SubObjectPropertyOf(:q owl:topObjectProperty)", 24, "owl:topObjectProperty"),
    ("SymmetricObjectProperty(ObjectInverseOf(owl:bottomObjectProperty))", 41, "owl:bottomObjectProperty"),
    ("SubObjectPropertyOf(:p <http://www.w3.org/2002/07/owl#topObjectProperty>)", 24, "owl:topObjectProperty"),
    (f"SubObjectPropertyOf(ObjectPropertyChain({':q ' * 9}) :p)", 21, "ObjectPropertyChain of 9 roles, over 8"),
]

TOO_FEW = "holds 1 where 2 or more should stand"
NO_IRI = "stands where an IRI should be"

# Axioms that are wrong in themselves, with their column in line 5: --skip does not pass over them.
WRONG_AXIOMS = [
    ("TransitiveObjectPropertys(:p)", 1, "'TransitiveObjectPropertys' is no axiom of OWL"),
    ("SubObjectPropertyOf(:p)", 1, "SubObjectPropertyOf( .. ) holds 1 where 2 should stand"),
    ("SubObjectPropertyOf(ObjectPropertyChain(:p) :p)", 21, f"ObjectPropertyChain( .. ) {TOO_FEW}"),
    ("EquivalentObjectProperties(:p)", 1, f"EquivalentObjectProperties( .. ) {TOO_FEW}"),
    ("TransitiveObjectProperty(p)", 26, f"'p' {NO_IRI}"),
    ('TransitiveObjectProperty("a:b")', 26, f"'\"a:b\"' {NO_IRI}"),
    ("TransitiveObjectProperty(c:p)", 26, "prefix 'c:' is not declared"),
    ("SubObjectPropertyOf(:p ObjectPropertyChain(:p :p))", 24, f"'ObjectPropertyChain' {NO_IRI}"),
    ("SymmetricObjectProperty(ObjectInverseOf(ObjectInverseOf(:p)))", 41, f"'ObjectInverseOf' {NO_IRI}"),
    ("Declaration(Thing(:p))", 13, "'Thing' cannot be declared"),
    (":p", 1, "':p' stands where an axiom should be"),
    ("(:p)", 1, "no word before '('"),
    ('AnnotationAssertion(rdfs:label :p "open)', 35, "'\"' without a whole string"),
    ("TransitiveObjectProperty(<http://x y>)", 26, "'<' without a whole IRI"),
    ("SubObjectPropertyOf(:p b:p)", 24, "<http://x.org/a#p> and <http://x.org/b/p> give the same name"),
    ("SubObjectPropertyOf(:p :inv)", 24, "<http://x.org/a#inv> gives no name: 'inv' is reserved"),
    ("SubObjectPropertyOf(:p b:0001)", 24, "<http://x.org/b/0001> gives no name: a name starts with a letter or '_'"),
    ("SubObjectPropertyOf(:p :a%20b)", 24, "<http://x.org/a#a%20b> gives no name: '%' cannot stand in a name"),
    ("SubObjectPropertyOf(:p b:)", 24, "<http://x.org/b/> gives no name: nothing stands after its last '#' or '/'"),
]


class Owl(InFolder):
    def test_editor_document(self) -> None:
        self.write("hall.ofn", EDITOR)
        self.assertEqual(run("from-owl", "hall.ofn"), (0, EDITOR_TEXT, ""))

    def test_hall_book(self) -> None:
        self.write("hall.txt", HALL_TEXT)
        self.assertEqual(run("to-owl", "hall.txt", "-o", "hall.ofn"), (0, "", ""))
        text = Path("hall.ofn").read_text()
        self.assertIn("\nTransitiveObjectProperty(:part)\n", text)
        self.assertIn("\nSubObjectPropertyOf(ObjectPropertyChain(:sits :let) :due)\n", text)
        self.assertEqual(run("from-owl", "hall.ofn"), (0, HALL_BARE, ""))

    def test_own_forms(self) -> None:
        for rule, axiom in [
            ("a a -> a", "TransitiveObjectProperty(:a)"),
            ("inv a inv a -> inv a", "TransitiveObjectProperty(ObjectInverseOf(:a))"),
            ("inv a -> a", "SymmetricObjectProperty(:a)"),
            ("a -> inv a", "SymmetricObjectProperty(ObjectInverseOf(:a))"),
            ("inv a a -> a", "SubObjectPropertyOf(ObjectPropertyChain(ObjectInverseOf(:a) :a) :a)"),
            ("a -> inv b.", "SubObjectPropertyOf(:a ObjectInverseOf(<http://example.org/book#b.>))"),
        ]:
            self.assertIn(f"\n\n{axiom}\n)\n", owl_writer.write(read_text(f"names a b.\n{rule}\n")))

    def test_random_books(self) -> None:
        for book in random_books(150, seed=6):
            self.assertEqual(read_owl(owl_writer.write(book)), book)

    def test_translated_axioms(self) -> None:
        for axiom, rules in TRANSLATED:
            with self.subTest(axiom):
                self.assertEqual(list(map(str, read_owl(DOCUMENT.format(axiom)).rules)), rules)

    def test_unheld_axioms_are_refused_or_skipped(self) -> None:
        for axiom, column, what in UNHELD:
            with self.subTest(axiom):
                self.write("o.ofn", DOCUMENT.format(axiom))
                told = f"o.ofn:5:{column}: a book cannot hold {what}"
                hint = "o.ofn: not translated; --skip leaves such axioms out"
                self.assertEqual(run("from-owl", "o.ofn"), (1, "", f"{told}\n{hint}\n"))
                self.assertEqual(run("from-owl", "o.ofn", "--skip"), (0, "names p\n", f"{told} (skipped)\n"))

    def test_wrong_axioms(self) -> None:
        for axiom, column, message in WRONG_AXIOMS:
            with self.subTest(axiom):
                self.write("o.ofn", DOCUMENT.format(axiom))
                for skip in ([], ["--skip"]):
                    self.assertEqual(run("from-owl", "o.ofn", *skip), (1, "", f"o.ofn:5:{column}: {message}\n"))

    def test_wrong_documents(self) -> None:
        many = "Ontology(" + "".join(f"Declaration(ObjectProperty(<x#p{number}>))\n" for number in range(65)) + ")"
        rules = "Ontology(\n" + "TransitiveObjectProperty(<x#p>)\n" * 257 + ")"
        before = "only Prefix( .. ) may stand before Ontology( .. ), and nothing after it"
        for text, place, message in [
            ("", "1:1", "no Ontology( .. )"),
            ("# nothing\n Prefix(:=<x>)", "2:2", "no Ontology( .. )"),
            ("Ontology(\nSubObjectPropertyOf(<x#p> <x#q>)", "1:1", "Ontology( without ')'"),
            ("Ontology(\nSubObjectPropertyOf(<x#p> <x#q>\n)", "1:1", "Ontology( without ')'"),
            ("Ontology(<x>))", "1:14", "')' without '('"),
            ("Ontology(<x>) Ontology(<y>)", "1:1", before),
            ("Prefix(:=<x>) = Ontology()", "1:15", before),
            ("Prefix(:=x)\nOntology()", "1:1", "a prefix is Prefix( NAME: = <IRI> )"),
            ("Prefix(:=<x>)\nPrefix(:=<y>)\nOntology()", "2:8", "prefix ':' is repeated"),
            ("Ontology(\n<x> y)", "2:5", f"'y' {NO_IRI}"),
            ("Ontology(<x>)", "1:1", "no object property, and a book has at least one name"),
            (many, "65:28", "more than 64 object properties"),
            (rules, "258:1", "more than 256 rules"),
        ]:
            with self.subTest(text[:40]):
                self.write("o.ofn", text)
                self.assertEqual(run("from-owl", "o.ofn"), (1, "", f"o.ofn:{place}: {message}\n"))

    def test_deep_nesting(self) -> None:
        deep = "SubClassOf(:A " + "ObjectComplementOf(" * 5000 + ":A" + ")" * 5001
        self.assertEqual(len(owl_reader.gather(Source("o", DOCUMENT.format(deep))).unheld), 1)


FIVE = ["due: part part sits let", "due: sits part let", "inv due: inv let inv sits inv part", "due:", "due: due"]
NO_LINK = CAUSES[13]
# What is said of due: sits let and due: let.
TWO_ASKED = "due: sits let: yes, binds\ndue: let: no, does not bind\n"
TWO_DERIVED = "due: sits let: yes, derived\ndue: let: no, not derived\n"


class Ask(WithEngine):
    def ask(self, *arguments: str, stdin: str = "") -> Run:
        return run("ask", *arguments, stdin=stdin)

    def test_hall_book(self) -> None:
        self.write("hall.txt", HALL_TEXT)
        answers = (
            "due: part part sits let: yes, binds\ndue: sits part let: no, does not bind\n"
            "inv due: inv let inv sits inv part: yes, binds\n"
            f"due: (no link): refused 13: {NO_LINK}\ndue: due: yes, binds\n"
        )
        self.assertEqual(self.ask("hall.txt", *FIVE), (1, answers, ""))
        self.assertEqual(self.ask("hall.txt", stdin="# asked\n\n" + "\n".join(FIVE)), (1, answers, ""))
        self.assertEqual(self.ask("hall.txt", FIVE[0], FIVE[1]).status, 0)

    def test_a_chain_that_binds_and_is_not_derived(self) -> None:
        self.write("van.txt", VAN_TEXT)
        told = self.ask("van.txt", "covers: serves", "inv covers: inv serves", "serves: covers")
        answers = "covers: serves: yes, binds\ninv covers: inv serves: yes, binds\nserves: covers: no, does not bind\n"
        self.assertEqual(told, (0, answers, ""))

    def test_options_stand_anywhere(self) -> None:
        self.write("hall.txt", HALL_TEXT)
        option = ["--engine", str(ENGINE)]
        os.environ[engine.VARIABLE] = "/none"
        for place in range(4):
            words = ["hall.txt", "due: due", "due: let"]
            words[place:place] = option
            self.assertEqual(self.ask(*words), (0, "due: due: yes, binds\ndue: let: no, does not bind\n", ""))

    def test_no_question_tells_of_the_book(self) -> None:
        self.write("hall.txt", HALL_TEXT)
        self.assertEqual(self.ask("hall.txt"), (0, "book: 16 states, 18 moves, depth 3\n", ""))

    def test_depth(self) -> None:
        names = [f"n{number}" for number in range(44)]
        ladder = "".join(f"{low} -> {high}\n" for low, high in zip(names, names[1:]))
        for text, told in [
            ("names r s\nr r -> r\ninv s -> s\n", "4 states, 4 moves, depth 1"),
            ("names r s t\ns -> inv r\nt -> r\ninv t inv s -> inv s\n", "14 states, 15 moves, depth 3"),
            (f"names {' '.join(names)}\n{ladder}", "1980 states, 2882 moves, depth 44"),
        ]:
            self.write("b.txt", text)
            self.assertEqual(self.ask("b.txt"), (0, f"book: {told}\n", ""))

    def test_wrong_questions_do_not_stop_the_others(self) -> None:
        self.write("hall.txt", HALL_TEXT)
        for question, column, message in [
            ("due: lit", 6, "unknown name 'lit'"),
            ("due sits", 1, "no ':' after 'due': a question is ROLE: CHAIN"),
            ("inv: sits", 1, "no name after 'inv'"),
            (": sits", 1, "no role before ':'"),
            ("inv due: inv", 10, "no name after 'inv'"),
            ("inv inv due: sits", 5, "no ':' after 'inv': a question is ROLE: CHAIN"),
            ("due: sits -> let", 11, "'->' is no name: '>' cannot stand in a name"),
        ]:
            told = f"{column}: {message}\n"
            asked = self.ask("hall.txt", "due: sits let", question, "due: let")
            self.assertEqual(asked, (1, TWO_ASKED, f"question:2:{told}"))
            self.assertEqual(self.ask("hall.txt", stdin=f"# asked\n\n{question}\n"), (1, "", f"stdin:3:{told}"))

    def test_refused_books(self) -> None:
        large = "".join(f"{left} " * 8 + f"-> {right}\n" for left, right in ("rs", "st", "tu", "uv"))
        for rules, told in [
            ("r -> r\n", f"8 0: {CAUSES[8]}: rule 0, r -> r"),
            ("s -> r\nr -> s\n", f"8 1: {CAUSES[8]}: rule 1, r -> s"),
            ("inv r -> r\nr -> inv r\n", f"7 1: {CAUSES[7]}: rule 1, r -> inv r"),
            (large, f"9 0: {CAUSES[9]}"),
        ]:
            self.write("b.txt", f"names r s t u v\n{rules}")
            self.assertEqual(self.ask("b.txt", "r: s"), (1, f"book refused {told}\n", ""))

    def test_long_chains(self) -> None:
        self.write("b.txt", "names p\np p -> p\n")
        long, refused = f"refused 15: {CAUSES[15]}", f"refused 13: {NO_LINK}"
        for links, answer in [(16, "yes, binds"), (17, long), (1024, long), (1025, refused), (65535, refused)]:
            question = "p:" + " p" * links
            told = self.ask("b.txt", stdin=f"{question}\np: p\n").output
            self.assertEqual(told, f"{question}: {answer}\np: p: yes, binds\n")
        told = self.ask("b.txt", stdin="p:" + " p" * 65536)
        self.assertEqual(told, (1, "", "stdin:1:131074: more than 65,535 links\n"))

    def test_names_with_colons(self) -> None:
        self.write("b.txt", "names a:b a:\na: -> a:b\n")
        answers = "a:b: a:: yes, binds\na:: a:b: no, does not bind\n"
        self.assertEqual(self.ask("b.txt", "a:b: a:", "a:: a:b"), (0, answers, ""))

    def test_folder(self) -> None:
        self.write("hall/book.txt", HALL_TEXT)
        self.assertEqual(self.ask("hall", "due: sits let"), (1, "", "hall/book.rlb: No such file or directory\n"))
        Path("hall/book.rlb").write_bytes(HALL_BYTES)
        self.assertEqual(self.ask("hall", "due: sits let"), (0, "due: sits let: yes, binds\n", ""))
        Path("hall/book.txt").unlink()
        self.assertEqual(self.ask("hall", "r3: r1 r2"), (0, "r3: r1 r2: yes, binds\n", ""))

    def test_folder_with_another_text(self) -> None:
        Path("hall").mkdir()
        Path("hall/book.rlb").write_bytes(HALL_BYTES)
        for text in ("names part sits let due\n", "names part/sits\n"):
            self.write("hall/book.txt", text)
            told = self.ask("hall", "r3: r1 r2")
            self.assertEqual((told.status, told.output), (0, "r3: r1 r2: yes, binds\n"))
            self.assertIn("hall/book.txt: does not pack to book.rlb", told.errors)

    def test_folder_with_damaged_bytes(self) -> None:
        for data, cause, value in DAMAGED:
            Path("book.rlb").write_bytes(data)
            told = f"book refused {cause} {value}: {damage(cause, value)}\n"
            self.assertEqual(self.ask(".", "r0: r0"), (1, told, ""))

    def test_axioms_mean_their_rules(self) -> None:
        both = "SymmetricObjectProperty(:p)\nTransitiveObjectProperty(:q)\n"
        book = read_owl(DOCUMENT.format(both + "SubObjectPropertyOf(:p ObjectInverseOf(:q))"))
        self.write("b.txt", text_form.write(book))
        told = self.ask("b.txt", "p: inv p", "q: q q q", "q: p inv p q", "p: q")
        answers = ["p: inv p: yes", "q: q q q: yes", "q: p inv p q: yes"]
        self.assertEqual(told, (0, "".join(f"{yes}, binds\n" for yes in answers) + "p: q: no, does not bind\n", ""))

    def test_equivalences_have_no_order(self) -> None:
        for axiom in ("InverseObjectProperties(:p :q)", "EquivalentObjectProperties(:p :q)"):
            book = read_owl(DOCUMENT.format(axiom))
            self.assertEqual(engine.ask(ENGINE, file_format.encode(book), []).refusal, Refusal(8, 1))


class AskDerived(InFolder):
    """Each test asks the real archive whether chains are derived."""

    def ask(self, *arguments: str, stdin: str = "") -> Run:
        return run("ask", "--derived", *arguments, stdin=stdin)

    def test_hall_book(self) -> None:
        self.write("hall.txt", HALL_TEXT)
        answers = (
            "due: part part sits let: yes, derived\ndue: sits part let: no, not derived\n"
            "inv due: inv let inv sits inv part: yes, derived\n"
            f"due: (no link): refused 13: {NO_LINK}\ndue: due: yes, derived\n"
        )
        self.assertEqual(self.ask("hall.txt", *FIVE), (1, answers, ""))
        self.assertEqual(self.ask("hall.txt", stdin="\n".join(FIVE)), (1, answers, ""))
        self.assertEqual(self.ask("hall.txt"), (0, "book: 16 states, 18 moves, depth 3\n", ""))

    def test_a_chain_that_binds_and_is_not_derived(self) -> None:
        self.write("van.txt", VAN_TEXT)
        told = self.ask("van.txt", "covers: serves", "covers: serves inv serves serves")
        answers = "covers: serves: no, not derived\ncovers: serves inv serves serves: yes, derived\n"
        self.assertEqual(told, (0, answers, ""))

    def test_long_chains(self) -> None:
        self.write("b.txt", "names p q\np p -> p\n")
        yes, refused = "yes, derived", f"refused 13: {NO_LINK}"
        for links, answer in [(16, yes), (17, yes), (1024, yes), (1025, refused), (65535, refused)]:
            question = "p:" + " p" * links
            told = self.ask("b.txt", stdin=f"{question}\nq: p p\n").output
            self.assertEqual(told, f"{question}: {answer}\nq: p p: no, not derived\n")

    def test_refused_books(self) -> None:
        large = "".join(f"{left} " * 8 + f"-> {right}\n" for left, right in ("rs", "st", "tu", "uv"))
        for rules, told in [
            ("s -> r\nr -> s\n", f"8 1: {CAUSES[8]}: rule 1, r -> s"),
            ("inv r -> r\nr -> inv r\n", f"7 1: {CAUSES[7]}: rule 1, r -> inv r"),
            (large, f"9 0: {CAUSES[9]}"),
        ]:
            self.write("b.txt", f"names r s t u v\n{rules}")
            self.assertEqual(self.ask("b.txt", "r: s"), (1, f"book refused {told}\n", ""))

    def test_damaged_bytes(self) -> None:
        for data, cause, value in DAMAGED:
            Path("book.rlb").write_bytes(data)
            told = f"book refused {cause} {value}: {damage(cause, value)}\n"
            self.assertEqual(self.ask(".", "r0: r0"), (1, told, ""))

    def test_wrong_questions_do_not_stop_the_others(self) -> None:
        self.write("hall.txt", HALL_TEXT)
        told = self.ask("hall.txt", "due: sits let", "due: lit", "due: let")
        wrong = "question:2:6: unknown name 'lit'\n"
        self.assertEqual(told, (1, TWO_DERIVED, wrong))

    def test_the_program_is_not_looked_for(self) -> None:
        self.write("hall.txt", HALL_TEXT)
        os.environ[engine.VARIABLE] = "/none"
        self.assertEqual(self.ask("hall.txt", "due: due"), (0, "due: due: yes, derived\n", ""))


VAN_TEXT = """\
names serves covers
serves inv serves serves -> covers   # out, back and out
"""

# How a chain is derived: the question, the rules, and what is shown.
WHYS = [
    ("due: sits let", "", "  due\n  [sits let]  by rule 2, sits let -> due\n"),
    (
        "inv due: inv let inv sits inv part",
        "",
        "  inv due\n"
        "  [inv let inv sits]           by inverse of rule 2, sits let -> due\n"
        "  inv let [inv sits inv part]  by inverse of rule 1, part sits -> sits\n",
    ),
    ("due: due", "", "  due\n"),
    (
        "inv due: sits part",
        "inv part inv sits -> due\n",
        "  inv due\n  [sits part]  by inverse of rule 3, inv part inv sits -> due\n",
    ),
]


# What is shown of chains that do not bind.
NOES = [
    (
        "due: sits part let",
        "  the chain over places: 0 sits 1 part 2 let 3\n  these links obey the rules, without due from 0 to 3:\n"
        "    part: 1-2\n    sits: 0-1\n    let: 2-3\n",
    ),
    (
        "inv due: inv let inv part inv part",
        "  the chain over places: 0 inv let 1 inv part 2 inv part 3\n"
        "  these links obey the rules, without inv due from 0 to 3:\n    part: 2-1, 3-1, 3-2\n    let: 1-0\n",
    ),
    (
        "due: let",
        "  the chain over places: 0 let 1\n  these links obey the rules, without due from 0 to 1:\n    let: 0-1\n",
    ),
]
NO_DUE = f"due: let: no\n{NOES[2][1]}"
VAN_STEP = "[serves inv serves serves]  by rule 0, serves inv serves serves -> covers"


class Why(InFolder):
    """Each test asks the real archive."""

    def why(self, *arguments: str, stdin: str = "") -> Run:
        return run("why", *arguments, stdin=stdin)

    def test_derivations_that_are_the_only_ones(self) -> None:
        for question, rules, shown in WHYS:
            with self.subTest(question):
                self.write("hall.txt", HALL_TEXT + rules)
                self.assertEqual(self.why("hall.txt", question), (0, f"{question}: yes\n{shown}", ""))

    def test_one_of_many(self) -> None:
        self.write("hall.txt", HALL_TEXT)
        told = self.why("hall.txt", "due: part part sits let")
        lines = told.output.splitlines()
        self.assertEqual(lines[:2], ["due: part part sits let: yes", "  due"])
        chains = [line.partition("  by ")[0].strip().replace("[", "").replace("]", "") for line in lines[1:]]
        self.assertEqual(chains, ["due", "sits let", "part sits let", "part part sits let"])
        self.assertEqual((told.status, told.errors), (0, ""))

    def test_no(self) -> None:
        self.write("hall.txt", HALL_TEXT)
        for question, shown in NOES:
            with self.subTest(question):
                self.assertEqual(self.why("hall.txt", question), (0, f"{question}: no\n{shown}", ""))

    def test_out_and_back(self) -> None:
        self.write("van.txt", VAN_TEXT + "covers -> serves2\n".replace("serves2", "inv covers"))
        self.write("van.txt", VAN_TEXT)
        for question, walked in [
            ("covers: serves", "covers\n  [serves inv serves serves]  by rule 0"),
            ("inv covers: inv serves", "inv covers\n  [inv serves serves inv serves]  by inverse of rule 0"),
        ]:
            told = (
                f"{question}: yes\n  binds, not derived: a walk to and fro along it is, over places 0 1 0 1\n"
                f"  {walked}, serves inv serves serves -> covers\n"
            )
            self.assertEqual(self.why("van.txt", question), (0, told, ""))
        told = self.why("van.txt", "covers: serves inv serves serves").output
        self.assertEqual(told.splitlines()[1:], ["  covers", f"  {VAN_STEP}"])

    def test_walks_along_several_links(self) -> None:
        rules = "s t inv t inv s s t -> r\ninv s s -> u\ns u -> w\n"
        self.write("b.txt", f"names r s t u w\n{rules}")
        for question, places in [
            ("r: s t", "0 1 2 1 0 1 2"),
            ("inv r: inv t inv s", "0 1 2 1 0 1 2"),
            ("w: s", "0 1 0 1"),
            ("inv w: inv s", "0 1 0 1"),
        ]:
            first, second, *steps = self.why("b.txt", question).output.splitlines()
            self.assertEqual(first, f"{question}: yes")
            self.assertEqual(second, f"  binds, not derived: a walk to and fro along it is, over places {places}")
            self.assertEqual(steps[0], f"  {question.partition(':')[0]}")

    def test_no_walk_at_hand(self) -> None:
        names = [f"n{number}" for number in range(60)]
        ladder = "".join(f"{low} -> {high}\n" for low, high in zip(names, names[1:]))
        self.write("large.txt", f"names v s {' '.join(names)}\ns inv s s -> v\n{ladder}")
        told = "v: s: yes\n  binds, not derived: v links its ends in every network that obeys the rules\n"
        self.assertEqual(self.why("large.txt", "v: s"), (0, told, ""))
        # A walk of 27 links, and a derivation has at most 16.
        self.write("long.txt", "names r s t u\ns inv s s -> t\nt inv t t -> u\nu inv u u -> r\n")
        told = "r: s: yes\n  binds, not derived: r links its ends in every network that obeys the rules\n"
        self.assertEqual(self.why("long.txt", "r: s"), (0, told, ""))

    def test_refused_questions(self) -> None:
        self.write("hall.txt", HALL_TEXT)
        for links, cause in [(0, 13), (17, 15), (1024, 15), (1025, 13)]:
            question = f"part: {'part ' * links}".strip()
            told = self.why("hall.txt", question, "due: let")
            self.assertEqual((told.status, told.errors), (1, ""))
            first, second, *_ = told.output.splitlines()
            self.assertEqual(first.rpartition(": refused")[2], f" {cause}: {CAUSES[cause]}")
            self.assertEqual(second, "due: let: no")
        self.assertEqual(self.why("hall.txt", f"part: {'part ' * 16}").status, 0)

    def test_refused_books(self) -> None:
        for rules, told in [
            ("r -> r\n", f"8 0: {CAUSES[8]}: rule 0, r -> r"),
            ("s -> r\nr -> s\n", f"8 1: {CAUSES[8]}: rule 1, r -> s"),
            ("inv r -> r\nr -> inv r\n", f"7 1: {CAUSES[7]}: rule 1, r -> inv r"),
        ]:
            self.write("b.txt", f"names r s\n{rules}")
            self.assertEqual(self.why("b.txt", "r: s", "r: r"), (1, f"book refused {told}\n", ""))

    def test_books_that_are_too_large_for_tables(self) -> None:
        large = "".join(f"{left} " * 8 + f"-> {right}\n" for left, right in ("rs", "st", "tu", "uv"))
        self.write("b.txt", f"names r s t u v\n{large}")
        told = self.why("b.txt", "v:" + " u" * 8)
        self.assertEqual((told.status, len(told.output.splitlines())), (0, 3))

    def test_bytes(self) -> None:
        self.write("book.txt", HALL_TEXT)
        Path("book.rlb").write_bytes(HALL_BYTES)
        Path("other.rlb").write_bytes(HALL_BYTES)
        for book in (".", "book.rlb", "book.txt"):
            self.assertEqual(self.why(book, "due: sits let"), (0, f"due: sits let: yes\n{WHYS[0][2]}", ""))
        unnamed = "r3: r1 r2: yes\n  r3\n  [r1 r2]  by rule 2, r1 r2 -> r3\n"
        self.assertEqual(self.why("other.rlb", "r3: r1 r2"), (0, unnamed, ""))

    def test_damaged_bytes(self) -> None:
        for data, cause, value in DAMAGED:
            Path("book.rlb").write_bytes(data)
            refused = f"book refused {cause} {value}: {damage(cause, value)}\n"
            self.assertEqual(self.why("book.rlb", "a: b"), (1, refused, ""))

    def test_standard_input_and_wrong_questions(self) -> None:
        self.write("hall.txt", HALL_TEXT)
        told = self.why("hall.txt", stdin="due: let\ndue: lit\ndue: sits let\n")
        shown = f"{NO_DUE}due: sits let: yes\n{WHYS[0][2]}"
        self.assertEqual(told, (1, shown, "stdin:2:6: unknown name 'lit'\n"))

    def test_no_archive(self) -> None:
        self.write("hall.txt", HALL_TEXT)
        environment = {**os.environ, archive.VARIABLE: "/none"}
        command = [TOOLS / "book", "why", "hall.txt", "due: due"]
        told = subprocess.run(command, env=environment, capture_output=True, text=True, check=False)
        self.assertEqual((told.returncode, told.stdout), (1, ""))
        self.assertIn("/none/librabbitsteel.a: no archive here; make it with `tools/archive`", told.stderr)

    def test_only_what_the_checker_accepts_is_shown(self) -> None:
        book = read_text(HALL_TEXT)
        question = Question(Role("due"), (Role("sits"), Role("let")))
        with mock.patch.object(rabbitsteel, "check_derivation", return_value=False):
            self.assertRaisesRegex(Fault, "does not accept", explanations.explain, HALL_BYTES, book, question)
        with mock.patch.object(rabbitsteel, "check_derivation", side_effect=Refused(17, 3)):
            self.assertEqual(explanations.explain(HALL_BYTES, book, question).answer, Refusal(17, 3))
        explained = explanations.explain(HALL_BYTES, book, question)
        self.assertEqual(explained, ("yes", ["due", "[sits let]  by rule 2, sits let -> due"], None))

    def test_walks_are_checked_too(self) -> None:
        book = read_text(VAN_TEXT)
        question = Question(Role("covers"), (Role("serves"),))
        with mock.patch.object(walks, "shortest", return_value=walks.Walk((0, 1), bytes([0]))):
            _, (line,), _ = explanations.explain(file_format.encode(book), book, question)
        self.assertEqual(line, "binds, not derived: covers links its ends in every network that obeys the rules")


class Walks(InFolder):
    def test_of_random_books(self) -> None:
        """Where a chain binds and is not derived, a walk is found; it spells what it says, and the role derives it."""
        rng, found = random.Random(7), 0
        for _ in range(800):
            names = ("a", "b", "c")
            left = tuple(Role(rng.choice("ab"), rng.random() < 0.5) for _ in range(rng.randint(2, 5)))
            book = Book(names, (Rule(left, Role("c")), Rule((Role("a", rng.random() < 0.5),), Role("b"))))
            data = file_format.encode(book)
            chain = bytes(rng.randrange(4) for _ in range(rng.randint(1, 3)))
            for role in (4, 5):
                if not rabbitsteel.binds(data, role, chain) or rabbitsteel.derived(data, role, chain):
                    continue
                walk = walks.shortest(data, role, chain)
                assert walk is not None
                self.assertEqual((walk.places[0], walk.places[-1]), (0, len(chain)))
                for link, here, there in zip(walk.chain, walk.places, walk.places[1:], strict=False):
                    self.assertEqual(link, chain[here] if there == here + 1 else chain[here - 1] ^ 1)
                    self.assertEqual(abs(there - here), 1)
                self.assertTrue(rabbitsteel.derived(data, role, walk.chain))
                found += 1
        self.assertGreater(found, 20)

    def test_none(self) -> None:
        self.assertIsNone(walks.shortest(HALL_BYTES, 6, bytes([2, 0, 4])))
        self.assertIsNone(walks.shortest(HALL_BYTES[:7], 6, bytes([2])))


class Pictures(InFolder):
    """Networks drawn: each test asks the real archive."""

    def setUp(self) -> None:
        super().setUp()
        rules = "serves inv serves serves -> covers\ninv serves serves -> near\n"
        self.write("van.txt", f"names serves covers near\n{rules}")

    def elements(self, svg: str, kind: str) -> list[ElementTree.Element]:
        return list(ElementTree.fromstring(svg).iter(f"{{http://www.w3.org/2000/svg}}{kind}"))

    def words(self, svg: str) -> list[str]:
        return ["".join(text.itertext()) for text in self.elements(svg, "text")]

    def test_svg(self) -> None:
        self.assertEqual(run("why", "van.txt", "covers: serves inv serves", "--svg", "no.svg").status, 0)
        svg = Path("no.svg").read_text()
        forced = ["covers", "near", "covers"]
        labels = ["covers: serves inv serves: no", "serves", "serves", *forced, "no covers", "0", "1", "2"]
        self.assertEqual(self.words(svg), labels)
        self.assertEqual(len(self.elements(svg, "circle")), 3)
        # The second link of the chain leads back.
        ends = [(line.get("x1"), line.get("x2")) for line in self.elements(svg, "line")]
        self.assertEqual(ends, [("63", "127"), ("217", "153")])
        dashed = [path for path in self.elements(svg, "path") if path.get("stroke-dasharray")]
        self.assertEqual(len(dashed), 1)

    def test_dot(self) -> None:
        told = run("why", "van.txt", "inv near: inv serves", "--dot", "-")
        self.assertEqual((told.status, told.errors), (0, ""))
        dot = told.output[told.output.index("digraph") :].splitlines()
        self.assertEqual(dot[:3] + dot[-2:], ["digraph {", "  rankdir=LR", "  node [shape=circle]", "  }", "}"])
        arrows = re.findall(r'"(\d+)\.(\d+)" -> "\1\.(\d+)" \[label="([^"]*)", (penwidth|color|style)', "\n".join(dot))
        self.assertEqual(
            arrows,
            [
                ("0", "1", "0", "serves", "penwidth"),
                ("0", "0", "0", "near", "color"),
                ("0", "1", "0", "covers", "color"),
                ("0", "0", "1", "no inv near", "color"),
            ],
        )
        self.assertIn('    label="inv near: inv serves: no"', dot)

    def test_several_networks_in_one_picture(self) -> None:
        questions = ["near: serves", "covers: serves", "near: serves serves", "near: covers"]
        run("why", "van.txt", *questions, "--svg", "no.svg", "--dot", "no.dot")
        noes = [f"{question}: no" for question in questions if question != "covers: serves"]
        self.assertEqual([word for word in self.words(Path("no.svg").read_text()) if word in noes], noes)
        self.assertEqual(re.findall(r'label="(.*: no)"', Path("no.dot").read_text()), noes)

    def test_nothing_to_draw(self) -> None:
        for option in ("--svg", "--dot"):
            told = run("why", "van.txt", "covers: serves", option, "no.picture")
            self.assertEqual(told.errors, "no.picture: not drawn, since no question was answered by no\n")
            self.assertEqual(told.status, 1)
            self.assertTrue(told.output.startswith("covers: serves: yes\n"))
            self.assertFalse(Path("no.picture").exists())
        told = run("why", "van.txt", "covers: serves", "near: lit", "--svg", "no.svg").errors
        self.assertEqual(told.splitlines()[0], "question:2:7: unknown name 'lit'")
        self.assertEqual(run("why", "van.txt", "near: serves", "--svg", "none/no.svg").status, 1)

    def test_many_names_on_an_arrow(self) -> None:
        names = [f"n{number}" for number in range(64)]
        ladder = "".join(f"{low} -> {high}\n" for low, high in zip(names, names[1:]))
        self.write("b.txt", f"names {' '.join(names)}\n{ladder}")
        run("why", "b.txt", "n63: n0 n0", "--svg", "no.svg", "--dot", "no.dot")
        svg = Path("no.svg").read_text()
        (first, second) = (title.text for title in self.elements(svg, "title"))
        self.assertEqual((first, second), (", ".join(names[1:]), ", ".join(names[1:])))
        self.assertIn("n1, n2, n3 +60</text>", svg)
        self.assertIn(f'label="{", ".join(names[1:])}"', Path("no.dot").read_text())

    def test_the_largest_network(self) -> None:
        self.write("b.txt", "names p q\np p -> p\ninv p -> p\n")
        told = run("why", "b.txt", f"q: {'p ' * 16}", "--svg", "no.svg", "--dot", "no.dot")
        pairs = ", ".join(f"{start}-{end}" for start in range(17) for end in range(17))
        self.assertEqual(told.output.splitlines()[-1], f"    p: {pairs}")
        svg = Path("no.svg").read_text()
        self.assertEqual(len(self.elements(svg, "circle")), 17)
        # All pairs but the chain's own links, and the link that is missing; the three heads are paths too.
        self.assertEqual(len(self.elements(svg, "path")), 17 * 17 - 16 + 1 + 3)
        self.assertEqual(Path("no.dot").read_text().count(" -> "), 17 * 17 + 1)


class Page(WithEngine):
    """docs/TEXT-FORM.md shows what is really written."""

    def setUp(self) -> None:
        super().setUp()
        page = (TOOLS.parent / "docs" / "TEXT-FORM.md").read_text(encoding="utf-8")
        indented = re.findall(r"(?:^    .*\n|^\n(?=    ))+", page, re.M)
        self.blocks = [textwrap.dedent(block.lstrip("\n")) for block in indented]
        self.write("hall.txt", self.blocks[0])
        self.write("pair.txt", "names part whole\npart -> inv whole\ninv whole -> part\n")
        self.write("van.txt", VAN_TEXT)
        declared = "Declaration(Class(:Hall))\nDeclaration(ObjectProperty(:part))\n"
        axioms = "TransitiveObjectProperty(:part)\nSymmetricObjectProperty(:near)\nFunctionalObjectProperty(:near)\n"
        self.write("halls.ofn", f"Prefix(:=<http://x.org/#>)\nOntology(<http://x.org/>\n{declared}{axioms})\n")

    def test_commands(self) -> None:
        tried = 0
        for block in self.blocks[1:]:
            for example in re.split(r"^\$ tools/book ", block, flags=re.M)[1:]:
                command, _, shown = example.partition("\n")
                told = run(*shlex.split(command))
                self.assertEqual(told.errors + told.output, shown, command)
                tried += 1
        self.assertEqual(tried, 11)


class EngineRun(InFolder):
    def test_no_engine(self) -> None:
        self.write("hall.txt", HALL_TEXT)
        told = run("ask", "hall.txt", "due: due", "--engine", "/none/engine")
        self.assertEqual((told.status, told.output), (1, ""))
        self.assertIn("/none/engine: no engine here; build it with `tools/answers`", told.errors)

    def test_environment_names_it(self) -> None:
        with mock.patch.dict(os.environ, {engine.VARIABLE: "/none/other"}):
            self.assertRaisesRegex(Fault, "/none/other: no engine here", engine.find, None)

    def test_lines_taken_apart(self) -> None:
        said = engine.read_transcript(ENGINE, ["book 16 18 3", "0 yes", "1 refused 13", "2 no", "3 refused 15"], 4)
        self.assertEqual(said, (None, 16, 18, 3, ["yes", Refusal(13), "no", Refusal(15)]))
        said = engine.read_transcript(ENGINE, ["book refused 8 1"], 3)
        self.assertEqual(said, (Refusal(8, 1), 0, 0, 0, []))

    def test_other_output_is_no_answer(self) -> None:
        for lines in (
            [],
            ["hello"],
            ["book 2"],
            ["book 2 1", "0 yes"],
            ["book 2 1 1"],
            ["book 2 1 1 1", "0 yes"],
            ["book 2 1 1", "0 maybe"],
            ["book 2 1 1", "1 yes"],
            ["book 2 1 1", "0 cut"],
            ["book 2 1 1", "0 yes", "1 yes"],
            ["book 2 1 1", "0 refused 16"],
            ["book refused 15 0"],
            ["book refused 8 0", "0 yes"],
        ):
            self.assertRaisesRegex(Fault, "not an engine's", engine.read_transcript, ENGINE, lines, 1)


# What the script is given, its exit status, what it writes and what it says is wrong.
RUNS = [
    (["pack", "hall.txt"], 0, "book.rlb: names 4, rules 3, bytes 20\n", ""),
    (["pack", "wrong.txt"], 1, "", "wrong.txt:2:1: unknown name 'b'\n"),
    (["pack", "none.txt"], 1, "", "none.txt: No such file or directory\n"),
    (["unpack", "hall.rlb"], 0, "names r0 r1 r2 r3\n\nr0 r0 -> r0\nr0 r1 -> r1\nr1 r2 -> r3\n", ""),
    (["unpack", "short.rlb"], 1, "", f"short.rlb: no well-formed book, cause 1 with 0: {CAUSES[1]}\n"),
    (["ask", "hall.txt"], 0, "book: 16 states, 18 moves, depth 3\n", ""),
    (["ask", "hall.txt", "due: sits let", "due: let"], 0, TWO_ASKED, ""),
    (["ask", "hall.txt", "due: due", "due:"], 1, f"due: due: yes, binds\ndue: (no link): refused 13: {NO_LINK}\n", ""),
    (["ask", "hall.txt", "due: lit"], 1, "", "question:1:6: unknown name 'lit'\n"),
    (["ask", "circle.txt", "a: b"], 1, f"book refused 8 1: {CAUSES[8]}: rule 1, b -> a\n", ""),
    (["ask", "hall.txt", "--derived", "due: sits let", "due: let"], 0, TWO_DERIVED, ""),
    (["why", "hall.txt", "due: sits let", "due: let"], 0, f"due: sits let: yes\n{WHYS[0][2]}{NO_DUE}", ""),
    (["why", "hall.txt", "due: let", "--svg", "no.svg"], 0, NO_DUE, ""),
    (["why", "hall.txt", "due:"], 1, f"due: (no link): refused 13: {CAUSES[13]}\n", ""),
    (["why", "circle.txt", "a: b"], 1, f"book refused 8 1: {CAUSES[8]}: rule 1, b -> a\n", ""),
    (["to-owl", "wrong.txt"], 1, "", "wrong.txt:2:1: unknown name 'b'\n"),
    (["to-owl", "hall.txt", "-o", "hall.ofn"], 0, "", ""),
    (["from-owl", "hall.ofn"], 0, HALL_BARE, ""),
    (["from-owl", "none.ofn"], 1, "", "none.ofn:1:1: no Ontology( .. )\n"),
]


class ExitStatus(WithEngine):
    """The script run as a program."""

    def test_each_command(self) -> None:
        self.write("hall.txt", HALL_TEXT)
        self.write("wrong.txt", "names a\nb -> a\n")
        self.write("circle.txt", "names a b\na -> b\nb -> a\n")
        Path("hall.rlb").write_bytes(HALL_BYTES)
        self.write("none.ofn", "")
        Path("short.rlb").write_bytes(HALL_BYTES[:7])
        for words, status, output, errors in RUNS:
            with self.subTest(words):
                told = subprocess.run([TOOLS / "book", *words], input="", capture_output=True, text=True, check=False)
                self.assertEqual((told.returncode, told.stdout, told.stderr), (status, output, errors))

    def test_wrong_commands(self) -> None:
        for words in ([], ["fold"], ["pack"], ["ask", "a", "--fast"], ["ask", "a", "--engine", "b", "--derived"]):
            with self.subTest(words):
                told = subprocess.run([TOOLS / "book", *words], capture_output=True, text=True, check=False)
                self.assertEqual((told.returncode, told.stdout), (2, ""))
                self.assertIn("usage: tools/book", told.stderr)


class Script(unittest.TestCase):
    def test_help(self) -> None:
        told = subprocess.run([TOOLS / "book", "--help"], capture_output=True, text=True, check=True).stdout
        for words in ("pack", "unpack", "ask", "why", "from-owl", "to-owl", "examples:"):
            self.assertIn(words, told)

    def test_wrong_commands(self) -> None:
        unknown = ["ask", "a", "--fast"], ["why", "a", "--engine", "b"], ["to-owl", "a", "--skip"]
        wrong = ["why", "a", "--derived"], ["why", "a", "--svg"], ["ask", "a", "--engine", "b", "--derived"]
        for words in ([], ["fold"], ["pack"], ["why"], ["pack", "a", "b"], *unknown, *wrong):
            self.assertEqual(self.status(words), 2, words)

    def status(self, words: list[str]) -> object:
        with self.assertRaises(SystemExit) as stopped:
            run(*words)
        return stopped.exception.code

    def test_generated_names_are_names(self) -> None:
        self.assertFalse(any(map(trouble, generated(64))))


if __name__ == "__main__":
    unittest.main()
