"""What each command does. A command gives its exit status; what stops it is raised as a Fault."""

import sys
from argparse import Namespace
from collections.abc import Sequence
from pathlib import Path

from . import dot_picture, engine, owl_reader, owl_writer, svg_picture, text_form
from .asked_book import AskedBook, load
from .causes import WORDS, Refusal, book_words
from .explanations import Explained, explain
from .faults import Fault, Faults
from .file_format import Malformed, decode, encode, role_bytes
from .files import read_bytes, read_source, write_bytes
from .library import called, order_refusal, rabbitsteel
from .model import Book, Rule
from .questions import Question, read_questions
from .source import Source

# What a yes and a no of `ask` say, by the question that was put.
BINDS = {"yes": "yes, binds", "no": "no, does not bind"}
DERIVED = {"yes": "yes, derived", "no": "no, not derived"}


def pack(args: Namespace) -> int:
    book = text_form.read(read_source(args.text))
    data = encode(book)
    output = args.output or str(Path(args.text).with_name("book.rlb"))
    write_bytes(output, data)
    if output != "-":
        print(f"{output}: names {len(book.names)}, rules {len(book.rules)}, bytes {len(data)}")
    return 0


def unpack(args: Namespace) -> int:
    try:
        book = decode(read_bytes(args.book))
    except Malformed as malformed:
        cause, value = malformed.refusal
        words = book_words(malformed.refusal, ())
        raise Fault(f"{args.book}: no well-formed book, cause {cause} with {value}: {words}") from None
    if args.names is not None:
        book = book.renamed(option_names(args.names, len(book.names)))
    write_bytes(args.output, text_form.write(book).encode())
    return 0


def option_names(option: str, count: int) -> tuple[str, ...]:
    """The names that --names lists, as many as the book has."""
    source = Source("--names", option.replace(",", " "))
    names = text_form.read_names(source, [word for line in source.lines() for word in line])
    if len(names) != count:
        raise Fault(f"--names: {len(names)} names for a book that has {count}")
    return names


def ask(args: Namespace) -> int:
    """Puts the questions that can be read, and tells of the others after the answers."""
    program = None if args.derived else engine.find(args.engine)
    asked = load(args.book)
    if asked.book is None:
        return ask_damaged(program, asked)
    questions, faults = given_questions(args, asked.book)
    if program:
        said = engine.ask(program, asked.data, [question.encoded(asked.book.names) for question in questions])
    else:
        said = ask_derived(asked.data, asked.book, questions)
    if said.refusal:
        tell_refused(said.refusal, asked.book.rules)
    elif not questions and not faults.messages:
        print(f"book: {said.states} states, {said.moves} moves, depth {said.depth}")
    meaning = DERIVED if args.derived else BINDS
    for question, answer in zip(questions, said.answers):
        print(f"{question}: {answer_words(meaning.get(answer, answer))}")
    faults.settle()
    return 0 if said.all_answered() else 1


def ask_derived(data: bytes, book: Book, questions: Sequence[Question]) -> engine.Transcript:
    """Whether the chains are derived, by the archive: what the program would say, were it asked that."""
    tables = called(rabbitsteel.Tables.of, data)
    if isinstance(tables, Refusal):
        return engine.Transcript(tables, 0, 0, 0, [])

    def answer(question: Question) -> str | Refusal:
        (role,), chain = role_bytes(book.names, (question.role,)), role_bytes(book.names, question.chain)
        derived = called(tables.ask, role, chain)
        return derived if isinstance(derived, Refusal) else "yes" if derived else "no"

    answers = list(map(answer, questions))
    return engine.Transcript(None, tables.states, len(tables.moves) // 3, tables.depth, answers)


def given_questions(args: Namespace, book: Book) -> tuple[list[Question], Faults]:
    """The questions given as words, or on standard input where there are none."""
    source = Source("question", "\n".join(args.questions)) if args.questions else read_source("-")
    return read_questions(source, book.names)


def ask_damaged(program: Path | None, asked: AskedBook) -> int:
    """Bytes in which no book can be read have no names to ask with; the engine still says why."""
    refusal = engine.ask(program, asked.data, []).refusal if program else order_refusal(asked.data)
    if not refusal:
        raise Fault(f"{program or 'the archive'}: accepts bytes that are no book")
    tell_refused(refusal, ())
    return 1


def why(args: Namespace) -> int:
    """Tells why the chains bind or not, and of the questions that cannot be read after that."""
    asked = load(args.book)
    refusal = order_refusal(asked.data)
    if refusal:
        tell_refused(refusal, asked.book.rules if asked.book else ())
        return 1
    if asked.book is None:
        raise Fault(f"{args.book}: the archive accepts bytes that are no book")
    questions, faults = given_questions(args, asked.book)
    explained = [explain(asked.data, asked.book, question) for question in questions]
    for question, (answer, lines, _) in zip(questions, explained):
        print(f"{question}: {answer_words(answer)}")
        for line in lines:
            print(f"  {line}")
    with faults:
        draw(args, explained)
    faults.settle()
    return 1 if any(isinstance(answer, Refusal) for answer, _, _ in explained) else 0


def draw(args: Namespace, explained: Sequence[Explained]) -> None:
    """Draws the networks, where a picture is asked for."""
    networks = [network for _, _, network in explained if network]
    for output, picture in ((args.dot, dot_picture), (args.svg, svg_picture)):
        if output and not networks:
            raise Fault(f"{output}: not drawn, since no question was answered by no")
        if output:
            write_bytes(output, picture.write(networks).encode())


def tell_refused(refusal: Refusal, rules: Sequence[Rule]) -> None:
    print(f"book refused {refusal.cause} {refusal.value}: {book_words(refusal, rules)}")


def answer_words(answer: str | Refusal) -> str:
    return answer if isinstance(answer, str) else f"refused {answer.cause}: {WORDS[answer.cause]}"


def from_owl(args: Namespace) -> int:
    source = read_source(args.ontology)
    gathered = owl_reader.gather(source)
    if gathered.unheld and not args.skip:
        raise Fault(*gathered.unheld, f"{source.file}: not translated; --skip leaves such axioms out")
    book = owl_reader.book_of(gathered)
    for message in gathered.unheld:
        print(f"{message} (skipped)", file=sys.stderr)
    write_bytes(args.output, text_form.write(book).encode())
    return 0


def to_owl(args: Namespace) -> int:
    book = text_form.read(read_source(args.text))
    write_bytes(args.output, owl_writer.write(book).encode())
    return 0
