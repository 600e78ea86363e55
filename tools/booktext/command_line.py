"""The command line: its options, its help, and where faults are shown."""

import argparse
import sys

from . import commands
from .engine import VARIABLE
from .faults import Fault

DESCRIPTION = """\
A book holds rules over relations, such as "what is part of something that
sits in a hall sits there too". This tool translates a book between readable
text, the file book.rlb and OWL, puts questions to the proved engine, and
tells why a chain binds a role or does not. It only translates: the engine
decides every answer, writes and checks every derivation, gives every network,
and says what is refused."""

EXAMPLES = """\
a book as text, hall.txt:
  names part sits let due
  part part -> part          # a part of a part is a part
  part sits -> sits
  sits let  -> due           # `inv let` is the inverse of let

examples:
  tools/book pack hall.txt                         writes book.rlb beside it
  tools/book unpack book.rlb --names part,sits,let,due
  tools/book ask hall.txt 'due: part part sits let'
  tools/book ask hall.txt 'inv due: inv let inv sits inv part' 'due: sits'
  tools/book ask hall < questions.txt              one question a line
  tools/book ask hall.txt --derived 'due: part sits let'
  tools/book why hall.txt 'due: part part sits let'
  tools/book why hall.txt 'due: sits part let' --svg no.svg
  tools/book to-owl hall.txt -o hall.ofn
  tools/book from-owl hall.ofn -o hall.txt

`-` as a file is standard input or output. The exit status is 0 where all went
well, 1 where something was wrong or refused, 2 where the command was wrong.
docs/TEXT-FORM.md has the whole form. `tools/book COMMAND --help` tells more."""

PACK = "Turns a text into book.rlb. What is wrong with the text is shown as FILE:LINE:COLUMN: message."
UNPACK = """\
Turns book.rlb into text. The file has numbers for names, so the text has r0,
r1 ... unless --names lists others."""
ASK = """\
Puts questions to the proved engine and shows its answers. A question is
ROLE: CHAIN, such as 'due: part part sits let'. Without a question given, they
are read from standard input, one a line.

The program answers for chains of 1 to 16 links: yes, binds, where the role
links the chain's ends in every finite network that obeys the rules and holds
the chain. With --derived the archive answers, for 1 to 1,024 links: yes,
derived, where replacements by the rules lead from the role to the chain. Every
derived chain binds; not every chain that binds is derived."""
WHY = """\
Tells why chains bind a role or do not. A question is as for `ask`, with at
most 16 links. After a yes come the asked role and a line for each step of a
derivation: the chain after it, with brackets around the links that it put in,
and its rule. Where the chain binds and is not derived it says so, and shows the
same for a walk to and fro along the chain. After a no come a network's links,
by name: it obeys the rules and holds the chain, from place 0 on, without the
asked link. The proved archive gives it, and writes and checks the steps;
`tools/archive` makes it. Of several derivations one is shown."""
FROM_OWL = """\
Turns the role axioms of an OWL 2 ontology in functional-style syntax into
text. An axiom that a book cannot hold is refused by name."""
TO_OWL = "Turns a text into an OWL 2 ontology in functional-style syntax, an axiom a rule."


def parser() -> argparse.ArgumentParser:
    raw = argparse.RawDescriptionHelpFormatter
    top = argparse.ArgumentParser("tools/book", description=DESCRIPTION, epilog=EXAMPLES, formatter_class=raw)
    kinds = top.add_subparsers(title="commands", metavar="COMMAND", required=True)

    pack = kinds.add_parser("pack", help="text to book.rlb", description=PACK)
    pack.add_argument("text", metavar="BOOK.txt")
    pack.add_argument("-o", dest="output", metavar="FILE", help="where to write (default: book.rlb beside BOOK.txt)")
    pack.set_defaults(run=commands.pack)

    unpack = kinds.add_parser("unpack", help="book.rlb to text", description=UNPACK)
    unpack.add_argument("book", metavar="book.rlb")
    unpack.add_argument("--names", metavar="A,B,...", help="the book's names in order")
    add_output(unpack)
    unpack.set_defaults(run=commands.unpack)

    ask = kinds.add_parser("ask", help="put questions to the engine", description=ASK, formatter_class=raw)
    add_questions(ask)
    way = ask.add_mutually_exclusive_group()
    way.add_argument("--engine", metavar="FILE", help=f"the program (default: ${VARIABLE}, else target/bin/engine)")
    way.add_argument("--derived", action="store_true", help="ask the archive whether the chains are derived")
    ask.set_defaults(run=commands.ask)

    why = kinds.add_parser("why", help="tell why chains bind or not", description=WHY, formatter_class=raw)
    add_questions(why)
    why.add_argument("--dot", metavar="FILE", help="draw the networks, as Graphviz's DOT")
    why.add_argument("--svg", metavar="FILE", help="draw the networks, as SVG")
    why.set_defaults(run=commands.why)

    from_owl = kinds.add_parser("from-owl", help="OWL role axioms to text", description=FROM_OWL)
    from_owl.add_argument("ontology", metavar="ONTOLOGY.ofn")
    from_owl.add_argument("--skip", action="store_true", help="leave out what a book cannot hold, and tell of each")
    add_output(from_owl)
    from_owl.set_defaults(run=commands.from_owl)

    to_owl = kinds.add_parser("to-owl", help="text to OWL role axioms", description=TO_OWL)
    to_owl.add_argument("text", metavar="BOOK.txt")
    add_output(to_owl)
    to_owl.set_defaults(run=commands.to_owl)
    return top


def add_questions(command: argparse.ArgumentParser) -> None:
    book = "a text, or book.rlb or its folder, perhaps with book.txt beside it"
    command.add_argument("book", metavar="BOOK", help=book)
    command.add_argument("questions", metavar="QUESTION", nargs="*", help="such as 'due: part part sits let'")


def add_output(command: argparse.ArgumentParser) -> None:
    where = "where to write (default: standard output)"
    command.add_argument("-o", dest="output", metavar="FILE", default="-", help=where)


def parse(arguments: list[str]) -> argparse.Namespace:
    """The options read. Questions may stand after an option too, where argparse alone would not look for them."""
    top = parser()
    args, rest = top.parse_known_args(arguments)
    if rest and ("questions" not in args or any(word.startswith("-") for word in rest)):
        top.error(f"not understood: {' '.join(rest)}")
    if rest:
        args.questions += rest
    return args


def main(arguments: list[str]) -> int:
    """Runs one command and gives its exit status; faults are shown after what was written."""
    args = parse(arguments)
    try:
        return args.run(args)
    except Fault as fault:
        messages = fault.messages
    except OSError as error:
        messages = (f"{error.filename or 'output'}: {error.strerror}",)
    sys.stdout.flush()
    print(*messages, sep="\n", file=sys.stderr)
    return 1
