"""Tests of the Python package: every call, every cause, and its numbers and words beside the C header's.

Run: python3 bindings/python/tests/test_rabbitsteel.py. The archive is the real one; without it these tests fail.
"""

import doctest
import os
import re
import subprocess
import sys
import tempfile
import threading
import unittest
from collections.abc import Callable
from pathlib import Path
from unittest import mock

PACKAGE = Path(__file__).resolve().parents[1]
sys.path.insert(0, str(PACKAGE))

import rabbitsteel  # noqa: E402
from rabbitsteel import (  # noqa: E402
    Binding,
    Cause,
    Derivation,
    Header,
    Link,
    Network,
    Order,
    Refused,
    Step,
    Tables,
    archive,
    calls,
    inverse,
    limits,
    refusal,
    role,
)

HEADER = (PACKAGE.parent / "c" / "rabbitsteel.h").read_text(encoding="utf-8")

PART, SITS, LET, DUE = 0, 2, 4, 6
UNKNOWN = 8  # the hall book has no such name


def book(names: int, rules: list[tuple[int, list[int]]]) -> bytes:
    """The bytes of a book: rules as right role and left roles."""
    header = b"RLB\1\0" + bytes([names]) + len(rules).to_bytes(2, "little")
    return header + b"".join(bytes([right, len(left), *left]) for right, left in rules)


HALL = book(4, [(PART, [PART, PART]), (SITS, [PART, SITS]), (DUE, [SITS, LET])])
CIRCLE = book(2, [(2, [0]), (0, [2])])
SYMMETRIC = book(1, [(0, [1])])
SERVES, COVERS = 0, 2
VAN = book(2, [(COVERS, [SERVES, SERVES + 1, SERVES])])
# Each name has the one before it on the left of its only rule: levels 1 to 64, and too many states.
LADDER = book(64, [(2 * name, [2 * name - 2]) for name in range(1, 64)])


class Refusing(unittest.TestCase):
    def refused(self, cause: int, value: int, call: Callable[..., object], *arguments: object) -> None:
        """A call refuses by this cause, with this value beside it."""
        with self.assertRaises(Refused) as raised:
            call(*arguments)
        self.assertEqual((raised.exception.cause, raised.exception.value), (cause, value))


class Books(Refusing):
    def test_hall(self) -> None:
        self.assertEqual(rabbitsteel.read(HALL), Header(names=4, rules=3))
        self.assertEqual(rabbitsteel.order(HALL), Order(names=4, rules=3, depth=3, levels=(1, 2, 1, 3)))

    def test_levels_of_the_deepest_book(self) -> None:
        self.assertEqual(rabbitsteel.order(LADDER), Order(64, 63, 64, tuple(range(1, 65))))

    def test_refused_books(self) -> None:
        changed = bytearray(HALL)
        changed[12] = UNKNOWN
        for data, cause, value in [
            (b"", Cause.SIZE, 0),
            (bytes(2569), Cause.SIZE, 0),
            (bytes(2568), Cause.MARK, 0),
            (b"RLB\2\0\1\0\0", Cause.VERSION, 0),
            (book(65, []), Cause.RANGE, 0),
            (HALL[:-1], Cause.MALFORMED, 2),
            (HALL + b"\0", Cause.MALFORMED, 3),
            (changed, Cause.UNDECLARED, 1),
            (book(1, [(0, [1]), (1, [0])]), Cause.REPEATED, 1),
        ]:
            with self.subTest(bytes(data[:20]).hex()):
                self.refused(cause, value, rabbitsteel.read, data)
                self.refused(cause, value, rabbitsteel.order, data)
                self.refused(cause, value, Tables.of, data)
                self.refused(cause, value, rabbitsteel.derived, data, 255, [])
                self.refused(cause, value, rabbitsteel.write_derivation, data, 255, [])
                self.refused(cause, value, rabbitsteel.check_derivation, data, 255, [], b"\0")
                self.refused(cause, value, rabbitsteel.binds, data, 255, [])

    def test_no_order(self) -> None:
        self.assertEqual(rabbitsteel.read(CIRCLE), Header(2, 2))
        self.refused(Cause.NO_ORDER, 1, rabbitsteel.order, CIRCLE)
        self.refused(Cause.NO_ORDER, 1, Tables.of, CIRCLE)
        self.refused(Cause.NO_ORDER, 1, rabbitsteel.write_derivation, CIRCLE, 0, [0])
        self.refused(Cause.NO_ORDER, 1, rabbitsteel.check_derivation, CIRCLE, 0, [0], b"")
        self.refused(Cause.NO_ORDER, 1, rabbitsteel.binds, CIRCLE, 0, [0])


class Questions(Refusing):
    def test_hall_tables(self) -> None:
        tables = Tables.of(HALL)
        self.assertEqual(tables.heads, (0, 2, 6, 8))
        self.assertEqual((tables.states, len(tables.moves), tables.depth), (16, 54, 3))
        self.assertEqual(tables.moves[:6], (0, 0, 1, 1, rabbitsteel.SILENT, 0))
        self.assertEqual(tables.moves[-3:], (15, rabbitsteel.SILENT, 9))

    def test_hall_questions(self) -> None:
        tables = Tables.of(HALL)
        for asked, chain, answer in [
            (DUE, [PART, PART, SITS, LET], True),
            (DUE, [SITS, PART, LET], False),
            (inverse(DUE), [inverse(LET), inverse(SITS), inverse(PART)], True),
            (DUE, [DUE], True),
            (PART, bytes(1024), True),
            (SITS, bytes(1024), False),
        ]:
            self.assertIs(tables.ask(asked, chain), answer)
            self.assertIs(rabbitsteel.derived(HALL, asked, chain), answer)

    def test_refused_questions(self) -> None:
        tables = Tables.of(HALL)
        for asked, chain, cause in [
            (UNKNOWN, [], Cause.CHAIN),
            (UNKNOWN, bytes(1025), Cause.CHAIN),
            (UNKNOWN, [PART], Cause.ROLE),
            (PART, [PART, 255], Cause.ROLE),
        ]:
            self.refused(cause, 0, tables.ask, asked, chain)
            self.refused(cause, 0, rabbitsteel.derived, HALL, asked, chain)

    def test_tables_that_no_book_gave(self) -> None:
        self.assertTrue(rabbitsteel.ask([2046], [2046, 0, 2047], 0, [0]))
        self.assertFalse(rabbitsteel.ask([0] * 64, [], 127, [0]))
        for heads, moves in [([], []), ([0] * 65, []), ([2047], []), ([0], [0, 0]), ([0], [0, 129, 1])]:
            self.refused(Cause.TABLES, 0, rabbitsteel.ask, heads, moves, 0, [0])

    def test_too_many_states(self) -> None:
        self.refused(Cause.STATES, 0, Tables.of, LADDER)
        self.refused(Cause.STATES, 0, rabbitsteel.derived, LADDER, 0, [0])

    def test_threads(self) -> None:
        tables, answers = Tables.of(HALL), []
        threads = [threading.Thread(target=lambda: answers.append(tables.ask(DUE, [SITS, LET]))) for _ in range(8)]
        for thread in threads:
            thread.start()
        for thread in threads:
            thread.join()
        self.assertEqual(answers, [True] * 8)


class Derivations(Refusing):
    def test_derivations_that_are_the_only_ones(self) -> None:
        for asked, chain, data, steps in [
            (DUE, [SITS, LET], [0, 0, 2, 0], [Step(0, 2, False)]),
            (7, [5, 3, 1], [0, 0, 2, 1, 1, 0, 1, 1], [Step(0, 2, True), Step(1, 1, True)]),
            (DUE, [DUE], [], []),
        ]:
            derivation = rabbitsteel.write_derivation(HALL, asked, chain)
            self.assertEqual(derivation, Derivation(bytes(data)))
            self.assertEqual(derivation and derivation.steps, tuple(steps))
            self.assertIs(rabbitsteel.check_derivation(HALL, asked, chain, bytes(data)), True)

    def test_not_derived(self) -> None:
        self.assertIsNone(rabbitsteel.write_derivation(HALL, DUE, [SITS, PART, LET]))
        self.assertIsNone(rabbitsteel.write_derivation(HALL, SITS, bytes(16)))

    def test_one_of_many(self) -> None:
        derivation = rabbitsteel.write_derivation(HALL, PART, bytes(16))
        assert derivation is not None
        self.assertEqual(len(derivation.steps), 15)
        self.assertTrue(rabbitsteel.check_derivation(HALL, PART, bytes(16), derivation))
        self.assertFalse(rabbitsteel.check_derivation(HALL, PART, bytes(15), derivation))

    def test_books_without_tables(self) -> None:
        derivation = rabbitsteel.write_derivation(LADDER, 127, [1])
        assert derivation is not None
        self.assertEqual(derivation.steps, tuple(Step(0, rule, True) for rule in reversed(range(63))))

    def test_refused_questions(self) -> None:
        for asked, chain, cause in [
            (UNKNOWN, [], Cause.CHAIN),
            (UNKNOWN, bytes(1025), Cause.CHAIN),
            (UNKNOWN, bytes(17), Cause.ROLE),
            (PART, [PART, 255], Cause.ROLE),
            (PART, bytes(17), Cause.LONG),
            (PART, bytes(1024), Cause.LONG),
        ]:
            self.refused(cause, 0, rabbitsteel.write_derivation, HALL, asked, chain)
            self.refused(cause, 0, rabbitsteel.check_derivation, HALL, asked, chain, b"\0")

    def test_impossible_steps(self) -> None:
        good = bytes([0, 0, 2, 0, 0, 0, 1, 0])
        first, second = [(0, 1), (1, 1), (2, 3), (3, 2), (3, 1)], [(4, 2), (6, 0), (7, 1)]
        for place, byte in first + second:
            damaged = bytearray(good)
            damaged[place] = byte
            self.refused(Cause.STEP, place // 4, rabbitsteel.check_derivation, HALL, DUE, [PART, SITS, LET], damaged)
        self.assertTrue(rabbitsteel.check_derivation(HALL, DUE, [PART, SITS, LET], good))
        self.assertFalse(rabbitsteel.check_derivation(HALL, DUE, [PART, SITS, LET], good[:4]))
        self.refused(Cause.STEP, 0, rabbitsteel.check_derivation, HALL, DUE, [PART, SITS, LET], good[:7])

    def test_any_number_of_steps(self) -> None:
        steps = bytes([0, 0, 0, 0, 0, 0, 0, 1]) * 40_000
        self.assertTrue(rabbitsteel.check_derivation(SYMMETRIC, 0, [0], steps))
        self.refused(Cause.STEP, 80_000, rabbitsteel.check_derivation, SYMMETRIC, 0, [0], steps + bytes([0, 0, 0, 1]))


class Bindings(Refusing):
    def links(self, data: bytes, asked: int, chain: list[int]) -> list[tuple[int, int, int]]:
        """The links of the network of a chain that does not bind, asked one by one as well."""
        network = rabbitsteel.binds(data, asked, chain).network
        assert network is not None
        self.assertEqual((network.places, len(network.data)), (len(chain) + 1, data[5] * (len(chain) + 1) ** 2))
        found = list(network)
        places = range(-1, network.places + 1)
        every = [Link(name, start, end) for name in range(-1, data[5] + 1) for start in places for end in places]
        self.assertEqual([link for link in every if network.links(*link)], found)
        return [tuple(link) for link in found]

    def test_out_and_back(self) -> None:
        self.assertEqual(rabbitsteel.binds(VAN, COVERS, [SERVES]), Binding())
        self.assertIsNone(rabbitsteel.write_derivation(VAN, COVERS, [SERVES]))
        self.assertTrue(rabbitsteel.binds(VAN, inverse(COVERS), [inverse(SERVES)]))
        self.assertFalse(rabbitsteel.binds(VAN, COVERS, [inverse(SERVES)]))
        self.assertEqual(self.links(VAN, COVERS, [inverse(SERVES)]), [(0, 1, 0), (1, 1, 0)])
        self.assertEqual(self.links(VAN, COVERS, [0, 0]), [(0, 0, 1), (0, 1, 2), (1, 0, 1), (1, 1, 2)])

    def test_link_of_a_place_to_itself(self) -> None:
        itself = book(3, [(4, [3, 2]), (0, [2, 4])])
        self.assertTrue(rabbitsteel.binds(itself, 0, [2]))
        self.assertEqual(self.links(itself, 4, [2]), [(0, 0, 1), (1, 0, 1), (2, 1, 1)])

    def test_an_inverse_asked_does_not_turn_the_network(self) -> None:
        unturned = Binding(Network(2, bytes([0, 1, 0, 0, 0, 0, 0, 0])))
        self.assertEqual(rabbitsteel.binds(book(2, []), 3, [0]), unturned)
        self.assertEqual(rabbitsteel.binds(book(2, []), 3, [3]), Binding(None))

    def test_hall(self) -> None:
        self.assertTrue(rabbitsteel.binds(HALL, DUE, [PART, PART, SITS, LET]))
        self.assertTrue(rabbitsteel.binds(HALL, PART, bytes(16)))
        self.assertEqual(self.links(HALL, DUE, [SITS, PART, LET]), [(0, 1, 2), (1, 0, 1), (2, 2, 3)])
        parts = [(0, start, end) for start in range(17) for end in range(start + 1, 17)]
        self.assertEqual(self.links(HALL, SITS, [PART] * 16), parts)

    def test_books_without_tables(self) -> None:
        self.assertTrue(rabbitsteel.binds(LADDER, 127, [1]))
        every = [(name, place, place + 1) for name in range(64) for place in range(16)]
        self.assertEqual(self.links(LADDER, 126, [0] * 16), every)

    def test_refused_questions(self) -> None:
        for asked, chain, cause in [
            (UNKNOWN, [], Cause.CHAIN),
            (UNKNOWN, bytes(1025), Cause.CHAIN),
            (UNKNOWN, bytes(17), Cause.ROLE),
            (PART, [PART, 255], Cause.ROLE),
            (PART, bytes(17), Cause.LONG),
            (PART, bytes(1024), Cause.LONG),
        ]:
            self.refused(cause, 0, rabbitsteel.binds, HALL, asked, chain)

    def test_lent_bytes(self) -> None:
        """Too few are refused before the answer is known, and a yes changes none."""
        for asked, answer in [(PART, 1), (DUE, 0)]:
            for count in (0, 15, 16, 20):
                network = calls.lent_bytes(count)
                network[:] = noise = bytes([99] * count)
                if count < 16:
                    self.refused(Cause.BUFFER, 0, calls.call, "binds", HALL, asked, bytes([PART]), network)
                else:
                    self.assertEqual(calls.call("binds", HALL, asked, bytes([PART]), network), [answer])
                written = 0 if answer or count < 16 else 16
                self.assertEqual(bytes(network), bytes([0, 1, *[0] * 14])[:written] + noise[written:])


class Arguments(unittest.TestCase):
    def test_role_bytes(self) -> None:
        self.assertEqual([role(0), role(63), inverse(role(63)), inverse(127)], [0, 126, 127, 126])
        for name in (-1, 64):
            self.assertRaises(ValueError, role, name)

    def test_bytes_in_several_types(self) -> None:
        for chain in ([SITS, LET], (SITS, LET), bytes([SITS, LET]), bytearray([SITS, LET]), iter([SITS, LET])):
            self.assertTrue(rabbitsteel.derived(memoryview(HALL), DUE, chain))

    def test_numbers_that_do_not_fit_are_not_cut(self) -> None:
        for asked, chain in [(256, [0]), (-1, [0]), (0, [256]), (0, [-1])]:
            self.assertRaises(ValueError, rabbitsteel.write_derivation, HALL, asked, chain)
            self.assertRaises(ValueError, rabbitsteel.binds, HALL, asked, chain)
            self.assertRaises(ValueError, rabbitsteel.ask, [0], [], asked, chain)
        self.assertRaises(OverflowError, rabbitsteel.ask, [65536], [], 0, [0])
        self.assertRaises(OverflowError, rabbitsteel.ask, [0], [0, 0, -1], 0, [0])

    def test_other_types(self) -> None:
        self.assertRaises(TypeError, rabbitsteel.read, 20)
        self.assertRaises(TypeError, rabbitsteel.derived, HALL, 0, 1)
        self.assertRaises(TypeError, rabbitsteel.check_derivation, HALL, 0, [0], 4)


class Refusals(unittest.TestCase):
    def test_words(self) -> None:
        self.assertEqual(set(refusal.WORDS), set(Cause))
        refused = Refused(8, 1)
        self.assertEqual(refused.words, "no regular order; rule 1 ends the shortest front part without one")
        self.assertEqual(str(refused), f"refused 8: {refused.words}")
        self.assertEqual(str(Refused(17, 5)), f"refused 17: {Cause.STEP.words}; step 5")
        self.assertEqual(str(Refused(13)), f"refused 13: {Cause.CHAIN.words}")


class BesideTheHeader(unittest.TestCase):
    """What the C header says, said once more here."""

    def test_constants(self) -> None:
        numbers = re.findall(r"#define RABBITSTEEL_(\w+) (\d+)", HEADER)
        owed = [(name, number) for name, number in vars(limits).items() if name.isupper()]
        self.assertEqual([(name, int(number)) for name, number in numbers], owed)
        self.assertEqual([getattr(rabbitsteel, name) for name, _ in owed], [number for _, number in owed])

    def test_causes(self) -> None:
        numbers = re.findall(r"RABBITSTEEL_CAUSE_(\w+) = (\d+)", HEADER)
        self.assertEqual([(name, int(number)) for name, number in numbers], [(cause.name, cause) for cause in Cause])

    def test_words(self) -> None:
        words = re.findall(r'case RABBITSTEEL_CAUSE_(\w+):\s+return "([^"]*)";', HEADER)
        self.assertEqual(words, [(cause.name, cause.words) for cause in Cause])

    def test_every_function_is_called(self) -> None:
        functions = re.findall(r"^uint64_t rabbitsteel_(\w+)\(([^)]*)\)", HEADER, re.M)
        self.assertEqual([name for name, _ in functions], list(calls.FUNCTIONS))
        for name, parameters in functions:
            types, stored = calls.FUNCTIONS[name]
            self.assertEqual(len(types) + stored, parameters.count(",") + 1, name)
            self.assertTrue(hasattr(rabbitsteel, name) or name == "build", name)


class Archive(unittest.TestCase):
    """Where the archive is looked for, and what is said without it."""

    def setUp(self) -> None:
        folder = tempfile.TemporaryDirectory()
        self.addCleanup(folder.cleanup)
        self.folder = Path(folder.name)

    def failure(self, variables: dict[str, str]) -> str:
        """What a first call says in another process."""
        script = "import rabbitsteel\ntry: rabbitsteel.read(b'')\nexcept rabbitsteel.NoArchive as error: print(error)"
        environment = {**os.environ, "PYTHONPATH": str(PACKAGE), **variables}
        command = [sys.executable, "-c", script]
        run = subprocess.run(command, env=environment, capture_output=True, text=True, check=False)
        self.assertEqual((run.returncode, run.stderr), (0, ""))
        return run.stdout

    def test_no_archive(self) -> None:
        told = self.failure({archive.VARIABLE: "/none"})
        self.assertIn("/none/librabbitsteel.a: no archive here; make it with `tools/archive` in ", told)

    def test_no_archive_at_all(self) -> None:
        other = Path(self.folder, "librabbitsteel.a")
        other.write_text("this is none")
        with mock.patch.object(archive, "LINKED", self.folder / "linked"):
            self.assertRaisesRegex(archive.NoArchive, "cc cannot link it", archive.shared, other)
            self.assertEqual(list(archive.LINKED.iterdir()), [])

    def test_another_archive_is_linked_anew(self) -> None:
        own = Path(self.folder, "librabbitsteel.a")
        own.write_bytes(archive.path().read_bytes())
        with mock.patch.object(archive, "LINKED", self.folder / "linked"):
            first = archive.shared(own)
            made = first.stat().st_mtime_ns
            self.assertEqual(archive.shared(own), first)
            self.assertEqual(first.stat().st_mtime_ns, made)
            own.write_bytes(own.read_bytes() + b"\n")
            self.assertNotEqual(archive.shared(own), first)

    def test_an_archive_without_a_call(self) -> None:
        with mock.patch.object(archive, "load", return_value=object()):
            self.assertRaisesRegex(archive.NoArchive, "it has no rabbitsteel_read; make", calls.functions.__wrapped__)

    def test_no_compiler(self) -> None:
        with mock.patch.dict(os.environ, {"PATH": ""}):
            self.assertRaisesRegex(archive.NoArchive, "cc is not installed", archive.link, Path("a.a"), Path("a.so"))


class Page(unittest.TestCase):
    def test_example(self) -> None:
        self.assertEqual(doctest.testmod(rabbitsteel), (0, 10))


if __name__ == "__main__":
    unittest.main()
