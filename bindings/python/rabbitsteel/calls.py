"""The archive's functions with their C types. Each gives the numbers that the function stores, or raises `Refused`."""

import ctypes
import functools
from array import array
from collections.abc import Callable, Iterable
from ctypes import POINTER, c_char_p, c_size_t, c_uint8, c_uint16, c_uint64

from . import archive
from .refusal import Refused

BYTES = [c_char_p, c_size_t]  # only read; a length stands beside each pointer
ROLE = [c_uint8]
LENT_BYTES = [POINTER(c_uint8), c_size_t]
WORDS = [POINTER(c_uint16), c_size_t]
QUESTION = ROLE + BYTES

# The parameters of each function before the numbers that it stores, and how many these are.
FUNCTIONS = {
    "read": (BYTES, 2),
    "order": (BYTES + LENT_BYTES, 3),
    "build": (BYTES + WORDS + WORDS, 3),
    "ask": (WORDS + WORDS + QUESTION, 1),
    "derived": (BYTES + WORDS + WORDS + QUESTION, 1),
    "write_derivation": (BYTES + QUESTION + LENT_BYTES, 2),
    "check_derivation": (BYTES + QUESTION + BYTES, 1),
    "binds": (BYTES + QUESTION + LENT_BYTES, 1),
}


def call(name: str, *arguments: object) -> list[int]:
    """Calls a function of the archive. Bytes and lent memory pass with their length; other arguments as they are."""
    _, stored = FUNCTIONS[name]
    numbers = [c_uint64() for _ in range(stored)]
    passed: list[object] = []
    for argument in arguments:
        passed += [argument, len(argument)] if isinstance(argument, (bytes, ctypes.Array)) else [argument]
    cause = functions()[name](*passed, *map(ctypes.byref, numbers))
    if cause:
        raise Refused(cause, numbers[0].value)
    return [number.value for number in numbers]


@functools.cache
def functions() -> dict[str, Callable[..., int]]:
    """The archive's functions, with their types set once."""
    library = archive.load()
    found = {}
    for name, (parameters, stored) in FUNCTIONS.items():
        try:
            function = getattr(library, f"rabbitsteel_{name}")
        except AttributeError:
            raise archive.NoArchive(f"{archive.path()}: it has no rabbitsteel_{name}; {archive.MAKE}") from None
        function.argtypes = [*parameters, *[POINTER(c_uint64)] * stored]
        function.restype = c_uint64
        found[name] = function
    return found


def data(given: bytes) -> bytes:
    """The bytes of whatever holds some, such as a bytearray; anything else is a TypeError."""
    return bytes(memoryview(given))


def question(role: int, chain: Iterable[int]) -> tuple[int, bytes]:
    """A role and a chain as bytes; a number that is no byte is a ValueError."""
    (role,) = bytes([role])
    return role, bytes(iter(chain))


def lent_bytes(count: int) -> "ctypes.Array[c_uint8]":
    return (c_uint8 * count)()


def lent_words(count: int) -> "ctypes.Array[c_uint16]":
    return (c_uint16 * count)()


def words(numbers: Iterable[int]) -> "ctypes.Array[c_uint16]":
    """Numbers of 16 bits; another number is an OverflowError."""
    given = array("H", numbers)
    return (c_uint16 * len(given)).from_buffer_copy(given)
