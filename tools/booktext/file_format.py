"""The bytes of book.rlb, version 1: written from a book, and read back with generated names."""

from .causes import Refusal
from .model import MOST_LEFT_ROLES, MOST_NAMES, MOST_RULES, Book, Role, Rule
from .names import generated

MARK = b"RLB"
VERSION = 1
LEAST_BYTES = 8
MOST_BYTES = 2568


class Malformed(Exception):
    """Bytes that causes 1 to 6 refuse."""

    def __init__(self, cause: int, value: int = 0) -> None:
        super().__init__(cause, value)
        self.refusal = Refusal(cause, value)


def two_bytes(number: int) -> bytes:
    return number.to_bytes(2, "little")


def role_bytes(names: tuple[str, ...], roles: tuple[Role, ...]) -> bytes:
    """A byte a role: twice its name's number, plus 1 for the inverse."""
    return bytes(2 * names.index(role.name) + role.inverse for role in roles)


def encode(book: Book) -> bytes:
    header = MARK + two_bytes(VERSION) + bytes([len(book.names)]) + two_bytes(len(book.rules))
    return header + b"".join(encode_rule(book.names, rule) for rule in book.rules)


def encode_rule(names: tuple[str, ...], rule: Rule) -> bytes:
    """Right role, length, left roles."""
    return role_bytes(names, (rule.right,)) + bytes([len(rule.left)]) + role_bytes(names, rule.left)


def decode(data: bytes) -> Book:
    """The book in the bytes; the first cause that holds is the one raised."""
    if not LEAST_BYTES <= len(data) <= MOST_BYTES:
        raise Malformed(1)
    if data[:3] != MARK:
        raise Malformed(2)
    if data[3:5] != two_bytes(VERSION):
        raise Malformed(3)
    name_count, rule_count = data[5], int.from_bytes(data[6:8], "little")
    if not 1 <= name_count <= MOST_NAMES or rule_count > MOST_RULES:
        raise Malformed(4)
    return Book(generated(name_count), decode_rules(data, name_count, rule_count))


def decode_rules(data: bytes, name_count: int, rule_count: int) -> tuple[Rule, ...]:
    """The rules from byte 8 on, one after another, and nothing after them."""
    roles = [Role(name, inverse) for name in generated(name_count) for inverse in (False, True)]
    rules: list[Rule] = []
    place = LEAST_BYTES
    for number in range(rule_count):
        length = int.from_bytes(data[place + 1 : place + 2])
        end = place + 2 + length
        if not 1 <= length <= MOST_LEFT_ROLES or end > len(data):
            raise Malformed(5, number)
        right, left = data[place], data[place + 2 : end]
        if max(right, *left) >= len(roles):
            raise Malformed(6, number)
        rules.append(Rule(tuple(roles[byte] for byte in left), roles[right]))
        place = end
    if place < len(data):
        raise Malformed(5, rule_count)
    return tuple(rules)
