"""Role bytes: twice the name, plus 1 for the inverse."""

from .limits import NAMES_MAX


def role(name: int) -> int:
    """The role byte of a name, 0 to 63."""
    if not 0 <= name < NAMES_MAX:
        raise ValueError(f"a name is 0 to {NAMES_MAX - 1}, not {name}")
    return 2 * name


def inverse(role_byte: int) -> int:
    """The inverse of a role byte."""
    return role_byte ^ 1
