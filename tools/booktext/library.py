"""The proved archive, called through bindings/python, with what it refuses in this tool's own words."""

import sys
from collections.abc import Callable
from pathlib import Path
from typing import TypeVar

from .causes import Refusal
from .faults import Fault

sys.path.append(str(Path(__file__).resolve().parents[2] / "bindings" / "python"))

import rabbitsteel  # noqa: E402

Given = TypeVar("Given")


def called(call: Callable[..., Given], *arguments: object) -> Given | Refusal:
    """What a call gives, or why it refuses. A missing archive is a fault that says how to make it."""
    try:
        return call(*arguments)
    except rabbitsteel.Refused as refused:
        return Refusal(refused.cause.value, refused.value)
    except rabbitsteel.NoArchive as missing:
        raise Fault(str(missing)) from None


def order_refusal(data: bytes) -> Refusal | None:
    """Why nothing can be asked of a book, by causes 1 to 8."""
    order = called(rabbitsteel.order, data)
    return order if isinstance(order, Refusal) else None
