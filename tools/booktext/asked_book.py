"""The book that questions are about: a text, a file such as book.rlb with perhaps its text beside it, or a folder."""

import sys
from pathlib import Path
from typing import NamedTuple

from . import text_form
from .faults import Fault
from .file_format import Malformed, decode, encode
from .files import read_bytes, read_source
from .model import Book


class AskedBook(NamedTuple):
    """The bytes to be put to the engine, and the book in them; none where causes 1 to 6 refuse them."""

    data: bytes
    book: Book | None


def load(path: str) -> AskedBook:
    """A folder stands for the book.rlb in it."""
    file = Path(path, "book.rlb") if Path(path).is_dir() else Path(path)
    if file.suffix != ".rlb":
        book = text_form.read(read_source(path))
        return AskedBook(encode(book), book)
    data = read_bytes(str(file))
    try:
        return AskedBook(data, named(file.with_suffix(".txt"), data, decode(data)))
    except Malformed:
        return AskedBook(data, None)


def named(text: Path, data: bytes, unnamed: Book) -> Book:
    """The book with the text's names, if the text is there and packs to the same bytes."""
    if not text.exists():
        return unnamed
    try:
        book = text_form.read(read_source(str(text)))
        if encode(book) == data:
            return book
    except Fault:
        pass
    packed = text.with_suffix(".rlb").name
    print(f"{text}: does not pack to {packed}, so its names are not used; they are r0, r1 ...", file=sys.stderr)
    return unnamed
