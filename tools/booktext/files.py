"""Files read and written by name; `-` is standard input or output."""

import sys
from pathlib import Path

from .source import Source


def read_bytes(path: str) -> bytes:
    return sys.stdin.buffer.read() if path == "-" else Path(path).read_bytes()


def read_source(path: str) -> Source:
    return Source.decoded("stdin" if path == "-" else path, read_bytes(path))


def write_bytes(path: str, data: bytes) -> None:
    if path != "-":
        Path(path).write_bytes(data)
        return
    sys.stdout.flush()
    sys.stdout.buffer.write(data)
    sys.stdout.buffer.flush()
