"""The proved archive as a shared library, which `ctypes` can load.

The archive is `librabbitsteel.a` in the folder that RABBITSTEEL_LIB_DIR names, or else in target/staticlib of this
repository. `cc` links it once into target/python; the library's name has a sum of the archive's bytes, so that another
archive is linked anew.
"""

import ctypes
import functools
import hashlib
import os
import subprocess
import tempfile
from pathlib import Path

VARIABLE = "RABBITSTEEL_LIB_DIR"
REPOSITORY = Path(__file__).resolve().parents[3]
LINKED = REPOSITORY / "target" / "python"
MAKE = f"make it with `tools/archive` in {REPOSITORY}, or name its folder in {VARIABLE}"


class NoArchive(Exception):
    """There is no archive, it lacks a call, or it cannot be linked."""


def path() -> Path:
    """Where the archive is."""
    folder = os.environ.get(VARIABLE)
    archive = (Path(folder) if folder else REPOSITORY / "target" / "staticlib") / "librabbitsteel.a"
    if not archive.is_file():
        raise NoArchive(f"{archive}: no archive here; {MAKE}")
    return archive.resolve()


def shared(archive: Path) -> Path:
    """The shared library of the archive, linked where that is not done yet."""
    library = LINKED / f"librabbitsteel-{hashlib.sha256(archive.read_bytes()).hexdigest()[:16]}.so"
    if not library.exists():
        LINKED.mkdir(parents=True, exist_ok=True)
        # Another process may link at the same time: the finished file is moved to its name.
        with tempfile.TemporaryDirectory(dir=LINKED) as folder:
            link(archive, Path(folder, "linked.so")).replace(library)
    return library


def link(archive: Path, library: Path) -> Path:
    command = ["cc", "-shared", "-o", library, "-Wl,--whole-archive", archive, "-Wl,--no-whole-archive"]
    try:
        subprocess.run(command, check=True, capture_output=True, text=True)
    except FileNotFoundError:
        raise NoArchive(f"{archive}: cc is not installed, which links it for Python") from None
    except subprocess.CalledProcessError as error:
        raise NoArchive(f"{archive}: cc cannot link it:\n{error.stderr}") from None
    return library


@functools.cache
def load() -> ctypes.CDLL:
    """The library, loaded once."""
    return ctypes.CDLL(str(shared(path())))
