"""The folder in which a check lets the program work."""

from __future__ import annotations

import os
import shutil
import tempfile
from contextlib import contextmanager
from typing import Iterator, Optional


@contextmanager
def work_folder(name: str, inside: Optional[str] = None) -> Iterator[str]:
    """A new temporary folder of this name. It is removed at the end, and kept where a violation or another fault was
    raised, so that its files can be looked at."""
    folder = os.path.realpath(tempfile.mkdtemp(prefix=f"{name}.", dir=inside))
    is_kept = False
    try:
        yield folder
    except Exception:
        is_kept = True
        raise
    finally:
        if not is_kept:
            shutil.rmtree(folder)


class WorkFiles:
    """A program in a folder with its files, where an empty configuration and an empty input lie."""

    def __init__(self, program: str, folder: str) -> None:
        self.program = program
        self.folder = folder
        self.write("config.toml", b"")
        self.write("nothing", b"")

    def path(self, name: str) -> str:
        return os.path.join(self.folder, name)

    def write(self, name: str, data: bytes) -> None:
        with open(self.path(name), "wb") as out:
            out.write(data)

    def read(self, name: str) -> bytes:
        return bytes_of(self.path(name))


def bytes_of(path: str) -> bytes:
    """The bytes of a file, and none where it is missing."""
    if not os.path.exists(path):
        return b""
    with open(path, "rb") as source:
        return source.read()
