"""A call of the program with what is wanted of it. Bytes are hexadecimal digits, with spaces where they help."""

from __future__ import annotations

from typing import Dict, Mapping, NamedTuple, Optional, Sequence

MISSING = None
RUN = ("run", "config.toml", "log", "out", "in0")
Digits = Mapping[str, Optional[str]]


class Case(NamedTuple):
    """A call of the program in a folder of these files. Those that aren't among the left ones stay as they were."""

    name: str
    words: Sequence[str]
    files: Digits
    status: int
    lines: Sequence[str]
    left: Digits = {}

    def before(self) -> Dict[str, bytes]:
        return bytes_of(self.files)

    def after(self) -> Dict[str, bytes]:
        return bytes_of({**self.files, **self.left})

    def report(self) -> str:
        return "".join(f"{line}\n" for line in self.lines)


def bytes_of(files: Digits) -> Dict[str, bytes]:
    return {name: bytes.fromhex(digits) for name, digits in files.items() if digits is not MISSING}
