"""A log that is read again and again while it grows: each time only what came behind the last reading is read.

It tells what the plain reader of log_form.py tells of the whole file, in less time, and only where the bytes that were
read before are still the same. Of what was told before, only the open rows can change: so what a reading finds is told
of these and of the new ones.
"""

from __future__ import annotations

from dataclasses import dataclass, field, replace
from itertools import takewhile
from typing import List, NamedTuple

from log_form import HEADER, Lease, Told
from model import lease_line, told_lines


class Changed(Exception):
    """A byte that was read before is another one now, or there is none."""

    def __init__(self, offset: int) -> None:
        super().__init__(offset)
        self.offset = offset


@dataclass
class GrowingTold(Told):
    """What a growing log tells. What was closed once isn't looked for among the open leases: it never opens again."""

    were_open: List[Lease] = field(default_factory=list)  # when they were last asked for
    were_told: int = 0  # so many leases then

    def open_leases(self) -> List[Lease]:
        candidates = self.were_open + self.leases[self.were_told :]
        self.were_open = [lease for lease in candidates if lease.until is None]
        self.were_told = len(self.leases)
        return list(self.were_open)

    def is_as(self, plain: Told) -> bool:
        """Whether the plain reader reads the same."""
        here, there = ((told.leases, told.plans, told.horizon, told.count, told.tail) for told in (self, plain))
        return here == there


class Step(NamedTuple):
    """What a reading found: the rows that could change as they were before, and as they are now with the new ones
    behind them."""

    before: Told
    after: Told
    opened: List[Lease]  # since then


class GrowingLog:
    """The bytes of a log that were read, without its closed gate, and what they tell."""

    def __init__(self) -> None:
        self.data = HEADER
        self.told = GrowingTold()
        self.settled_lines, self.settled = "", 0  # of the leases before the first open one, and how many they are

    def read_on(self, log: bytes) -> Step:
        """Reads what came behind the last reading."""
        if len(log) < self.told.tail or not log.startswith(self.data):
            raise Changed(first_difference(self.data, log))
        told = self.told
        rows, plans, count = told.open_leases(), list(told.plans), len(told.leases)
        before = Told([replace(row) for row in rows], [replace(plan) for plan in plans], told.horizon)
        told.take_frames(log)
        self.data = log[: told.tail - 1]
        opened = told.leases[count:]
        return Step(before, Told(rows + opened, told.plans, told.horizon), opened)

    def lines(self) -> str:
        """What `leases` has to print. The lines of closed leases are kept, up to the first that is open."""
        rest = self.told.leases[self.settled :]
        closed = list(takewhile(lambda lease: lease.until is not None, rest))
        self.settled_lines += "".join(map(lease_line, closed))
        self.settled += len(closed)
        return self.settled_lines + told_lines(Told(rest[len(closed) :], self.told.plans, self.told.horizon))


def first_difference(data: bytes, log: bytes) -> int:
    """Where a log is another one than it was, or ends."""
    differing = (at for at, pair in enumerate(zip(data, log)) if pair[0] != pair[1])
    return next(differing, min(len(data), len(log)))
