"""The log of the plain model: what its bytes tell, and the bytes that a batch of events adds to it.

Written from the form's description alone (docs/formats.md). Whole files are looked at, rows are plain lists.
"""

from __future__ import annotations

import re
import struct
from dataclasses import dataclass, field
from typing import List, NamedTuple, Optional, Sequence, Tuple, Union

LAST_MOMENT = 4_294_967_295_999
FIRST_PORT, PORTS = 1024, 65536 - 1024
HEADER = bytes.fromhex("41465452 4c4f4701 00000000 00000000")  # the letters AFTRLOG, and the number of the form
CLOSED_GATE, OPEN_GATE = 0, 1
EMPTY_LOG = HEADER + bytes([CLOSED_GATE])
SHORTEST_MESSAGE, LONGEST_MESSAGE = 16, 65535
MESSAGE_HEADER = struct.Struct(">HHIII")  # version, length, export time, sequence number, domain (RFC 7011 3.1)
VERSION, DOMAIN = 10, 1
# Three templates (RFC 7011 3.4.1): blocks, the horizon, the plan. The latter two have an element of enterprise 32473.
TEMPLATES = bytes.fromhex(
    "0002 0044"
    "0100 0007  0143 0008  00e6 0001  001b 0010  001d 0001  00e1 0004  0169 0002  016a 0002"
    "0101 0002  0143 0008  8001 0008 00007ed9"
    "0102 0002  0143 0008  8002 ffff 00007ed9"
)
BLOCKS, HORIZON, PLAN = 256, 257, 258
ORDER = [HORIZON, PLAN, BLOCKS]  # of a message's sets
BLOCK_RECORD = struct.Struct(">QB16sBIHH")
HORIZON_RECORD = struct.Struct(">QQ")
SHORTEST_PLAN_RECORD = 9
LONGEST_PLAN_TEXT = 4096
OPENING, CLOSING = 16, 17  # natEvent (RFC 8158)


class Damaged(Exception):
    """A log is none from this offset on."""

    def __init__(self, offset: int) -> None:
        super().__init__(offset)
        self.offset = offset


class LogFull(Exception):
    """A frame needs more bytes behind the tail than the log may have."""

    def __init__(self, tail: int, need: int, limit: int) -> None:
        super().__init__(tail, need, limit)
        self.line = f"fault LogFull {tail} {need} {limit}\n"


class NoMessage(Exception):
    """The bytes of a frame are no message of a log, or none in its place."""


def demand(holds: bool) -> None:
    if not holds:
        raise NoMessage


# ---- what a log tells


class Place(NamedTuple):
    """An IPv4 address with a port."""

    address: int
    port: int


class Prefix(NamedTuple):
    """An IPv6 prefix, or an IPv4 one in a plan's pool."""

    bits: int
    length: int


@dataclass
class Lease:
    """A block of ports that a subscriber has or had; open while it has no end. Both ends belong to it."""

    owner: Prefix
    address: int
    first: int
    last: int
    since: int
    until: Optional[int] = None

    def holds(self, place: Place, moment: int) -> bool:
        in_block = self.address == place.address and self.first <= place.port <= self.last
        return in_block and self.since <= moment and (self.until is None or moment <= self.until)

    def overlaps(self, address: int, first: int, last: int) -> bool:
        return self.address == address and self.first <= last and first <= self.last

    def has_block_of(self, other: Lease) -> bool:
        block = (self.owner, self.address, self.first, self.last)
        return block == (other.owner, other.address, other.first, other.last)

    def record(self, event: int, moment: int) -> bytes:
        bits = self.owner.bits.to_bytes(16, "big")
        return BLOCK_RECORD.pack(moment, event, bits, self.owner.length, self.address, self.first, self.last)


class PlanSpec(NamedTuple):
    """By what the blocks of a plan are given to all subscribers, in the way of RFC 7422."""

    subscriber_length: int
    block_size: int
    ratio: int
    aggregates: Tuple[Prefix, ...]
    pool: Tuple[Prefix, ...]

    def text(self) -> bytes:
        aggregates = " ".join(f"{prefix.bits:032x}/{prefix.length}" for prefix in self.aggregates)
        pool = " ".join(f"{prefix.bits:08x}/{prefix.length}" for prefix in self.pool)
        return f"{self.subscriber_length} {self.block_size} {self.ratio} a {aggregates} p {pool}".encode()

    def is_accepted(self) -> bool:
        return (
            16 <= self.subscriber_length <= 128
            and self.are_aggregates()
            and self.is_pool()
            and self.block_size in [1 << power for power in range(4, 15)]
            and 0 <= self.ratio <= PORTS // self.block_size
            and (self.ratio == 0 or self.subscribers() <= size_of(self.pool, 32) * self.ratio)
        )

    def are_aggregates(self) -> bool:
        low, high = self.subscriber_length - 24, self.subscriber_length
        return is_rising(self.aggregates, 128) and all(low <= prefix.length <= high for prefix in self.aggregates)

    def is_pool(self) -> bool:
        octets = [prefix.bits >> 24 for prefix in self.pool]
        return (
            is_rising(self.pool, 32)
            and all(16 <= prefix.length for prefix in self.pool)
            and size_of(self.pool, 32) <= 65536
            and all(1 <= octet <= 223 and octet != 127 for octet in octets)
            and not any(overlap(prefix, Prefix(0xC000_0000, 29), 32) for prefix in self.pool)
        )

    def subscribers(self) -> int:
        return size_of(self.aggregates, self.subscriber_length)


def size_of(prefixes: Sequence[Prefix], width: int) -> int:
    return sum(1 << (width - prefix.length) for prefix in prefixes)


def overlap(one: Prefix, other: Prefix, width: int) -> bool:
    shift = width - min(one.length, other.length)
    return one.bits >> shift == other.bits >> shift


def is_rising(prefixes: Sequence[Prefix], width: int) -> bool:
    """Whether there are 1 to 64 prefixes, rising and apart, none of which has a bit past its length."""
    return (
        1 <= len(prefixes) <= 64
        and all(prefix.length <= width and prefix.bits % (1 << (width - prefix.length)) == 0 for prefix in prefixes)
        and all(one.bits < other.bits and not overlap(one, other, width) for one, other in zip(prefixes, prefixes[1:]))
    )


NUMBER = "(?:0|[1-9][0-9]*)"
PLAN_TEXT = re.compile(
    f"({NUMBER}) ({NUMBER}) ({NUMBER}) a((?: [0-9a-f]{{32}}/{NUMBER})+) p((?: [0-9a-f]{{8}}/{NUMBER})+)"
)


def read_prefixes(text: str) -> Tuple[Prefix, ...]:
    parts = [word.split("/") for word in text.split()]
    return tuple(Prefix(int(bits, 16), int(length)) for bits, length in parts)


def read_plan(text: bytes) -> Optional[PlanSpec]:
    """The plan that a text spells, where its values may stand in a configuration."""
    if len(text) > LONGEST_PLAN_TEXT:
        return None
    found = PLAN_TEXT.fullmatch(text.decode("latin-1"))
    if found is None:
        return None
    subscriber_length, block_size, ratio = map(int, found.groups()[:3])
    spec = PlanSpec(subscriber_length, block_size, ratio, read_prefixes(found[4]), read_prefixes(found[5]))
    return spec if spec.is_accepted() else None


@dataclass
class Plan:
    """A plan that was in force; open while it has no end. Both ends belong to it."""

    spec: PlanSpec
    since: int
    until: Optional[int] = None


Row = Union[Lease, Plan]


@dataclass
class Told:
    """What a log tells: rows in order of opening, its horizon, the number of its data records, and where it ends."""

    leases: List[Lease] = field(default_factory=list)
    plans: List[Plan] = field(default_factory=list)
    horizon: int = 0
    count: int = 0
    tail: int = len(EMPTY_LOG)

    def rows(self) -> List[Row]:
        return [*self.leases, *self.plans]

    def end(self) -> int:
        """The last moment that the log says anything of."""
        ends = [row.until for row in self.rows() if row.until is not None]
        return max([self.horizon, *ends])

    def open_leases(self) -> List[Lease]:
        return [lease for lease in self.leases if lease.until is None]

    def open_plans(self) -> List[Plan]:
        return [plan for plan in self.plans if plan.until is None]

    def take_frames(self, log: bytes) -> None:
        """What stands from the gate on that was the closed one so far, up to the one that is closed now."""
        gate = self.tail - 1
        while log[gate] == OPEN_GATE:
            begin = gate + 5
            end = begin + int.from_bytes(log[gate + 1 : begin], "big")
            if not SHORTEST_MESSAGE <= end - begin <= LONGEST_MESSAGE or end >= len(log):
                raise Damaged(gate)
            try:
                self.take_message(log[begin:end])
            except NoMessage:
                raise Damaged(gate) from None
            gate = end
        self.tail = gate + 1

    def take_message(self, message: bytes) -> None:
        """What stands in the next message."""
        version, length, _, sequence, domain = MESSAGE_HEADER.unpack_from(message)
        demand(version == VERSION and length == len(message) and domain == DOMAIN)
        demand(sequence == self.count % (1 << 32))
        at = MESSAGE_HEADER.size + len(TEMPLATES)
        demand(message[MESSAGE_HEADER.size : at] == TEMPLATES)
        sets: List[int] = []
        while at < len(message):
            demand(at + 4 <= len(message))
            number, length = struct.unpack_from(">HH", message, at)
            demand(4 <= length <= len(message) - at)
            sets.append(number)
            demand(sets == [known for known in ORDER if known in sets])
            self.take_set(number, message[at + 4 : at + length])
            at += length

    def take_set(self, number: int, body: bytes) -> None:
        """The records of a set. Zeros may stand behind them, fewer than the shortest has bytes (RFC 7011 3.3.1)."""
        if number == HORIZON:
            demand(HORIZON_RECORD.size <= len(body) < 2 * HORIZON_RECORD.size)
            self.take_horizon(*HORIZON_RECORD.unpack_from(body))
            padding = body[HORIZON_RECORD.size :]
        elif number == PLAN:
            demand(len(body) >= SHORTEST_PLAN_RECORD)
            begin = 9 if body[8] < 255 else 11
            end = begin + (body[8] if body[8] < 255 else int.from_bytes(body[9:11], "big"))
            demand(end <= len(body) < end + SHORTEST_PLAN_RECORD)
            self.take_plan(int.from_bytes(body[:8], "big"), body[begin:end])
            padding = body[end:]
        else:
            demand(len(body) >= BLOCK_RECORD.size)
            for at in range(0, len(body) - BLOCK_RECORD.size + 1, BLOCK_RECORD.size):
                moment, event, bits, length, address, first, last = BLOCK_RECORD.unpack_from(body, at)
                owner = Prefix(int.from_bytes(bits, "big"), length)
                self.take_block(event, Lease(owner, address, first, last, moment))
            padding = body[len(body) - len(body) % BLOCK_RECORD.size :]
        demand(not any(padding))

    def take_horizon(self, moment: int, reach: int) -> None:
        demand(moment <= LAST_MOMENT and self.horizon <= reach <= LAST_MOMENT)
        self.horizon = reach
        self.count += 1

    def take_plan(self, moment: int, text: bytes) -> None:
        demand(moment <= LAST_MOMENT)
        if text:
            spec = read_plan(text)
            demand(spec is not None and moment <= self.horizon and not self.open_plans())
            assert spec is not None
            self.plans.append(Plan(spec, moment))
        else:
            demand(any(plan.since <= moment for plan in self.open_plans()))
            self.open_plans()[0].until = moment
        self.count += 1

    def take_block(self, event: int, lease: Lease) -> None:
        """A lease that opens or closes at its moment."""
        bits, length = lease.owner
        demand(lease.since <= LAST_MOMENT and event in (OPENING, CLOSING))
        demand(length <= 128 and bits % (1 << (128 - length)) == 0 and lease.first <= lease.last)
        in_the_way = [row for row in self.open_leases() if row.overlaps(lease.address, lease.first, lease.last)]
        if event == OPENING:
            demand(lease.since <= self.horizon and not in_the_way)
            self.leases.append(lease)
        else:
            closed = [row for row in in_the_way if row.has_block_of(lease)]
            demand(any(row.since <= lease.since for row in closed))
            closed[0].until = lease.since
        self.count += 1


def read_log(log: bytes) -> Told:
    """What a log tells. Where it is none, it is damaged at a gate: the bytes behind it are no frame in its place."""
    if len(log) < len(EMPTY_LOG) or not log.startswith(HEADER):
        raise Damaged(0)
    told = Told()
    told.take_frames(log)
    return told


# ---- what a log gets


@dataclass
class Batch:
    """What one frame logs. All its records bear one moment."""

    moment: int
    horizon: Optional[int] = None
    plan: Optional[bytes] = None  # its text, which is empty where it closes
    closings: List[Lease] = field(default_factory=list)
    openings: List[Lease] = field(default_factory=list)

    def count(self) -> int:
        single = [one for one in (self.horizon, self.plan) if one is not None]
        return len(single) + len(self.closings) + len(self.openings)

    def message(self, sequence: int) -> bytes:
        sets = b""
        if self.horizon is not None:
            sets += spelled_set(HORIZON, HORIZON_RECORD.pack(self.moment, self.horizon))
        if self.plan is not None:
            sets += spelled_set(PLAN, plan_record(self.moment, self.plan))
        blocks = [lease.record(CLOSING, self.moment) for lease in self.closings]
        blocks += [lease.record(OPENING, self.moment) for lease in self.openings]
        if blocks:
            sets += spelled_set(BLOCKS, b"".join(blocks))
        return spelled_message(self.moment // 1000, sequence, TEMPLATES + sets)


def spelled_set(number: int, body: bytes) -> bytes:
    return struct.pack(">HH", number, 4 + len(body)) + body


def plan_record(moment: int, text: bytes) -> bytes:
    length = bytes([len(text)]) if len(text) < 255 else b"\xff" + struct.pack(">H", len(text))
    return moment.to_bytes(8, "big") + length + text


def spelled_message(export_time: int, sequence: int, sets: bytes) -> bytes:
    length = MESSAGE_HEADER.size + len(sets)
    return MESSAGE_HEADER.pack(VERSION, length, export_time, sequence % (1 << 32), DOMAIN) + sets


def spelled_log(messages: Sequence[bytes]) -> bytes:
    """A log of these messages, each behind an open gate."""
    gate = bytes([OPEN_GATE])
    return HEADER + b"".join(gate + struct.pack(">I", len(text)) + text for text in messages) + bytes([CLOSED_GATE])


class Log:
    """A log's bytes, which may go on behind its closed gate, and what is needed to add a frame."""

    def __init__(self, data: bytes, told: Told) -> None:
        self.data = bytearray(data)
        self.tail = told.tail
        self.count = told.count

    def commit(self, batch: Batch, limit: int) -> None:
        """Adds the batch's frame. Nothing is written where the log would grow past the limit."""
        message = batch.message(self.count)
        body = struct.pack(">I", len(message)) + message + bytes([CLOSED_GATE])
        if self.tail + len(body) > limit:
            raise LogFull(self.tail, len(body), limit)
        self.data[self.tail : self.tail + len(body)] = body
        self.data[self.tail - 1] = OPEN_GATE
        self.tail += len(body)
        self.count += batch.count()
