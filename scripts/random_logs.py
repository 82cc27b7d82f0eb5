"""Random logs and queries of them, the same for the same generator."""

from __future__ import annotations

import copy
import random
import struct
from typing import Callable, List, NamedTuple, Tuple

import log_form
from log_form import BLOCKS, CLOSING, HORIZON, LAST_MOMENT, OPENING, PLAN, TEMPLATES, Batch, Lease, NoMessage, Place
from log_form import Prefix, Told
from model import quad_text
from model_packets import POOL
from packets import quad, softwire_of

PREFIXES = [Prefix(softwire_of(0, 0), 56), Prefix(softwire_of(1, 0), 56), Prefix(0, 0), Prefix((1 << 128) - 1, 128)]
ODD_PREFIXES = [Prefix(1, 127), Prefix(softwire_of(0, 1), 56), Prefix(0, 129), Prefix(0, 255), Prefix(1, 0)]
ADDRESSES = [*POOL, 0, quad("255.255.255.255")]
PORTS = (0, 1, 1023, 1024, 1535, 1536, 2047, 65535)
MOMENTS = (0, 1, 1_000_000, 1_000_001, 2_000_000, LAST_MOMENT)
PLANS = [
    b"56 2048 4 a 20010db8010000000000000000000000/54 p c0000208/32",
    b"56 512 0 a 20010db8010000000000000000000000/40 p c0000208/30",
    b"64 16 4032 a 20010db8000000000000000000000000/60 20010db8000100000000000000000000/64 p c0000208/31 c000020c/32",
    b"128 16384 3 a 00000000000000000000000000000000/127 p 01000000/16",
]
ODD_PLANS = [b" ", b"56", PLANS[0] + b" ", PLANS[0].replace(b"2048", b"2047"), PLANS[0].replace(b" 4 ", b" 3 ")]


class Fields(NamedTuple):
    """What a message says of itself. The difference of a field from what it should be makes it odd."""

    version: int = 0
    length: int = 0
    sequence: int = 0
    domain: int = 0


def odd_fields(rng: random.Random) -> Fields:
    step = rng.choice((-1, 1, 256))
    return rng.choice((Fields(version=step), Fields(length=step), Fields(sequence=step), Fields(domain=step)))


def spelled(fields: Fields, export_time: int, count: int, sets: bytes) -> bytes:
    length = log_form.MESSAGE_HEADER.size + len(sets) + fields.length
    sequence = (count + fields.sequence) % (1 << 32)
    header = (10 + fields.version, length, export_time, sequence, 1 + fields.domain)
    return struct.pack(">HHIII", *(value % (1 << size) for value, size in zip(header, (16, 16, 32, 32, 32)))) + sets


class Maker:
    """Makes the next message of a log that tells this. One in ten of its choices is odd where it is asked to be."""

    def __init__(self, rng: random.Random, told: Told, is_odd: bool) -> None:
        self.rng = rng
        self.told = told
        self.is_odd = is_odd

    def odd(self) -> bool:
        return self.is_odd and self.rng.random() < 0.1

    def moment(self) -> int:
        """A moment up to the horizon, or a little past it, or none that may be."""
        horizon = self.told.horizon
        if self.odd():
            return self.rng.choice((horizon + 1, LAST_MOMENT, LAST_MOMENT + 1, (1 << 64) - 1))
        return min(horizon, self.rng.choice((*MOMENTS, horizon)))

    def horizon_record(self) -> bytes:
        reach = self.told.horizon + self.rng.choice((0, 1, 2_000, 1_000_000, 1_002_000))
        if self.rng.random() < 0.05:
            reach = LAST_MOMENT
        if self.odd():
            reach = self.rng.choice((self.told.horizon - 1, LAST_MOMENT + 1)) % (1 << 64)
        self.told.horizon = max(self.told.horizon, min(reach, LAST_MOMENT))
        return struct.pack(">QQ", self.moment(), reach)

    def plan_record(self) -> bytes:
        """The opening of a plan or the closing of one, with its length in one byte or in three (RFC 7011 7)."""
        plans = self.told.open_plans()
        if plans and not self.odd() or self.odd():
            begin = plans[0].since if plans else 0
            moment, text = max(0, begin + self.rng.choice((-1, 0, 1, 1, 5) if self.odd() else (0, 1, 1, 5))), b""
        else:
            moment, text = self.moment(), self.rng.choice(ODD_PLANS if self.odd() else PLANS)
        if len(text) < 255 and self.rng.random() < 0.7:
            return struct.pack(">QB", moment, len(text)) + text
        length = len(text) + (self.rng.choice((-1, 1, 40_000)) if self.odd() else 0)
        return struct.pack(">QBH", moment, 255, length % (1 << 16)) + text

    def block_record(self) -> bytes:
        rng, open_leases = self.rng, self.told.open_leases()
        if open_leases and rng.random() < 0.4:
            lease = rng.choice(open_leases)
            moment = max(0, lease.since + rng.choice((-1, 0, 0, 0, 1, 1, 300_000)))
            self.told.leases.remove(lease)
            return lease.record(CLOSING, min(moment, LAST_MOMENT))
        ports = sorted(rng.choices(PORTS, k=2), reverse=self.odd())
        owner = rng.choice(ODD_PREFIXES if self.odd() else PREFIXES)
        lease = Lease(owner, rng.choice(ADDRESSES), ports[0], ports[1], self.moment())
        self.told.leases.append(lease)
        return lease.record(rng.choice((0, 4, 12, 15, CLOSING, 18)) if self.odd() else OPENING, lease.since)

    def padding(self, shortest: int) -> bytes:
        if self.odd():
            return self.rng.choice((bytes(shortest), self.rng.randbytes(3), bytes(1) + b"\1"))
        return bytes(self.rng.choice((1, 3, shortest - 1)) if self.rng.random() < 0.1 else 0)

    def sets(self) -> bytes:
        """The template set, and some sets in their order."""
        rng = self.rng
        kinds: List[Tuple[int, float, int, Callable[[], bytes]]] = [
            (HORIZON, 0.5 if self.told.horizon else 0.95, 1, self.horizon_record),
            (PLAN, 0.2, 1, self.plan_record),
            (BLOCKS, 0.8, rng.choice((1, 1, 2, 5)), self.block_record),
        ]
        spelled_sets = []
        for number, share, count, record in kinds:
            if rng.random() < share:
                records = b"".join(record() for _ in range(0 if self.odd() else count * 2 if self.odd() else count))
                shortest = {HORIZON: 16, PLAN: 9, BLOCKS: 34}[number]
                number = rng.choice((0, 1, 2, 3, 255, 257, 259)) if self.odd() else number
                spelled_sets.append(log_form.spelled_set(number, records + self.padding(shortest)))
        if self.odd():
            rng.shuffle(spelled_sets)
        if self.odd():
            spelled_sets.append(rng.choice([*spelled_sets, TEMPLATES, bytes(4), b"\0"]))
        templates = TEMPLATES
        if self.odd():
            at = rng.randrange(len(templates))
            templates = rng.choice((b"", templates[:at] + bytes([templates[at] ^ 1]) + templates[at + 1 :]))
        return templates + b"".join(spelled_sets)

    def message(self, count: int) -> bytes:
        fields = odd_fields(self.rng) if self.odd() else Fields()
        export_time = self.rng.choice((0, 1_000, (1 << 32) - 1))
        return spelled(fields, export_time, count, self.sets())


def follows(told: Told, message: bytes) -> bool:
    """Whether the message may be the next one; what is told then has what stands in it."""
    attempt = copy.deepcopy(told)
    try:
        attempt.take_message(message)
    except NoMessage:
        return False
    told.__dict__.update(attempt.__dict__)
    return True


def random_log(rng: random.Random, is_sound: bool = False) -> bytes:
    """Some frames, mostly such as follow from those before; unless it is to be sound, some damaged, changed or cut."""
    told, messages = Told(), []
    for _ in range(rng.randint(0, 7)):
        is_odd = not is_sound and rng.random() < 0.3
        message = Maker(rng, copy.deepcopy(told), is_odd).message(told.count)
        if follows(told, message) or is_odd and rng.random() < 0.5:
            messages.append(message)
    log = log_form.spelled_log(messages)
    if rng.random() < 0.2:
        log = log[:-1] + bytes([rng.choice((0, 2, 16, 255))])  # every gate but an open one is closed
    if rng.random() < 0.2:
        log += rng.randbytes(rng.choice((1, 5, 200)))  # what a stop left behind the closed gate
    return log if is_sound or rng.random() < 0.75 else damaged(rng, log)


def damaged(rng: random.Random, log: bytes) -> bytes:
    """The log after a change of a byte, without some bytes, with others, or cut."""
    at = rng.randrange(len(log))
    change = rng.random()
    if change < 0.5:
        return log[:at] + bytes([rng.choice((log[at] ^ 1 << rng.randrange(8), 0, 255))]) + log[at + 1 :]
    if change < 0.7:
        return log[:at]
    return log[:at] + rng.randbytes(rng.randrange(3)) + log[at + rng.randrange(3) :]


def long_log(rng: random.Random) -> bytes:
    """Some thousand records in frames of many and of few, which may be damaged at one spot."""
    lease = Lease(PREFIXES[0], POOL[0], 1024, 1535, 1_000_000)
    told = Told(horizon=1_000_000)
    messages = [Batch(1_000_000, horizon=1_000_000).message(0)]
    count, pairs = 1, rng.randint(1020, 1030)
    while pairs > 0:
        taken = min(pairs, rng.choice((1, 10, 400, 900)))
        records = taken * (lease.record(OPENING, told.horizon) + lease.record(CLOSING, told.horizon))
        messages.append(spelled(Fields(), 1_000, count, TEMPLATES + log_form.spelled_set(BLOCKS, records)))
        count, pairs = count + 2 * taken, pairs - taken
    log = log_form.spelled_log(messages)
    return log if rng.random() < 0.5 else damaged(rng, log)


def random_place(rng: random.Random, told: Told) -> Place:
    """A place of a row or beside it."""
    rows = [Place(lease.address, rng.choice((lease.first, lease.last))) for lease in told.leases]
    for plan in told.plans:
        size = plan.spec.block_size
        blocks = rng.choice((1, plan.spec.ratio, 64512 // size)) * size
        rows.append(Place(plan.spec.pool[0].bits, min(65535, 1024 + rng.choice((0, blocks)))))
    place = rng.choice(rows) if rows else Place(POOL[0], 1024)
    return Place(place.address + rng.choice((0, 0, 0, 0, 0, 1, -1)), place.port + rng.choice((-1, 0, 0, 0, 1)))


def random_moment(rng: random.Random, told: Told) -> int:
    """A moment at an end of a row or within it, or at the horizon."""
    rows = [(row.since, told.horizon if row.until is None else row.until) for row in told.rows()]
    since, until = rng.choice(rows) if rows and rng.random() < 0.85 else (told.horizon, told.horizon)
    between = rng.randint(since, until) if since <= until else since
    return rng.choice((since, until, between)) + rng.choice((-1, 0, 0, 1))


def trace_words(rng: random.Random, told: Told) -> List[str]:
    """A query at or beside the ends of a row's ports and of its time."""
    place, moment = random_place(rng, told), max(0, min(random_moment(rng, told), LAST_MOMENT))
    address, port = place.address % (1 << 32), max(0, min(place.port, 65535))
    return ["trace", "log", quad_text(address), str(port), str(moment)]
