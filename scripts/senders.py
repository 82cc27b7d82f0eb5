"""Packets that bear their sender's number, and whom a log names for them.

A subscriber's packet has the number of its prefix in its payload, an error in that of the packet that it quotes, and the
program leaves it as it is. A long packet has it again and again, so that each piece bears it that it is cut into. So whose a
sent packet was is known from the outlet alone, whatever the program or its log says.
"""

from __future__ import annotations

import random
import struct
from collections import defaultdict
from typing import Dict, Iterator, List, NamedTuple, Optional, Tuple

from log_form import Lease, Place, Prefix, Told
from model import SUBSCRIBER_LENGTH, block_of, blocks_under, lease_line, prefix_text, quad_text
from model_packets import FRAGMENT_OFFSET, ICMP, IPV4_HEADER, MORE_FRAGMENTS, POOL, UDP, checksum, number, word
from packets import ECHO_REQUEST, FROM_PUBLIC, FROM_SOFTWIRE, UNREACHABLE, Echo, Error, Softwire, Udp, frame, quad
from packets import softwire_of

PAYLOAD = struct.Struct(">II")  # the subscriber's number, and the packet's
HEADERS = IPV4_HEADER + 8  # of a packet in front of its payload
INNER, MTU = quad("192.0.0.2"), 1500
FRAME_HEAD = struct.Struct(">IBQ")
FIRST_REMOTE, REMOTES = quad("203.0.113.1"), 16
STEPS = (0, 1, 300, 900)  # between moments; the horizon is 2,000 ahead
TIMES = (183, 190, 400, 900)  # that a long packet has its number: its last piece has it once at least


class NoOutlet(Exception):
    """What stands in an outlet is no frame of these packets."""


class Sent(NamedTuple):
    """A packet as it left, or a piece of one: from which place and when, and whose it was."""

    place: Place
    moment: int
    owner: Prefix
    is_later: bool = False  # a piece without a port, which is behind the one that has it

    def words(self) -> Tuple[str, str, str]:
        """What `trace` is asked."""
        return quad_text(self.place.address), str(self.place.port), str(self.moment)

    def answer(self) -> str:
        """What it has to say."""
        return f"named {prefix_text(self.owner)}\n"


class Stream:
    """Inputs one after another. Their moments and subscribers rise all along, so new mappings never end.

    At each moment a few subscribers send from a few ports, datagrams mostly, but echo requests and errors too. Some are so long
    that they are cut. Every 20 packets another one takes the place of the first, and now and then one of long ago comes back.
    """

    def __init__(self, seed: int) -> None:
        self.random = random.Random(seed)
        self.count = 0

    def part(self, begin: int, records: int) -> bytes:
        moment, frames = begin, []
        for _ in range(records):
            frames.append(frame(FROM_SOFTWIRE, moment, self.packet()))
            moment += self.random.choice(STEPS)
        return b"".join(frames)

    def packet(self) -> bytes:
        newest = self.count // 20 + 12
        oldest = 0 if self.random.random() < 0.02 else newest - 12
        subscriber = self.random.randrange(oldest, newest) % (1 << 16)
        payload = PAYLOAD.pack(subscriber, self.count % (1 << 32))
        if self.random.random() < 0.15:
            payload *= self.random.choice(TIMES)
        port, remote = 5000 + self.random.randrange(8), FIRST_REMOTE + self.random.randrange(REMOTES)
        self.count += 1
        inner, step = Udp(source_port=port, destination=remote, payload=payload).spelled(), self.random.random()
        if step < 0.05:
            inner = Echo(INNER, remote, port, payload=payload).spelled()
        elif step < 0.15:  # about what came to a port, which may have no mapping
            inner = Error(INNER, remote, Udp(remote, 53, INNER, port, payload).spelled()).spelled()
        return Softwire(inner, source=softwire_of(subscriber)).spelled()


def records_in(outlet: bytes) -> Tuple[List[Tuple[int, bytes]], int]:
    """The records that stand whole in an outlet, each a moment and a packet, and how many bytes of one more stand behind
    them."""
    records, at = [], 0
    while len(outlet) - at >= FRAME_HEAD.size:
        length, kind, moment = FRAME_HEAD.unpack_from(outlet, at)
        begin, end = at + FRAME_HEAD.size, at + 4 + length
        if length <= 9 + IPV4_HEADER or length > 9 + MTU or kind != FROM_PUBLIC:
            raise NoOutlet(f"the outlet has no packet of this input at {at}")
        if end > len(outlet):
            break
        records.append((moment, outlet[begin:end]))
        at = end
    return records, len(outlet) - at


def whole_packets(outlet: bytes) -> Tuple[List[Sent], int]:
    """The packets that stand whole in an outlet, and how many bytes of one more stand behind them."""
    records, rest = records_in(outlet)
    return list(sent_packets(records)), rest


def ends_in_pieces(outlet: bytes) -> bool:
    """Whether a later piece is missing of the last packet that stands in an outlet, or stands there in part."""
    records, _ = records_in(outlet)
    return len(records) > 0 and word(records[-1][1], 6) & MORE_FRAGMENTS != 0


def port_of(packet: bytes) -> Tuple[int, int]:
    """The port that a packet shows, and where its payload begins: an echo request's identifier, or the port to which that went
    that an error quotes (RFC 5508)."""
    if packet[9] == ICMP and packet[20] == ECHO_REQUEST:
        return word(packet, 24), HEADERS
    if packet[9] == ICMP and packet[20] == UNREACHABLE and packet[28 + 16 : 28 + 20] == packet[12:16]:
        return word(packet, 28 + 22), 28 + HEADERS
    if packet[9] == UDP:
        return word(packet, 20), HEADERS
    raise NoOutlet(f"the outlet has a packet of another kind: {packet.hex()}")


def sent_packets(records: List[Tuple[int, bytes]]) -> Iterator[Sent]:
    """What left. Pieces of a packet stand one behind the other, at one moment, and the first one alone has the port."""
    place, at, front, next_offset = Place(0, 0), 0, (0, b""), 0
    for moment, packet in records:
        flags, is_later = word(packet, 6), next_offset > 0
        if not is_later:
            port, at = port_of(packet)
            place = Place(number(packet, 12, 4), port)
            front = moment, common_bytes(packet)
        elif front != (moment, common_bytes(packet)):
            raise NoOutlet(f"behind a piece comes no other one of its packet, but {packet[:28].hex()} at {moment}")
        where = IPV4_HEADER + (at - IPV4_HEADER) % PAYLOAD.size if is_later else at
        subscriber, count = PAYLOAD.unpack_from(packet, where)
        is_right = packet[0] == 0x45 and checksum(packet[:IPV4_HEADER]) == 0 and place.address in POOL
        if not is_right or 8 * (flags & FRAGMENT_OFFSET) != next_offset:
            raise NoOutlet(f"packet {count} of the outlet isn't right")
        next_offset = next_offset + len(packet) - IPV4_HEADER if flags & MORE_FRAGMENTS else 0
        yield Sent(place, moment, Prefix(softwire_of(subscriber, 0), SUBSCRIBER_LENGTH), is_later)


def common_bytes(packet: bytes) -> bytes:
    """What all pieces of a packet have in common: identification, hops, protocol and addresses."""
    return packet[4:6] + packet[8:10] + packet[12:20]


class Names:
    """Whom a log names. It is read by the plain model, and all rows that hold a place count, not only the first."""

    def __init__(self, told: Told) -> None:
        self.horizon = told.horizon
        self.rows: Dict[Tuple[int, int], List[Lease]] = defaultdict(list)
        for lease in told.leases:
            self.add(lease)

    def add(self, lease: Lease) -> None:
        for block in blocks_under(lease):
            self.rows[block].append(lease)

    def rows_of(self, packet: Sent) -> List[Lease]:
        if packet.moment > self.horizon:
            return []
        rows = self.rows[block_of(packet.place)]
        return [lease for lease in rows if lease.holds(packet.place, packet.moment)]

    def wrong_in(self, packet: Sent, rows: List[Lease]) -> Optional[str]:
        """Where the rows of a packet name anybody but its sender, or nobody: that, in words."""
        owners = [lease.owner for lease in rows]
        if owners == [packet.owner]:
            return None
        found = " and ".join(map(prefix_text, owners)) or f"nobody up to {self.horizon}"
        return f"the log names {found} for {' '.join(packet.words())}, which {prefix_text(packet.owner)} sent"

    def add_new(self, lease: Lease) -> Optional[str]:
        """Adds a row. Where another one holds a place of it at a moment of it: that, in words."""
        others = [other for block in blocks_under(lease) for other in self.rows[block]]
        self.add(lease)
        for other in others:
            if other.overlaps(lease.address, lease.first, lease.last) and meet(lease, other):
                rows = " and ".join(lease_line(row).strip() for row in (other, lease))
                return f"the log has two rows for one place and moment: {rows}"
        return None


def meet(one: Lease, other: Lease) -> bool:
    """Whether there is a moment of both. An open lease goes on."""
    begin = max(one.since, other.since)
    return all(lease.until is None or begin <= lease.until for lease in (one, other))


def misnamed(told: Told, packets: List[Sent]) -> Optional[str]:
    """The first packet for which a log names anybody but its sender, or nobody, in words."""
    names = Names(told)
    found = (names.wrong_in(packet, names.rows_of(packet)) for packet in packets)
    return next(filter(None, found), None)


class Promises:
    """All packets so far, and whom a growing log names for them.

    A packet is looked up again as long as its row is open. A row that has closed stays as it is, and no new one may
    hold a place of it at a moment of it: so the packet has its name and no other one from then on.
    """

    def __init__(self) -> None:
        self.packets: List[Sent] = []
        self.unsettled: List[Sent] = []
        self.names = Names(Told())

    def add(self, packets: List[Sent]) -> None:
        self.packets += packets
        self.unsettled += packets

    def broken(self, horizon: int, opened: List[Lease]) -> Optional[str]:
        """What is wrong with a log of this horizon and these new rows, in words: two rows that meet, or the first
        packet that isn't named rightly."""
        self.names.horizon = horizon
        wrong = list(map(self.names.add_new, opened))
        looked_up = [(packet, self.names.rows_of(packet)) for packet in self.unsettled]
        wrong += [self.names.wrong_in(packet, rows) for packet, rows in looked_up]
        self.unsettled = [packet for packet, rows in looked_up if any(lease.until is None for lease in rows)]
        return next(filter(None, wrong), None)


def closed(told: Told) -> Told:
    """What a log tells once its open leases were closed at the horizon. It is changed in its place."""
    for lease in told.open_leases():
        lease.until = told.horizon
    return told


def keeps(before: Told, after: Told) -> bool:
    """Whether all that was told before still is, but that open leases may have closed at the horizon of then. They all
    have before anything else is told."""
    if after.horizon < before.horizon or len(after.leases) < len(before.leases):
        return False
    goes_on = after.horizon > before.horizon or len(after.leases) > len(before.leases)
    for old, new in zip(before.leases, after.leases):
        ends = [old.until] if old.until is not None else [before.horizon] if goes_on else [before.horizon, None]
        if not new.has_block_of(old) or new.since != old.since or new.until not in ends:
            return False
    return True
