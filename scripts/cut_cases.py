"""Packets that are too long for the link that they leave by: what they are cut into (RFC 791 3.2, RFC 8200 4.5, RFC 6333 5.3).

A packet to the public side is cut into IPv4 pieces, and one into a softwire into fragments of the IPv6 packet around it. These
have an identification, by which the packets are counted that were cut for a subscriber.
"""

from __future__ import annotations

from typing import Iterator, List, NamedTuple, Sequence, Tuple

import error_cases
from exchange import FIRST, FIRST_LEFT, INNER, MOMENT, POOL, REMOTE, Changes, Exchange, around, from_softwire, public
from exchange import to_softwire
from fragments import ipv4_pieces, tunnel_fragments
from log_digits import FIRST_LOG
from packets import ACK, DONT_FRAGMENT, FIN, FROM_SOFTWIRE, RESERVED, RST, SYN, Echo, Error, Tcp, Udp, frame, quad
from packets import softwire_of
from refusal_cases import error_about
from whole_cases import FLOWS as OTHER_FLOWS
from whole_cases import Flow, Packet, fragments, pieces_inside, pieces_outside

MTU, LONGEST = 1500, 65_535
PIECE, FRAGMENT = 1480, 1448  # what a piece and a fragment bear, but for the last one
PATTERN = bytes((number * 7 + (number >> 8) * 13) % 251 for number in range(1 << 16))
MAY_NOT_BE_CUT: Changes = {"fragment": DONT_FRAGMENT}
ALL_FLAGS = (0, RESERVED, DONT_FRAGMENT, DONT_FRAGMENT | RESERVED)
OTHER_PLACE = 1536  # the first port of the second subscriber to come

DATAGRAMS = Flow(
    Udp(),
    Udp(POOL, 1024, ttl=63),
    Udp(),
    Udp(POOL, 1024, ttl=63),
    Udp(REMOTE, 53, POOL, 1024),
    Udp(REMOTE, 53, INNER, 5000, ttl=63),
)
WITHOUT_SUM = Flow(*(packet._replace(udp_sum=0) for packet in DATAGRAMS))
FLOWS = [DATAGRAMS, WITHOUT_SUM, *OTHER_FLOWS]


def sized(packet: Packet, total: int, changes: Changes = {}) -> bytes:
    """The packet with so many bytes in all."""
    bare = packet._replace(**{**changes, "payload": b""})
    return bare._replace(payload=PATTERN[: total - len(bare.spelled())]).spelled()


def cut_out(packet: bytes, moment: int = MOMENT, mtu: int = MTU) -> List[bytes]:
    """The records of a packet as it leaves to the public side."""
    if len(packet) <= mtu:
        return [public(packet, moment)]
    return [public(piece, moment) for piece in ipv4_pieces(packet, (mtu - 20) // 8 * 8)]


def cut_in(
    packet: bytes, ident: int = 0, subscriber: int = 0, host: int = 2, moment: int = MOMENT, mtu: int = MTU
) -> List[bytes]:
    """The records of a packet on its way to a subscriber. The number is that of its fragments, if it has some."""
    if 40 + len(packet) <= mtu:
        return [to_softwire(packet, subscriber, host, moment)]
    cut = tunnel_fragments(around(packet, subscriber, host), (mtu - 48) // 8 * 8, ident)
    return [frame(FROM_SOFTWIRE, moment, fragment) for fragment in cut]


def near(first: int, step: int, counts: Sequence[int]) -> List[int]:
    """The sizes of packets that so many parts make just full, and those beside."""
    return [first + step * count + beside for count in counts for beside in (-1, 0, 1)]


OUT_SIZES = [MTU - 1, MTU, MTU + 1, 1507, 1508, 1509, *near(20, PIECE, (2, 3, 44)), LONGEST - 1, LONGEST]
IN_SIZES = [1459, 1460, 1461, 1467, 1468, 1469, MTU, MTU + 1, *near(0, FRAGMENT, (2, 3, 45)), LONGEST - 1, LONGEST]


# ---- both ways


def out_by_size() -> Iterator[Exchange]:
    """To the public side. What may not be cut is dropped, and its sender is told."""
    for flow in FLOWS:
        before, before_left = from_softwire(flow.first.spelled()), public(flow.first_left.spelled())
        for total in OUT_SIZES:
            for fragment in ALL_FLAGS:
                sent = sized(flow.sent, total, {"fragment": fragment})
                name, records = f"out: {total} bytes of {flow.sent}, flags {fragment}", [before, from_softwire(sent)]
                if total > MTU and fragment & DONT_FRAGMENT:
                    told = error_about("TooBig", sent, softwire_of(0))
                    yield Exchange(name, records, [before_left, told or b""], ["TooBig"])
                else:
                    left = sized(flow.left, total, {"fragment": fragment if total <= MTU else 0})
                    yield Exchange(name, records, [before_left, *cut_out(left)])


def in_by_size() -> Iterator[Exchange]:
    """Into a softwire, where the IPv6 packet is cut, be the one in it one that may be cut or not."""
    for flow in FLOWS:
        before, before_left = from_softwire(flow.first.spelled()), public(flow.first_left.spelled())
        for total in IN_SIZES:
            for fragment in ALL_FLAGS:
                came, delivered = (sized(packet, total, {"fragment": fragment}) for packet in (flow.came, flow.delivered))
                name = f"in: {total} bytes of {flow.came}, flags {fragment}"
                yield Exchange(name, [before, public(came)], [before_left, *cut_in(delivered)])


def both_ways(name: str, total: int, changes: Changes, left_changes: Changes, behind: bytes = b"") -> Exchange:
    """Two datagrams of so many bytes, with other bytes behind them in their records."""
    sent, came = sized(DATAGRAMS.sent, total, changes), sized(DATAGRAMS.came, total, changes)
    left, delivered = (sized(packet, total, left_changes) for packet in (DATAGRAMS.left, DATAGRAMS.delivered))
    records = [FIRST, from_softwire(sent + behind), public(came + behind)]
    return Exchange(f"{total} bytes both ways, {name}", records, [FIRST_LEFT, *cut_out(left), *cut_in(delivered)])


def by_fields() -> Iterator[Exchange]:
    """What pieces have of their packet's header, and fragments of its TOS; and sums that aren't right or aren't there."""
    changes: List[Changes] = [
        {"tos": 0xFF, "ident": 0, "ttl": 255},
        {"tos": 1, "ident": 0xFFFF, "ttl": 2},
        {"ident": 0x8001, "ttl": 128},
        {"udp_length": 8, "udp_sum": 0, "ttl": 64},
    ]
    for fields in changes:
        for total in (1501, 1509, 4000):
            yield both_ways(f"{fields}", total, fields, {**fields, "ttl": fields["ttl"] - 1})
    for total in (1501, LONGEST - 30):
        yield both_ways("bytes behind them", total, {}, {}, bytes(30))


def by_mtu() -> Iterator[Exchange]:
    """By other MTUs than the program's."""
    for total in (1240, 1241, 1300, 5000, LONGEST):
        for softwire_mtu, public_mtu in ((1280, 576), (1281, 577), (1287, 583), (1288, 584), (9000, 1280), (65_535, 65_535)):
            sent, left = sized(DATAGRAMS.sent, total), sized(DATAGRAMS.left, total)
            came, delivered = sized(DATAGRAMS.came, total), sized(DATAGRAMS.delivered, total)
            found = [*cut_out(left, mtu=public_mtu), *cut_in(delivered, mtu=softwire_mtu)]
            config: Changes = {"softwire_mtu": softwire_mtu, "public_mtu": public_mtu}
            records = [FIRST, from_softwire(sent), public(came)]
            yield Exchange(f"{total} bytes by {config}", records, [FIRST_LEFT, *found], config=config)


def put_together() -> Iterator[Exchange]:
    """Packets that come in pieces and leave in others. Of its flags the first piece has the one that counts."""
    for flow in FLOWS:
        before, before_left = from_softwire(flow.first.spelled()), public(flow.first_left.spelled())
        for total, size in ((1501, 1496), (1501, 16), (4000, 1480), (4000, 1448), (9001, 80), (LONGEST, 1448), (LONGEST, 512)):
            sent, came = sized(flow.sent, total), sized(flow.came, total)
            left, delivered = sized(flow.left, total), sized(flow.delivered, total)
            name = f"{total} bytes of {flow.sent} in parts of {size}"
            for way, records in (("fragments", fragments(sent, size)), ("pieces", pieces_inside(sent, size))):
                yield Exchange(f"{name}, {way}", [before, *records[::-1]], [before_left, *cut_out(left)])
            found = [before_left, *cut_in(delivered)]
            yield Exchange(f"{name}, from outside", [before, *pieces_outside(came, size)], found)
    whole = sized(DATAGRAMS.sent, 4000, MAY_NOT_BE_CUT)
    told = error_about("TooBig", whole, softwire_of(0))
    yield Exchange("one that may not be cut again", [FIRST, *fragments(whole, 1000)], [FIRST_LEFT, told or b""], ["TooBig"])
    of_four = ipv4_pieces(sized(DATAGRAMS.sent, 4000), 1000)
    in_fragments = [record for ident, piece in enumerate(of_four) for record in fragments(piece, 504, ident)]
    found = [FIRST_LEFT, *cut_out(sized(DATAGRAMS.left, 4000))]
    yield Exchange("pieces in fragments, cut again", [FIRST, *in_fragments], found)


# ---- between subscribers

SECOND = from_softwire(Udp().spelled(), 1)
SECOND_LEFT = public(Udp(POOL, OTHER_PLACE, ttl=63).spelled())


def between() -> Iterator[Exchange]:
    """To a place in the pool: its own, or another subscriber's. It isn't cut as for the public side."""
    for total in (1459, 1460, 1461, MTU + 1, 2896, 2897, 4345, LONGEST):
        for fragment in ALL_FLAGS:
            flags: Changes = {"fragment": fragment}
            for subscriber, port in ((0, 1024), (1, OTHER_PLACE)):
                sent = sized(Udp(destination=POOL, port=port), total, flags)
                turned = sized(Udp(POOL, 1024, INNER, 5000, ttl=63), total, flags)
                found = [FIRST_LEFT, SECOND_LEFT, *cut_in(turned, 0, subscriber)]
                name = f"between: {total} bytes to subscriber {subscriber}, flags {fragment}"
                yield Exchange(name, [FIRST, SECOND, from_softwire(sent)], found)
            echo, own = sized(Echo(destination=POOL), total, flags), sized(Echo(POOL, INNER, ttl=63), total, flags)
            yield Exchange(f"between: {total} bytes of echo, flags {fragment}", [from_softwire(echo)], cut_in(own))
    segment = sized(Tcp(destination=POOL, port=1024, flags=SYN | ACK), 3000)
    turned = sized(Tcp(POOL, OTHER_PLACE, INNER, 5000, flags=SYN | ACK, ttl=63), 3000)
    found = [public(Tcp(POOL, 1024, ttl=63).spelled()), *cut_in(turned)]
    yield Exchange("between: a segment", [from_softwire(Tcp().spelled()), from_softwire(segment, 1)], found)
    own = {"is_by_address": True}
    sent = sized(Udp(source_port=1, destination=POOL, port=1025), 3000)
    turned = sized(Udp(POOL, 1025, INNER, 1, ttl=63), 3000)
    found = [FIRST_LEFT, *cut_in(turned)]
    yield Exchange("between: by address, to its own new place", [FIRST, from_softwire(sent)], found, config=own)


# ---- errors


def errors_passed_on() -> Iterator[Exchange]:
    """Errors that quote much are cut as any other packet."""
    router = quad("198.51.100.1")
    for flow in error_cases.FLOWS:
        before, before_left = from_softwire(flow.sent.spelled()), public(flow.left._replace(ttl=63).spelled())
        for total in (MTU, MTU + 1, 1509, 2980, 2981, LONGEST):
            quoted, outside = sized(flow.came, total - 28), sized(flow.arrived, total - 28)
            error = Error(INNER, REMOTE, quoted)
            left = error._replace(source=POOL, quoted=outside, ttl=63)
            records = [before, from_softwire(error.spelled())]
            yield Exchange(f"an error out: {total} bytes, {flow.name}", records, [before_left, *cut_out(left.spelled())])
            if total > MTU:
                records = [before, from_softwire(error._replace(**MAY_NOT_BE_CUT).spelled())]
                yield Exchange(f"no error out: {total} bytes, {flow.name}", records, [before_left], ["TooBig"])
        for total in (1460, 1461, 1469, 2896, 2897, LONGEST):
            for flags in ({}, MAY_NOT_BE_CUT):
                error = Error(router, POOL, sized(flow.left, total - 28))._replace(**flags)
                inside = error._replace(destination=INNER, quoted=sized(flow.sent, total - 28), ttl=63)
                records, found = [before, public(error.spelled())], [before_left, *cut_in(inside.spelled())]
                yield Exchange(f"an error in: {total} bytes, {flow.name}, {flags}", records, found)


def errors_between() -> Iterator[Exchange]:
    """To the sender of the packet that they quote."""
    for total in (1460, 1461, 2896, 2897, MTU + 1, LONGEST):
        for flags in ({}, MAY_NOT_BE_CUT):
            for subscriber, port in ((1, OTHER_PLACE), (0, 1024)):
                quoted = sized(Udp(POOL, port, INNER, 5000), total - 28)
                error = Error(INNER, POOL, quoted)._replace(**flags)
                turned = error._replace(source=POOL, destination=INNER, ttl=63)
                turned = turned._replace(quoted=sized(Udp(INNER, 5000, POOL, 1024), total - 28))
                found = [FIRST_LEFT, SECOND_LEFT, *cut_in(turned.spelled(), 0, subscriber)]
                name = f"an error between: {total} bytes, to subscriber {subscriber}, {flags}"
                yield Exchange(name, [FIRST, SECOND, from_softwire(error.spelled())], found)


# ---- states and times


class Timed(NamedTuple):
    """A segment from inside or outside so long after the first one, how many bytes it has, and whether it gets through."""

    after: int
    is_out: bool
    flags: int
    total: int
    passes: bool = True
    remote_port: int = 80

    def record(self) -> bytes:
        if self.is_out:
            return from_softwire(sized(Tcp(flags=self.flags), self.total), moment=MOMENT + self.after)
        packet = Tcp(REMOTE, self.remote_port, POOL, 1024, flags=self.flags)
        return public(sized(packet, self.total), MOMENT + self.after)

    def left(self, ident: int) -> List[bytes]:
        if not self.passes:
            return []
        if self.is_out:
            return cut_out(sized(Tcp(POOL, 1024, flags=self.flags, ttl=63), self.total), MOMENT + self.after)
        packet = Tcp(REMOTE, self.remote_port, INNER, 5000, flags=self.flags, ttl=63)
        return cut_in(sized(packet, self.total), ident, moment=MOMENT + self.after)


SHORT_IDLE, IDLE = 240_000, 7_440_000
OUT, IN = True, False
OPENING = (Timed(0, OUT, SYN, 40), Timed(1, IN, SYN | ACK, 2000))


def ends(name: str, segments: Sequence[Timed], deadline: int, ident: int) -> Iterator[Exchange]:
    """The connection's place is there up to this moment."""
    for after, passes in ((deadline - 1, True), (deadline, False)):
        steps = [*segments, Timed(after, IN, ACK, 1461, passes)]
        cut, sent = 0, []
        for step in steps:
            sent += step.left(cut)
            cut += not step.is_out and step.total > 1460
        assert cut == ident + 1
        drops = [] if passes else ["NoMapping"]
        yield Exchange(f"a connection: {name}, {after}", [step.record() for step in steps], sent, drops)


def connections() -> Iterator[Exchange]:
    """Segments that are cut move the state, and keep the place, as those that aren't (RFC 5382 5)."""
    first, answer = OPENING
    yield from ends("a SYN and its answer", OPENING, 1 + IDLE, 1)
    yield from ends("a SYN that is cut", [first._replace(total=1501)], SHORT_IDLE, 0)
    elsewhere = answer._replace(remote_port=81)
    yield from ends("an answer from another port", [first, elsewhere], SHORT_IDLE, 1)
    yield from ends("an answer without a signal", [first, answer._replace(flags=ACK)], 1 + IDLE, 1)
    yield from ends("a reset", [*OPENING, Timed(1000, IN, RST, 65_535)], 1000 + SHORT_IDLE, 2)
    ended = [*OPENING, Timed(1000, IN, FIN | ACK, 1461)]
    yield from ends("half an end", ended, 1000 + IDLE, 2)
    yield from ends("an end", [*ended, Timed(2000, OUT, FIN | ACK, 1501)], 2000 + SHORT_IDLE, 2)
    kept = [*OPENING, Timed(5000, IN, ACK, 3000), Timed(6000, OUT, ACK, 3000), Timed(7000, IN, ACK, 3000)]
    yield from ends("what goes out keeps it, and what comes in doesn't", kept, 6000 + IDLE, 3)


def datagrams_in_time() -> Iterator[Exchange]:
    """A cut datagram that goes out keeps its mapping, one that comes in doesn't."""
    for after, passes in ((399_999, True), (400_000, False)):
        sent, left = sized(DATAGRAMS.sent, 2000), sized(DATAGRAMS.left, 2000)
        came, delivered = sized(DATAGRAMS.came, 2000), sized(DATAGRAMS.delivered, 2000)
        middle, last = MOMENT + 100_000, MOMENT + after
        records = [FIRST, from_softwire(sent, moment=middle), public(came, middle + 1), public(came, last)]
        found = [FIRST_LEFT, *cut_out(left, middle), *cut_in(delivered, moment=middle + 1)]
        found += cut_in(delivered, 1, moment=last) if passes else []
        yield Exchange(f"a cut datagram, {after}", records, found, [] if passes else ["NoMapping"])


# ---- identifications


class Softwires(NamedTuple):
    """Packets to several softwires, each by the number of its subscriber and host. Their mappings are made first."""

    ends: Sequence[Tuple[int, int]]

    def port(self, end: Tuple[int, int]) -> int:
        """Outside: blocks are given to subscribers as they come, and ports to their softwires."""
        subscribers = list(dict.fromkeys(subscriber for subscriber, _ in self.ends))
        own = [other for other in self.ends if other[0] == end[0]]
        return 1024 + 512 * subscribers.index(end[0]) + own.index(end)

    def records(self) -> List[bytes]:
        return [from_softwire(Udp().spelled(), *end) for end in self.ends]

    def left(self) -> List[bytes]:
        return [public(Udp(POOL, self.port(end), ttl=63).spelled()) for end in self.ends]

    def to(self, end: Tuple[int, int], total: int) -> bytes:
        return public(sized(Udp(REMOTE, 53, POOL, self.port(end)), total))


TO_FOUR = Softwires(((0, 2), (0, 3), (1, 2), (0, 255)))


def numbered(name: str, packets: Sequence[Tuple[int, int]], between_them: Sequence[bytes] = ()) -> Exchange:
    """Packets to softwires, each by its number and its bytes, and records between them that send nothing of their own."""
    records, sent, counts = TO_FOUR.records(), TO_FOUR.left(), [0, 0]
    for number, total in packets:
        subscriber, host = TO_FOUR.ends[number]
        records += [TO_FOUR.to(TO_FOUR.ends[number], total), *between_them]
        delivered = sized(DATAGRAMS.delivered, total)
        sent += cut_in(delivered, counts[subscriber], subscriber, host)
        counts[subscriber] += total > 1460
    return Exchange(f"identifications: {name}", records, sent)


def identifications() -> Iterator[Exchange]:
    """They count the packets that were cut for a subscriber, by whatever softwire, and nothing else."""
    yield numbered("of one softwire", [(0, 1461)] * 5)
    yield numbered("of three softwires", [(0, 1461), (1, 2000), (3, 65_535), (1, 1461), (0, 1461)])
    yield numbered("of two subscribers", [(0, 1461), (2, 1461), (2, 3000), (1, 1461), (2, 1461), (0, 1461)])
    yield numbered("packets that fit", [(0, 1461), (0, 1460), (1, 28), (2, 1460), (2, 1461), (0, 1460), (0, 1461)])
    piece = pieces_outside(sized(DATAGRAMS.came, 3000), 1480)[0]
    yield numbered("a piece that waits", [(0, 1461), (1, 1461), (0, 1461)], [piece])
    yield numbered("so many", [(number % 2, 1461) for number in range(300)])
    # What is dropped isn't cut, and what goes to the public side isn't counted.
    no_mapping = public(sized(DATAGRAMS.came._replace(port=1030), 3000))
    drops = numbered("what is dropped", [(0, 1461), (0, 1461), (2, 1461)], [no_mapping])
    yield drops._replace(drops=["NoMapping"] * 3)
    out, left = from_softwire(sized(DATAGRAMS.sent, 3000)), cut_out(sized(DATAGRAMS.left, 3000))
    came, delivered = public(sized(DATAGRAMS.came, 3000)), sized(DATAGRAMS.delivered, 3000)
    sent = [FIRST_LEFT, *left, *cut_in(delivered), *left, *cut_in(delivered, 1)]
    yield Exchange("identifications: what goes out", [FIRST, out, came, out, came], sent)
    # That of a packet between subscribers is its receiver's.
    turned = from_softwire(sized(Udp(destination=POOL, port=OTHER_PLACE), 3000))
    second = cut_in(sized(Udp(POOL, 1024, INNER, 5000, ttl=63), 3000), 0, 1)
    sent = [FIRST_LEFT, SECOND_LEFT, *cut_in(delivered), *second, *cut_in(delivered, 1)]
    yield Exchange("identifications: between subscribers", [FIRST, SECOND, came, turned, came], sent)
    # Errors count, too, and an error that is made doesn't: it is short.
    error = Error(quad("198.51.100.1"), POOL, sized(Udp(POOL, 1024), 2000))
    passed = error._replace(destination=INNER, quoted=sized(Udp(), 2000), ttl=63)
    last_hop = sized(DATAGRAMS.sent, 3000, {"ttl": 1})
    told = error_about("TtlSpent", last_hop, softwire_of(0)) or b""
    records = [FIRST, came, public(error.spelled()), from_softwire(last_hop), came]
    sent = [FIRST_LEFT, *cut_in(delivered), *cut_in(passed.spelled(), 1), told, *cut_in(delivered, 2)]
    yield Exchange("identifications: errors", records, sent, ["TtlSpent"])


def in_another_run() -> Iterator[Exchange]:
    """Each run counts anew. A mapping whose moment is over has no part in it, nor has one that ends meanwhile."""
    later = MOMENT + 2001
    records = [from_softwire(Udp().spelled(), moment=later), public(sized(DATAGRAMS.came, 3000), later)]
    delivered = sized(DATAGRAMS.delivered, 3000)
    sent = [public(Udp(POOL, 1024, ttl=63).spelled(), later), *cut_in(delivered, moment=later)]
    yield Exchange("identifications: another run", records, sent, log=bytes.fromhex(FIRST_LOG))
    again = MOMENT + 300_000  # the lease closes, and the subscriber's next one is the block behind it
    came, came_again = DATAGRAMS.came, DATAGRAMS.came._replace(port=OTHER_PLACE)
    records = [FIRST, public(sized(came, 3000)), from_softwire(Udp().spelled(), moment=again)]
    sent = [FIRST_LEFT, *cut_in(delivered), public(Udp(POOL, OTHER_PLACE, ttl=63).spelled(), again)]
    sent += cut_in(delivered, 1, moment=again)
    yield Exchange("identifications: another mapping", [*records, public(sized(came_again, 3000), again)], sent)


def cuts() -> Iterator[Exchange]:
    """All cases."""
    groups = (out_by_size, in_by_size, by_fields, by_mtu, put_together, between, errors_passed_on, errors_between)
    for group in (*groups, connections, datagrams_in_time, identifications, in_another_run):
        yield from group()
