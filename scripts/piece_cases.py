"""Packets that come in pieces (RFC 791 3.2, RFC 8200 4.5): which are put together, which are dropped, and when.

They come in three ways: in IPv6 fragments by a softwire, in a subscriber's IPv4 pieces, and in pieces from outside. What all
ways have in common stands here; whole packets of pieces are looked at in whole_cases.py.
"""

from __future__ import annotations

from itertools import permutations
from typing import Iterator, NamedTuple, Sequence

from exchange import FIRST, FIRST_LEFT, INNER, MOMENT, POOL, REMOTE, Exchange, Spell, from_softwire, public
from exchange import to_softwire
from fragments import FRAGMENT, Part, ipv4_piece, ipv6_fragment, parts_between
from packets import FROM_SOFTWIRE, TICK, Softwire, Udp, frame, softwire_of

KEPT, WHOLE = "", "whole"  # what becomes of a piece that isn't dropped
WAIT = 60_000  # for how long pieces are kept
MAX_DATAGRAMS, MAX_PUBLIC_DATAGRAMS, MAX_PIECES = 8, 1024, 128
PAYLOAD = bytes(range(1, 61))
LONGEST = 1 << 16  # no piece of these cases goes further


class Step(NamedTuple):
    """A piece, and what becomes of it: it is kept, makes its packet whole, or is dropped for a cause."""

    part: Part
    found: str = KEPT
    after: int = 0  # so many milliseconds after the first moment
    ident: int = 7
    is_changed: bool = False  # in its first byte


class Way(NamedTuple):
    """One of the ways by which a packet comes in pieces."""

    name: str
    end: int  # the last byte that a piece can have
    payload: bytes = PAYLOAD

    def is_outside(self) -> bool:
        return self.name == "outside"

    def sent(self, ident: int) -> Udp:
        if self.is_outside():
            return Udp(REMOTE, 53, POOL, 1024, self.payload, ident=ident)
        return Udp(payload=self.payload, ident=ident)

    def cut(self, step: Step) -> bytes:
        """What is cut, with more bytes behind it than it has."""
        packet = self.sent(step.ident).spelled()
        data = bytearray((packet if self.name == "fragments" else packet[20:]) + bytes(LONGEST))
        if step.is_changed:
            data[step.part.begin] ^= 0x80
        return bytes(data)

    def size(self) -> int:
        return len(self.payload) + (28 if self.name == "fragments" else 8)

    def record(self, step: Step, subscriber: int = 0, host: int = 2) -> bytes:
        data, moment = self.cut(step), MOMENT + step.after
        if self.name == "fragments":
            inner, source = ipv6_fragment(data, step.part, step.ident), softwire_of(subscriber, host)
            return frame(FROM_SOFTWIRE, moment, Softwire(inner, source, next_header=FRAGMENT).spelled())
        piece = ipv4_piece(self.sent(step.ident).spelled()[:20] + data, step.part)
        return public(piece, moment) if self.is_outside() else from_softwire(piece, subscriber, host, moment)

    def left(self, step: Step) -> bytes:
        """The record of the whole packet as it leaves."""
        whole, moment = self.sent(step.ident)._replace(ttl=63), MOMENT + step.after
        if self.is_outside():
            return to_softwire(whole._replace(destination=INNER, port=5000).spelled(), moment=moment)
        return public(whole._replace(source=POOL, source_port=1024).spelled(), moment)

    def exchange(self, name: str, steps: Sequence[Step]) -> Exchange:
        """Behind a packet of the subscriber's, these pieces."""
        records = [FIRST, *map(self.record, steps)]
        sent = [FIRST_LEFT, *(self.left(step) for step in steps if step.found == WHOLE)]
        drops = [step.found for step in steps if step.found not in (KEPT, WHOLE)]
        return Exchange(f"{self.name}: {name}", records, sent, drops)


FRAGMENTS, INSIDE, OUTSIDE = WAYS = (Way("fragments", 65_535), Way("inside", 65_515), Way("outside", 65_515))


# ---- by every way alike


def in_any_order(way: Way) -> Iterator[Exchange]:
    """The last piece to come makes the packet whole, whichever it is."""
    for cuts in ((16,), (16, 40), (8, 16, 48)):
        for order in permutations(parts_between(cuts, way.size())):
            steps = [*map(Step, order[:-1]), Step(order[-1], WHOLE)]
            yield way.exchange(f"pieces from {[part.begin for part in order]}", steps)


def pieces_that_come_twice(way: Way) -> Iterator[Exchange]:
    first, second, last = parts_between((16, 40), way.size())
    yield way.exchange("each twice", [*map(Step, (last, last, first, last, first)), Step(second, WHOLE)])
    whole = [Step(first), Step(second), Step(last, WHOLE)]
    yield way.exchange("the packet twice", whole * 2)
    yield way.exchange("some of it twice", [*whole, Step(last), Step(first), Step(last), Step(second, WHOLE)])
    changed = Step(first, "PieceOverlap", is_changed=True)
    yield way.exchange("once with another byte", [Step(first), changed, Step(second), Step(last), Step(first, WHOLE)])


def pieces_that_meet(way: Way) -> Iterator[Exchange]:
    """Two pieces that can't be of one packet, which is lost then: nothing of it is kept."""
    first, second, last = parts_between((16, 40), way.size())
    two = {
        "its beginning is in the other": (first, Part(8, 24)),
        "its end is in the other": (second, Part(8, 24)),
        "it is in the other": (second, Part(24, 32)),
        "it is around the other": (second, Part(8, 48)),
        "it has the other's beginning": (second, Part(16, 24)),
        "it has the other's end": (second, Part(24, 40)),
        "it is longer": (first, Part(0, 24)),
        "it is the last one too": (second, second._replace(is_last=True)),
        "it isn't the last one too": (Part(40, 64, True), Part(40, 64)),
        "both are last ones, apart": (last, Part(96, 100, True)),
        "both are last ones, the other way round": (Part(96, 100, True), last),
        "both are last ones and meet": (last, last._replace(begin=48)),
        "it is behind the last one": (Part(40, 64, True), Part(64, 72)),
        "it is far behind the last one": (Part(40, 64, True), Part(800, 808)),
        "it is the last one, before the other": (Part(64, 72), Part(40, 64, True)),
        "it is the last one, in the other": (Part(64, 80), Part(64, 72, True)),
    }
    for name, (kept, other) in two.items():
        met = [Step(kept), Step(other, "PieceOverlap")]
        yield way.exchange(name, met)
        yield way.exchange(f"{name}, then all", [*met, Step(first), Step(last), Step(second, WHOLE)])
        yield way.exchange(f"{name}, then both again", [*met, Step(other), Step(kept, "PieceOverlap")])
    met = [Step(second), Step(last), Step(Part(200, 208), "PieceOverlap")]
    yield way.exchange("one of three", [*met, Step(first), Step(second), Step(last, WHOLE)])
    yield way.exchange("the last one that is missing", [Step(first), Step(last), Step(Part(16, 48), "PieceOverlap")])


def bad_pieces(way: Way) -> Iterator[Exchange]:
    """Pieces that are none, and those past the longest packet: what was kept stays so."""
    first, last = parts_between((16,), way.size())
    end, bad, too_long = way.end, "BadPacket", "PieceTooLong"
    for name, part, found in (
        ("no bytes", Part(16, 16), bad),
        ("no bytes at the end", Part(way.size(), way.size(), True), bad),
        ("seven bytes", Part(16, 23), bad),
        ("thirteen bytes", Part(16, 29), bad),
        ("one byte too far", Part(end // 8 * 8, end + 1, True), too_long),
        ("eight bytes at the last place", Part(65_528, 65_536), too_long),
        ("eleven bytes at the last place", Part(65_528, 65_539), bad),
    ):
        yield way.exchange(name, [Step(first), Step(part, found), Step(last, WHOLE)])
        yield way.exchange(f"{name}, alone", [Step(part, found), Step(part, found)])
    farthest = Part(end // 8 * 8, end, True)
    yield way.exchange("as far as may be", [Step(farthest), Step(first), Step(last, "PieceOverlap")])


def pieces_in_time(way: Way) -> Iterator[Exchange]:
    """Pieces go a minute after the first one, by the clock, whenever the others come."""
    first, second, last = parts_between((16, 40), way.size())
    two = [Step(first), Step(second, after=30_000)]
    yield way.exchange("in the last millisecond", [*two, Step(last, WHOLE, WAIT - 1)])
    yield way.exchange("too late", [*two, Step(last, after=WAIT), Step(second, after=WAIT), Step(first, WHOLE, WAIT)])
    twice = [Step(first), Step(first, after=WAIT - 1), Step(last, after=WAIT), Step(second, after=WAIT)]
    yield way.exchange("too late, though it came twice", [*twice, Step(first, WHOLE, WAIT)])
    new = [Step(first), Step(first, after=WAIT), Step(second, after=2 * WAIT - 1), Step(last, WHOLE, 2 * WAIT - 1)]
    yield way.exchange("a minute for the next ones", new)
    lost = [Step(first), Step(Part(8, 24), "PieceOverlap", 30_000), Step(first, after=30_000), Step(second, after=WAIT)]
    yield way.exchange("a minute after pieces that met", [*lost, Step(last, WHOLE, 30_000 + WAIT - 1)])
    ahead = [Step(first, after=5_000, ident=8), Step(first, after=1), Step(second, after=2)]
    yield way.exchange("a moment behind the clock", [*ahead, Step(last, WHOLE, 5_000 + WAIT - 1)])
    yield way.exchange("a moment behind the clock, too late", [*ahead, Step(last, after=5_000 + WAIT)])
    for after in (WAIT - 1, WAIT):  # a tick lets them go, too
        found = way.exchange(f"a tick after {after}", [*two, Step(last, WHOLE if after < WAIT else KEPT, after)])
        records = [*found.records[:-1], frame(TICK, MOMENT + after, b""), found.records[-1]]
        yield found._replace(records=records)


def many_pieces(way: Way) -> Iterator[Exchange]:
    """A packet has 128 pieces at the most. The next one changes nothing, be it what is missing or one that doesn't fit."""
    first, *rest = parts_between(range(8, 8 * MAX_PIECES + 8, 8), 8 * MAX_PIECES + 8)
    kept, refused = [Step(part._replace(is_last=False)) for part in rest], "PieceTooMany"
    yield way.exchange("129 pieces", [*kept, Step(first, refused), Step(first, refused)])
    yield way.exchange("129 pieces, two of which meet", [*kept, Step(Part(0, 16), refused)])
    yield way.exchange("129 pieces, one of which is too long", [*kept, Step(Part(65_528, 65_536), refused)])
    yield way.exchange("129 pieces, one of which is bad", [*kept, Step(Part(0, 9), "BadPacket")])
    yield way.exchange("128 pieces, and one of them again", [*kept, Step(rest[5])])
    whole = [Step(Part(0, 16), after=WAIT), Step(Part(16, way.size(), True), WHOLE, WAIT)]
    yield way.exchange("128 pieces, and then a minute", [*kept, *whole])
    yield way.exchange("128 pieces, and another packet", [*kept, Step(first, ident=8)])
    longer = way._replace(payload=bytes(range(256)) * 4)
    longer = longer._replace(payload=longer.payload[: 8 * MAX_PIECES - (28 if way.name == "fragments" else 8)])
    *most, last = map(Step, parts_between(range(8, 8 * MAX_PIECES, 8), longer.size()))
    yield longer.exchange("128 pieces that are all", [*most, last._replace(found=WHOLE)])
    yield longer.exchange("128 pieces that are all, the first last", [*most[1:], last, most[0]._replace(found=WHOLE)])


def many_packets(way: Way) -> Iterator[Exchange]:
    """A subscriber has room for eight packets that aren't whole; those from outside have it together for 1,024."""
    first, last = parts_between((16,), way.size())
    room = MAX_PUBLIC_DATAGRAMS if way.is_outside() else MAX_DATAGRAMS
    full, refused = [Step(first, ident=100 + number) for number in range(room)], Step(first, "PieceTooMany")
    yield way.exchange("one packet more", [*full, refused, refused._replace(part=last)])
    yield way.exchange("one packet more, too long", [*full, Step(Part(65_528, 65_536), "PieceTooMany")])
    yield way.exchange("one packet more, bad", [*full, Step(Part(0, 9), "BadPacket")])
    whole = Step(last, WHOLE, ident=full[-1].ident)
    yield way.exchange("another piece of the last packet", [*full, whole, Step(first)])
    again = [Step(first), refused._replace(ident=8), Step(last, WHOLE)]
    yield way.exchange("room after a whole one", [*full, refused, Step(last, WHOLE, ident=100), *again])
    met = Step(Part(8, 24), "PieceOverlap", ident=100)
    yield way.exchange("room after one that is lost", [*full, refused, met, *again])
    later = [full[0], *(step._replace(after=1) for step in full[1:]), refused._replace(after=WAIT - 1)]
    yield way.exchange("room after a minute", [*later, *(step._replace(after=WAIT) for step in again)])
    anew = [Step(first, KEPT, WAIT + 1, number) for number in range(room)]
    yield way.exchange("all room after a minute", [*later, *anew])


# ---- whose pieces they are


def pieces_apart(way: Way) -> Iterator[Exchange]:
    """Pieces that look like one packet's, and differ in one of the things by which a packet's pieces are known."""
    first, last = parts_between((16,), way.size())
    others = [way.record(Step(last, ident=8))]
    if not way.is_outside():
        others += [way.record(Step(last), host=3), way.record(Step(last), 1)]
    if way.name != "fragments":
        sent = way.sent(7)
        near = POOL + 1 if way.is_outside() else REMOTE + 1
        differing = [sent._replace(source=sent.source + 1), sent._replace(destination=near), sent._replace(proto=6)]
        spell: Spell = from_softwire
        if way.is_outside():
            spell = public
        others += [spell(ipv4_piece(packet.spelled(), last)) for packet in differing]
    for number, other in enumerate(others):
        records = [FIRST, way.record(Step(first)), other]
        yield Exchange(f"{way.name}: pieces apart {number}", records, [FIRST_LEFT])
    records = [FIRST, way.record(Step(first)), *others, way.record(Step(last))]
    yield Exchange(f"{way.name}: pieces apart, and their own", records, [FIRST_LEFT, way.left(Step(last))])


def whose_room() -> Iterator[Exchange]:
    """The room of a subscriber is that of all its softwires, for IPv6 and IPv4 together."""
    part = Part(0, 16)
    for fragments in (0, 1, 4, 7, 8):
        full = [FRAGMENTS.record(Step(part, ident=number), host=2 + number) for number in range(fragments)]
        full += [INSIDE.record(Step(part, ident=number), host=2 + number) for number in range(8 - fragments)]
        more = [FRAGMENTS.record(Step(part, ident=50)), INSIDE.record(Step(part, ident=50), host=9)]
        yield Exchange(f"{fragments} of IPv6 and the others of IPv4", [*full, *more], [], ["PieceTooMany"] * 2)
        elsewhere = [way.record(Step(part, ident=number), 1) for way in (FRAGMENTS, INSIDE) for number in range(4)]
        elsewhere += [OUTSIDE.record(Step(part, ident=number)) for number in range(20)]
        yield Exchange(f"{fragments} of IPv6, and pieces of others", [*full, *elsewhere, more[0]], [], ["PieceTooMany"])


def by_all_ways() -> Iterator[Exchange]:
    groups = (in_any_order, pieces_that_come_twice, pieces_that_meet, bad_pieces, pieces_in_time, many_pieces)
    for way in WAYS:
        for group in (*groups, many_packets, pieces_apart):
            yield from group(way)


def pieces() -> Iterator[Exchange]:
    """All cases."""
    yield from by_all_ways()
    yield from whose_room()
