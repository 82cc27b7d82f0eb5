"""Whole packets that came in pieces: which header they have, what is refused of them, and the errors about them."""

from __future__ import annotations

from itertools import permutations
from typing import Any, Iterator, List, NamedTuple, Sequence, Tuple, Union

from exchange import FIRST, FIRST_LEFT, INNER, MOMENT, POOL, REMOTE, Changes, Exchange, Spell, from_softwire, public
from exchange import to_softwire
from fragments import FRAGMENT, Part, ipv4_piece, ipv4_pieces, ipv6_fragment, parts_between, tunnel_fragments
from packets import CHANGE, DONT_FRAGMENT, ECHO_REPLY, FROM_SOFTWIRE, MORE_FRAGMENTS, RESERVED, TIME_EXCEEDED, TUNNEL
from packets import UNREACHABLE, Echo, Error, Softwire, Tcp, Udp, frame, quad, softwire_of
from piece_cases import INSIDE, PAYLOAD, Step

Packet = Union[Udp, Tcp, Echo]
SENT = Udp(payload=PAYLOAD)
LEFT = SENT._replace(source=POOL, source_port=1024, ttl=63)
CAME = Udp(REMOTE, 53, POOL, 1024, PAYLOAD)
DELIVERED = CAME._replace(destination=INNER, port=5000, ttl=63)


def fragments(inner: bytes, size: int, ident: int = 7, subscriber: int = 0, host: int = 2) -> List[bytes]:
    """The records of a subscriber's packet in IPv6 fragments."""
    around = Softwire(inner, softwire_of(subscriber, host))
    return [frame(FROM_SOFTWIRE, MOMENT, packet) for packet in tunnel_fragments(around, size, ident)]


def pieces_inside(packet: bytes, size: int) -> List[bytes]:
    return list(map(from_softwire, ipv4_pieces(packet, size)))


def pieces_outside(packet: bytes, size: int) -> List[bytes]:
    return list(map(public, ipv4_pieces(packet, size)))


def in_both_orders(
    name: str, records: Sequence[bytes], sent: Sequence[bytes], drops: Sequence[str] = ()
) -> Iterator[Exchange]:
    """Pieces behind the subscriber's first packet, as they are and from the last one on."""
    for order, suffix in ((records, ""), (records[::-1], ", from the last one on")):
        yield Exchange(f"{name}{suffix}", [FIRST, *order], [FIRST_LEFT, *sent], drops)


# ---- headers


OTHER_HEADERS: List[Changes] = [
    {"tos": 1, "ttl": 1},
    {"ttl": 0},
    {"ttl": 255, "fragment": DONT_FRAGMENT | RESERVED},
]
BOTH_SIDES: List[Tuple[Spell, Udp, Spell, Udp]] = [
    (from_softwire, SENT, public, LEFT),
    (public, CAME, to_softwire, DELIVERED),
]


def first_headers() -> Iterator[Exchange]:
    """A whole packet has the header of its first piece, but for its length, flags and checksum."""
    for spell, sent, spell_left, left in BOTH_SIDES:
        for fragment in (0, DONT_FRAGMENT, RESERVED, DONT_FRAGMENT | RESERVED):
            found = left._replace(tos=0xB8, ttl=9, fragment=fragment & DONT_FRAGMENT).spelled()
            first = sent._replace(tos=0xB8, ttl=10, fragment=fragment).spelled()
            for number, other in enumerate(OTHER_HEADERS):
                last = sent._replace(**other).spelled()
                pieces = [spell(ipv4_piece(first, Part(0, 16))), spell(ipv4_piece(last, Part(16, 68, True)))]
                name = f"a first piece of {fragment}, another header {number}"
                yield from in_both_orders(name, pieces, [spell_left(found)])


def fragment_headers() -> Iterator[Exchange]:
    """Fragment headers with reserved bits, behind options and before them. The first one's next header counts."""
    inner, options = SENT.spelled(), bytes.fromhex("0400040104010100")
    first, last = parts_between((16,), len(inner))

    def spelled(piece: bytes, next_header: int = FRAGMENT, chain: bytes = b"", **fields: Any) -> bytes:
        around = Softwire(piece, next_header=next_header, chain=chain, **fields)
        return frame(FROM_SOFTWIRE, MOMENT, around.spelled())

    left = [public(LEFT.spelled())]
    reserved = [spelled(ipv6_fragment(inner, part, 7, 4, 0x7FE)) for part in (first, last)]
    yield from in_both_orders("reserved bits", reserved, left)
    for next_header in (0, 6, 44, 59, 255):
        other = [spelled(ipv6_fragment(inner, first, 7)), spelled(ipv6_fragment(inner, last, 7, next_header))]
        yield from in_both_orders(f"next header {next_header} of the last", other, left)
        wrong = [spelled(ipv6_fragment(inner, first, 7, next_header)), spelled(ipv6_fragment(inner, last, 7))]
        yield from in_both_orders(f"next header {next_header} of the first", wrong, [], ["NotTunnel"])
    behind = [spelled(ipv6_fragment(inner, first, 7), 60, bytes.fromhex("2c00040104010100"))]
    behind.append(spelled(ipv6_fragment(inner, last, 7), 0, bytes.fromhex("3c00010400000000 2c00010400000000")))
    yield from in_both_orders("behind options", behind, left)
    whole = options + inner
    parts = parts_between((8, 32), len(whole))
    before = [spelled(ipv6_fragment(whole, part, 7, 60 if part.begin == 0 else 4)) for part in parts]
    yield from in_both_orders("options in the first", before, left)
    long = bytes.fromhex("3c02010e") + bytes(20) + options + inner
    across = [spelled(ipv6_fragment(long, part, 7, 0)) for part in parts_between((16, 40), len(long))]
    yield from in_both_orders("options in two", across, left)
    cut = [spelled(ipv6_fragment(bytes.fromhex("04ff000000000000") + inner, part, 7, 60)) for part in (first, last)]
    yield from in_both_orders("options past the end", cut, [], ["BadPacket"])
    again = ipv6_fragment(inner, Part(0, len(inner), True), 8)
    twice = [spelled(ipv6_fragment(again, part, 7, FRAGMENT)) for part in parts_between((16,), len(again))]
    yield from in_both_orders("a fragment in fragments", twice, [], ["NotTunnel"])
    other_class = [spelled(ipv6_fragment(inner, part, 7), traffic_class=part.begin) for part in (first, last)]
    yield from in_both_orders("traffic classes", other_class, left)
    trailing = [spelled(ipv6_fragment(inner, part, 7), behind=bytes(9)) for part in (first, last)]
    yield from in_both_orders("bytes behind fragments", trailing, left)
    more = inner + bytes(20)
    longer = [spelled(ipv6_fragment(more, part, 7)) for part in parts_between((16, 72), len(more))]
    yield from in_both_orders("bytes behind the packet", longer, left)
    for spell, sent, spell_left, out in BOTH_SIDES:
        pieces = ipv4_pieces(sent.spelled(), 32)
        records = [spell(piece + bytes(number)) for number, piece in enumerate((*pieces[1:], *pieces))]
        yield Exchange("bytes behind pieces", [FIRST, *records], [FIRST_LEFT, spell_left(out.spelled())])


def in_both() -> Iterator[Exchange]:
    """IPv4 pieces in IPv6 fragments: the last fragment to come may complete a piece, which may complete a packet."""
    first, second = ipv4_pieces(SENT.spelled(), 40)
    left, parts = public(LEFT.spelled()), [*fragments(first, 32, 1), *fragments(second, 32, 2)]
    for order in permutations(range(len(parts))):
        yield Exchange(f"pieces in fragments, {order}", [FIRST, *(parts[at] for at in order)], [FIRST_LEFT, left])
    one_number = [*fragments(first, 32), *fragments(second, 32)]
    yield Exchange("pieces in fragments of one number, one by one", [FIRST, *one_number], [FIRST_LEFT, left])
    as_whole = [*fragments(first, 80), *fragments(second, 80)]
    yield from in_both_orders("pieces in fragments that are whole", as_whole, [left])
    met = fragments(ipv4_piece(SENT.spelled(), Part(24, 56)), 32)
    records = [FIRST, from_softwire(first), *met, from_softwire(second), from_softwire(first)]
    yield Exchange("a piece in fragments that meets another", records, [FIRST_LEFT, left], ["PieceOverlap"])
    # A packet of fragments gives its room back before the piece in it asks for some.
    seven = [INSIDE.record(Step(Part(0, 16), ident=number)) for number in range(100, 107)]
    ninth = fragments(ipv4_pieces(SENT._replace(ident=9).spelled(), 40)[0], 80)
    records = [FIRST, *seven, *fragments(first, 32), *ninth, from_softwire(second)]
    yield Exchange("a piece in the room of its fragments", records, [FIRST_LEFT, left], ["PieceTooMany"])


# ---- what is refused


def refused_wholes() -> Iterator[Exchange]:
    """The rules behind a packet's pieces are asked of the whole."""
    for cause, inner, outer in (
        ("NoRoute", SENT._replace(source=quad("127.0.0.1"), ttl=1), CAME._replace(source=POOL + 3, ttl=1)),
        ("NoProtocol", SENT._replace(proto=47, ttl=1), CAME._replace(proto=47, ttl=1)),
        ("BadPacket", SENT._replace(udp_length=69), CAME._replace(udp_length=7)),
        ("NoMapping", SENT._replace(destination=POOL, port=1025), CAME._replace(port=1025)),
    ):
        yield from in_both_orders(f"{cause} in fragments", fragments(inner.spelled(), 24), [], [cause])
        yield from in_both_orders(f"{cause} in pieces", pieces_inside(inner.spelled(), 24), [], [cause])
        yield from in_both_orders(f"{cause} in pieces from outside", pieces_outside(outer.spelled(), 24), [], [cause])
    # These are asked of each piece.
    for spell, sent, _, _ in BOTH_SIDES:
        piece = sent._replace(payload=bytes(56), fragment=MORE_FRAGMENTS)
        optional, wrong = piece._replace(options=bytes((1, 1, 1, 0))), piece._replace(sum_wrong_by=1)
        yield Exchange("a piece with options", [FIRST, spell(optional.spelled())], [FIRST_LEFT], ["Options"])
        yield Exchange("a piece of a wrong sum", [FIRST, spell(wrong.spelled())], [FIRST_LEFT], ["BadPacket"])
    elsewhere = CAME._replace(destination=POOL + 4)
    yield from in_both_orders("pieces for elsewhere", pieces_outside(elsewhere.spelled(), 24), [], ["NotUs"] * 3)
    first, last = fragments(SENT.spelled(), 48)
    early = frame(FROM_SOFTWIRE, 0, first[13:])
    yield Exchange("a fragment while packets settle", [early, last, FIRST], [FIRST_LEFT], ["Settling"])
    change = frame(CHANGE, MOMENT, b"block_size = 16")
    found = [FIRST_LEFT, public(LEFT.spelled())]
    yield Exchange("a change that is refused", [FIRST, first, change, last], found, ["BadChange"])


def told(kind: int, code: int, last_word: int, whole: Udp) -> bytes:
    """The error about a whole packet that came in pieces: its header has neither of the bits that the pieces had."""
    quoted = whole._replace(fragment=whole.fragment & DONT_FRAGMENT).spelled()[:28]
    error = Error(TUNNEL, whole.source, quoted, kind, code, last_word, ident=0, fragment=DONT_FRAGMENT)
    return to_softwire(error.spelled())


def errors_about_wholes() -> Iterator[Exchange]:
    """One error about a packet that is refused, however many pieces it came in."""
    last_hop = SENT._replace(ttl=1, fragment=RESERVED | DONT_FRAGMENT, tos=3)
    spent = told(TIME_EXCEEDED, 0, 0, last_hop)
    yield from in_both_orders("no hop in pieces", pieces_inside(last_hop.spelled(), 24), [spent], ["TtlSpent"])
    bits = Error(TUNNEL, INNER, last_hop.spelled()[:28], TIME_EXCEEDED, 0, ident=0, fragment=DONT_FRAGMENT)
    as_it_came = to_softwire(bits.spelled())  # it was whole inside of its fragments
    yield from in_both_orders("no hop in fragments", fragments(last_hop.spelled(), 24), [as_it_came], ["TtlSpent"])
    spent_outside = CAME._replace(ttl=1).spelled()
    yield from in_both_orders("no hop outside", pieces_outside(spent_outside, 24), [], ["TtlSpent"])
    long = SENT._replace(payload=bytes(1473), fragment=DONT_FRAGMENT | RESERVED, ident=9)
    too_big = told(UNREACHABLE, 4, 1500, long)
    yield from in_both_orders("too long in pieces", pieces_inside(long.spelled(), 800), [too_big], ["TooBig"])
    one_piece = ipv4_pieces(long._replace(fragment=0).spelled(), 800)[1]
    records = [from_softwire(packet) for packet in (ipv4_pieces(long.spelled(), 800)[0], one_piece)]
    yield from in_both_orders("too long, by its first piece's flag", records, [too_big], ["TooBig"])
    about = Error(INNER, REMOTE, CAME._replace(destination=INNER, port=5000).spelled(), ttl=1)
    yield from in_both_orders("an error without a hop", pieces_inside(about.spelled(), 24), [], ["TtlSpent"])
    short = SENT._replace(ttl=1, total=24).spelled()[:24]
    error = to_softwire(Error(TUNNEL, INNER, short, TIME_EXCEEDED, 0, ident=0, fragment=DONT_FRAGMENT).spelled())
    yield from in_both_orders("four bytes without a hop", fragments(short, 16), [error], ["TtlSpent"])


# ---- other protocols


class Flow(NamedTuple):
    """A subscriber's first packet, and packets both ways after it: as they are sent, and as they leave."""

    first: Packet
    first_left: Packet
    sent: Packet
    left: Packet
    came: Packet
    delivered: Packet


FLOWS = [
    Flow(
        Tcp(),
        Tcp(POOL, 1024, ttl=63),
        Tcp(payload=PAYLOAD, flags=0),
        Tcp(POOL, 1024, payload=PAYLOAD, flags=0, ttl=63),
        Tcp(REMOTE, 80, POOL, 1024, PAYLOAD),
        Tcp(REMOTE, 80, INNER, 5000, PAYLOAD, ttl=63),
    ),
    Flow(
        Echo(),
        Echo(POOL, identifier=1024, ttl=63),
        Echo(payload=PAYLOAD),
        Echo(POOL, identifier=1024, payload=PAYLOAD, ttl=63),
        Echo(REMOTE, POOL, 1024, payload=PAYLOAD, kind=ECHO_REPLY),
        Echo(REMOTE, INNER, payload=PAYLOAD, kind=ECHO_REPLY, ttl=63),
    ),
]


def other_protocols() -> Iterator[Exchange]:
    """Segments and messages in pieces of eight bytes and more, and datagrams between subscribers."""
    for flow in FLOWS:
        first, first_left = from_softwire(flow.first.spelled()), public(flow.first_left.spelled())
        sent, came = flow.sent.spelled(), flow.came.spelled()
        for size in (8, 32):
            for records in (fragments(sent, size), pieces_inside(sent, size)):
                left = [first_left, public(flow.left.spelled())]
                yield Exchange(f"out by {size} bytes: {flow.sent}", [first, *records[::-1]], left)
            delivered = [first_left, to_softwire(flow.delivered.spelled())]
            yield Exchange(f"in by {size} bytes: {flow.came}", [first, *pieces_outside(came, size)], delivered)
    to_pool = Udp(payload=PAYLOAD, destination=POOL, port=1024).spelled()
    turned = to_softwire(Udp(POOL, 1536, INNER, 5000, PAYLOAD, ttl=63).spelled())
    yield from in_both_orders("between subscribers, in fragments", fragments(to_pool, 24, subscriber=1), [turned])
    pieces = [from_softwire(piece, 1) for piece in ipv4_pieces(to_pool, 24)]
    yield from in_both_orders("between subscribers, in pieces", pieces, [turned])


def errors_in_pieces() -> Iterator[Exchange]:
    router = quad("198.51.100.1")
    outer = Error(router, POOL, Udp(POOL, 1024, payload=PAYLOAD).spelled())
    inner = Error(router, INNER, Udp(payload=PAYLOAD).spelled(), ttl=63)
    yield from in_both_orders("an error in", pieces_outside(outer.spelled(), 16), [to_softwire(inner.spelled())])
    about = Error(INNER, REMOTE, Udp(REMOTE, 53, INNER, 5000).spelled())
    left = Error(POOL, REMOTE, Udp(REMOTE, 53, POOL, 1024).spelled(), ttl=63)
    yield from in_both_orders("an error out, in pieces", pieces_inside(about.spelled(), 16), [public(left.spelled())])
    yield from in_both_orders("an error out, in fragments", fragments(about.spelled(), 16), [public(left.spelled())])
    wrong = Error(router, POOL, Udp(POOL, 1024).spelled(), message_sum=1)
    yield from in_both_orders("an error of a wrong sum", pieces_outside(wrong.spelled(), 16), [], ["BadPacket"])
    short = Error(router, POOL, Udp(POOL, 1024).spelled()[:27])
    yield from in_both_orders("an error about 7 bytes", pieces_outside(short.spelled(), 16), [], ["BadPacket"])
    sent_first, _ = ipv4_pieces(SENT.spelled(), 40)
    left_first, left_last = ipv4_pieces(LEFT._replace(ttl=64).spelled(), 40)
    found = to_softwire(Error(router, INNER, sent_first, ttl=63).spelled())
    about_first = public(Error(router, POOL, left_first).spelled())
    yield from in_both_orders("an error about a first piece", [about_first], [found])
    about_last = public(Error(router, POOL, left_last).spelled())
    yield from in_both_orders("an error about a later piece", [about_last], [], ["BadPacket"])


def wholes() -> Iterator[Exchange]:
    """All cases."""
    groups = (first_headers, fragment_headers, in_both, refused_wholes, errors_about_wholes, other_protocols)
    for group in (*groups, errors_in_pieces):
        yield from group()
