"""How the plain model puts packets together of their pieces (RFC 791 3.2, RFC 8200 4.5).

Whenever a piece comes, all pieces of its datagram are looked at again, each with its place in it.
"""

from __future__ import annotations

from typing import Dict, List, NamedTuple, Optional, Tuple

from log_form import Prefix
from model_packets import DONT_FRAGMENT, FRAGMENT_HEADER, FRAGMENT_OFFSET, IPV4_HEADER, MORE_FRAGMENTS, checksum
from model_packets import number, require, word

UNIT = 8  # what offsets are counted in
MAX_PIECES = 128  # of one datagram
MAX_DATAGRAMS, MAX_PUBLIC_DATAGRAMS = 8, 1024  # of a subscriber, be they IPv6 or IPv4, and of the public side
REASSEMBLY_TIME = 60_000  # after a datagram's first piece (RFC 8200 4.5)
LONGEST = 65_535


class Key(NamedTuple):
    """What pieces of one datagram have in common, and who has room for it: a subscriber, or the public side, None."""

    owner: Optional[Prefix]
    is_ipv6: bool
    names: Tuple[int, ...]  # addresses and identification, and of IPv4 the protocol


class Piece(NamedTuple):
    """A part of a datagram's payload, and of what the datagram's header is made if it's the first part: an IPv4 header, or the
    number of the header behind an IPv6 fragment's."""

    head: bytes
    offset: int
    data: bytes
    is_last: bool

    def end(self) -> int:
        return self.offset + len(self.data)

    def is_same(self, other: Piece) -> bool:
        return self[1:] == other[1:]


class Datagram(NamedTuple):
    """The pieces of a datagram that isn't whole yet, in the order in which they came, and when the first one did."""

    since: int
    pieces: List[Piece]


class Reassembly:
    """All pieces that are kept."""

    def __init__(self) -> None:
        self.datagrams: Dict[Key, Datagram] = {}

    def expire(self, now: int) -> None:
        kept = self.datagrams.items()
        self.datagrams = {key: datagram for key, datagram in kept if datagram.since + REASSEMBLY_TIME > now}

    def offer(self, key: Key, piece: Piece, now: int) -> Optional[Piece]:
        """The whole datagram as one piece, where this piece makes it whole. Without it the piece is kept, or was already."""
        require(len(piece.data) > 0 and (piece.is_last or len(piece.data) % UNIT == 0), "BadPacket")
        if key.is_ipv6 and piece.offset == 0 and piece.is_last:
            return piece  # it waits for no other one (RFC 6946)
        since, kept = self.datagrams.get(key, Datagram(now, []))
        if any(map(piece.is_same, kept)):
            return None
        require(len(kept) < MAX_PIECES and (len(kept) > 0 or self.has_room(key.owner)), "PieceTooMany")
        require(piece.end() <= LONGEST - (0 if key.is_ipv6 else IPV4_HEADER), "PieceTooLong")
        pieces = [*kept, piece]
        self.datagrams.pop(key, None)
        require(fit(pieces), "PieceOverlap")
        whole = joined(pieces)
        if whole is None:
            self.datagrams[key] = Datagram(since, pieces)
        return whole

    def has_room(self, owner: Optional[Prefix]) -> bool:
        limit = MAX_PUBLIC_DATAGRAMS if owner is None else MAX_DATAGRAMS
        return sum(key.owner == owner for key in self.datagrams) < limit


def in_order(pieces: List[Piece]) -> List[Piece]:
    return sorted(pieces, key=lambda piece: piece.offset)


def fit(pieces: List[Piece]) -> bool:
    """Whether all these can be pieces of one datagram: no byte stands in two of them (RFC 5722), and where one says that it's
    the last, none goes further and none says another end."""
    ends = {piece.end() for piece in pieces if piece.is_last}
    ordered = in_order(pieces)
    are_apart = all(one.end() <= other.offset for one, other in zip(ordered, ordered[1:]))
    return are_apart and len(ends) < 2 and all(piece.end() <= end for piece in pieces for end in ends)


def joined(pieces: List[Piece]) -> Optional[Piece]:
    """Pieces that fit as one, where they leave no gap."""
    data = b""
    for piece in in_order(pieces):
        if piece.offset != len(data):
            return None
        data += piece.data
    first, last = in_order(pieces)[0], in_order(pieces)[-1]
    return Piece(first.head, 0, data, True) if last.is_last else None


# ---- pieces of IPv6 packets


def fragment_of(owner: Prefix, softwire: int, payload: bytes) -> Tuple[Key, Piece]:
    """What follows in a packet from a softwire from its Fragment header on (RFC 8200 4.5)."""
    place = word(payload, 2)
    piece = Piece(payload[:1], place & 0xFFF8, payload[FRAGMENT_HEADER:], place & 1 == 0)
    return Key(owner, True, (softwire, number(payload, 4, 4))), piece


def piece_of(owner: Optional[Prefix], softwire: int, packet: bytes) -> Tuple[Key, Piece]:
    """A piece of an IPv4 datagram, of a subscriber by one of its softwires or of the public side (RFC 791 3.2)."""
    place = word(packet, 6)
    piece = Piece(
        packet[:IPV4_HEADER],
        UNIT * (place & FRAGMENT_OFFSET),
        packet[IPV4_HEADER:],
        place & MORE_FRAGMENTS == 0,
    )
    names = (softwire, number(packet, 12, 4), number(packet, 16, 4), word(packet, 4), packet[9])
    return Key(owner, False, names), piece


def whole_packet(whole: Piece) -> bytes:
    """The IPv4 packet of a whole datagram: its first piece's header with the length of all."""
    return with_fields(whole.head, word(whole.head, 6) & DONT_FRAGMENT, whole.data)


def with_fields(header: bytes, fragment: int, payload: bytes) -> bytes:
    """The packet of an IPv4 header, with these flags and this offset, and a payload."""
    out = bytearray(header)
    out[2:4] = (IPV4_HEADER + len(payload)).to_bytes(2, "big")
    out[6:8] = fragment.to_bytes(2, "big")
    out[10:12] = bytes(2)
    out[10:12] = checksum(bytes(out)).to_bytes(2, "big")
    return bytes(out) + payload
