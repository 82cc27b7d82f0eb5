"""How the plain model cuts packets that are too long for their link (RFC 791 3.2, RFC 8200 4.5, RFC 6333 5.3)."""

from __future__ import annotations

from collections import Counter
from typing import List, NamedTuple

from log_form import Prefix
from model_packets import FRAGMENT, FRAGMENT_HEADER, IPV4_HEADER, IPV4_IN_IPV6, IPV6_HEADER, MORE_FRAGMENTS, behind_ipv6
from model_pieces import UNIT, with_fields

IDENTIFICATIONS = 1 << 32


class Part(NamedTuple):
    """Some of the bytes that are cut, where they begin among all, and whether others follow."""

    offset: int
    data: bytes
    has_more: bool


def parts_of(data: bytes, room: int) -> List[Part]:
    """The bytes in parts that fit this room, each of as many units as do, but for what is left for the last one."""
    size = room // UNIT * UNIT
    return [Part(at, data[at : at + size], at + size < len(data)) for at in range(0, len(data), size)]


def for_public(packet: bytes, mtu: int) -> List[bytes]:
    """An IPv4 packet that may be cut, as it goes over a link of this MTU: as it is, or in pieces that each have its header."""
    if len(packet) <= mtu:
        return [packet]
    header, pieces = packet[:IPV4_HEADER], []
    for part in parts_of(packet[IPV4_HEADER:], mtu - IPV4_HEADER):
        flag = MORE_FRAGMENTS if part.has_more else 0
        pieces.append(with_fields(header, flag | part.offset // UNIT, part.data))
    return pieces


class Cutter:
    """Cuts what goes into softwires, and counts for each subscriber the packets that it cut. By this count they are told apart,
    whichever of the subscriber's softwires they go to."""

    def __init__(self) -> None:
        self.cuts: Counter[Prefix] = Counter()

    def for_softwire(self, owner: Prefix, softwire: int, packet: bytes, mtu: int) -> List[bytes]:
        """The IPv6 packets that bring an IPv4 packet to a subscriber's softwire: one, or its fragments."""
        if IPV6_HEADER + len(packet) <= mtu:
            return [behind_ipv6(packet, IPV4_IN_IPV6, packet[1], softwire)]
        identification = self.cuts[owner] % IDENTIFICATIONS
        self.cuts[owner] += 1
        fragments = []
        for part in parts_of(packet, mtu - IPV6_HEADER - FRAGMENT_HEADER):
            place = part.offset + (1 if part.has_more else 0)
            head = bytes([IPV4_IN_IPV6, 0]) + place.to_bytes(2, "big") + identification.to_bytes(4, "big")
            fragments.append(behind_ipv6(head + part.data, FRAGMENT, packet[1], softwire))
        return fragments
