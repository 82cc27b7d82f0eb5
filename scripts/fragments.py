"""Cuts packets into pieces of any size, which may overlap or be wrong (RFC 791 3.2, RFC 8200 4.5)."""

from __future__ import annotations

import struct
from typing import List, NamedTuple, Sequence

from packets import FRAGMENT_OFFSET, IPV4_IN_IPV6, MORE_FRAGMENTS, Softwire, checksum

FRAGMENT = 44  # the number of the Fragment header


class Part(NamedTuple):
    """Some bytes of a payload, the last ones or not."""

    begin: int
    end: int
    is_last: bool = False


def parts_between(cuts: Sequence[int], size: int) -> List[Part]:
    """What lies between these cuts of so many bytes."""
    begins, ends = [0, *cuts], [*cuts, size]
    return [Part(begin, end, end == size) for begin, end in zip(begins, ends)]


def ipv4_piece(packet: bytes, part: Part) -> bytes:
    """A part of an IPv4 packet's payload behind its header. The packet may be a piece itself."""
    header, data = bytearray(packet[:20]), packet[20:][part.begin : part.end]
    (flags,) = struct.unpack_from(">H", header, 6)
    offset = (flags & FRAGMENT_OFFSET) + part.begin // 8
    flags = flags & ~FRAGMENT_OFFSET | offset & FRAGMENT_OFFSET | (0 if part.is_last else MORE_FRAGMENTS)
    struct.pack_into(">H", header, 2, 20 + len(data))
    struct.pack_into(">H", header, 6, flags)
    struct.pack_into(">H", header, 10, 0)
    struct.pack_into(">H", header, 10, checksum(bytes(header)))
    return bytes(header) + data


def ipv4_pieces(packet: bytes, size: int) -> List[bytes]:
    """An IPv4 packet in pieces of so many bytes of its payload each, but for the last one."""
    end = len(packet) - 20
    return [ipv4_piece(packet, part) for part in parts_between(range(size, end, size), end)]


def ipv6_fragment(data: bytes, part: Part, ident: int, next_header: int = IPV4_IN_IPV6, reserved: int = 0) -> bytes:
    """A part of what is cut behind a Fragment header."""
    place = part.begin & 0xFFF8 | (0 if part.is_last else 1) | reserved & 6
    return struct.pack(">BBHI", next_header, reserved >> 3, place, ident) + data[part.begin : part.end]


def tunnel_fragments(around: Softwire, size: int, ident: int) -> List[bytes]:
    """A packet of a softwire in fragments of so many bytes of its payload each, but for the last one."""
    end = len(around.inner)
    return [
        around._replace(inner=ipv6_fragment(around.inner, part, ident), next_header=FRAGMENT).spelled()
        for part in parts_between(range(size, end, size), end)
    ]
