"""Spells packets, each right in all its fields but for those that a test changes."""

from __future__ import annotations

import struct
from typing import NamedTuple, Optional, Union

AFTR = 0x2001_0DB8_0000_0000_0000_0000_0000_0001
AGGREGATE = 0x2001_0DB8_0100_0000_0000_0000_0000_0000
ICMP, TCP, UDP, IPV4_IN_IPV6 = 1, 6, 17, 4
ECHO_REPLY, UNREACHABLE, ECHO_REQUEST, TIME_EXCEEDED = 0, 3, 8, 11
TUNNEL = 0xC000_0001  # 192.0.0.1
FIN, SYN, RST, ACK = 1, 2, 4, 16
DONT_FRAGMENT, MORE_FRAGMENTS, RESERVED, FRAGMENT_OFFSET = 0x4000, 0x2000, 0x8000, 0x1FFF
FROM_SOFTWIRE, FROM_PUBLIC, TICK, CHANGE = 1, 2, 3, 4


def frame(kind: int, moment: int, body: bytes) -> bytes:
    """A record of the input."""
    return struct.pack(">IBQ", 9 + len(body), kind, moment) + body


def quad(text: str) -> int:
    return int.from_bytes(bytes(map(int, text.split("."))), "big")


def softwire_of(subscriber: int, host: int = 2) -> int:
    """An address of a subscriber, by the number of its prefix."""
    return AGGREGATE + (subscriber << 72) + host


def checksum(data: bytes) -> int:
    """The Internet checksum (RFC 1071)."""
    data += bytes(len(data) % 2)
    total: int = sum(struct.unpack(f">{len(data) // 2}H", data))
    while total > 0xFFFF:
        total = (total & 0xFFFF) + (total >> 16)
    return 0xFFFF - total


class Udp(NamedTuple):
    """An IPv4 packet with a UDP datagram. What is None is what it should be."""

    source: int = quad("192.0.0.2")
    source_port: int = 5000
    destination: int = quad("203.0.113.5")
    port: int = 53
    payload: bytes = b"abcd"
    version: int = 4
    words: Optional[int] = None  # the header's length in its field
    tos: int = 0
    total: Optional[int] = None
    ident: int = 1
    fragment: int = 0  # the flags and the fragment offset
    ttl: int = 64
    proto: int = UDP
    sum_wrong_by: int = 0
    options: bytes = b""
    udp_length: Optional[int] = None
    udp_sum: Optional[int] = None
    kept: Optional[int] = None  # so many of its bytes are left

    def datagram(self) -> bytes:
        length = 8 + len(self.payload)
        ports = struct.pack(">HH", self.source_port, self.port)
        pseudo = struct.pack(">IIHH", self.source, self.destination, UDP, length)
        right = checksum(pseudo + ports + struct.pack(">HH", length, 0) + self.payload) or 0xFFFF
        field = length if self.udp_length is None else self.udp_length
        return ports + struct.pack(">HH", field, right if self.udp_sum is None else self.udp_sum) + self.payload

    def spelled(self) -> bytes:
        return spelled_ipv4(self, self.datagram())


class Tcp(NamedTuple):
    """An IPv4 packet with a TCP segment. What is None is what it should be."""

    source: int = quad("192.0.0.2")
    source_port: int = 5000
    destination: int = quad("203.0.113.5")
    port: int = 80
    payload: bytes = b"abcd"
    flags: int = SYN
    version: int = 4
    words: Optional[int] = None  # the header's length in its field
    tos: int = 0
    total: Optional[int] = None
    ident: int = 1
    fragment: int = 0  # the flags and the fragment offset
    ttl: int = 64
    proto: int = TCP
    sum_wrong_by: int = 0
    options: bytes = b""
    tcp_options: bytes = b""
    tcp_words: Optional[int] = None  # the segment's data offset
    tcp_sum: Optional[int] = None
    kept: Optional[int] = None  # so many of its bytes are left

    def segment(self) -> bytes:
        words = 5 + len(self.tcp_options) // 4 if self.tcp_words is None else self.tcp_words
        front = struct.pack(">HHIIBBH", self.source_port, self.port, 1000, 2000, words << 4, self.flags, 8192)
        behind = bytes(2) + self.tcp_options + self.payload
        length = len(front) + 2 + len(behind)
        right = checksum(struct.pack(">IIHH", self.source, self.destination, TCP, length) + front + bytes(2) + behind)
        return front + struct.pack(">H", right if self.tcp_sum is None else self.tcp_sum) + behind

    def spelled(self) -> bytes:
        return spelled_ipv4(self, self.segment())


class Echo(NamedTuple):
    """An IPv4 packet with an ICMP echo message (RFC 792). What is None is what it should be."""

    source: int = quad("192.0.0.2")
    destination: int = quad("203.0.113.5")
    identifier: int = 7
    sequence: int = 1
    payload: bytes = b"ping"
    kind: int = ECHO_REQUEST
    code: int = 0
    version: int = 4
    words: Optional[int] = None  # the header's length in its field
    tos: int = 0
    total: Optional[int] = None
    ident: int = 1
    fragment: int = 0  # the flags and the fragment offset
    ttl: int = 64
    proto: int = ICMP
    sum_wrong_by: int = 0
    options: bytes = b""
    message_sum: Optional[int] = None
    kept: Optional[int] = None  # so many of its bytes are left

    def message(self) -> bytes:
        front = struct.pack(">BB", self.kind, self.code)
        behind = struct.pack(">HH", self.identifier, self.sequence) + self.payload
        right = checksum(front + bytes(2) + behind)
        return front + struct.pack(">H", right if self.message_sum is None else self.message_sum) + behind

    def spelled(self) -> bytes:
        return spelled_ipv4(self, self.message())


class Error(NamedTuple):
    """An IPv4 packet with an ICMP error (RFC 792). What is None is what it should be."""

    source: int = quad("198.51.100.1")
    destination: int = quad("192.0.2.8")
    quoted: bytes = b""  # the packet that it is about, or its beginning
    kind: int = UNREACHABLE
    code: int = 1
    last_word: int = 0  # that behind the checksum
    version: int = 4
    words: Optional[int] = None  # the header's length in its field
    tos: int = 0
    total: Optional[int] = None
    ident: int = 1
    fragment: int = 0  # the flags and the fragment offset
    ttl: int = 64
    proto: int = ICMP
    sum_wrong_by: int = 0
    options: bytes = b""
    message_sum: Optional[int] = None
    kept: Optional[int] = None  # so many of its bytes are left

    def message(self) -> bytes:
        front, behind = struct.pack(">BB", self.kind, self.code), struct.pack(">I", self.last_word) + self.quoted
        right = checksum(front + bytes(2) + behind)
        return front + struct.pack(">H", right if self.message_sum is None else self.message_sum) + behind

    def spelled(self) -> bytes:
        return spelled_ipv4(self, self.message())


def spelled_ipv4(packet: Union[Udp, Tcp, Echo, Error], body: bytes) -> bytes:
    """The IPv4 header of a packet, and its transport behind it."""
    words = 5 + len(packet.options) // 4 if packet.words is None else packet.words
    total = 20 + len(packet.options) + len(body) if packet.total is None else packet.total
    first = struct.pack(">BBHH", packet.version << 4 | words, packet.tos, total, packet.ident)
    front = first + struct.pack(">HBB", packet.fragment, packet.ttl, packet.proto)
    behind = struct.pack(">II", packet.source, packet.destination) + packet.options
    right = checksum(front + bytes(2) + behind)
    header = front + struct.pack(">H", (right + packet.sum_wrong_by) % 0x1_0000) + behind
    return (header + body)[: packet.kept]


class Softwire(NamedTuple):
    """An IPv6 packet of a subscriber, with an IPv4 packet in it."""

    inner: bytes = Udp().spelled()
    source: int = softwire_of(0)
    destination: int = AFTR
    version: int = 6
    next_header: int = IPV4_IN_IPV6
    chain: bytes = b""  # the headers between IPv6 and IPv4
    payload: Optional[int] = None
    behind: bytes = b""
    kept: Optional[int] = None
    traffic_class: int = 0

    def spelled(self) -> bytes:
        body = self.chain + self.inner
        length = len(body) if self.payload is None else self.payload
        head = struct.pack(">IHBB", self.version << 28 | self.traffic_class << 20, length, self.next_header, 64)
        addresses = self.source.to_bytes(16, "big") + self.destination.to_bytes(16, "big")
        return (head + addresses + body + self.behind)[: self.kept]
