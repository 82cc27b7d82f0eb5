"""Random inputs and words, the same for the same generator."""

from __future__ import annotations

import os
import random
import struct
from typing import Any, Callable, Dict, List, NamedTuple, Optional, Sequence, Type

import model
from fragments import ipv4_pieces, tunnel_fragments
from log_form import Place, Told
from model import CHANGE, PUBLIC, SOFTWIRE, TICK, Inner, Mapping, Remote, Translator
from model_packets import AFTR, ICMP, IPV4_IN_IPV6, IPV6_HEADER, POOL, QUOTED, TCP, UDP, is_quoted_enough, moved, number
from model_packets import sum_place, word
from packets import ACK, DONT_FRAGMENT, FIN, RST, SYN, Echo, Error, Softwire, Tcp, Udp, checksum, softwire_of
from refusal_cases import FROM_OUTSIDE, FROM_SUBSCRIBERS, Fault

RUN = ["run", "config", "log", "out", "in"]


def quads(text: str) -> List[int]:
    return [int.from_bytes(bytes(map(int, quad.split("."))), "big") for quad in text.split()]


SOFTWIRES = [softwire_of(0, 2), softwire_of(0, 3), softwire_of(1, 2), softwire_of(2, 2), softwire_of(65536, -1)]
OTHER_SOFTWIRES = [softwire_of(65536, 0), softwire_of(0, -1), 0, 1, AFTR, (1 << 128) - 1]
INNERS = quads("192.0.0.2 192.0.0.3 10.0.0.1")
REMOTES = quads("203.0.113.5 203.0.113.6 198.51.100.1 192.0.0.8 223.255.255.255")
# The ends of the ranges that aren't routed, of 192.0.0.0/29 (RFC 6333 5.7) and of the pool, and their neighbours.
EDGE_ADDRESSES = quads(
    "0.0.0.0 0.255.255.255 1.0.0.0 126.255.255.255 127.0.0.1 127.255.255.255 128.0.0.0 223.255.255.255 224.0.0.1 "
    "240.0.0.0 255.255.255.255 191.255.255.255 192.0.0.0 192.0.0.7 192.0.0.8 192.0.2.7 192.0.2.8 192.0.2.11 192.0.2.12"
)
EDGE_PORTS = (0, 1, 1023, 1024, 1025, 1535, 1536, 1537, 2048, 65535)
FRAGMENT_DATA, PIECE_DATA = 1448, 1480  # what a full fragment, and a full piece, bear by MTUs of 1500
MOST_PARTS = 130  # of a packet: two more than are kept


def with_sum(packet: bytearray) -> bytearray:
    """The packet with the right checksum of its header, with options or without."""
    header = packet[:24] if packet[0] == 0x46 else packet[:20]
    header[10:12] = bytes(2)
    packet[10:12] = struct.pack(">H", checksum(bytes(header)))
    return packet


class Edit(NamedTuple):
    """A field of a packet that gets one of these values, or has one of them added."""

    at: int
    size: int
    values: Sequence[int]
    adds: bool = False

    def apply(self, rng: random.Random, packet: bytearray) -> None:
        old = number(packet, self.at, self.size) if self.adds else 0
        value = (old + rng.choice(self.values)) % (1 << 8 * self.size)
        packet[self.at : self.at + self.size] = value.to_bytes(self.size, "big")


IPV4_EDITS = [
    Edit(0, 1, (0x05, 0x35, 0x40, 0x44, 0x46, 0x4F, 0x55, 0x65)),  # version and header length
    Edit(1, 1, (1, 0xB8, 0xFF)),  # TOS
    Edit(2, 2, (-20, -12, -9, -1, 1, 2), adds=True),  # total length
    Edit(2, 2, (0, 19, 20, 27, 28, 0xFFFF)),
    Edit(4, 2, (0, 0x1234, 0xFFFF)),  # identification
    Edit(6, 2, (0x4000, 0x8000, 0xC000, 0x2000, 0x6000, 0x0001, 0x1FFF, 0xA001)),  # flags and fragment offset
    Edit(8, 1, (0, 1, 2, 3, 255)),  # TTL
    Edit(9, 1, (0, 1, 6, 41, 47, 255)),  # protocol
    *[Edit(12, 4, EDGE_ADDRESSES), Edit(16, 4, EDGE_ADDRESSES)] * 2,
]
SUM_EDITS = [Edit(10, 2, (1, 0xFFFF, 0x8000), adds=True), Edit(10, 2, (0, 0xFFFF))]
UDP_EDITS = [
    Edit(20, 2, (0, 1, 0xFFFF)),  # source port
    Edit(22, 2, (0, 1, 0xFFFF)),  # destination port
    Edit(24, 2, (-5, -1, 1, 2), adds=True),  # length
    Edit(24, 2, (0, 7, 8, 9, 0xFFFF)),
    Edit(26, 2, (0, 0, 1, 0x8000, 0xFFFE, 0xFFFF)),  # checksum
]
TCP_EDITS = [
    Edit(20, 2, (0, 1, 0xFFFF)),  # source port
    Edit(22, 2, (0, 1, 0xFFFF)),  # destination port
    Edit(32, 1, (0x00, 0x40, 0x50, 0x5F, 0x60, 0xF0)),  # data offset
    Edit(33, 1, range(64)),  # control bits
    Edit(36, 2, (0, 1, 0x8000, 0xFFFE, 0xFFFF)),  # checksum
]
ECHO_EDITS = [
    Edit(20, 1, (0, 3, 4, 5, 8, 9, 11, 12, 13, 255)),  # type
    Edit(21, 1, (0, 1, 4, 255)),  # code
    Edit(22, 2, (0, 1, 0x8000, 0xFFFE, 0xFFFF)),  # checksum
    Edit(24, 2, (0, 1, 0x0400, 0xFFFF)),  # identifier
    Edit(26, 2, (0, 1, 0xFFFF)),  # sequence number
]
ERROR_EDITS = [
    Edit(20, 1, (0, 3, 4, 5, 8, 11, 12, 13)),  # type
    Edit(21, 1, (0, 1, 4, 255)),  # code
    Edit(24, 2, (0, 1, 0xFFFF)),  # the word behind the checksum
    Edit(26, 2, (0, 1, 0x0500, 0xFFFF)),
]
# Of the packet that an error quotes, where it begins at 0.
QUOTED_EDITS = [
    Edit(0, 1, (0x45, 0x44, 0x46, 0x4F, 0x55, 0x65)),  # version and header length
    Edit(2, 2, (0, 28, 0xFFFF)),  # total length
    Edit(6, 2, (0x2000, 0x4000, 0x8000, 0x0001, 0x1FFF)),  # flags and fragment offset
    Edit(8, 1, (0, 1, 255)),  # TTL
    Edit(9, 1, (0, 1, 6, 17, 47)),  # protocol
    Edit(10, 2, (0, 1, 0xFFFF)),  # checksum
    *[Edit(12, 4, EDGE_ADDRESSES), Edit(16, 4, EDGE_ADDRESSES)],
    Edit(20, 2, (0, 1, 1024, 5000, 0xFFFF)),  # source port, or an echo message's type and code
    Edit(22, 2, (0, 1, 1024, 5000, 0xFFFF)),  # destination port, or an echo message's checksum
    Edit(24, 2, (0, 1, 1024, 0xFFFF)),  # an echo message's identifier
    Edit(26, 2, (0, 0, 1, 0xFFFE, 0xFFFF)),  # checksum of UDP
]
FLAGS = [SYN, SYN | ACK, ACK, ACK, ACK | 8, FIN, FIN | ACK, FIN | SYN, RST, RST | ACK, RST | FIN | SYN, 0]
IPV6_EDITS = [
    Edit(0, 1, (0x00, 0x45, 0x50, 0x70, 0xF0)),  # version
    Edit(0, 4, (0x600F_FFFF, 0x6FF0_0000, 0x6000_0001, 0x6ABC_DEF0)),  # traffic class and flow label
    Edit(4, 2, (-28, -1, 1, 8, 40), adds=True),  # payload length
    Edit(4, 2, (0, 19, 20, 0xFFFF)),
    Edit(6, 1, (0, 6, 17, 41, 43, 44, 50, 58, 59, 60)),  # next header
    Edit(7, 1, (0, 1, 255)),  # hop limit
    Edit(8, 16, OTHER_SOFTWIRES),
    Edit(24, 16, (AFTR + 1, AFTR - 1, 0, SOFTWIRES[0], AFTR ^ 1 << 127)),
]
# Headers between IPv6 and IPv4: options with an encapsulation limit (RFC 2473 4.1.1), hop-by-hop options, both, long
# ones, fragments, a Routing header, and headers that run past the packet.
EXTENSIONS = [
    (60, "0400040104010100"),
    (0, "0400010400000000"),
    (0, "3c00010400000000 0400040104010100"),
    (60, "0000040104010100 0401010c" + 12 * "00"),
    (44, "0400000000000001"),
    (44, "0400000100000001"),
    (0, "2c00010400000000 0400000100000001"),
    (60, "2b00040104010100 0400000000000000"),
    (60, "3b00040104010100"),
    (60, "0405040104010100"),
    (0, "00ff"),
]


def edited(rng: random.Random, packet: bytearray) -> bytearray:
    """The IPv4 packet after an edit or two, mostly with its header's checksum made right again; or cut."""
    for _ in range(rng.choice((1, 1, 1, 2))):
        transport = TCP_EDITS if packet[9] == TCP and len(packet) >= 40 else ECHO_EDITS if packet[9] == ICMP else UDP_EDITS
        rng.choice(rng.choice((IPV4_EDITS, IPV4_EDITS, transport))).apply(rng, packet)
    with_sum(packet)
    if rng.random() < 0.15:
        rng.choice(SUM_EDITS).apply(rng, packet)
    if rng.random() < 0.1:
        del packet[rng.randrange(len(packet)) :]
    return packet


def with_message_sum(packet: bytearray) -> bytearray:
    """The packet with the right checksum of its ICMP message, where it has the room for one."""
    if len(packet) >= 28 and packet[9] == ICMP:
        packet[22:24] = bytes(2)
        packet[22:24] = struct.pack(">H", checksum(bytes(packet[20:])))
    return packet


def with_echo_sum_to_zero(packet: bytearray, change: Callable[[bytes], bytes]) -> bytearray:
    """The echo message with a sequence number by which its sum is zero once it is changed like this."""
    packet[26:28] = bytes(2)
    packet[26:28] = change(bytes(with_message_sum(packet)))[22:24]
    return with_message_sum(packet)


def with_quoted_sum_to_zero(rng: random.Random, packet: bytearray, change: Callable[[bytes], bytes]) -> bytearray:
    """The error with a sum in what it quotes that is zero once it is changed like this: IPv4's or the transport's."""
    transport = QUOTED + sum_place(bytes(packet[QUOTED:]))
    at = rng.choice([QUOTED + 10, transport] if transport + 2 <= len(packet) else [QUOTED + 10])
    packet[at : at + 2] = b"\0\1"
    from_one = word(change(bytes(with_message_sum(packet))), at)
    packet[at : at + 2] = struct.pack(">H", (1 - from_one) % 0xFFFF or 0xFFFF)
    return with_message_sum(packet)


def with_sums_to_zero(rng: random.Random, packet: bytearray, change: Callable[[bytes], bytes]) -> bytearray:
    """The packet with a sum that is zero once it is changed like this, the transport's or IPv4's; or zero before."""
    if rng.random() < 0.6:
        at = sum_place(packet)
        packet[at : at + 2] = b"\0\1"
        from_one = word(change(packet), at)
        packet[at : at + 2] = struct.pack(">H", (1 - from_one) % 0xFFFF or 0xFFFF)
        return packet
    at_zero = packet if rng.random() < 0.5 else with_sum(bytearray(change(packet)))
    packet[4:6] = struct.pack(">H", (word(packet, 4) + word(at_zero, 10)) % 0xFFFF)
    with_sum(packet)
    if packet[10:12] == bytes(2) and rng.random() < 0.5:
        packet[10:12] = b"\xff\xff"  # the other zero of one's complement
    return packet


def change_in(mapping: Mapping) -> Callable[[bytes], bytes]:
    """What becomes of a packet from outside to the mapping."""
    return lambda packet: moved(packet, False, Place(mapping.inner.address, mapping.inner.port))


class Session:
    """An input that grows by records. The model runs along, so that records can aim at what is live or just gone."""

    long = 0.05  # the share of packets that are about as long as a side takes

    def __init__(self, rng: random.Random, told: Optional[Told] = None) -> None:
        self.rng = rng
        self.state = Translator(told)
        self.pieces: List[bytes] = []
        self.inward = 0.1  # the share of the subscribers' packets that are for the pool
        self.softwires = rng.sample(SOFTWIRES, rng.randint(1, 4))
        self.ports = [rng.choice((0, 1, 53, 5000, 5001, 40000, 65535)) for _ in range(rng.randint(1, 5))]
        floor = self.state.floor
        starts = (1, 1_000_000, rng.randint(1, 1 << 40), model.LAST_INPUT_MOMENT - 900_000)
        later = (floor - 1, floor, floor + 1, floor + 1, floor + model.HOLD - 1, floor + model.HOLD)
        self.start = rng.choice(later if floor > 0 else starts)

    def add(self, kind: int, body: bytes, moment: Optional[int] = None) -> None:
        moment = self.moment() if moment is None else moment
        record = model.Record(kind, max(0, min(moment, model.LAST_INPUT_MOMENT)), bytes(body))
        self.pieces.append(model.frame(*record))
        self.state.treat(record)

    def moment(self) -> int:
        """A moment: the clock, a little later, out of order, or at the edge of a deadline or of a hold time."""
        clock = self.state.clock
        if clock == 0:
            return self.rng.choice((0, self.start, self.start))
        edges = [self.state.horizon, self.state.floor]
        edges += [peer.deadline for mapping in self.state.mappings.values() for peer in mapping.peers.values()]
        edges += [lease.until + model.HOLD for lease in self.state.leases if lease.until is not None]
        edges = [edge for edge in edges if edge >= clock - 1] or [clock + 1]
        step = self.rng.random()
        if step < 0.45:
            return clock
        if step < 0.65:
            return clock + self.rng.choice((1, 2, 500, 119_999, 120_000, 150_000))
        if step < 0.72:
            return self.rng.choice((0, clock - 1, self.rng.randint(0, clock)))
        if step < 0.74:
            return clock + self.rng.choice((299_999, 300_000, 300_001, 10_000_000))
        return self.rng.choice(edges) + self.rng.choice((-1, -1, 0, 0, 1))

    def payload(self, edges: Sequence[int]) -> bytes:
        """Some bytes, seldom of one of these lengths."""
        is_long = self.rng.random() < self.long
        return self.rng.randbytes(self.long_size(edges) if is_long else self.rng.choice((0, 1, 4, 4, 5, 12)))

    def long_size(self, edges: Sequence[int]) -> int:
        return self.rng.choice(edges)

    def plain(self, softwire: int, port: int, moment: int, remote: int = REMOTES[0]) -> None:
        """A packet of a subscriber, for streams of many."""
        packet = Udp(INNERS[0], port, remote, self.rng.choice((53, 99)))
        self.add(SOFTWIRE, Softwire(packet.spelled(), softwire).spelled(), moment)

    def faults(self, rules: Sequence[Fault]) -> List[Fault]:
        """A fault, or two or three that are neighbours in the order of the rules or stand anywhere in it."""
        count = self.rng.choice((1, 2, 2, 2, 3))
        if self.rng.random() < 0.5:
            return self.rng.sample(rules, count)
        at = self.rng.randrange(len(rules))
        return self.rng.sample(rules[at : at + 6], min(count, len(rules) - at))

    def remote(self, inner: Inner) -> Remote:
        """Where a subscriber sends to: outside, or into the pool."""
        if self.rng.random() < self.inward:
            return self.remote_inside(inner)
        return Remote(self.rng.choice(REMOTES), self.rng.choice((53, 99)))

    def remote_inside(self, inner: Inner) -> Remote:
        """A place of the pool: the sender's own, a live one, the next one that a subscriber may get, or any."""
        own, live, step = self.state.mappings.get(inner), list(self.state.mappings.values()), self.rng.random()
        if own is not None and step < 0.2:
            return Remote(*own.place)
        if live and step < 0.9:
            place = self.rng.choice(live).place
            return Remote(place.address, (place.port + (1 if step < 0.35 else 0)) % 65536)
        return Remote(self.rng.choice(POOL), self.rng.choice(EDGE_PORTS))

    def change_out(self, mapping: Mapping, remote: Remote) -> Callable[[bytes], bytes]:
        """What becomes of a packet of the mapping on its way to this remote, or on the first half of one into the pool."""
        target = self.state.mapping_at(Place(*remote), mapping.inner.protocol)

        def change(packet: bytes) -> bytes:
            out = moved(packet, True, mapping.place)
            return out if target is None else moved(out, False, Place(target.inner.address, target.inner.port), 0)

        return change if self.rng.random() < 0.5 else lambda packet: moved(packet, True, mapping.place)

    def outbound(self) -> None:
        """A packet of a subscriber, which may be edited at every layer, or break a rule or more."""
        rng = self.rng
        protocol = rng.choice((UDP, UDP, UDP, UDP, TCP, TCP, ICMP))
        inner = Inner(rng.choice(self.softwires), rng.choice(INNERS), rng.choice(self.ports), protocol)
        remote, around = self.remote(inner), Softwire(source=inner.softwire)
        if protocol == TCP and rng.random() < 0.8:
            self.segment_out(inner, remote)
            return
        if protocol == ICMP:
            self.echo_out(inner, remote.address)
            return
        mapping = self.state.mappings.get(inner)
        if mapping is not None and rng.random() < 0.2:
            self.error_out(mapping)
            return
        payload = self.payload((1431, 1432, 1433, 1471, 1472, 1473))
        udp = Udp(inner.address, inner.port, *remote, payload, ident=rng.randrange(65536))
        udp = udp._replace(fragment=rng.choice((0, 0, DONT_FRAGMENT)), ttl=rng.choice((64,) * 12 + (2, 1, 0)))
        inner = inner._replace(protocol=UDP)
        if rng.random() < 0.2:
            for fault in self.faults(FROM_SUBSCRIBERS):
                udp, around = udp._replace(**fault.udp), around._replace(**fault.around)
            self.add(SOFTWIRE, around._replace(inner=udp.spelled()).spelled())
            return
        packet = bytearray(udp.spelled())
        mapping = self.state.mappings.get(inner)
        if mapping is not None and udp.ttl > 1 and rng.random() < 0.2:
            packet = with_sums_to_zero(rng, packet, self.change_out(mapping, remote))
        elif rng.random() < 0.15:
            packet = edited(rng, packet)
        packet += rng.randbytes(rng.choice((0, 0, 0, 0, 1, 7)))
        if rng.random() < 0.05:
            next_header, extensions = rng.choice(EXTENSIONS)
            around = around._replace(next_header=next_header, chain=bytes.fromhex(extensions))
        whole = bytearray(around._replace(inner=bytes(packet)).spelled())
        if rng.random() < 0.1:
            rng.choice(IPV6_EDITS).apply(rng, whole)
        whole += rng.randbytes(rng.choice((0, 0, 0, 0, 1, 40)))
        if rng.random() < 0.02:
            del whole[rng.randrange(len(whole)) :]
        if rng.random() < 0.01:
            whole += bytes(65575 - len(whole))  # the longest record
        self.add(SOFTWIRE, whole)

    def segment_out(self, inner: Inner, remote: Remote) -> None:
        """A TCP segment of a subscriber, which may be edited."""
        rng = self.rng
        flags, options = rng.choice(FLAGS), bytes(rng.choice((0, 0, 4, 40)))
        payload = self.payload((1419, 1420, 1421, 1459, 1460, 1461))
        tcp = Tcp(inner.address, inner.port, *remote, payload, flags, tcp_options=options)
        packet = bytearray(tcp.spelled())
        mapping = self.state.mappings.get(inner)
        if mapping is not None and rng.random() < 0.15:
            packet = with_sums_to_zero(rng, packet, self.change_out(mapping, remote))
        elif rng.random() < 0.15:
            packet = edited(rng, packet)
        self.add(SOFTWIRE, Softwire(bytes(packet), inner.softwire).spelled())

    def segment_in(self, mapping: Mapping) -> None:
        """A TCP segment to a live place, mostly from a peer; it may be edited."""
        rng = self.rng
        beside = Remote(rng.choice(REMOTES), rng.choice((53, 99, 1000)))
        remote = rng.choice(list(mapping.peers)) if rng.random() < 0.8 else beside
        place, payload = mapping.place, self.payload((1419, 1420, 1421))
        tcp = Tcp(remote.address, remote.port, place.address, place.port, payload, rng.choice(FLAGS))
        packet = bytearray(tcp.spelled())
        if rng.random() < 0.15:
            packet = with_sums_to_zero(rng, packet, change_in(mapping))
        elif rng.random() < 0.15:
            packet = edited(rng, packet)
        self.add(PUBLIC, packet)

    def echo(self, source: int, destination: int, identifier: int, requests: float, edges: Sequence[int]) -> Echo:
        """An echo message, which is a request in this share of them, and seldom another message."""
        rng = self.rng
        kind = rng.choice((3, 5, 11, 12, 13)) if rng.random() < 0.03 else 8 if rng.random() < requests else 0
        payload = self.payload(edges) if rng.random() < 0.9 else bytes(rng.randrange(4))
        echo = Echo(source, destination, identifier, rng.choice((0, 1, 0xFFFF)), payload, kind)
        return echo._replace(code=rng.choice((0, 0, 0, 0, 1, 255)), ttl=rng.choice((64,) * 12 + (2, 2, 1)))

    def changed_echo(self, echo: Echo, change: Optional[Callable[[bytes], bytes]]) -> bytes:
        """Its packet, which may be edited, or have a sum that is zero once it is changed."""
        rng, packet = self.rng, bytearray(echo.spelled())
        step = rng.random()
        if step < 0.15 and change is not None and echo.ttl > 1 and echo.kind in (0, 8):
            return bytes(with_echo_sum_to_zero(packet, change))
        if step < 0.3:
            packet = edited(rng, packet)
            return bytes(with_message_sum(packet) if rng.random() < 0.6 else packet)
        return bytes(packet + rng.randbytes(rng.choice((0, 0, 0, 0, 1, 7))))

    def echo_out(self, inner: Inner, destination: int) -> None:
        """An echo message of a subscriber, which may be edited."""
        mapping = self.state.mappings.get(inner)
        echo = self.echo(inner.address, destination, inner.port, 0.7, (1431, 1432, 1433, 1471, 1472, 1473))
        change = None if mapping is None else self.change_out(mapping, Remote(destination, mapping.place.port))
        packet = self.changed_echo(echo, change)
        self.add(SOFTWIRE, Softwire(packet, inner.softwire).spelled())

    def echo_in(self, mapping: Mapping) -> None:
        """An echo message to a live place, which may be edited."""
        remote = self.rng.choice(list(mapping.peers)) if self.rng.random() < 0.8 else Remote(self.rng.choice(REMOTES))
        echo = self.echo(remote.address, *mapping.place, 0.3, (1431, 1432, 1433))
        self.add(PUBLIC, self.changed_echo(echo, change_in(mapping)))

    def quoted(self, protocol: int, source: Place, destination: Place) -> bytes:
        """A packet from one place to another as an error quotes it: its beginning, or all of it. It may be edited."""
        rng, payload = self.rng, self.rng.randbytes(self.rng.choice((0, 1, 4, 12, 40)))
        front: Dict[str, Any] = {"ident": rng.randrange(65536), "tos": rng.choice((0, 0xB8)), "ttl": rng.choice((0, 1, 1, 60))}
        if protocol == TCP:
            packet = Tcp(*source, *destination, payload, rng.choice(FLAGS))._replace(**front).spelled()
        elif protocol == UDP:
            packet = Udp(*source, *destination, payload)._replace(**front).spelled()
        else:
            kind = rng.choice((0, 8, 8, 13))
            ends = (source.address, destination.address, source.port)
            packet = Echo(*ends, rng.choice((0, 1, 0xFFFF)), payload, kind)._replace(**front).spelled()
        if rng.random() < 0.2:
            out = bytearray(packet)
            for _ in range(rng.choice((1, 1, 2))):
                rng.choice(QUOTED_EDITS).apply(rng, out)
            packet = bytes(out)
        return packet[: rng.choice((28, 28, 28, 36, 37, 38, 39, 48, 1500, rng.randrange(29)))]

    def changed_error(self, error: Error, change: Callable[[bytes], bytes]) -> bytes:
        """Its packet, which may be edited, or have a sum that is zero once it is changed."""
        rng, packet = self.rng, bytearray(error.spelled())
        step = rng.random()
        if step < 0.2 and is_quoted_enough(error.quoted) and error.ttl > 1:
            return bytes(with_quoted_sum_to_zero(rng, packet, change))
        if step < 0.3 and is_quoted_enough(error.quoted) and error.ttl > 1:
            return bytes(with_echo_sum_to_zero(packet, change))
        if step < 0.45:
            rng.choice(rng.choice((IPV4_EDITS, ERROR_EDITS, ERROR_EDITS))).apply(rng, packet)
            with_sum(packet)
            return bytes(with_message_sum(packet) if rng.random() < 0.8 else packet)
        return bytes(packet + rng.randbytes(rng.choice((0, 0, 0, 0, 1, 7))))

    def error(self, source: int, destination: int, quoted: bytes) -> Error:
        rng = self.rng
        if rng.random() < self.long:
            quoted = (quoted + rng.randbytes(65_507))[: self.long_size((1432, 1433, 1472, 1473))]
        kind, code, last_word = rng.choice((3, 3, 3, 11, 12)), rng.choice((0, 1, 3, 4, 255)), rng.choice((0, 0x0578))
        error = Error(source, destination, quoted, kind, code, last_word, ident=rng.randrange(65536))
        fragment, tos = rng.choice((0, 0, DONT_FRAGMENT)), rng.choice((0, 0, 0xC0))
        return error._replace(fragment=fragment, tos=tos, ttl=rng.choice((64,) * 12 + (2, 2, 1)))

    def error_in(self, mapping: Mapping) -> None:
        """An error from anywhere outside about a packet that left from a live place."""
        rng, remote = self.rng, self.rng.choice(list(mapping.peers))
        source, other = rng.choice([*REMOTES, remote.address]), rng.choice([mapping.place.address] * 7 + [*POOL])
        quoted = self.quoted(mapping.inner.protocol, mapping.place, Place(remote.address, remote.port or 53))
        self.add(PUBLIC, self.changed_error(self.error(source, other, quoted), change_in(mapping)))

    def error_out(self, mapping: Mapping) -> None:
        """A subscriber's error about a packet that came to a live place of it, from outside or from another subscriber."""
        rng, inner = self.rng, mapping.inner
        remote, destination = rng.choice(list(mapping.peers)), rng.choice(REMOTES)
        if rng.random() < max(0.3, self.inward):
            remote = self.remote_inside(inner)
            destination = rng.choice([remote.address] * 7 + [*POOL])
        port = inner.port if inner.protocol == ICMP else remote.port or 53
        quoted = self.quoted(inner.protocol, Place(remote.address, port), Place(inner.address, inner.port))
        change = self.change_out(mapping, Remote(remote.address, mapping.place.port if inner.protocol == ICMP else port))
        error = self.error(rng.choice([inner.address] * 3 + INNERS), destination, quoted)
        self.add(SOFTWIRE, Softwire(self.changed_error(error, change), inner.softwire).spelled())

    def reply(self) -> None:
        """A packet to the pool: to a live place, to one that was live, or beside; it may break a rule or more."""
        rng = self.rng
        live = list(self.state.mappings.values())
        mapping = rng.choice(live) if live and rng.random() < 0.75 else None
        if mapping is not None and rng.random() < 0.15:
            self.error_in(mapping)
            return
        if mapping is not None and mapping.inner.protocol == TCP and rng.random() < 0.9:
            self.segment_in(mapping)
            return
        if mapping is not None and mapping.inner.protocol == ICMP and rng.random() < 0.9:
            self.echo_in(mapping)
            return
        beside = Place(rng.choice(POOL), rng.choice(EDGE_PORTS))
        if rng.random() < 0.1:
            echo = self.echo(rng.choice(REMOTES), *(mapping.place if mapping else beside), 0.3, (1431, 1432, 1433))
            self.add(PUBLIC, self.changed_echo(echo, None))
            return
        remote = rng.choice(list(POOL) if rng.random() < 0.04 else REMOTES + INNERS)
        place = mapping.place if mapping else beside
        payload = self.payload((1431, 1432, 1433, 1472))
        udp = Udp(remote, 53, place.address, place.port, payload, ident=rng.randrange(65536))
        udp = udp._replace(tos=rng.choice((0, 0, 0x2E, 0xFF)))
        if rng.random() < 0.2:
            for fault in self.faults(FROM_OUTSIDE):
                udp = udp._replace(**fault.udp)
            self.add(PUBLIC, udp.spelled())
            return
        packet = bytearray(udp.spelled())
        if mapping is not None and rng.random() < 0.2:
            packet = with_sums_to_zero(rng, packet, change_in(mapping))
        elif rng.random() < 0.15:
            packet = edited(rng, packet)
        self.add(PUBLIC, packet + rng.randbytes(rng.choice((0, 0, 0, 1, 30))))

    def other(self) -> None:
        """A tick, a change of configuration, or bytes of any kind."""
        kind = self.rng.choice((TICK, TICK, CHANGE, SOFTWIRE, PUBLIC))
        self.add(kind, b"" if kind == TICK else self.payload((19, 20, 40)))

    def bad(self) -> None:
        """A record that is none by one thing alone, which ends the treated part of the input, and one behind it."""
        moment = self.state.clock
        late = self.rng.choice((model.LAST_INPUT_MOMENT + 1, 1 << 63, (1 << 64) - 1))
        head = struct.pack(">BQ", SOFTWIRE, moment)
        kinds = (
            model.frame(self.rng.choice((0, 5, 255)), moment, b""),
            model.frame(TICK, moment, b"\0"),
            model.frame(self.rng.choice((SOFTWIRE, PUBLIC, TICK, CHANGE)), late, b""),
            struct.pack(">I", self.rng.randrange(9)) + head,
            struct.pack(">I", self.rng.choice((65585, 65586, 1 << 16, 1 << 31))) + head + bytes(65580),
            struct.pack(">I", self.rng.choice((0xA1B2_C3D4, 0xD4C3_B2A1))) + bytes(20),  # the head of a capture file
        )
        self.pieces.append(self.rng.choice(kinds))
        self.outbound()


class LongSession(Session):
    """One whose packets are often longer than a link takes, and sometimes come in pieces."""

    long = 0.4

    def long_size(self, edges: Sequence[int]) -> int:
        """A length about that of a link's longest packet, of so many full parts, any, or seldom the longest that may be."""
        step, size = self.rng.random(), edges[0] if edges else 0
        if step < 0.3:
            return self.rng.choice(edges)
        if step < 0.6:
            return size + self.rng.choice((FRAGMENT_DATA, PIECE_DATA)) * self.rng.randint(1, 3) + self.rng.randint(-60, 60)
        return self.rng.randrange(6_000) if step < 0.96 else self.rng.randint(65_380, 65_455)

    def add(self, kind: int, body: bytes, moment: Optional[int] = None) -> None:
        """A record, or several of the parts of its packet, in any order. One of them may be missing, or come twice."""
        rng = self.rng
        parts = parts_of(rng, kind, bytes(body)) if rng.random() < 0.15 else []
        if not parts:
            super().add(kind, body, moment)
            return
        if rng.random() < 0.7:
            rng.shuffle(parts)
        if rng.random() < 0.1:
            parts[0] = rng.choice(parts)
        for part in parts:
            super().add(kind, part, self.state.clock or moment)


def parts_of(rng: random.Random, kind: int, body: bytes) -> List[bytes]:
    """The IPv6 fragments of a packet, or its IPv4 pieces; none where it can't be cut into them."""
    size, is_tunnel = 8 * rng.choice((rng.randint(1, 40), 181, rng.randint(60, 500))), kind == SOFTWIRE
    packet = body[IPV6_HEADER:] if is_tunnel else body
    if kind not in (SOFTWIRE, PUBLIC) or is_tunnel and body[6:7] != bytes([IPV4_IN_IPV6]):
        return []
    if not 20 < len(packet) <= min(65_535, MOST_PARTS * size):
        return []
    if not is_tunnel:
        return ipv4_pieces(packet, size)
    around = Softwire(packet, number(body, 8, 16))
    if rng.random() < 0.6:
        return tunnel_fragments(around, size, rng.choice((1, 2, rng.randrange(1 << 32))))
    return [around._replace(inner=piece).spelled() for piece in ipv4_pieces(packet, size)]


def ordinary(rng: random.Random, told: Optional[Told] = None, make: Type[Session] = Session) -> Session:
    """Records of every kind, few subscribers and ports."""
    session = make(rng, told)
    for _ in range(rng.randint(1, 60)):
        step = rng.random()
        (session.outbound if step < 0.65 else session.reply if step < 0.88 else session.other)()
    if rng.random() < 0.15:
        session.bad()
    return session


def mutated(rng: random.Random) -> Session:
    """An ordinary input after random changes of its bytes, and records that come twice."""
    session = ordinary(rng)
    for _ in range(rng.randint(1, 4)):
        at = rng.randrange(len(session.pieces))
        piece = bytearray(session.pieces[at])
        spot = rng.randrange(len(piece))
        change = rng.random()
        if change < 0.25:
            session.pieces.insert(at, rng.choice(session.pieces))
        elif change < 0.9:
            piece[spot] = rng.choice((piece[spot] ^ 1 << rng.randrange(8), rng.randrange(256)))
            session.pieces[at] = bytes(piece)
        else:
            session.pieces[at] = bytes(piece[:spot] + piece[spot + 1 :])
    return session


def full_block(rng: random.Random) -> Session:
    """A subscriber with more inner ports than its block has; some mappings go, and their ports come again."""
    session = Session(rng)
    ports = rng.sample(range(65536), model.BLOCK_SIZE + 3)
    for port in ports:
        session.plain(softwire_of(0, rng.choice((2, 3))), port, session.start)
    for port in rng.sample(ports, 200):
        session.plain(softwire_of(0, 2), port, session.start + 150_000)
    for gap in (299_999, 300_000, 300_000 + rng.randrange(100_000)):
        for port in rng.sample(ports, 40):
            session.plain(softwire_of(0, rng.choice((2, 3))), port, session.start + gap)
    session.add(TICK, b"", session.start + 750_000)
    for _ in range(20):
        session.outbound()
        session.reply()
    return session


def full_pool(rng: random.Random) -> Session:
    """More subscribers than the pool has blocks. All 504 can close at one moment, which is under the bound of 512."""
    session = Session(rng)
    count = len(POOL) * len(model.FIRST_PORTS)
    subscribers = rng.sample(range(65536), count + 40)
    for subscriber in subscribers[: count + 3]:
        session.plain(softwire_of(subscriber, 2), 5000, session.start)
    for gap in (100_000, 200_000):
        for subscriber in rng.sample(subscribers[:count], 100):
            session.plain(softwire_of(subscriber, 2), rng.choice((5000, 5001)), session.start + gap)
    for gap in (300_000, 300_001, 419_999, 420_000, 519_999, 520_000, 620_000):
        for subscriber in rng.sample(subscribers, 60):
            session.plain(softwire_of(subscriber, rng.choice((2, 3))), 5000, session.start + gap)
    session.add(TICK, b"", session.start + 900_000)
    return session


def connections(rng: random.Random, make: Type[Session] = Session) -> Session:
    """Segments of a few TCP connections, from both sides, and ticks about the ends of their peers."""
    session = make(rng)
    inners = [Inner(rng.choice(session.softwires), INNERS[0], port, TCP) for port in (5000, 5001)]
    remotes = [Remote(address, port) for address in REMOTES[:2] for port in (80, 443)]
    for _ in range(rng.randint(20, 120)):
        live = [row for row in session.state.mappings.values() if row.inner.protocol == TCP]
        step = rng.random()
        if step < 0.45 or not live:
            inner = rng.choice(inners)
            session.segment_out(inner, session.remote_inside(inner) if step < 0.15 else rng.choice(remotes))
        elif step < 0.9:
            session.segment_in(rng.choice(live))
        else:
            session.add(TICK, b"")
    return session


def inward(rng: random.Random, make: Type[Session] = Session) -> Session:
    """Subscribers that send to each other and to themselves, by places of the pool."""
    session = make(rng)
    session.inward = 0.8
    for _ in range(rng.randint(10, 100)):
        step = rng.random()
        (session.outbound if step < 0.85 else session.reply if step < 0.95 else session.other)()
    return session


def echoes(rng: random.Random, make: Type[Session] = Session) -> Session:
    """Echo messages both ways, and between subscribers of two addresses who have the same ports there."""
    session = make(rng)
    if rng.random() < 0.5:
        for subscriber in range(128):
            session.plain(softwire_of(subscriber, 2), 5000, session.start)
        session.softwires = [softwire_of(subscriber, 2) for subscriber in (0, 1, 126, 127)]
    for _ in range(rng.randint(20, 120)):
        live = [row for row in session.state.mappings.values() if row.inner.protocol == ICMP]
        step = rng.random()
        if step < 0.55 or not live:
            inner = Inner(rng.choice(session.softwires), INNERS[0], rng.choice((0, 7, 8, 1024, 65535)), ICMP)
            address = rng.choice(POOL[:2]) if step < 0.3 else rng.choice(REMOTES)
            session.echo_out(inner, address)
        elif step < 0.9:
            session.echo_in(rng.choice(live))
        else:
            (session.outbound if step < 0.95 else session.other)()
    return session


def errors(rng: random.Random, make: Type[Session] = Session) -> Session:
    """Errors both ways and between subscribers, about packets of all kinds, among these packets."""
    session = make(rng)
    session.inward = rng.choice((0.1, 0.7))
    if rng.random() < 0.3:
        for subscriber in range(128):
            session.plain(softwire_of(subscriber, 2), 5000, session.start)
        session.softwires = [softwire_of(subscriber, 2) for subscriber in (0, 1, 126, 127)]
    for _ in range(rng.randint(20, 120)):
        live = [row for row in session.state.mappings.values() if row.inner.softwire in session.softwires]
        step = rng.random()
        if step < 0.35 or not live:
            session.outbound()
        elif step < 0.65:
            session.error_out(rng.choice(live))
        elif step < 0.9:
            session.error_in(rng.choice(live))
        else:
            (session.reply if step < 0.95 else session.other)()
    return session


def long_packets(rng: random.Random) -> Session:
    """A session of another kind, with packets that are cut, and that come in pieces, among the others."""
    return rng.choice(KINDS)(rng, make=LongSession)


KINDS: List[Callable[..., Session]] = [ordinary, connections, inward, echoes, errors]


def long_input(rng: random.Random) -> Session:
    """Long records, some of which end a few bytes before or behind a multiple of 64 KiB of the input."""
    session = Session(rng)
    for _ in range(rng.randint(1, 4)):
        for _ in range(rng.randint(1, 5)):
            session.outbound()
        missing = -(sum(map(len, session.pieces)) + 13) % 65536 - rng.randint(-20, 20)
        session.add(rng.choice((SOFTWIRE, PUBLIC, CHANGE)), rng.randbytes(max(0, min(missing, 65575))))
        session.reply()
    if rng.random() < 0.3:
        session.bad()
    return session


def many_peers(rng: random.Random) -> Session:
    """A subscriber that sends to more remotes than it may have peers: old mappings are refused, a new one isn't."""
    session = Session(rng)
    remotes = range(REMOTES[0], REMOTES[0] + 6000)
    for port in (5000, 5001, 5002):
        for remote in remotes:
            session.plain(softwire_of(0, 2), port, session.start, remote)
    for port, remote in ((5003, remotes[0]), (5003, remotes[1]), (5000, remotes[0]), (5002, remotes[-1])):
        session.plain(softwire_of(0, 3), port, session.start + 1, remote)
        session.plain(softwire_of(0, 2), port, session.start + 1, remote)
    for remote in rng.sample(remotes, 30):
        session.plain(softwire_of(0, 2), 5000, session.start + 1, remote)
    for gap in (299_999, 300_000, 300_001):
        for port in (5000, 5001, 5002, 5003):
            session.plain(softwire_of(0, 2), port, session.start + gap, rng.choice(remotes))
    return session


NUMBERS = (
    "0 1024 1535 65535 65536 00065535 00000000000000000000000000001024 1000000 4294967295999 4294967296000 "
    "04294967295999 66560 4294968320 18446744073709551615 18446744073709551616 18446744073709552640 "
    "340282366920938463463374607431768212480 +1 -1 1.0 1e3 0x10 1_0 \u0661 \u00b2 1, a"
).split() + ["", " 1", "1 ", "1\n", "\t1"]
QUADS = (
    "192.0.2.8 192.0.2.9 0.0.0.0 255.255.255.255 192.0.2.08 192.0.2.256 192.0.2 192.0.2.8.1 192.0.2.8. .192.0.2.8 "
    "192..2.8 192.0.2.+8 192.0.2.-8 00.0.2.8 192.0.2.8a 192.0.2.0x8 1921.0.2.8 192.0.2.264 192.0.2.4294967304 "
    "3221225992 192,0,2,8 192.000.2.8 192.0.2.\u0668 ::ffff:192.0.2.8 localhost"
).split() + ["", " 192.0.2.8", "192.0.2.8 ", "192.0.2.8\n", "-192.0.2.8"]
COMMANDS = "run trace leases init serve check drill Run LEASES -h --help".split() + ["", " run", "leases ", "run\n"]
PATHS = "config log in out log2 - -log --log log\udcff l\u00f6g a-b ./log".split() + ["no such", ""]


def random_words(rng: random.Random) -> List[str]:
    """A command with a word or two changed, left out or added."""
    trace = ["trace", "log", rng.choice(QUADS[:4]), rng.choice(NUMBERS[:4]), rng.choice(NUMBERS[:10])]
    words = list(rng.choice((trace, trace, ["leases", "log"], ["init", "log"], RUN, RUN)))
    choices = [COMMANDS, PATHS, QUADS, NUMBERS, NUMBERS] if words[0] == "trace" else [COMMANDS] + [PATHS] * 4
    for _ in range(rng.choice((0, 1, 1, 1, 2))):
        at = rng.randrange(len(words))
        words[at] = rng.choice(choices[at])
    change = rng.random()
    if change < 0.08:
        del words[rng.randrange(len(words)) :]
    elif change < 0.16:
        words.insert(rng.randrange(len(words) + 1), rng.choice(PATHS + NUMBERS))
    return words if words[:1] != ["run"] or len(words) != 5 or is_plain(words[1:]) else random_words(rng)


def is_plain(paths: Sequence[str]) -> bool:
    """Whether it is plain which of these paths name one file: a log isn't read as another file too, and an outlet that
    is another file is so from the beginning on."""
    config, log, outlet, source = [os.path.normpath(path) for path in paths]
    is_there = {config, log, outlet, source} <= {"config", "log", "in", "out"}
    return log not in (config, source) and (is_there or outlet not in (config, log, source))
