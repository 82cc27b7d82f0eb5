"""What the plain model reads of packets, why it refuses them, and what it changes in them.

Checksums are computed anew from all the bytes that they cover. Pieces that come stand in model_pieces.py, and those that
packets are cut into in model_cutting.py.
"""

from __future__ import annotations

import struct
from typing import List, Optional, Tuple

from log_form import Place

AFTR = 0x2001_0DB8_0000_0000_0000_0000_0000_0001
AGGREGATE = 0x2001_0DB8_0100_0000_0000_0000_0000_0000
AGGREGATE_LENGTH = 40
POOL = range(0xC000_0208, 0xC000_020C)  # 192.0.2.8/30
MTU = 1500  # of both sides, by default

HOP_BY_HOP, ICMP, IPV4_IN_IPV6, TCP, UDP, FRAGMENT, DESTINATION_OPTIONS = 0, 1, 4, 6, 17, 44, 60
IPV6_HEADER, IPV4_HEADER, ICMP_HEADER, TCP_HEADER, UDP_HEADER, FRAGMENT_HEADER = 40, 20, 8, 20, 8, 8
ECHO_REPLY, UNREACHABLE, ECHO_REQUEST, TIME_EXCEEDED, PARAMETER_PROBLEM = 0, 3, 8, 11, 12
ERRORS = (UNREACHABLE, TIME_EXCEEDED, PARAMETER_PROBLEM)
QUOTED_ERRORS = (*ERRORS, 4, 5)  # and Source Quench and Redirect: no error is made about them (RFC 1122 3.2.2)
QUOTED = IPV4_HEADER + ICMP_HEADER  # where the packet begins that an error quotes
TUNNEL = 0xC000_0001  # 192.0.0.1, by which the AFTR reports problems (RFC 6333 6.5)
FIN, SYN, RST, ACK = 1, 2, 4, 16
MORE_FRAGMENTS, FRAGMENT_OFFSET, DONT_FRAGMENT = 0x2000, 0x1FFF, 0x4000


class Drop(Exception):
    """A packet is dropped; the argument names the cause."""


def word(data: bytes, at: int) -> int:
    return int.from_bytes(data[at : at + 2], "big")


def number(data: bytes, at: int, size: int) -> int:
    return int.from_bytes(data[at : at + size], "big")


def sum_of(data: bytes) -> int:
    """The sum of the 16-bit words of an even number of bytes."""
    return sum(struct.unpack(f">{len(data) // 2}H", data))


def checksum(data: bytes) -> int:
    """The Internet checksum of an even number of bytes, computed from all of them (RFC 1071)."""
    total = sum_of(data)
    while total > 0xFFFF:
        total = (total & 0xFFFF) + (total >> 16)
    return 0xFFFF - total


def require(holds: bool, cause: str) -> None:
    """Drops the packet for this cause unless the rule holds. The first rule that doesn't hold decides."""
    if not holds:
        raise Drop(cause)


def is_routed(address: int) -> bool:
    octet = address >> 24
    return 1 <= octet <= 223 and octet != 127


def is_piece(packet: bytes) -> bool:
    return word(packet, 6) & (MORE_FRAGMENTS | FRAGMENT_OFFSET) != 0


def ipv6_payload(data: bytes) -> bytes:
    """The payload of the IPv6 packet at the front (RFC 8200 3). What stands behind it doesn't count."""
    require(len(data) >= IPV6_HEADER and data[0] >> 4 == 6, "BadPacket")
    end = IPV6_HEADER + word(data, 4)
    require(end <= len(data), "BadPacket")
    return data[IPV6_HEADER:end]


def behind_options(header: int, payload: bytes) -> Tuple[int, bytes]:
    """The first header that isn't Hop-by-Hop or Destination Options, and the bytes from it on (RFC 8200 4.3, 4.6)."""
    while header in (HOP_BY_HOP, DESTINATION_OPTIONS):
        require(len(payload) >= 2 and len(payload) >= 8 + 8 * payload[1], "BadPacket")
        header, payload = payload[0], payload[8 + 8 * payload[1] :]
    return header, payload


def ipv4_packet(data: bytes) -> bytes:
    """The IPv4 packet at the front (RFC 791 3.1), without options. What stands behind it doesn't count."""
    require(len(data) >= IPV4_HEADER and data[0] >> 4 == 4, "BadPacket")
    header, total = 4 * (data[0] & 0xF), word(data, 2)
    require(IPV4_HEADER <= header <= len(data), "BadPacket")
    require(header <= total <= len(data), "BadPacket")
    require(checksum(data[:header]) == 0, "BadPacket")
    require(header == IPV4_HEADER, "Options")
    return data[:total]


def is_error(packet: bytes) -> bool:
    """Whether a packet brings an ICMP error: Destination Unreachable, Time Exceeded or Parameter Problem (RFC 792)."""
    return packet[9] == ICMP and packet[20] in ERRORS


def is_quoted_enough(quoted: bytes) -> bool:
    """Whether the start of a packet tells whose it is: of TCP, UDP or an echo message, without options and with its first
    8 bytes. Neither its length nor its header's checksum counts."""
    if len(quoted) < IPV4_HEADER + 8 or quoted[0] != 0x45 or word(quoted, 6) & FRAGMENT_OFFSET != 0:
        return False
    return quoted[9] in (TCP, UDP) or quoted[9] == ICMP and quoted[20] in (ECHO_REPLY, ECHO_REQUEST)


def require_message(packet: bytes) -> None:
    """An ICMP message that bears its checksum (RFC 792): echo, or an error that tells whose packet it is about."""
    require(len(packet) >= QUOTED and checksum(covered(packet)) == 0, "BadPacket")
    require(packet[20] in (ECHO_REPLY, ECHO_REQUEST, *ERRORS), "NoProtocol")
    require(not is_error(packet) or is_quoted_enough(packet[QUOTED:]), "BadPacket")


def require_transport(packet: bytes) -> None:
    """The transport of an IPv4 packet with a hop to spare: an ICMP message, a UDP datagram (RFC 768) or a TCP segment
    (RFC 9293 3.1)."""
    require(packet[9] in (ICMP, TCP, UDP), "NoProtocol")
    require(packet[8] >= 2, "TtlSpent")
    room = len(packet) - IPV4_HEADER
    if packet[9] == ICMP:
        require_message(packet)
    elif packet[9] == TCP:
        require(room >= TCP_HEADER and TCP_HEADER <= 4 * (packet[32] >> 4) <= room, "BadPacket")
    else:
        require(room >= UDP_HEADER and UDP_HEADER <= word(packet, 24) <= room, "BadPacket")


def from_softwire(data: bytes) -> Tuple[int, int, bytes]:
    """The softwire of a subscriber's packet (RFC 6333), the header behind its options, IPv4's or a fragment's, and the bytes
    from there on; or the first drop that applies."""
    payload = ipv6_payload(data)
    require(number(data, 24, 16) == AFTR, "NotUs")
    header, payload = behind_options(data[6], payload)
    require(header != FRAGMENT or len(payload) >= FRAGMENT_HEADER, "BadPacket")
    require(header in (IPV4_IN_IPV6, FRAGMENT), "NotTunnel")
    softwire = number(data, 8, 16)
    require(softwire >> (128 - AGGREGATE_LENGTH) == AGGREGATE >> (128 - AGGREGATE_LENGTH), "UnknownSubscriber")
    return softwire, header, payload


def require_way_out(packet: bytes, mtu: int) -> None:
    """What a subscriber's packet has to be, all of it, before a mapping is looked for."""
    source, destination = number(packet, 12, 4), number(packet, 16, 4)
    is_tunnel = 0xC000_0000 <= destination <= 0xC000_0007  # 192.0.0.0/29 (RFC 6333 5.7)
    require(is_routed(source) and is_routed(destination) and not is_tunnel, "NoRoute")
    require_transport(packet)
    may_be_cut = word(packet, 6) & DONT_FRAGMENT == 0
    require(destination in POOL or len(packet) <= mtu or may_be_cut, "TooBig")


def from_public(data: bytes) -> bytes:
    """The packet of the public side to the pool, or a piece of one, or the first drop that applies."""
    packet = ipv4_packet(data)
    require(number(packet, 16, 4) in POOL, "NotUs")
    return packet


def require_way_in(packet: bytes) -> None:
    """What a packet from outside has to be, all of it, before a mapping is looked for."""
    source = number(packet, 12, 4)
    require(is_routed(source) and source not in POOL, "NoRoute")
    require_transport(packet)


def covered(packet: bytes) -> bytes:
    """What the checksum of a packet's transport covers, with a zero behind an odd end (RFC 768, RFC 9293 3.1, RFC 792)."""
    if packet[9] == ICMP:
        return packet[IPV4_HEADER:] + bytes(len(packet) % 2)
    length = word(packet, 24) if packet[9] == UDP else len(packet) - IPV4_HEADER
    transport = packet[IPV4_HEADER : IPV4_HEADER + length]
    return packet[12:20] + struct.pack(">BBH", 0, packet[9], length) + transport + bytes(length % 2)


def sum_place(packet: bytes) -> int:
    """Where the checksum of a packet's transport stands."""
    return IPV4_HEADER + {ICMP: 2, TCP: 16, UDP: 6}[packet[9]]


def port_place(packet: bytes, is_source: bool) -> int:
    """Where a port stands; an echo message has its identifier for a port on both sides (RFC 5508 3.1)."""
    return IPV4_HEADER + (4 if packet[9] == ICMP else 0 if is_source else 2)


def flow_of(packet: bytes) -> bytes:
    """The packet by which a mapping is found: that which an error quotes, whose ends are the other way round."""
    return packet[QUOTED:] if is_error(packet) else packet


def place_of(packet: bytes, is_source: bool) -> Place:
    """The place on this side of a packet, by which its mapping is found (RFC 5508 4)."""
    flow, is_first = flow_of(packet), is_source != is_error(packet)
    return Place(number(flow, 12 if is_first else 16, 4), word(flow, port_place(flow, is_first)))


def adjusted(old: int, taken: List[int], added: List[int]) -> int:
    """A checksum after these words became those, as right or as wrong as it was (RFC 1624 3). Of its two zeros it gets 0,
    but for the sum and words of all ones that become zeros."""
    if old == 0xFFFF and set(taken) == {0xFFFF} and not any(added):
        return 0xFFFF
    return (old + sum(taken) - sum(added)) % 0xFFFF


def words_of_place(packet: bytes, is_source: bool) -> List[int]:
    """The words of a place that the transport's checksum covers: of an echo message its identifier alone."""
    at = 12 if is_source else 16
    address = [] if packet[9] == ICMP else [word(packet, at), word(packet, at + 2)]
    return [*address, word(packet, port_place(packet, is_source))]


def with_address(packet: bytes, is_source: bool, address: int) -> bytearray:
    out = bytearray(packet)
    at = 12 if is_source else 16
    out[at : at + 4] = address.to_bytes(4, "big")
    return out


def changed_sum(packet: bytes, out: bytearray, is_source: bool) -> int:
    """A transport's checksum by what its place took away and added."""
    taken, added = (words_of_place(bytes(data), is_source) for data in (packet, out))
    return adjusted(word(packet, sum_place(packet)), taken, added)


def set_transport_sum(packet: bytes, out: bytearray, found: int) -> None:
    """Of UDP none stays none, and a sum of 0 is sent as its other form (RFC 768)."""
    at = sum_place(packet)
    if packet[9] == UDP:
        found = 0 if word(packet, at) == 0 else found or 0xFFFF
    out[at : at + 2] = found.to_bytes(2, "big")


def readdressed(quoted: bytes, is_source: bool, place: Place) -> bytes:
    """The quoted start of a packet with this place. Whether its sums are right can't be told, so they change by what is taken
    away and added; that of TCP may be missing."""
    out, at = with_address(quoted, is_source, place.address), port_place(quoted, is_source)
    out[at : at + 2] = place.port.to_bytes(2, "big")
    taken, added = ([word(data, place_at) for place_at in (12, 14, 16, 18)] for data in (quoted, bytes(out)))
    out[10:12] = adjusted(word(quoted, 10), taken, added).to_bytes(2, "big")
    if len(quoted) >= sum_place(quoted) + 2:
        set_transport_sum(quoted, out, changed_sum(quoted, out, is_source))
    return bytes(out)


def moved(packet: bytes, is_source: bool, place: Place, hops: int = 1) -> bytes:
    """The packet with this place on one side and one hop less, or so many.

    Checksums are computed anew, but one of a transport that was wrong is as wrong afterwards. An error has the address in
    its own header, and the place on the other side of the packet that it quotes (RFC 5508 4).
    """
    out = with_address(packet, is_source, place.address)
    out[8] -= hops
    out[10:12] = bytes(2)
    out[10:12] = checksum(bytes(out[:IPV4_HEADER])).to_bytes(2, "big")
    if is_error(packet):
        out[QUOTED:] = readdressed(packet[QUOTED:], not is_source, place)
        out[22:24] = bytes(2)
        out[22:24] = (checksum(covered(bytes(out))) % 0xFFFF).to_bytes(2, "big")
        return bytes(out)
    port_at, sum_at = port_place(packet, is_source), sum_place(packet)
    out[port_at : port_at + 2] = place.port.to_bytes(2, "big")
    found = changed_sum(packet, out, is_source)
    if checksum(covered(packet)) == 0:
        out[sum_at : sum_at + 2] = bytes(2)
        found = checksum(covered(bytes(out))) % 0xFFFF or found
    set_transport_sum(packet, out, found)
    return bytes(out)


def made_error(kind: int, code: int, last_word: int, packet: bytes) -> Optional[bytes]:
    """The error that tells a packet's sender why it was dropped, with its header and the 8 bytes behind it (RFC 792). None is
    made about an error (RFC 1122 3.2.2)."""
    if packet[9] == ICMP and packet[20:21] and packet[20] in QUOTED_ERRORS:
        return None
    quoted = packet[: IPV4_HEADER + 8]
    message = bytearray(struct.pack(">BBHI", kind, code, 0, last_word) + quoted)
    message[2:4] = checksum(bytes(message) + bytes(len(message) % 2)).to_bytes(2, "big")
    front = struct.pack(">BBHHHBBH", 0x45, 0, IPV4_HEADER + len(message), 0, DONT_FRAGMENT, 64, ICMP, 0)
    header = bytearray(front + TUNNEL.to_bytes(4, "big") + packet[12:16])
    header[10:12] = checksum(bytes(header)).to_bytes(2, "big")
    return bytes(header + message)


def behind_ipv6(payload: bytes, header: int, tos: int, softwire: int) -> bytes:
    """A payload that begins with this header, behind an IPv6 header to a subscriber (RFC 2473)."""
    head = struct.pack(">IHBB", 6 << 28 | tos << 20, len(payload), header, 64)
    return head + AFTR.to_bytes(16, "big") + softwire.to_bytes(16, "big") + payload
