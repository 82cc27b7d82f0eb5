"""Packets that are refused, each with the one cause that its drop is counted under, and packets that just pass.

A packet is refused by the first rule that it breaks. FROM_SUBSCRIBERS and FROM_OUTSIDE list faults in the order of the
rules, each with its cause; a packet with two of them is dropped for the earlier one. Each packet comes into an input
beside a subscriber's packet and its reply, both of which get through.
"""

from __future__ import annotations

from typing import Any, Dict, Iterator, List, NamedTuple, Optional, Sequence

from packets import ACK, AFTR, DONT_FRAGMENT, FIN, FRAGMENT_OFFSET, FROM_PUBLIC, FROM_SOFTWIRE, ICMP, MORE_FRAGMENTS
from packets import ECHO_REPLY, RESERVED, RST, SYN, TIME_EXCEEDED, TUNNEL, UNREACHABLE, Echo, Error, Softwire, Tcp, Udp
from packets import frame, quad, softwire_of

MOMENT = 1_000_000
FIRST_PACKET = frame(FROM_SOFTWIRE, MOMENT, Softwire().spelled())
REPLY = Udp(quad("203.0.113.5"), 53, quad("192.0.2.8"), 1024)
FIRST_ECHO = frame(FROM_SOFTWIRE, MOMENT, Softwire(Echo().spelled()).spelled())
ANSWER = Echo(quad("203.0.113.5"), quad("192.0.2.8"), 1024, kind=ECHO_REPLY)
MTU = 1500
POOL = quad("192.0.2.8")
Changes = Dict[str, Any]


class Fault(NamedTuple):
    """What breaks a rule: the fields that differ, of the packet inside and of the one around it."""

    name: str
    cause: str
    udp: Changes = {}
    around: Changes = {}
    is_early: bool = False  # it comes at moment 0, before all else


class Refusal(NamedTuple):
    """An input, the cause of the one drop among its records, if there is one, and the error that its sender gets."""

    name: str
    records: Sequence[bytes]
    cause: Optional[str]
    error: Optional[bytes] = None
    is_by_address: bool = False  # by the filter; the program takes the other one, so it is the model's alone
    moved: Optional[bytes] = None  # a record that has to be among those that are sent

    def report(self) -> str:
        drops = [] if self.cause is None else [f"drop {self.cause} 1"]
        sent = len(self.records) - len(drops) + (self.error is not None)
        return "".join(f"{line}\n" for line in [f"records {len(self.records)}", f"sent {sent}", "marks 0", *drops])

    def shown(self) -> List[bytes]:
        """The records that have to be among those that are sent."""
        return [body for body in (self.error, self.moved) if body is not None]


# Type, code and last word of the error that a subscriber gets for its packet, by the cause of the drop.
NO_ROOM = dict.fromkeys("QuotaMappings QuotaPeers QuotaBlocks AddressFull PoolEmpty".split(), (UNREACHABLE, 1, 0))
TOLD = {"TtlSpent": (TIME_EXCEEDED, 0, 0), "TooBig": (UNREACHABLE, 4, 1500), **NO_ROOM}


def error_about(cause: Optional[str], inner: bytes, softwire: int) -> Optional[bytes]:
    """The error that a subscriber's packet gets, which is none about an error: from 192.0.0.1, with the header and 8 bytes."""
    packet = inner[: int.from_bytes(inner[2:4], "big")]
    is_about_error = packet[9:10] == bytes([ICMP]) and packet[20:21] in (b"\3", b"\4", b"\5", b"\x0b", b"\x0c")
    if cause not in TOLD or is_about_error:
        return None
    kind, code, last_word = TOLD[cause]
    source = int.from_bytes(packet[12:16], "big")
    error = Error(TUNNEL, source, packet[:28], kind, code, last_word, ident=0, fragment=DONT_FRAGMENT)
    return frame(FROM_SOFTWIRE, MOMENT, Softwire(error.spelled(), AFTR, softwire).spelled())


def long_payload(total: int) -> bytes:
    """The payload of a datagram whose packet has so many bytes in all."""
    return bytes(total - 28)


TOO_LONG: Changes = {"fragment": DONT_FRAGMENT, "payload": long_payload(MTU + 1)}
CUT: Changes = {"payload": long_payload(MTU + 1)}  # by either link


def behind(next_header: int, chain: str) -> Changes:
    """IPv4 behind further headers, in hexadecimal digits."""
    return {"next_header": next_header, "chain": bytes.fromhex(chain)}


BAD_PACKETS = [
    Fault("an IPv4 header that is cut", "BadPacket", {"kept": 19}),
    Fault("another version than 4", "BadPacket", {"version": 6}),
    Fault("an IPv4 header of four words", "BadPacket", {"words": 4}),
    Fault("an IPv4 header past the packet", "BadPacket", {"words": 15}),
    Fault("a total length below the header's", "BadPacket", {"total": 19}),
    Fault("a total length past the packet", "BadPacket", {"total": 0xFFFF}),
    Fault("a wrong sum of the IPv4 header", "BadPacket", {"sum_wrong_by": 1}),
]
OPTIONS = [Fault("IPv4 options", "Options", {"options": bytes((1, 1, 1, 0))})]
PIECES = [
    Fault("a piece of 12 bytes", "BadPacket", {"fragment": MORE_FRAGMENTS | 1}),
    Fault("a piece past the longest datagram", "PieceTooLong", {"fragment": FRAGMENT_OFFSET}),
]
UNROUTED = [
    Fault(f"a source of {text}", "NoRoute", {"source": quad(text)}) for text in ("0.0.0.1", "127.9.9.9", "224.0.0.1")
]
TRANSPORTS = [
    Fault("IGMP", "NoProtocol", {"proto": 2}),
    Fault("GRE", "NoProtocol", {"proto": 47}),
    Fault("no hop", "TtlSpent", {"ttl": 0}),
    Fault("one hop", "TtlSpent", {"ttl": 1}),
    Fault("no ICMP message", "BadPacket", {"proto": ICMP}),
    Fault("no TCP segment", "BadPacket", {"proto": 6}),
    Fault("a datagram that is cut in its header", "BadPacket", {"total": 27}),
    Fault("a datagram's length below its header's", "BadPacket", {"udp_length": 7}),
    Fault("a datagram's length past its packet", "BadPacket", {"udp_length": 0xFFFF}),
]

FROM_SUBSCRIBERS = [
    Fault("no moment yet", "Settling", is_early=True),
    Fault("an IPv6 header that is cut", "BadPacket", around={"kept": 39}),
    Fault("another version than 6", "BadPacket", around={"version": 5}),
    Fault("a payload past the packet", "BadPacket", around={"payload": 0xFFFF}),
    Fault("another destination", "NotUs", around={"destination": AFTR + 1}),
    Fault("options past the payload", "BadPacket", around=behind(60, "04ff000000000000")),
    Fault("options of one byte", "BadPacket", around={"next_header": 0, "payload": 1}),
    Fault("a Fragment header that is cut", "BadPacket", around={"next_header": 44, "payload": 7}),
    Fault("no next header", "NotTunnel", around={"next_header": 59}),
    Fault("IPv6 in IPv6", "NotTunnel", around={"next_header": 41}),
    Fault("a Routing header behind options", "NotTunnel", around=behind(0, "2b00010400000000")),
    Fault("a source past the aggregate", "UnknownSubscriber", around={"source": softwire_of(65536)}),
    Fault("a source before the aggregate", "UnknownSubscriber", around={"source": softwire_of(0, -1)}),
    Fault("an IPv6 fragment of no bytes", "BadPacket", around={**behind(44, "0400000000000007"), "payload": 8}),
    Fault("an IPv6 fragment of odd length", "BadPacket", around=behind(44, "04000001000000070a")),
    Fault("an IPv6 fragment past the longest packet", "PieceTooLong", around=behind(44, "0400fff800000007")),
    Fault("no next header in a fragment", "NotTunnel", around=behind(60, "2c00040104010100 3b00000000000007")),
    Fault("a fragment in a fragment", "NotTunnel", around=behind(44, "2c00000000000007 0400000000000007")),
    Fault("options past a fragment", "BadPacket", around=behind(44, "3c00000000000007 04ff000000000000")),
    *BAD_PACKETS,
    *OPTIONS,
    *PIECES,
    *UNROUTED,
    *[
        Fault(f"a destination of {text}", "NoRoute", {"destination": quad(text)})
        for text in "0.255.255.255 127.0.0.1 224.0.0.1 255.255.255.255 192.0.0.0 192.0.0.7".split()
    ],
    *TRANSPORTS,
    Fault("a place in the pool without a mapping", "NoMapping", {"destination": POOL}),  # where nothing is too big
    Fault("a packet that may not be cut", "TooBig", TOO_LONG),
]

FROM_OUTSIDE = [
    Fault("no moment yet", "Settling", is_early=True),
    *BAD_PACKETS,
    *OPTIONS,
    Fault("a destination before the pool", "NotUs", {"destination": quad("192.0.2.7")}),
    Fault("a destination past the pool", "NotUs", {"destination": quad("192.0.2.12")}),
    *PIECES,
    *UNROUTED,
    Fault("a source in the pool", "NoRoute", {"source": quad("192.0.2.11")}),
    *TRANSPORTS,
    Fault("a port without a mapping", "NoMapping", {"port": 1025}),
]


def input_of(body: bytes, kind: int, is_early: bool) -> List[bytes]:
    """The records of an input with this packet in it."""
    reply = frame(FROM_PUBLIC, MOMENT, REPLY.spelled())
    if is_early:
        return [frame(kind, 0, body), FIRST_PACKET, reply]
    return [FIRST_PACKET, frame(kind, MOMENT, body), reply]


def from_subscriber(name: str, cause: Optional[str], udp: Changes, around: Changes, is_early: bool = False) -> Refusal:
    fields: Changes = {"inner": Udp(**udp).spelled(), **around}
    packet = Softwire(**fields)
    error = error_about(cause, packet.inner, packet.source)
    return Refusal(f"out: {name}", input_of(packet.spelled(), FROM_SOFTWIRE, is_early), cause, error)


def from_outside(name: str, cause: Optional[str], udp: Changes, is_early: bool = False) -> Refusal:
    return Refusal(f"in: {name}", input_of(REPLY._replace(**udp).spelled(), FROM_PUBLIC, is_early), cause)


def both(first: Fault, second: Fault) -> Optional[Fault]:
    """The two faults in one packet, unless they are faults of one field."""
    if first.udp.keys() & second.udp.keys() or first.around.keys() & second.around.keys():
        return None
    fault = Fault(f"{first.name}, {second.name}", first.cause)
    udp, around = {**first.udp, **second.udp}, {**first.around, **second.around}
    return fault._replace(udp=udp, around=around, is_early=first.is_early)


def with_pairs(faults: Sequence[Fault], cut: Changes) -> Iterator[Fault]:
    """Each fault alone, each two of them in the order of their rules, and each in a packet that would be cut."""
    in_cut = Fault("would be cut", "", cut)
    for at, first in enumerate(faults):
        yield first
        pairs = (both(first, second) for second in [*faults[at + 1 :], in_cut])
        yield from (pair for pair in pairs if pair is not None)


def segments() -> Iterator[Refusal]:
    """TCP: what passes, what is no segment, and what finds no mapping, as the port's mapping is UDP's."""
    passing: Dict[str, Changes] = {
        "a SYN": {},
        "a segment with options": {"tcp_options": bytes(40), "flags": SYN | ACK},
        "an RST that begins": {"flags": RST},
        "a FIN that begins": {"flags": FIN | ACK},
        "a wrong sum": {"tcp_sum": 0x1234},
        "as long as may be": {"fragment": DONT_FRAGMENT, "payload": bytes(MTU - 40)},
    }
    bad: Dict[str, Changes] = {
        "a segment that is cut in its header": {"total": 39},
        "a header of four words": {"tcp_words": 4},
        "a header past the segment": {"tcp_words": 7},
    }
    back: Changes = {"source": REPLY.source, "destination": REPLY.destination, "port": REPLY.port}
    for name, changes in passing.items():
        yield from_subscriber(f"TCP, {name}", None, {}, {"inner": Tcp(**changes).spelled()})
    for name, changes in bad.items():
        yield from_subscriber(f"TCP, {name}", "BadPacket", {}, {"inner": Tcp(**changes).spelled()})
        body = Tcp(**{**changes, **back}).spelled()
        yield Refusal(f"in: TCP, {name}", input_of(body, FROM_PUBLIC, False), "BadPacket")
    to_udp = Tcp(**back, flags=SYN | ACK).spelled()
    yield Refusal("in: TCP, to the port of a UDP mapping", input_of(to_udp, FROM_PUBLIC, False), "NoMapping")


# ICMP: what breaks a rule of an echo message, in the order of the rules (RFC 792, RFC 5508 3).
MESSAGES = [
    Fault("a piece past the longest datagram", "PieceTooLong", {"fragment": FRAGMENT_OFFSET}),
    Fault("a source that isn't routed", "NoRoute", {"source": quad("127.9.9.9")}),
    Fault("another protocol", "NoProtocol", {"proto": 47}),
    Fault("one hop", "TtlSpent", {"ttl": 1}),
    Fault("a message of 7 bytes", "BadPacket", {"total": 27}),
    Fault("a message without its last byte", "BadPacket", {"total": 31, "payload": b"ping"}),
    Fault("a wrong sum", "BadPacket", {"message_sum": 0x1234}),
    Fault("no sum", "BadPacket", {"message_sum": 0}),
    *[Fault(f"a message of type {kind}", "NoProtocol", {"kind": kind}) for kind in (4, 5, 13, 15, 7, 9, 1, 255)],
    *[Fault(f"an error of type {kind} about nothing", "BadPacket", {"kind": kind}) for kind in (3, 11, 12)],
]
ECHO_TOO_LONG: Changes = {"fragment": DONT_FRAGMENT, "payload": bytes(MTU - 28 + 1)}
ECHOES_FROM_SUBSCRIBERS = [
    *MESSAGES,
    Fault("an address without a mapping", "NoMapping", {"destination": POOL + 1}),  # where nothing is too big
    Fault("a message that may not be cut", "TooBig", ECHO_TOO_LONG),
    Fault("a reply to nobody", "NoMapping", {"kind": ECHO_REPLY, "identifier": 8}),
]
ECHOES_FROM_OUTSIDE = [
    *MESSAGES,
    Fault("an identifier without a mapping", "NoMapping", {"identifier": 1025}),
    Fault("an address without a mapping", "NoMapping", {"destination": POOL + 1}),
]
# What passes, either way.
ECHOES: Dict[str, Changes] = {
    "a request": {"kind": 8},
    "a reply": {"kind": ECHO_REPLY},
    "a request of another code": {"kind": 8, "code": 3},
    "a reply of another code": {"kind": ECHO_REPLY, "code": 255},
    "no data": {"payload": b""},
    "an odd number of bytes": {"payload": b"odd"},
    "two hops": {"ttl": 2},
}


def around_echoes(body: bytes, kind: int) -> List[bytes]:
    """The records of an input with this packet between an echo request and its reply."""
    return [FIRST_ECHO, frame(kind, MOMENT, body), frame(FROM_PUBLIC, MOMENT, ANSWER.spelled())]


def echo_out(name: str, cause: Optional[str], echo: Changes, around: Changes = {}) -> Refusal:
    packet = Softwire(Echo(**echo).spelled(), **around)
    error = error_about(cause, packet.inner, packet.source)
    return Refusal(f"out: echo, {name}", around_echoes(packet.spelled(), FROM_SOFTWIRE), cause, error)


def echo_in(name: str, cause: Optional[str], echo: Changes) -> Refusal:
    return Refusal(f"in: echo, {name}", around_echoes(ANSWER._replace(**echo).spelled(), FROM_PUBLIC), cause)


def echoes() -> Iterator[Refusal]:
    """Echo messages, beside a mapping of identifier 7 at identifier 1024, or where UDP alone has that port."""
    for fault in with_pairs(ECHOES_FROM_SUBSCRIBERS, CUT):
        yield echo_out(fault.name, fault.cause, fault.udp)
    for fault in with_pairs(ECHOES_FROM_OUTSIDE, CUT):
        yield echo_in(fault.name, fault.cause, fault.udp)
    for name, changes in ECHOES.items():
        yield echo_out(name, None, changes)
        yield echo_out(f"{name}, to its own place", None, {**changes, "destination": POOL})
        yield echo_in(name, None, changes)
    new: Changes = {"identifier": 8, "destination": POOL}
    yield echo_out("to its own new place", None, new)
    yield echo_out("a reply to its own new place", "NoMapping", {**new, "kind": ECHO_REPLY})
    yield echo_out("a reply by another softwire", "NoMapping", {"kind": ECHO_REPLY}, {"source": softwire_of(0, 3)})
    yield echo_out("a request by another softwire", None, {}, {"source": softwire_of(0, 3)})
    yield echo_out("as long as may be", None, {"fragment": DONT_FRAGMENT, "payload": bytes(MTU - 28)})
    yield echo_out("as long as a softwire takes", None, {"destination": POOL, "payload": bytes(MTU - 40 - 28)})
    yield echo_in("as long as a softwire takes", None, {"payload": bytes(MTU - 40 - 28)})
    yield echo_in("from another remote", None, {"source": quad("198.51.100.1")})
    yield Refusal("in: echo, to a port of UDP", input_of(ANSWER.spelled(), FROM_PUBLIC, False), "NoMapping")
    beside_echo = Softwire(Udp(destination=POOL, port=1025).spelled(), source=softwire_of(1)).spelled()
    yield Refusal("out: UDP, to a place of echo", around_echoes(beside_echo, FROM_SOFTWIRE), "NoMapping")
    yield Refusal("in: UDP, to a place of echo", around_echoes(REPLY.spelled(), FROM_PUBLIC), "NoMapping")


# Pairs of neighbours that are faults of one field, and packets that a rule leaves to a later one.
NO_BYTES: Changes = {"fragment": MORE_FRAGMENTS, "total": 20}
MORE_FROM_SUBSCRIBERS = [
    from_subscriber("a piece of no bytes", "BadPacket", {**NO_BYTES, "ttl": 1}, {}),
    from_subscriber("a piece that may not be cut", "BadPacket", {"fragment": DONT_FRAGMENT | MORE_FRAGMENTS}, {}),
    from_subscriber("an odd fragment past the longest packet", "BadPacket", {"kept": 30}, behind(44, "0400fff900000007")),
    from_subscriber("an odd piece past the longest", "BadPacket", {"fragment": MORE_FRAGMENTS | FRAGMENT_OFFSET}, {}),
    from_subscriber("a fragment header cut in a fragment", "NotTunnel", {"kept": 7}, behind(44, "2c00000000000007")),
    from_subscriber("a cut third header", "BadPacket", {"kept": 6}, behind(0, "3c00010400000000 2c00010400000000")),
    from_subscriber("a long packet to the pool", "NoMapping", {**TOO_LONG, "destination": POOL}, {}),
    from_subscriber("a bad datagram to the pool", "BadPacket", {"destination": POOL, "udp_length": 7}, {}),
    from_subscriber("neither a version nor words", "BadPacket", {"version": 0, "words": 0}, {}),
    from_subscriber("no IPv4 header at all", "BadPacket", {"kept": 0}, {}),
]
MORE_FROM_OUTSIDE = [
    from_outside("no byte", "BadPacket", {"kept": 0}),
    from_outside("a piece of no bytes", "BadPacket", {**NO_BYTES, "source": quad("127.9.9.9")}),
    from_outside("a last piece of no bytes", "BadPacket", {"fragment": 1, "total": 20}),
    from_outside("the subscribers' side", "BadPacket", {"version": 6, "words": 0}),
    from_outside("a long packet to no mapping", "NoMapping", {"port": 1023, "payload": long_payload(MTU)}),
    from_outside("a source in the pool, spent", "NoRoute", {"source": quad("192.0.2.8"), "ttl": 0}),
]

# Behind the first packet, whose place is 192.0.2.8 port 1024.
OWN_PLACE: Changes = {"destination": POOL, "port": 1024}
TO_POOL = [
    from_subscriber("to a port without a mapping", "NoMapping", {**OWN_PLACE, "port": 1025}, {}),
    from_subscriber("to another address's port", "NoMapping", {**OWN_PLACE, "destination": POOL + 1}, {}),
    from_subscriber("from a new port to none", "NoMapping", {"source_port": 1, "destination": POOL}, {}),
    from_subscriber("from a new subscriber to none", "NoMapping", {"destination": POOL}, {"source": softwire_of(1)}),
    from_subscriber("by TCP to UDP", "NoMapping", {}, {"inner": Tcp(**OWN_PLACE).spelled(), "source": softwire_of(1)}),
    from_subscriber("a long one to no mapping", "NoMapping", {"destination": POOL, "payload": long_payload(MTU)}, {}),
    from_subscriber("to its own place", None, OWN_PLACE, {}),
    from_subscriber("from a new port", None, {**OWN_PLACE, "source_port": 1}, {}),
    from_subscriber("from a new subscriber", None, OWN_PLACE, {"source": softwire_of(1)}),
    from_subscriber("to its own new place", None, {**OWN_PLACE, "source_port": 1, "port": 1025}, {}),
    from_subscriber("to its own new place by TCP", None, {}, {"inner": Tcp(**OWN_PLACE).spelled()}),
    from_subscriber("to its own place by two hops", None, {**OWN_PLACE, "ttl": 2}, {}),
    from_subscriber("as long as a softwire takes", None, {**OWN_PLACE, "payload": long_payload(MTU - 40)}, {}),
]


def by_address() -> Iterator[Refusal]:
    """The filter by address. A mapping has a peer at its own address where a packet to the pool has made it so."""
    new_place: Changes = {**OWN_PLACE, "source_port": 1, "port": 1025}
    too_long: Changes = {"payload": long_payload(MTU - 40 + 1)}
    other: Changes = {"source": softwire_of(1)}
    found = [
        from_outside("another address", "Filtered", {"source": quad("203.0.113.6")}),
        from_outside("another address, too long", "Filtered", {"source": quad("203.0.113.6"), **too_long}),
        from_outside("another address, to no mapping", "NoMapping", {"source": quad("203.0.113.6"), "port": 1025}),
        from_outside("another port", None, {"source_port": 99}),
        from_subscriber("to its own place", "Filtered", OWN_PLACE, {}),
        from_subscriber("to its own place, too long", "Filtered", {**OWN_PLACE, **too_long}, {}),
        from_subscriber("to a port beside", "NoMapping", {**OWN_PLACE, "port": 1025}, {}),
        from_subscriber("from a new port", "Filtered", {**OWN_PLACE, "source_port": 1}, {}),
        from_subscriber("from a new subscriber", "Filtered", OWN_PLACE, other),
        from_subscriber("to its own new place", None, new_place, {}),
        from_subscriber("to its own new place by TCP", None, {}, {"inner": Tcp(**OWN_PLACE).spelled()}),
    ]
    other_remote: Changes = {"source": quad("203.0.113.6")}
    found += [
        echo_in("another address", "Filtered", other_remote),
        echo_in("another address, a request", "Filtered", {**other_remote, "kind": 8}),
        echo_in("another address, too long", "Filtered", {**other_remote, "payload": bytes(MTU - 40 - 28 + 1)}),
        echo_in("another address, to no mapping", "NoMapping", {**other_remote, "identifier": 1025}),
        echo_in("another address, another message", "NoProtocol", {**other_remote, "kind": 13}),
        echo_out("to its own place", "Filtered", {"destination": POOL}),
        echo_out("to its own new place", None, {"destination": POOL, "identifier": 8}),
    ]
    yield from (refusal._replace(name=f"by address, {refusal.name}", is_by_address=True) for refusal in found)


# Packets at the edge of a rule, which pass.
ROUTED = (
    "1.0.0.0 126.255.255.255 128.0.0.0 223.255.255.255 191.255.255.255 192.0.0.8 192.0.2.7 192.0.2.12"
).split()
PASSING = [
    from_subscriber("options", None, {}, behind(60, "0400040104010100")),
    from_subscriber("an IPv6 fragment that is whole", None, {}, behind(44, "0400000000000007")),
    from_subscriber("options around one", None, {}, behind(60, "2c00010400000000 3c00000000000007 0400010400000000")),
    from_subscriber("one with all reserved bits", None, {}, behind(44, "04ff000600000007")),
    from_subscriber("long options", None, {}, behind(0, "3c00010400000000 0401010c" + 12 * "00")),
    from_subscriber("bytes behind the packets", None, {}, {"behind": bytes(9)}),
    from_subscriber("bytes behind the IPv4 packet", None, {}, {"inner": Udp().spelled() + bytes(5)}),
    from_subscriber("the last subscriber", None, {}, {"source": softwire_of(65536, -1)}),
    from_subscriber("a reserved bit, and no cutting", None, {"fragment": RESERVED | DONT_FRAGMENT}, {}),
    from_subscriber("two hops", None, {"ttl": 2}, {}),
    from_subscriber("a datagram shorter than its packet", None, {"udp_length": 8}, {}),
    from_subscriber("a wrong sum of the datagram", None, {"udp_sum": 0x1234}, {}),
    from_subscriber("as long as may be", None, {"fragment": DONT_FRAGMENT, "payload": long_payload(MTU)}, {}),
    from_subscriber("the tunnel's own source", None, {"source": quad("192.0.0.7")}, {}),
    *[from_subscriber(f"a destination of {text}", None, {"destination": quad(text)}, {}) for text in ROUTED],
    from_outside("as long as may be", None, {"payload": long_payload(MTU - 40)}),
    from_outside("another remote", None, {"source": quad("198.51.100.1"), "source_port": 99}),
    from_outside("bytes of type of service", None, {"tos": 0xB8, "fragment": RESERVED | DONT_FRAGMENT}),
]


def granted(subscribers: int, ports: int = 1) -> List[bytes]:
    """The packets of so many subscribers, each from so many ports."""
    return [
        frame(FROM_SOFTWIRE, MOMENT, Softwire(Udp(source_port=port).spelled(), source=softwire_of(number)).spelled())
        for number in range(subscribers)
        for port in range(ports)
    ]


def sent_to(remotes: int) -> List[bytes]:
    """The packets of one subscriber from one port to so many remotes."""
    return [
        frame(FROM_SOFTWIRE, MOMENT, Softwire(Udp(destination=quad("203.0.0.0") + number).spelled()).spelled())
        for number in range(remotes)
    ]


def refused_grants() -> Iterator[Refusal]:
    """What finds no place. A block has 512 ports, an address 126 blocks, the pool 504, and a subscriber 4,096 mappings and
    16,384 peers at the most. Its mappings all fit into the eight blocks that it may have."""

    def last(name: str, before: List[bytes], cause: str, udp: Changes, subscriber: int = 0) -> Refusal:
        packet = Softwire(Udp(**udp).spelled(), source=softwire_of(subscriber))
        error = error_about(cause, packet.inner, packet.source)
        return Refusal(f"out: {name}", [*before, frame(FROM_SOFTWIRE, MOMENT, packet.spelled())], cause, error)

    full_block, full_pool, all_peers = granted(1, 512), granted(504), sent_to(16_384)
    all_mappings, full_address = granted(1, 4096), granted(126) + full_block[1:]
    other_port: Changes = {"source_port": 512}
    last_port: Changes = {"source_port": 4096}
    to_pool: Changes = {"destination": POOL, "port": 1024}
    yield last("all mappings", all_mappings, "QuotaMappings", last_port)
    yield last("all mappings, to the pool", all_mappings, "QuotaMappings", {**last_port, **to_pool})
    yield last("a full address", full_address, "AddressFull", other_port)
    yield last("a full address, to the pool", full_address, "AddressFull", {**other_port, **to_pool})
    yield last("a full pool", full_pool, "PoolEmpty", {}, 504)
    yield last("a full pool, to the pool", full_pool, "PoolEmpty", to_pool, 504)
    yield last("a full block and a full pool", full_pool + full_block[1:], "AddressFull", other_port)
    yield last("all peers", all_peers, "QuotaPeers", {"destination": quad("203.0.64.0")})
    yield last("all peers, from another port", all_peers, "QuotaPeers", other_port)
    yield last("all peers, to its own place", all_peers, "QuotaPeers", to_pool)
    yield last("all peers, to no mapping", all_peers, "QuotaPeers", {"destination": POOL})
    yield last("all peers, may not be cut", all_peers, "TooBig", TOO_LONG)
    reply: Changes = {"kind": ECHO_REPLY}
    yield last_echo("all mappings, a reply", all_mappings, "NoMapping", reply)
    yield last_echo("all mappings, a request", all_mappings, "QuotaMappings", {})
    yield last_echo("all peers, a reply", all_peers, "NoMapping", reply)
    yield last_echo("all peers, a request", all_peers, "QuotaPeers", {})
    yield last_echo("a full address and a full block of UDP, a request", full_address, None, {})
    yield last_echo("a full pool, a reply", full_pool, "NoMapping", reply, 504)
    yield last_echo("a full pool, a request", full_pool, "PoolEmpty", {}, 504)
    all_peers[-1] = FIRST_ECHO
    other_remote: Changes = {"kind": ECHO_REPLY, "destination": quad("203.0.113.6")}
    yield last_echo("all peers, a reply to another remote", all_peers, "QuotaPeers", other_remote)


def last_echo(name: str, before: List[bytes], cause: Optional[str], echo: Changes, subscriber: int = 0) -> Refusal:
    packet = Softwire(Echo(**echo).spelled(), source=softwire_of(subscriber))
    error = error_about(cause, packet.inner, packet.source)
    return Refusal(f"out: echo, {name}", [*before, frame(FROM_SOFTWIRE, MOMENT, packet.spelled())], cause, error)


def refusals() -> Iterator[Refusal]:
    """All cases."""
    for fault in with_pairs(FROM_SUBSCRIBERS, CUT):
        yield from_subscriber(fault.name, fault.cause, fault.udp, fault.around, fault.is_early)
    for fault in with_pairs(FROM_OUTSIDE, CUT):
        yield from_outside(fault.name, fault.cause, fault.udp, fault.is_early)
    yield from MORE_FROM_SUBSCRIBERS
    yield from MORE_FROM_OUTSIDE
    yield from TO_POOL
    yield from by_address()
    yield from PASSING
    yield from segments()
    yield from echoes()
    yield from refused_grants()
