"""ICMP errors beside a mapping: what is refused of them, what passes, and how it leaves (RFC 792, RFC 5508 4).

A subscriber's 192.0.0.2 port 5000, or identifier 7, has 192.0.2.8 port 1024 outside. An error from outside quotes a packet
that left from there, one of the subscriber's a packet that came.
"""

from __future__ import annotations

from typing import Iterator, List, NamedTuple, Optional, Union

from packets import AFTR, DONT_FRAGMENT, ECHO_REPLY, FRAGMENT_OFFSET, FROM_PUBLIC, FROM_SOFTWIRE, MORE_FRAGMENTS, RESERVED
from packets import Echo, Error, Softwire, Tcp, Udp, frame, quad, softwire_of
from refusal_cases import FIRST_PACKET, MOMENT, MTU, POOL, REPLY, Changes, Fault, Refusal, error_about, granted
from refusal_cases import with_pairs

INNER, REMOTE, ROUTER = quad("192.0.0.2"), quad("203.0.113.5"), quad("198.51.100.1")
Packet = Union[Udp, Tcp, Echo]


class Flow(NamedTuple):
    """A subscriber's packet that makes a mapping, as it is inside and outside, and one that comes back to it."""

    name: str
    sent: Packet
    left: Packet
    arrived: Packet
    came: Packet


def ports_of(name: str, kind: Union[Udp, Tcp]) -> Flow:
    return Flow(
        name,
        kind,
        kind._replace(source=POOL, source_port=1024),
        kind._replace(source=REMOTE, source_port=kind.port, destination=POOL, port=1024),
        kind._replace(source=REMOTE, source_port=kind.port, destination=INNER, port=5000),
    )


UDP_FLOW = ports_of("UDP", Udp())
FLOWS = [
    UDP_FLOW,
    ports_of("UDP without a sum", Udp(udp_sum=0)),
    ports_of("TCP", Tcp()),
    Flow(
        "echo",
        Echo(),
        Echo(POOL, identifier=1024),
        Echo(REMOTE, POOL, 1024, kind=ECHO_REPLY),
        Echo(REMOTE, INNER, kind=ECHO_REPLY),
    ),
]
SIZES = (28, 29, 37, 38, 39, 1500)  # of what is quoted: up to the first 8 bytes, to TCP's sum or around it, and all
KINDS = ((3, 0), (3, 1), (3, 3), (3, 4), (3, 255), (11, 0), (11, 1), (12, 0))
LEFT, CAME = UDP_FLOW.left.spelled(), UDP_FLOW.came.spelled()


def from_softwire(packet: bytes, subscriber: int = 0, host: int = 2) -> bytes:
    return frame(FROM_SOFTWIRE, MOMENT, Softwire(packet, softwire_of(subscriber, host)).spelled())


def to_softwire(packet: bytes, subscriber: int = 0) -> bytes:
    around = Softwire(packet, AFTR, softwire_of(subscriber), traffic_class=packet[1])
    return frame(FROM_SOFTWIRE, MOMENT, around.spelled())


def records_of(flow: Flow, error: bytes) -> List[bytes]:
    """The mapping's packet, the error, and a packet that still comes in."""
    return [from_softwire(flow.sent.spelled()), error, frame(FROM_PUBLIC, MOMENT, flow.arrived.spelled())]


def beginning(packet: Packet, received: Packet, size: int) -> bytes:
    """What is quoted of a packet. Half a checksum of TCP, which is its 37th byte, stays as it was received."""
    quoted, old = packet.spelled()[:size], received.spelled()[:size]
    return quoted[:36] + old[36:] if len(quoted) == 37 else quoted


# ---- what passes, and how it leaves


def passed_in(flow: Flow, size: int, changes: Changes = {}) -> Refusal:
    error = Error(ROUTER, POOL, flow.left.spelled()[:size])._replace(**changes)
    inside = error._replace(destination=INNER, quoted=beginning(flow.sent, flow.left, size), ttl=63)
    records = records_of(flow, frame(FROM_PUBLIC, MOMENT, error.spelled()))
    name = f"in: an error about {flow.name}, {size} bytes, {changes}"
    return Refusal(name, records, None, moved=to_softwire(inside.spelled()))


def passed_out(flow: Flow, size: int, changes: Changes = {}) -> Refusal:
    error = Error(INNER, REMOTE, flow.came.spelled()[:size])._replace(**changes)
    outside = error._replace(source=POOL, quoted=beginning(flow.arrived, flow.came, size), ttl=63)
    records = records_of(flow, from_softwire(error.spelled()))
    name = f"out: an error about {flow.name}, {size} bytes, {changes}"
    return Refusal(name, records, None, moved=frame(FROM_PUBLIC, MOMENT, outside.spelled()))


def passed() -> Iterator[Refusal]:
    for flow in FLOWS:
        for size in SIZES:
            yield passed_in(flow, size)
            yield passed_out(flow, size)
        for kind, code in KINDS:
            yield passed_in(flow, 28, {"kind": kind, "code": code, "last_word": 0x04D2_0500})
            yield passed_out(flow, 28, {"kind": kind, "code": code, "last_word": 0x04D2_0500})
    marked: Changes = {"tos": 0xB8, "ident": 0xFFFF, "fragment": DONT_FRAGMENT}
    yield passed_in(UDP_FLOW, 28, marked)
    yield passed_out(UDP_FLOW, 28, marked)
    yield passed_in(UDP_FLOW, 28, {"source": REMOTE})
    yield passed_in(UDP_FLOW, 28, {"destination": POOL + 3})  # an address of the pool, and not the quoted one
    yield passed_out(UDP_FLOW, 28, {"source": quad("10.0.0.9")})  # a host or a router behind the subscriber's
    yield passed_out(UDP_FLOW, 28, {"destination": ROUTER})


def as_odd(packet: Packet) -> List[Packet]:
    """A packet whose beginning is quoted as it needn't be right: none of this is looked at."""
    return [
        packet._replace(fragment=MORE_FRAGMENTS),
        packet._replace(fragment=RESERVED | DONT_FRAGMENT, tos=255),
        packet._replace(ttl=0),
        packet._replace(total=0),
        packet._replace(total=0xFFFF),
    ]


def passed_odd() -> Iterator[Refusal]:
    for flow in FLOWS:
        odd = zip(as_odd(flow.sent), as_odd(flow.left), as_odd(flow.arrived), as_odd(flow.came))
        for packets in odd:
            for refusal in (passed_in(Flow(flow.name, *packets), 28), passed_out(Flow(flow.name, *packets), 28)):
                name = f"{refusal.name}, which is odd"
                yield refusal._replace(name=name, records=records_of(flow, refusal.records[1]))


# ---- between subscribers


def turned(name: str, before: List[bytes], error: Error, inside: Error, subscriber: int) -> Refusal:
    records = [*before, from_softwire(error.spelled())]
    return Refusal(f"to the pool: an error about {name}", records, None, moved=to_softwire(inside.spelled(), subscriber))


def between() -> Iterator[Refusal]:
    """A subscriber's error about what came from another one's place, or from its own."""
    kinds: List[Union[Udp, Tcp]] = [Udp(), Tcp(), Udp(udp_sum=0)]
    for kind in kinds:
        for subscriber, port in ((1, 1536), (0, 1024)):
            before = [from_softwire(kind.spelled()), from_softwire(kind.spelled(), subscriber)]
            came = kind._replace(source=POOL, source_port=port, destination=INNER, port=5000)
            sent = kind._replace(source=INNER, source_port=5000, destination=POOL, port=1024)
            for size in SIZES:
                error = Error(INNER, POOL, came.spelled()[:size])
                inside = Error(POOL, INNER, beginning(sent, came, size), ttl=63)
                yield turned(f"{type(kind).__name__}, {size} bytes", before, error, inside, subscriber)
    before = [from_softwire(Echo(destination=POOL).spelled())]
    error = Error(INNER, POOL, Echo(POOL, INNER).spelled())
    yield turned("echo", before, error, Error(POOL, INNER, Echo(INNER, POOL).spelled(), ttl=63), 0)
    elsewhere = Error(INNER, POOL + 1, Udp(POOL, 1024, INNER, 5000).spelled())
    inside = Error(POOL, INNER, Udp(INNER, 5000, POOL, 1024).spelled(), ttl=63)
    yield turned("UDP, to another address of the pool", [FIRST_PACKET], elsewhere, inside, 0)


# ---- what is refused

TOO_LONG = bytes(MTU - 28 + 1)


def unusable(packet: Udp, echo: Echo) -> Iterator[Fault]:
    """Quoted packets that don't tell whose they are."""
    whole = packet.spelled()
    quoted = {
        "nothing": b"",
        "half a header": whole[:19],
        "7 bytes of UDP": whole[:27],
        "a later piece": packet._replace(fragment=1).spelled(),
        "options": packet._replace(options=bytes((1, 1, 1, 0))).spelled(),
        "another version": packet._replace(version=6).spelled(),
        "a header of four words": packet._replace(words=4).spelled(),
        "GRE": packet._replace(proto=47).spelled(),
        "a Timestamp": echo._replace(kind=13).spelled(),
        "an error": Error(packet.source, packet.destination, whole).spelled(),
    }
    for name, data in quoted.items():
        yield Fault(f"about {name}", "BadPacket", {"quoted": data})


MESSAGES = [
    Fault("a piece past the longest datagram", "PieceTooLong", {"fragment": FRAGMENT_OFFSET}),
    Fault("a source that isn't routed", "NoRoute", {"source": quad("127.9.9.9")}),
    Fault("another protocol", "NoProtocol", {"proto": 47}),
    Fault("one hop", "TtlSpent", {"ttl": 1}),
    Fault("a message of 7 bytes", "BadPacket", {"total": 27}),
    Fault("a wrong sum", "BadPacket", {"message_sum": 0x1234}),
    Fault("no sum", "BadPacket", {"message_sum": 0}),
    *[Fault(f"a message of type {kind}", "NoProtocol", {"kind": kind}) for kind in (4, 5, 13, 1, 255)],
]
OUT_FAULTS = [
    *MESSAGES,
    *unusable(Udp(REMOTE, 53, INNER, 5000), Echo(REMOTE, INNER)),
    Fault("may not be cut", "TooBig", {"fragment": DONT_FRAGMENT, "quoted": (CAME + TOO_LONG)[: len(TOO_LONG)]}),
    Fault("about another port", "NoMapping", {"quoted": Udp(REMOTE, 53, INNER, 5001).spelled()}),
    Fault("about another address", "NoMapping", {"quoted": Udp(REMOTE, 53, INNER + 1, 5000).spelled()}),
    Fault("about TCP", "NoMapping", {"quoted": Tcp(REMOTE, 53, INNER, 5000).spelled()}),
    Fault("about what it sent", "NoMapping", {"quoted": Udp().spelled()}),
]
IN_FAULTS = [
    Fault("a destination before the pool", "NotUs", {"destination": quad("192.0.2.7")}),
    *MESSAGES,
    *unusable(Udp(POOL, 1024, REMOTE, 53), Echo(POOL, REMOTE)),
    Fault("about another port", "NoMapping", {"quoted": Udp(POOL, 1025, REMOTE, 53).spelled()}),
    Fault("about another address", "NoMapping", {"quoted": Udp(POOL + 1, 1024, REMOTE, 53).spelled()}),
    Fault("about TCP", "NoMapping", {"quoted": Tcp(POOL, 1024, REMOTE, 53).spelled()}),
    Fault("about echo", "NoMapping", {"quoted": Echo(POOL, REMOTE, 1024).spelled()}),
    Fault("about what came", "NoMapping", {"quoted": Udp(REMOTE, 53, POOL, 1024).spelled()}),
]


def refused_out(name: str, cause: Optional[str], changes: Changes, host: int = 2) -> Refusal:
    packet = Error(INNER, REMOTE, CAME)._replace(**changes).spelled()
    records = records_of(UDP_FLOW, from_softwire(packet, host=host))
    return Refusal(f"out: an error, {name}", records, cause, error_about(cause, packet, softwire_of(0, host)))


def refused_in(name: str, cause: Optional[str], changes: Changes) -> Refusal:
    packet = Error(ROUTER, POOL, LEFT)._replace(**changes).spelled()
    return Refusal(f"in: an error, {name}", records_of(UDP_FLOW, frame(FROM_PUBLIC, MOMENT, packet)), cause)


def refused() -> Iterator[Refusal]:
    for fault in with_pairs(OUT_FAULTS, {"quoted": (CAME + TOO_LONG)[: len(TOO_LONG)]}):
        yield refused_out(fault.name, fault.cause, fault.udp)
    for fault in with_pairs(IN_FAULTS, {"quoted": (LEFT + TOO_LONG)[: len(TOO_LONG)]}):
        yield refused_in(fault.name, fault.cause, fault.udp)
    yield refused_in("a source in the pool", "NoRoute", {"source": POOL + 1})
    yield refused_out("by another softwire", "NoMapping", {}, host=3)
    to_nobody: Changes = {"destination": POOL, "quoted": Udp(POOL, 1025, INNER, 5000).spelled()}
    yield refused_out("to the pool, about a port of nobody", "NoMapping", to_nobody)
    as_echo = Echo(POOL, INNER).spelled()
    yield refused_out("to the pool, about echo", "NoMapping", {"destination": POOL, "quoted": as_echo})


def by_address() -> Iterator[Refusal]:
    """The filter by address lets errors through from everywhere (RFC 4787 12)."""
    found = [
        passed_in(UDP_FLOW, 28),
        passed_in(UDP_FLOW, 28, {"source": quad("203.0.113.6")}),
        *[refusal for refusal in between() if refusal.name.endswith("Udp, 28 bytes")],
    ]
    yield from (refusal._replace(name=f"by address, {refusal.name}", is_by_address=True) for refusal in found)


def no_use() -> Iterator[Refusal]:
    """An error, in or out, keeps no mapping: the reply comes 300 s after the one packet that counts."""
    errors = {
        "out": (FROM_SOFTWIRE, Softwire(Error(INNER, REMOTE, CAME).spelled()).spelled()),
        "in": (FROM_PUBLIC, Error(ROUTER, POOL, LEFT).spelled()),
    }
    for side, (kind, body) in errors.items():
        late = [frame(kind, MOMENT + 200_000, body), frame(FROM_PUBLIC, MOMENT + 300_000, REPLY.spelled())]
        yield Refusal(f"{side}: an error keeps no mapping", [FIRST_PACKET, *late], "NoMapping")


def at_last_identifier() -> Iterator[Refusal]:
    """The subscriber of an address's last block has identifier 65535 outside for 0. A sum of all ones stays so, though there
    are only zeros besides then; one of zero stays zero (RFC 1624 3)."""
    last = 125
    before = granted(last + 1)
    before += [from_softwire(Echo(identifier=number % 512).spelled(), last) for number in range(1, 513)]
    for message_sum in (0, 0xFFFF):
        outside = Echo(REMOTE, POOL, 0xFFFF, 0, b"", ECHO_REPLY, message_sum=message_sum)
        inside = Echo(REMOTE, INNER, 0, 0, b"", ECHO_REPLY, message_sum=message_sum, ttl=63)
        records = [*before, frame(FROM_PUBLIC, MOMENT, outside.spelled())]
        yield Refusal(f"in: echo, a sum of {message_sum}", records, None, moved=to_softwire(inside.spelled(), last))
        left, sent = Echo(POOL, REMOTE, 0xFFFF, message_sum=message_sum), Echo(identifier=0, message_sum=message_sum)
        outer, inner = Error(ROUTER, POOL, left.spelled()), Error(ROUTER, INNER, sent.spelled(), ttl=63)
        records = [*before, frame(FROM_PUBLIC, MOMENT, outer.spelled())]
        yield Refusal(f"in: an error, a sum of {message_sum}", records, None, moved=to_softwire(inner.spelled(), last))


def errors() -> Iterator[Refusal]:
    """All cases."""
    yield from at_last_identifier()
    yield from passed()
    yield from passed_odd()
    yield from between()
    yield from refused()
    yield from by_address()
    yield from no_use()
