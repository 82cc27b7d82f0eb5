"""An input with all that is sent of it, and how its records are spelled."""

from __future__ import annotations

from collections import Counter
from typing import Any, Callable, Dict, List, NamedTuple, Sequence

from log_form import EMPTY_LOG
from packets import AFTR, FROM_PUBLIC, FROM_SOFTWIRE, Softwire, Udp, frame, quad, softwire_of

MOMENT = 1_000_000
Changes = Dict[str, Any]
Spell = Callable[[bytes], bytes]
INNER, REMOTE, POOL = quad("192.0.0.2"), quad("203.0.113.5"), quad("192.0.2.8")
ORDER = (
    "Settling BadPacket NotUs NotTunnel PieceTooMany PieceTooLong PieceOverlap Options NoRoute NoProtocol TtlSpent TooBig "
    "NoMapping Filtered BadChange"
).split()


class Exchange(NamedTuple):
    """An input, the records that are sent of it and no others, and the causes of its drops."""

    name: str
    records: Sequence[bytes]
    sent: Sequence[bytes]
    drops: Sequence[str] = ()
    config: Changes = {}  # what isn't by default; the program takes defaults alone, so others are the model's
    log: bytes = EMPTY_LOG

    def report(self) -> str:
        counts = Counter(self.drops)
        lines = [f"records {len(self.records)}", f"sent {len(self.sent)}", "marks 0"]
        lines += [f"drop {cause} {counts.pop(cause)}" for cause in ORDER if cause in counts]
        assert not counts, f"no place in the report for {counts}"
        return "".join(f"{line}\n" for line in lines)


def from_softwire(packet: bytes, subscriber: int = 0, host: int = 2, moment: int = MOMENT) -> bytes:
    return frame(FROM_SOFTWIRE, moment, Softwire(packet, softwire_of(subscriber, host)).spelled())


def public(packet: bytes, moment: int = MOMENT) -> bytes:
    """A record of a packet from outside, or to there."""
    return frame(FROM_PUBLIC, moment, packet)


def around(packet: bytes, subscriber: int = 0, host: int = 2) -> Softwire:
    """What a packet has around it on its way to a subscriber."""
    return Softwire(packet, AFTR, softwire_of(subscriber, host), traffic_class=packet[1])


def to_softwire(packet: bytes, subscriber: int = 0, host: int = 2, moment: int = MOMENT) -> bytes:
    return frame(FROM_SOFTWIRE, moment, around(packet, subscriber, host).spelled())


def to_softwires(packets: Sequence[bytes]) -> List[bytes]:
    """Records of packets that have an IPv6 header already."""
    return [frame(FROM_SOFTWIRE, MOMENT, packet) for packet in packets]


# A subscriber's first packet, which has its mapping at the pool's first place, and that packet as it leaves.
FIRST, FIRST_LEFT = from_softwire(Udp().spelled()), public(Udp(POOL, 1024, ttl=63).spelled())
