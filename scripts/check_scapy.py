#!/usr/bin/env python3
"""Lets packets that scapy made go through the program, and reads with scapy what comes out. Where no python3 of the path has
scapy, all checks are skipped.

What comes out must have the addresses, the ports and the quoted packets that are wanted, and each checksum that scapy
computes for it. What was cut, scapy puts together first, and cuts it again itself. The last line is 'N passed, M failed', and the exit status 0 where M is 0. Usage: check_scapy.py [PROGRAM]
"""

from __future__ import annotations

import os
import shutil
import subprocess
import sys
import tempfile
from functools import partial
from typing import Any, Callable, Iterator, List, NamedTuple, Optional, Sequence, Tuple

from model import records_of
from packets import FROM_PUBLIC, FROM_SOFTWIRE, frame, softwire_of

try:
    from scapy.layers.inet import ICMP, IP, TCP, UDP, IPerror, defragment, fragment
    from scapy.layers.inet6 import IPv6, IPv6ExtHdrFragment, defragment6, fragment6
except ImportError:
    IP = None

TOP = os.path.dirname(os.path.dirname(os.path.abspath(__file__)))
MOMENT = 1_000_000
AFTR, SOFTWIRE, OTHER_SOFTWIRE = "2001:db8::1", "2001:db8:100::2", "2001:db8:100:100::2"
INNER, POOL, REMOTE, ROUTER, TUNNEL = "192.0.0.2", "192.0.2.8", "203.0.113.5", "198.51.100.1", "192.0.0.1"
SUBSCRIBERS = 504  # for whom the pool has blocks
MTU = 1500
LONG = bytes(number * 7 % 251 for number in range(5_000))  # it is cut on each link


class Complaint(Exception):
    """What comes out isn't what is wanted."""


def demand(found: Any, wanted: Any, what: str) -> None:
    if found != wanted:
        raise Complaint(f"{what} {found!r}, wanted {wanted!r}")


class Flow(NamedTuple):
    """The transport that a subscriber sends, and what answers it at the place that it has outside."""

    name: str
    sent: Any
    answer: Callable[[int], Any]
    data: bytes = b"a question"

    def out(self, destination: str = REMOTE) -> Any:
        return IP(src=INNER, dst=destination, id=7) / self.sent / self.data

    def back(self, place: Any) -> Any:
        return IP(src=REMOTE, dst=place.src, id=8) / self.answer(port_of(place, True)) / self.data


def flow_of(name: str) -> Flow:
    if name == "UDP":
        return Flow(name, UDP(sport=5000, dport=53), lambda port: UDP(sport=53, dport=port))
    if name == "TCP":
        return Flow(name, TCP(sport=5000, dport=80, flags="S"), lambda port: TCP(sport=80, dport=port, flags="SA"))
    return Flow(name, ICMP(type=8, id=5000, seq=3), lambda port: ICMP(type=0, id=port, seq=3))


# ---- the program


class Program:
    """The program in a folder."""

    def __init__(self, path: str, folder: str) -> None:
        self.path = path
        self.folder = folder
        self.cut = 0  # of all packets so far

    def call(self, *words: str) -> str:
        done = subprocess.run(
            [self.path, *words], cwd=self.folder, capture_output=True, text=True, check=False, timeout=60
        )
        if done.returncode != 0:
            raise Complaint(f"'{' '.join(words)}' ends with {done.returncode} and {(done.stdout + done.stderr)[:200]!r}")
        return done.stdout

    def sent(self, records: Sequence[bytes], *drops: str) -> List[Any]:
        """What it sends of these records on a log just made, as scapy reads it. It counts these drops and no others."""
        for name, data in (("config.toml", b""), ("in", b"".join(records)), ("log", b"")):
            with open(os.path.join(self.folder, name), "wb") as out:
                out.write(data)
        self.call("init", "log")
        printed = self.call("run", "config.toml", "log", "out", "in")
        demand([line for line in printed.splitlines() if line.startswith("drop")], list(drops), "dropped is")
        with open(os.path.join(self.folder, "out"), "rb") as source:
            found, _ = records_of(source.read())
        packets = [IPv6(record.body) if record.kind == FROM_SOFTWIRE else IP(record.body) for record in found]
        whole = list(put_together(packets))
        self.cut += sum(len(parts) > 1 for _, parts in whole)
        return [packet for packet, _ in whole]


def put_together(packets: Sequence[Any]) -> Iterator[Tuple[Any, List[Any]]]:
    """Each packet as scapy makes it of its parts, which stand one behind the other, and those."""
    parts: List[Any] = []
    for packet in packets:
        demand(max(len(bytes(packet)), MTU), MTU, "the length of a packet on its link is")
        parts.append(packet)
        is_fragment = IPv6ExtHdrFragment in packet
        has_more = packet[IPv6ExtHdrFragment].m == 1 if is_fragment else packet.version == 4 and packet.flags.MF
        if not has_more:
            yield (joined(parts, is_fragment) if len(parts) > 1 else packet), parts
            parts = []
    demand(parts, [], "left of the last packet are")


def joined(parts: Sequence[Any], are_fragments: bool) -> Any:
    """What scapy makes of all these. Cut by scapy it has these parts again."""
    if are_fragments:
        whole, head = defragment6(list(parts)), parts[0].copy()
        identification = head[IPv6ExtHdrFragment].id
        head.remove_payload()
        again = fragment6(head / IPv6ExtHdrFragment(id=identification, nh=4) / whole[IP], MTU)
    else:
        found = defragment(list(parts))
        demand(len(found), 1, "the number of packets of these pieces is")
        whole = found[0]
        again = fragment(whole, MTU - 20)
    demand([bytes(part).hex() for part in parts], [bytes(part).hex() for part in again], "the parts are")
    return whole


def from_softwire(packet: Any, softwire: str = SOFTWIRE) -> bytes:
    return frame(FROM_SOFTWIRE, MOMENT, bytes(IPv6(src=softwire, dst=AFTR) / packet))


def from_public(packet: Any) -> bytes:
    return frame(FROM_PUBLIC, MOMENT, bytes(packet))


# ---- what scapy reads


def port_of(packet: Any, is_source: bool) -> int:
    """The port on this side, or an echo message's identifier."""
    transport = packet.payload
    if isinstance(transport, ICMP):
        return int(transport.id)
    return int(transport.sport if is_source else transport.dport)


def demand_place(packet: Any, is_source: bool, address: str, port: int, what: str) -> None:
    demand(packet.src if is_source else packet.dst, address, f"the {what}'s address is")
    demand(port_of(packet, is_source), port, f"the {what}'s port is")


def demand_sums(packet: Any, what: str) -> None:
    """Each checksum of an IPv4 packet, and of the one that it quotes whole, is the one that scapy computes."""
    whole, anew = bytes(packet), IP(bytes(packet))
    del anew.chksum
    if anew.frag == 0 and not anew.flags.MF:
        del anew.payload.chksum
    demand(bytes(anew).hex(), whole.hex(), f"{what} with scapy's sums is")
    if IPerror in packet and bytes(packet[IPerror])[2:4] == len(bytes(packet[IPerror])).to_bytes(2, "big"):
        demand_sums(IP(bytes(packet[IPerror])), f"the packet that {what} quotes")


def inside(packet: Any, softwire: str = SOFTWIRE) -> Any:
    """The IPv4 packet of an IPv6 packet from the AFTR to this softwire."""
    demand((packet.src, packet.dst), (AFTR, softwire), "the ends of the softwire are")
    demand(packet.nh, 4, "the next header is")
    demand_sums(packet[IP], "what comes in")
    return packet[IP]


def outside(packet: Any) -> Any:
    demand_sums(packet, "what goes out")
    return packet


def error_about(packet: Any, source: str, destination: str, kind: int, code: int, size: Optional[int] = None) -> Any:
    """An error that quotes a packet, or so many bytes of it."""
    return IP(src=source, dst=destination, id=9) / ICMP(type=kind, code=code) / IPerror(bytes(packet)[:size])


def demand_error(packet: Any, kind: int, code: int, source: str, destination: str) -> Any:
    """The packet that an error of this kind and these addresses quotes."""
    demand((packet.src, packet.dst), (source, destination), "the error's addresses are")
    demand((packet[ICMP].type, packet[ICMP].code), (kind, code), "the error's type and code are")
    if IPerror not in packet:
        raise Complaint(f"scapy sees no quoted packet in {packet.summary()}")
    return packet[IPerror]


# ---- errors


def errors_in(program: Program, flow: Flow, size: Optional[int]) -> None:
    """A router's error about a packet that left comes to its sender, and quotes it as it was sent."""
    out = flow.out()
    left = outside(program.sent([from_softwire(out)])[0])
    left.ttl = 1
    del left.chksum
    error = error_about(left, ROUTER, left.src, 11, 0, size)
    came = inside(program.sent([from_softwire(out), from_public(error)])[1])
    quoted = demand_error(came, 11, 0, ROUTER, INNER)
    demand_place(quoted, True, INNER, 5000, "quoted source")
    demand_place(quoted, False, REMOTE, port_of(out, False), "quoted destination")
    demand((quoted.id, quoted.ttl, came.id, came.ttl), (7, 1, 9, 63), "identifications and hops are")


def errors_out(program: Program, flow: Flow, size: Optional[int]) -> None:
    """A subscriber's error about a packet that came leaves, and quotes it as it came."""
    out = flow.out()
    left = program.sent([from_softwire(out)])[0]
    back = flow.back(left)
    records = [from_softwire(out), from_public(back)]
    came = inside(program.sent(records)[1])
    demand_place(came, False, INNER, 5000, "answer")
    error = error_about(came, INNER, REMOTE, 3, 3, size)
    found = outside(program.sent([*records, from_softwire(error)])[2])
    quoted = demand_error(found, 3, 3, POOL, REMOTE)
    demand_place(quoted, True, REMOTE, port_of(back, True), "quoted source")
    demand_place(quoted, False, POOL, port_of(left, True), "quoted destination")


def errors_between(program: Program, flow: Flow) -> None:
    """A subscriber's error about another one's packet comes to that one, and quotes the packet as it was sent."""
    places = [program.sent([from_softwire(flow.out())])[0]]
    sender = OTHER_SOFTWIRE
    if flow.name == "echo":  # which comes to its own place alone: there are no two of one identifier here
        out, sender = flow.out(POOL), SOFTWIRE
    else:
        transport = flow.sent.copy()
        transport.dport = port_of(places[0], True)
        out = IP(src=INNER, dst=POOL, id=7) / transport / b"a question"
    records = [from_softwire(flow.out()), from_softwire(out, sender)]
    came = inside(program.sent(records)[1])
    error = error_about(came, INNER, POOL, 3, 1)
    found = inside(program.sent([*records, from_softwire(error)])[2], sender)
    quoted = demand_error(found, 3, 1, POOL, INNER)
    demand_place(quoted, True, INNER, 5000, "quoted source")
    demand_place(quoted, False, POOL, port_of(places[0], True) if sender == OTHER_SOFTWIRE else 5000, "quoted destination")


def demand_made(found: Any, kind: int, code: int, out: Any) -> Any:
    """An error of the AFTR's own about a packet, which it quotes as it was sent."""
    came = inside(found)
    quoted = demand_error(came, kind, code, TUNNEL, INNER)
    demand(bytes(quoted).hex(), bytes(out)[:28].hex(), "the quoted packet is")
    demand((came.ttl, str(came.flags)), (64, "DF"), "hops and flags are")
    return came


def made_errors(program: Program, flow: Flow) -> None:
    """The sender of a packet without a hop to spare is told so, and that of one that is too long."""
    last = flow.out()
    last.ttl = 1
    demand_made(program.sent([from_softwire(last)], "drop TtlSpent 1")[0], 11, 0, last)
    long = IP(src=INNER, dst=REMOTE, flags="DF") / flow.sent / (flow.data + bytes(MTU))
    came = demand_made(program.sent([from_softwire(long)], "drop TooBig 1")[0], 3, 4, long)
    demand(came[ICMP].nexthopmtu, MTU, "the MTU of the next hop is")
    about = error_about(flow.out(), INNER, REMOTE, 11, 0)
    about.ttl = 1
    demand(program.sent([from_softwire(about)], "drop TtlSpent 1"), [], "about an error there is")


def no_room(program: Program) -> None:
    """The sender that the pool has no block for is told so."""
    out = flow_of("UDP").out()
    record, own = from_softwire(out), softwire_of(0).to_bytes(16, "big")
    records = [record.replace(own, softwire_of(number).to_bytes(16, "big")) for number in range(1, SUBSCRIBERS + 1)]
    found = program.sent([*records, record], "drop PoolEmpty 1")
    demand(len(found), SUBSCRIBERS + 1, "the number of packets is")
    demand_made(found[-1], 3, 1, out)


# ---- packets that are cut


def cut_both_ways(program: Program, flow: Flow) -> None:
    """A long packet and its answer have all their bytes, and so has one that scapy cut before."""
    out = flow.out()
    whole = from_softwire(out)
    left = outside(program.sent([whole])[0])
    demand_place(left, True, POOL, port_of(left, True), "packet")
    demand_data(left, flow.data)
    back = flow.back(left)
    pieces = [from_softwire(piece) for piece in fragment(out, 1000)]
    for parts, answers in (([whole], [back]), (pieces, fragment(back, 800))):
        found = program.sent([*parts, *map(from_public, answers)])
        demand(bytes(outside(found[0])).hex(), bytes(left).hex(), "the packet that leaves is")
        came = inside(found[1])
        demand_place(came, False, INNER, 5000, "answer")
        demand_data(came, flow.data)
    demand(program.cut, 5, "the number of packets that were cut is")


def demand_data(packet: Any, data: bytes) -> None:
    demand(bytes(packet.payload.payload).hex(), data.hex(), "the data is")


def cut_between(program: Program, flow: Flow) -> None:
    """A long packet to another subscriber, which may be cut on its way there, though not as for the public side."""
    place = program.sent([from_softwire(flow.out())])[0]
    transport, is_echo = flow.sent.copy(), flow.name == "echo"
    if not is_echo:
        transport.dport = port_of(place, True)
    out = IP(src=INNER, dst=POOL, id=7, flags="DF") / transport / flow.data
    cut, sender = program.cut, SOFTWIRE if is_echo else OTHER_SOFTWIRE
    came = inside(program.sent([from_softwire(flow.out()), from_softwire(out, sender)])[1])
    demand_place(came, False, INNER, 5000, "packet")
    demand_data(came, flow.data)
    demand((str(came.flags), program.cut - cut), ("DF", 2), "its flags, and the number of packets that were cut, are")


class Check(NamedTuple):
    name: str
    run: Callable[[Program, Flow], None]


ERRORS = [
    Check("an error from outside", lambda program, flow: errors_in(program, flow, None)),
    Check("an error from outside, 8 bytes quoted", lambda program, flow: errors_in(program, flow, 28)),
    Check("an error from inside", lambda program, flow: errors_out(program, flow, None)),
    Check("an error from inside, 8 bytes quoted", lambda program, flow: errors_out(program, flow, 28)),
    Check("an error between subscribers", errors_between),
    Check("errors that are made", made_errors),
]


CUTS = [Check("cut both ways", cut_both_ways), Check("cut between subscribers", cut_between)]


def all_checks() -> Iterator[Tuple[str, Callable[[Program], None]]]:
    yield "no room", no_room
    for name in ("UDP", "TCP", "echo"):
        for check in ERRORS:
            yield f"{name}: {check.name}", partial(run_check, check, name)
        for check in ERRORS[:-1] + CUTS:
            yield f"{name} of {len(LONG)} bytes: {check.name}", partial(run_long_check, check, name)


def run_check(check: Check, name: str, program: Program) -> None:
    check.run(program, flow_of(name))
    demand(program.cut, 0, "the number of packets that were cut is")


def run_long_check(check: Check, name: str, program: Program) -> None:
    check.run(program, flow_of(name)._replace(data=LONG))
    if program.cut == 0:
        raise Complaint("no packet was cut")


# ---- whether there is scapy


def other_python() -> Optional[str]:
    """Another python3 of the path that has scapy: it is often the system's own alone."""
    for folder in os.environ.get("PATH", "").split(os.pathsep):
        python = shutil.which("python3", path=folder)
        if python and subprocess.run([python, "-c", "import scapy"], capture_output=True, check=False).returncode == 0:
            return python
    return None


def main() -> int:
    program = os.path.abspath(sys.argv[1] if len(sys.argv) > 1 else os.path.join(TOP, "crates/aftr/out/aftr"))
    if not os.access(program, os.X_OK):
        print(f"no program at {program}: run scripts/build.sh", file=sys.stderr)
        return 1
    if IP is None:
        python = other_python()
        if python is not None:
            os.execv(python, [python, *sys.argv])
        print(f"skipped: {len(list(all_checks()))} checks, because no python3 here has scapy")
        print("0 passed, 0 failed")
        return 0
    passed = failed = 0
    with tempfile.TemporaryDirectory() as folder:
        for name, check in all_checks():
            try:
                check(Program(program, folder))
                passed += 1
            except (Complaint, IndexError, AttributeError) as error:
                failed += 1
                print(f"{name}: {error!r}")
    print(f"{passed} passed, {failed} failed")
    return 1 if failed else 0


if __name__ == "__main__":
    sys.exit(main())
