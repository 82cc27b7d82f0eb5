#!/usr/bin/env python3
"""A plain model of the program, written from its rules alone: what each command answers, and what it leaves in files.

It is slow and short on purpose. Lists and dictionaries are searched, checksums are computed anew, and whole files are
looked at; it shares no code and no order of work with the program. Called with the program's words it does what the
program does on plain files. The log's bytes stand in log_form.py, those of packets in model_packets.py, pieces that come in
model_pieces.py, and how packets are cut in model_cutting.py.
"""

from __future__ import annotations

import os
import re
import struct
import sys
from collections import Counter
from dataclasses import dataclass, field
from typing import Dict, Iterable, List, NamedTuple, Optional, Tuple

import log_form
from log_form import LAST_MOMENT, Batch, Damaged, Lease, Log, LogFull, Place, Prefix, Row, Told
from model_cutting import Cutter, for_public
from model_packets import ACK, ECHO_REQUEST, FIN, FRAGMENT, ICMP, IPV4_IN_IPV6, MTU, POOL, RST, SYN, TCP, TIME_EXCEEDED
from model_packets import UDP, UNREACHABLE, Drop, behind_options, flow_of, from_public, from_softwire, ipv4_packet
from model_packets import is_error, is_piece, made_error, moved, number, place_of, require, require_way_in
from model_packets import require_way_out, word
from model_pieces import Reassembly, fragment_of, piece_of, whole_packet

SUBSCRIBER_LENGTH = 56
BLOCK_SIZE = 512
FIRST_PORTS = range(1024, 65536 - BLOCK_SIZE + 1, BLOCK_SIZE)
IDLE = 300_000  # how long a UDP peer is kept (RFC 4787 4.3 asks for two minutes at least)
ECHO_IDLE = 60_000  # one of echo messages (RFC 5508 3.2)
TCP_IDLE, TCP_SHORT_IDLE = 7_440_000, 240_000  # a TCP peer, and one that opens or ends (RFC 5382 5, REQ-5)
HOLD = 120_000  # how long a closed block is kept from other subscribers (RFC 6888 3, REQ-8)
MAX_MAPPINGS, MAX_PEERS, MAX_BLOCKS = 4_096, 16_384, 8  # of one subscriber (RFC 6888 3, REQ-4)
MAX_CLOSINGS = 512  # at one moment; the pool has 504 blocks, so no run comes to it
FRAME_CLOSINGS = 1024  # in one frame of a recovery
LAST_INPUT_MOMENT = 4_294_963_695_999

SOFTWIRE, PUBLIC, TICK, CHANGE = 1, 2, 3, 4
# The causes that are given today, in the order of the report.
CAUSES = (
    "Settling BadPacket NotUs NotTunnel UnknownSubscriber PieceTooMany PieceTooLong PieceOverlap "
    "Options NoRoute NoProtocol TtlSpent TooBig QuotaMappings QuotaPeers QuotaBlocks "
    "AddressFull PoolEmpty NoMapping Filtered BadChange"
).split()

# Type and code of the error that a subscriber gets for its dropped packet: Time Exceeded, Fragmentation Needed, which has the
# MTU for its second word (RFC 1191 4), and Host Unreachable where there is no room (RFC 6888 3, REQ-4).
NO_ROOM = "QuotaMappings QuotaPeers QuotaBlocks AddressFull PoolEmpty".split()
NEEDS_CUTTING = 4  # the code of Fragmentation Needed
TOLD = {
    "TtlSpent": (TIME_EXCEEDED, 0),
    "TooBig": (UNREACHABLE, NEEDS_CUTTING),
    **dict.fromkeys(NO_ROOM, (UNREACHABLE, 1)),
}

Files = Dict[str, bytes]


class Config(NamedTuple):
    """The keys that a comparison may set; every other one has its default above."""

    horizon: int = 2_000  # how far past a packet the log promises names
    log_limit: int = 1 << 30
    is_by_address: bool = False  # mappings admit the addresses alone that they have a peer at (RFC 4787 5)
    softwire_mtu: int = MTU
    public_mtu: int = MTU


class Inner(NamedTuple):
    """What a mapping is found by: inner addresses of different softwires may be the same (RFC 6333 6.6)."""

    softwire: int
    address: int
    port: int
    protocol: int = UDP


class Remote(NamedTuple):
    """Who a mapping was used for: an address, and of TCP its port too."""

    address: int
    port: int = 0


class Peer(NamedTuple):
    """How far the connection with a remote is, and the moment at which it is forgotten."""

    state: str
    deadline: int


class Record(NamedTuple):
    """One record of the input."""

    kind: int
    moment: int
    body: bytes


@dataclass
class Mapping:
    """The external place of an inner one, with the remotes it sent to."""

    inner: Inner
    owner: Prefix
    place: Place
    peers: Dict[Remote, Peer] = field(default_factory=dict)


# ---- TCP connections (RFC 5382 5, RFC 7857 2)

# The state after a segment that goes out and that comes in, with an RST, else a FIN, else a SYN without ACK, else none of these.
AFTER = {
    "Opening": ("Ending Opening Opening Opening", "Ending HalfIn Open Open"),
    "Open": ("Ending HalfOut Open Open", "Ending HalfIn Open Open"),
    "HalfOut": ("Ending HalfOut HalfOut HalfOut", "Ending Ending HalfOut HalfOut"),
    "HalfIn": ("Ending Ending HalfIn HalfIn", "Ending HalfIn HalfIn HalfIn"),
    "Ending": ("Ending Ending Opening Ending", "Ending Ending Ending Ending"),
}


def state_after(state: Optional[str], packet: bytes, is_outbound: bool) -> str:
    """The state of a peer after a packet, where it had this state before, if there was one."""
    if packet[9] != TCP:
        return "Open"
    flags = packet[33]
    if state is None:
        return "Ending" if flags & RST else "Opening"
    signal = 0 if flags & RST else 1 if flags & FIN else 2 if flags & (SYN | ACK) == SYN else 3
    return AFTER[state][0 if is_outbound else 1].split()[signal]


def idle_of(protocol: int, state: str) -> int:
    if protocol != TCP:
        return ECHO_IDLE if protocol == ICMP else IDLE
    return TCP_SHORT_IDLE if state in ("Opening", "Ending") else TCP_IDLE


# ---- the input


def frame(kind: int, moment: int, body: bytes) -> bytes:
    return struct.pack(">IBQ", 9 + len(body), kind, moment) + body


def records_of(data: bytes) -> Tuple[List[Record], Optional[int]]:
    """The records from the start on, and the offset where none stands before the end, if there is one."""
    records: List[Record] = []
    at = 0
    while at < len(data):
        if len(data) - at < 13:
            return records, at
        length, kind, moment = struct.unpack_from(">IBQ", data, at)
        fits = 9 <= length <= 65584 and at + 4 + length <= len(data)
        if not fits or not SOFTWIRE <= kind <= CHANGE or kind == TICK and length > 9 or moment > LAST_INPUT_MOMENT:
            return records, at
        records.append(Record(kind, moment, data[at + 13 : at + 4 + length]))
        at += 4 + length
    return records, None


# ---- the translator


class Translator:
    """All that a run keeps and counts, from what a log tells on."""

    def __init__(self, told: Optional[Told] = None, config: Config = Config()) -> None:
        told = told or Told()
        self.config = config
        self.clock = 0
        self.floor = told.end()
        self.horizon = told.horizon
        self.mappings: Dict[Inner, Mapping] = {}
        self.leases = told.leases  # in order of opening
        self.pieces = Reassembly()
        self.cutter = Cutter()
        self.batch, self.sent = Batch(0), b""
        self.records = self.packets = 0
        self.drops: Counter[str] = Counter()

    def treat(self, record: Record) -> None:
        """Treats a record; what it logs stands in `batch` afterwards, and the packets that it sends in `sent`."""
        self.records += 1
        is_later = record.moment > self.clock
        self.clock = max(self.clock, record.moment)
        self.batch, self.sent = Batch(self.clock), b""
        if is_later:
            self.expire()
        try:
            self.translate(record)
        except Drop as drop:
            self.drops[str(drop)] += 1

    def expire(self) -> None:
        """Peers go at their deadline, mappings with their last peer, leases with their last mapping, pieces after a while."""
        for mapping in self.mappings.values():
            mapping.peers = {remote: peer for remote, peer in mapping.peers.items() if peer.deadline > self.clock}
        self.mappings = {inner: mapping for inner, mapping in self.mappings.items() if mapping.peers}
        used = {block_of(mapping.place) for mapping in self.mappings.values()}
        still_open = [lease for lease in self.leases if lease.until is None]
        self.batch.closings = [lease for lease in still_open if (lease.address, lease.first) not in used][:MAX_CLOSINGS]
        for lease in self.batch.closings:
            lease.until = self.clock
        self.pieces.expire(self.clock)

    def translate(self, record: Record) -> None:
        if record.kind == CHANGE:
            raise Drop("BadChange")
        if record.kind == TICK:
            return
        if self.clock <= self.floor:
            raise Drop("Settling")
        if record.kind == SOFTWIRE:
            softwire, packet = self.whole_from_softwire(record.body)
            if packet is not None:
                self.from_subscriber(softwire, packet)
        else:
            packet = self.whole(None, 0, from_public(record.body))
            if packet is not None:
                self.inbound(packet)

    def whole_from_softwire(self, data: bytes) -> Tuple[int, Optional[bytes]]:
        """The softwire of some bytes, and the packet that is whole by them, if there is one. IPv6 fragments are put together
        before anything is seen of the packet in them (RFC 6333 5.3), and that may be a piece itself."""
        softwire, header, payload = from_softwire(data)
        if header == FRAGMENT:
            found = self.pieces.offer(*fragment_of(subscriber_of(softwire), softwire, payload), self.clock)
            if found is None:
                return softwire, None
            header, payload = behind_options(found.head[0], found.data)
            require(header == IPV4_IN_IPV6, "NotTunnel")
        return softwire, self.whole(subscriber_of(softwire), softwire, ipv4_packet(payload))

    def whole(self, owner: Optional[Prefix], softwire: int, packet: bytes) -> Optional[bytes]:
        """The packet, or that which it makes whole as its last piece to come, if it does."""
        if not is_piece(packet):
            return packet
        found = self.pieces.offer(*piece_of(owner, softwire, packet), self.clock)
        return None if found is None else whole_packet(found)

    def from_subscriber(self, softwire: int, packet: bytes) -> None:
        """A subscriber's packet goes out. Where it is dropped for some causes, its sender is told (RFC 6333 6.5)."""
        try:
            self.outbound(softwire, packet)
        except Drop as drop:
            if str(drop) in TOLD:
                kind, code = TOLD[str(drop)]
                error = made_error(kind, code, self.config.public_mtu if code == NEEDS_CUTTING else 0, packet)
                self.send_inside(softwire, error)
            raise

    def outbound(self, softwire: int, packet: bytes) -> None:
        require_way_out(packet, self.config.public_mtu)
        inner = Inner(softwire, *place_of(packet, True), flow_of(packet)[9])
        mapping = self.granted(inner, packet)
        if number(packet, 16, 4) in POOL:
            self.hairpin(mapping, packet)
            return
        self.touch(mapping, packet)
        self.promise()
        self.send(PUBLIC, for_public(moved(packet, True, mapping.place), self.config.public_mtu))

    def granted(self, inner: Inner, packet: bytes) -> Mapping:
        """The mapping that is there, where it may have the packet's remote, or a new one, which has it at once. An error or an
        echo reply makes none, and an error needs no remote."""
        owner, mapping = subscriber_of(inner.softwire), self.mappings.get(inner)
        if mapping is None:
            require(packet[9] != ICMP or packet[20] == ECHO_REQUEST, "NoMapping")
            mapping = self.mappings[inner] = Mapping(inner, owner, self.new_place(owner, packet[9]))
            self.touch(mapping, packet)
        elif not is_error(packet) and remote_of(packet, 16, 22) not in mapping.peers:
            require(peers_of(self.rows_of(owner)) < MAX_PEERS, "QuotaPeers")
        return mapping

    def touch(self, mapping: Mapping, packet: bytes) -> None:
        """A packet that goes out makes or keeps its peer, but for an error (RFC 5508 4); that it does so twice at a moment
        changes nothing."""
        if is_error(packet):
            return
        remote = remote_of(packet, 16, 22)
        known = mapping.peers.get(remote)
        self.keep(mapping, remote, state_after(known.state if known else None, packet, True))

    def hairpin(self, mapping: Mapping, packet: bytes) -> None:
        """A packet to the pool goes to the mapping there, from its own external place, by one hop (RFC 4787 6, RFC 5382 7.2).

        An echo message has its sender's external identifier by then, and goes to the mapping that has the same one; so does
        an error that quotes one. Where a packet is refused, an old mapping keeps its peers as they were, and a new one has
        the peer that it was made with.
        """
        from_outside = moved(packet, True, mapping.place)
        target = self.target_of(from_outside)
        require(is_error(packet) or self.admits(target, mapping.place.address), "Filtered")
        self.touch(mapping, packet)
        self.follow(target, from_outside)
        self.promise()
        self.deliver(target, from_outside, 0)

    def inbound(self, packet: bytes) -> None:
        require_way_in(packet)
        target = self.target_of(packet)
        require(is_error(packet) or self.admits(target, number(packet, 12, 4)), "Filtered")
        self.follow(target, packet)
        self.deliver(target, packet, 1)

    def mapping_at(self, place: Place, protocol: int) -> Optional[Mapping]:
        found = [row for row in self.mappings.values() if row.place == place and row.inner.protocol == protocol]
        return found[0] if found else None

    def target_of(self, packet: bytes) -> Mapping:
        """The mapping of the packet's protocol whose place is its destination, or of an error the source that it quotes."""
        found = self.mapping_at(place_of(packet, False), flow_of(packet)[9])
        if found is None:
            raise Drop("NoMapping")
        return found

    def admits(self, mapping: Mapping, address: int) -> bool:
        """Whether packets from this address may come to the mapping (RFC 4787 5)."""
        return not self.config.is_by_address or any(remote.address == address for remote in mapping.peers)

    def follow(self, mapping: Mapping, packet: bytes) -> None:
        """A segment that comes in may move the state of the peer that it is from, and its deadline with it."""
        remote = remote_of(packet, 12, 20)
        peer = mapping.peers.get(remote)
        if packet[9] == TCP and peer is not None:
            state = state_after(peer.state, packet, False)
            if state != peer.state:
                self.keep(mapping, remote, state)

    def keep(self, mapping: Mapping, remote: Remote, state: str) -> None:
        mapping.peers[remote] = Peer(state, self.clock + idle_of(mapping.inner.protocol, state))

    def rows_of(self, owner: Prefix) -> List[Mapping]:
        return [row for row in self.mappings.values() if row.owner == owner]

    def new_place(self, owner: Prefix, protocol: int) -> Place:
        """The least free port of the subscriber's open blocks, in order of opening, or the first of a further block."""
        rows = self.rows_of(owner)
        require(len(rows) < MAX_MAPPINGS, "QuotaMappings")
        require(peers_of(rows) < MAX_PEERS, "QuotaPeers")
        used = {(row.place.address, row.place.port) for row in rows if row.inner.protocol == protocol}
        own = [lease for lease in self.leases if lease.owner == owner and lease.until is None]
        for lease in own:
            for port in range(lease.first, lease.last + 1):
                if (lease.address, port) not in used:
                    return Place(lease.address, port)
        require(len(own) < MAX_BLOCKS, "QuotaBlocks")
        if own:
            return self.new_lease(owner, [own[0].address], "AddressFull")
        return self.new_lease(owner, POOL, "PoolEmpty")

    def new_lease(self, owner: Prefix, addresses: Iterable[int], without: str) -> Place:
        """The first port of the first free block of these addresses, which the subscriber has from now on."""
        in_the_way = [lease for lease in self.leases if not self.is_over(lease, owner)]
        taken = {block for lease in in_the_way for block in blocks_under(lease)}
        for address in addresses:
            for first in FIRST_PORTS:
                if (address, first) not in taken:
                    lease = Lease(owner, address, first, first + BLOCK_SIZE - 1, self.clock)
                    self.leases.append(lease)
                    self.batch.openings.append(lease)
                    self.promise()
                    return Place(address, first)
        raise Drop(without)

    def is_over(self, lease: Lease, owner: Prefix) -> bool:
        """Whether a lease stands in this subscriber's way no more: its own ones don't wait for the hold time."""
        if lease.until is None:
            return False
        return lease.until + HOLD <= self.clock or (lease.owner == owner and lease.until < self.clock)

    def promise(self) -> None:
        """The horizon reaches each lease that opens and each packet that leaves from a mapping's place."""
        if self.horizon < self.clock:
            self.horizon = self.batch.horizon = self.clock + self.config.horizon

    def deliver(self, mapping: Mapping, packet: bytes, hops: int) -> None:
        """Sends the packet to a mapping's place, so many hops on."""
        inner = mapping.inner
        self.send_inside(inner.softwire, moved(packet, False, Place(inner.address, inner.port), hops))

    def send_inside(self, softwire: int, packet: Optional[bytes]) -> None:
        """Sends a packet, where there is one, into a softwire."""
        if packet is not None:
            mtu = self.config.softwire_mtu
            self.send(SOFTWIRE, self.cutter.for_softwire(subscriber_of(softwire), softwire, packet, mtu))

    def send(self, kind: int, packets: List[bytes]) -> None:
        """Sends a packet: as it is, or as what it was cut into."""
        self.packets += len(packets)
        self.sent += b"".join(frame(kind, self.clock, packet) for packet in packets)

    def summary(self) -> str:
        lines = [f"records {self.records}", f"sent {self.packets}", "marks 0"]
        lines += [f"drop {cause} {self.drops[cause]}" for cause in CAUSES if self.drops[cause]]
        return "".join(line + "\n" for line in lines)


def peers_of(rows: List[Mapping]) -> int:
    return sum(len(row.peers) for row in rows)


def remote_of(packet: bytes, address_at: int, port_at: int) -> Remote:
    """The remote end of a packet: TCP's has a port (RFC 5382 4)."""
    return Remote(number(packet, address_at, 4), word(packet, port_at) if packet[9] == TCP else 0)


def subscriber_of(softwire: int) -> Prefix:
    rest = 128 - SUBSCRIBER_LENGTH
    return Prefix(softwire >> rest << rest, SUBSCRIBER_LENGTH)


def block_of(place: Place) -> Tuple[int, int]:
    """The address and the first port of the block that a place lies in."""
    return place.address, place.port - (place.port - FIRST_PORTS.start) % BLOCK_SIZE


def blocks_under(lease: Lease) -> List[Tuple[int, int]]:
    """The blocks that a lease has a port of: other runs may have logged any ports."""
    address, first = block_of(Place(lease.address, lease.first))
    return [(address, port) for port in range(first, lease.last + 1, BLOCK_SIZE)]


# ---- what a log tells, in words


def prefix_text(prefix: Prefix) -> str:
    digits = f"{prefix.bits:032x}"
    return ":".join(digits[at : at + 4] for at in range(0, 32, 4)) + f"/{prefix.length}"


def quad_text(address: int) -> str:
    return ".".join(str(octet) for octet in address.to_bytes(4, "big"))


def end_text(until: Optional[int]) -> str:
    return "open" if until is None else str(until)


def lease_line(lease: Lease) -> str:
    block = f"{quad_text(lease.address)} {lease.first} {lease.last}"
    return f"lease {block} {lease.since} {end_text(lease.until)} {prefix_text(lease.owner)}\n"


def told_lines(told: Told) -> str:
    plans = [f"plan {plan.since} {end_text(plan.until)} {plan.spec.text().decode()}\n" for plan in told.plans]
    return "".join([*map(lease_line, told.leases), *plans, f"horizon {told.horizon}\n"])


def trace_line(told: Told, place: Place, moment: int) -> str:
    """The first lease that held the place. An open one holds up to the horizon, and nothing is said of a moment past that."""
    if moment > told.horizon:
        return f"beyond {told.horizon}\n"
    owners = [lease.owner for lease in told.leases if lease.holds(place, moment)]
    return f"named {prefix_text(owners[0])}\n" if owners else "unheld\n"


# ---- the commands


@dataclass
class Answer:
    """The exit status, the report, and the files that are there afterwards."""

    status: int
    report: str
    files: Files


def is_word(text: str) -> bool:
    is_text = not any(0xD800 <= ord(letter) <= 0xDFFF for letter in text)  # bytes that aren't UTF-8 are read as these
    return is_text and text != "" and not text.startswith("-")


def is_number(text: str, top: int) -> bool:
    return re.fullmatch("[0-9]+", text) is not None and int(text) <= top


def is_quad(text: str) -> bool:
    octets = text.split(".")
    return len(octets) == 4 and all(is_number(octet, 255) and str(int(octet)) == octet for octet in octets)


def is_command(words: List[str]) -> bool:
    if not words or not all(map(is_word, words)):
        return False
    if words[0] == "trace" and len(words) == 5:
        return is_quad(words[2]) and is_number(words[3], 65535) and is_number(words[4], LAST_MOMENT)
    return words[0] == "run" and len(words) == 5 or words[0] in ("init", "leases") and len(words) == 2


def answer(words: List[str], before: Files, config: Config = Config()) -> Answer:
    """What the program does with these words in a folder of these files."""
    if not is_command(words):
        return Answer(1, "fault BadWords\n", before)
    files, paths = dict(before), paths_of(words)
    try:
        if words[0] == "init":
            status, report = init(paths[0], files)
        elif words[0] == "run":
            status, report = run(paths, files, config)
        else:
            status, report = query(words, paths[0], files)
    except Damaged as damage:
        status, report = 7, f"fault LogDamaged {damage.offset}\n"
    except LogFull as full:
        status, report = 8, full.line
    return Answer(status, report, files)


def init(path: str, files: Files) -> Tuple[int, str]:
    size = len(files.get(path, b""))
    if size > 0:
        return 9, f"fault AlreadyThere {size}\n"
    files[path] = log_form.EMPTY_LOG
    return 0, ""


def run(paths: List[str], files: Files, config: Config) -> Tuple[int, str]:
    config_path, log_path, outlet, source = paths
    is_apart = outlet not in (config_path, log_path, source)
    if is_apart:
        files.setdefault(log_path, b"")
        files[outlet] = b""
    if config_path not in files:
        return 4, "fault ReadFault\n"
    if files[config_path]:
        return 2, "fault BadConfig text\n"
    if not is_apart:
        return 5, "fault LogFault\n"  # no file is spoilt by an outlet that is one of the others
    told = log_form.read_log(files[log_path])
    log, sent = Log(files[log_path], told), bytearray()
    try:
        recover(log, told, config)
        if source not in files:
            return 4, "fault ReadFault\n"
        return run_records(files[source], Translator(told, config), log, sent)
    finally:
        files[log_path], files[outlet] = bytes(log.data), bytes(sent)


def recover(log: Log, told: Told, config: Config) -> None:
    """Closes what a log tells as open, at its horizon: a plan, then the leases in order of opening."""
    rows: List[Row] = [*told.open_plans(), *told.open_leases()]
    for at in range(0, len(rows), FRAME_CLOSINGS):
        batch = Batch(told.horizon)
        for row in rows[at : at + FRAME_CLOSINGS]:
            if isinstance(row, Lease):
                batch.closings.append(row)
            else:
                batch.plan = b""
        log.commit(batch, config.log_limit)
    for row in rows:
        row.until = told.horizon


def run_records(data: bytes, translator: Translator, log: Log, sent: bytearray) -> Tuple[int, str]:
    """Treats each record, logs what it logs, and then sends its packets."""
    records, bad_at = records_of(data)
    for record in records:
        translator.treat(record)
        if translator.batch.count() > 0:
            log.commit(translator.batch, translator.config.log_limit)
        sent += translator.sent
    if bad_at is not None:
        return 3, f"fault BadInput 0 {bad_at}\n"
    return 0, translator.summary()


def query(words: List[str], path: str, files: Files) -> Tuple[int, str]:
    if path not in files:
        return 5, "fault LogFault\n"
    told = log_form.read_log(files[path])
    if words[0] == "leases":
        return 0, told_lines(told)
    address = int.from_bytes(bytes(int(octet) for octet in words[2].split(".")), "big")
    return 0, trace_line(told, Place(address, int(words[3])), int(words[4]))


def paths_of(words: List[str]) -> List[str]:
    """The files that a command names, each in one spelling."""
    if not is_command(words):
        return []
    return [os.path.normpath(path) for path in (words[1:] if words[0] == "run" else words[1:2])]


# ---- on real files


def main(words: List[str]) -> int:
    """Does what the program does with these words, on plain files that may be read and written."""
    before: Files = {}
    for path in paths_of(words):
        if os.path.exists(path):
            with open(path, "rb") as source:
                before[path] = source.read()
    answered = answer(words, before)
    for path, data in answered.files.items():
        if before.get(path) != data:
            with open(path, "wb") as out:
                out.write(data)
    sys.stdout.write(answered.report)
    return answered.status


if __name__ == "__main__":
    sys.exit(main(sys.argv[1:]))
