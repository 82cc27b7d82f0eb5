#!/usr/bin/env python3
"""Measures how much memory the program has while it holds packets in pieces: as many as its limits let it, of none of which
the last piece ever comes. Prints a line for each kind of input.

The program reads its input from a pipe, which stays open; it is asked about once it has read all that was written. A
measurement, which nothing is tested by.
"""

from __future__ import annotations

import argparse
import os
import subprocess
import sys
import time
from typing import Iterator, List, NamedTuple

from fragments import FRAGMENT, Part, ipv4_piece, ipv6_fragment
from packets import FROM_PUBLIC, FROM_SOFTWIRE, Softwire, Udp, frame, quad, softwire_of
from work_folder import WorkFiles, work_folder

FIRST_MOMENT = 1_000_000
PIECES = 128  # of one packet
DATAGRAMS, PUBLIC_DATAGRAMS = 8, 1_024  # of a subscriber, and of the public side
LONG, SHORT = 504, 8  # bytes of a piece: 128 long ones are nearly as many as a packet may have
PIPE = 1 << 20  # bytes


class Held(NamedTuple):
    """What is held: packets in pieces, each of so many bytes."""

    name: str
    subscribers: int  # none: the public side
    size: int

    def datagrams(self) -> int:
        return self.subscribers * DATAGRAMS if self.subscribers else PUBLIC_DATAGRAMS

    def records(self) -> Iterator[bytes]:
        payload = bytes(PIECES * self.size)
        parts = [Part(at, at + self.size) for at in range(0, len(payload), self.size)]
        for number in range(self.datagrams()):
            yield from fragments(number, payload, parts) if self.subscribers else public_pieces(number, payload, parts)


def fragments(number: int, payload: bytes, parts: List[Part]) -> Iterator[bytes]:
    """The records of one packet of a subscriber, which has as many as it may before the next subscriber has any."""
    softwire, ident = softwire_of(number // DATAGRAMS), number % DATAGRAMS
    for part in parts:
        packet = Softwire(source=softwire, inner=ipv6_fragment(payload, part, ident), next_header=FRAGMENT)
        yield frame(FROM_SOFTWIRE, FIRST_MOMENT, packet.spelled())


def public_pieces(number: int, payload: bytes, parts: List[Part]) -> Iterator[bytes]:
    """The records of one packet from the public side."""
    packet = Udp(source=quad("203.0.113.5"), destination=quad("192.0.2.8"), ident=number, payload=payload[8:]).spelled()
    for part in parts:
        yield frame(FROM_PUBLIC, FIRST_MOMENT, ipv4_piece(packet, part))


KINDS = [
    Held("one subscriber, long pieces", 1, LONG),
    Held("one subscriber, short pieces", 1, SHORT),
    Held("100 subscribers, long pieces", 100, LONG),
    Held("100 subscribers, short pieces", 100, SHORT),
    Held("the public side, long pieces", 0, LONG),
    Held("the public side, short pieces", 0, SHORT),
]


def status_of(process: int, name: str) -> str:
    with open(f"/proc/{process}/status", encoding="ascii") as source:
        return next(line.split()[1] for line in source if line.startswith(name + ":"))


def is_waiting(process: int) -> bool:
    """Whether it sleeps each of ten times, a hundredth of a second apart: the pipe is empty then."""
    for _ in range(10):
        if status_of(process, "State") != "S":
            return False
        time.sleep(0.01)
    return True


def memory_of(files: WorkFiles, records: Iterator[bytes]) -> int:
    """How many KiB the program has in memory once it has read these records, and before its input ends."""
    files.write("log", b"")
    subprocess.run([files.program, "init", files.path("log")], check=True)
    pipe = files.path("pipe")
    words = ["run", *map(files.path, ("config.toml", "log", "out", "pipe"))]
    with subprocess.Popen([files.program, *words], stdout=subprocess.PIPE) as running:
        with open(pipe, "wb", buffering=PIPE) as out:
            for record in records:
                out.write(record)
            out.flush()
            while not is_waiting(running.pid):
                time.sleep(0.05)
            kilobytes = int(status_of(running.pid, "VmRSS"))
        report, _ = running.communicate()
    if running.returncode != 0 or b"drop" in report:
        raise SystemExit(f"not all was held: {report.decode()}")
    return kilobytes


def lines_of(files: WorkFiles) -> Iterator[str]:
    os.mkfifo(files.path("pipe"))
    none = memory_of(files, iter(()))
    yield f"nothing held: {none} KiB"
    for kind in KINDS:
        more = memory_of(files, kind.records()) - none
        count = kind.datagrams()
        yield f"{kind.name} of {kind.size} bytes: {count} packets, {more} KiB more, {more / count:.1f} a packet"


def main(words: List[str]) -> int:
    parser = argparse.ArgumentParser(description="Measures the memory of packets that are held in pieces.")
    parser.add_argument("program")
    arguments = parser.parse_args(words)
    with work_folder("measure_pieces") as folder:
        for line in lines_of(WorkFiles(os.path.abspath(arguments.program), folder)):
            print(line, flush=True)
    return 0


if __name__ == "__main__":
    sys.exit(main(sys.argv[1:]))
