"""The calls of a traced program on its log and its outlet, and whether their order keeps the log's promise.

The file's bytes are followed call by call, those that a sync has made safe apart from the others: what a power cut
would leave at worst. Each packet must be named by the safe ones before its bytes go to the outlet.
"""

from __future__ import annotations

import os
import re
import subprocess
from typing import Dict, List, NamedTuple, Optional, Sequence

from log_form import EMPTY_LOG, Damaged, read_log
from senders import Sent, misnamed, whole_packets
from work_folder import bytes_of

LINE = re.compile(r"(?:\d+ +)?(\w+)\((.*)\) += (-?\d+)(?: .*)?")
STRING = re.compile(r'"((?:\\x[0-9a-f]{2})*)"')
LOG_CALLS = "read pread64 lseek statx fstat newfstatat flock fcntl pwrite64 fsync fdatasync close".split()
OUTLET_CALLS = "statx fstat newfstatat fcntl ftruncate write close".split()
SYNCS = ("fsync", "fdatasync")


class Call(NamedTuple):
    """A call on the system that was answered. Strings are taken out of the words, in their order."""

    name: str
    words: List[str]
    strings: List[bytes]
    answer: int

    def file(self) -> int:
        return int(self.words[0]) if self.words and self.words[0].isdigit() else -1


class OutOfOrder(Exception):
    """A call came where it mustn't."""


def demand(holds: bool, what: str) -> None:
    if not holds:
        raise OutOfOrder(what)


def calls_of(traced: str) -> List[Call]:
    calls = []
    for line in traced.splitlines():
        found = LINE.fullmatch(line)
        if found is not None:
            strings = [bytes.fromhex(text.replace("\\x", "")) for text in STRING.findall(found[2])]
            words = STRING.sub("", found[2]).split(", ")
            calls.append(Call(found[1], words, strings, int(found[3])))
    return calls


def traced(program: str, folder: str, words: Sequence[str]) -> List[Call]:
    """The calls of the program on these words."""
    strace = ["strace", "-f", "-o", "calls", "-xx", "-s", "1000000", program, *words]
    done = subprocess.run(strace, cwd=folder, capture_output=True, text=True, check=False, timeout=600)
    demand(done.returncode == 0, f"the traced program ends with {done.returncode}, {done.stdout!r} {done.stderr!r}")
    with open(os.path.join(folder, "calls"), encoding="ascii") as source:
        return calls_of(source.read())


class Follower:
    """What the calls make of a log and an outlet."""

    def __init__(self, folder: str, log: str, outlet: Optional[str]) -> None:
        self.folder = folder
        self.paths = {"log": log, "outlet": outlet}
        self.files: Dict[int, str] = {}  # by their numbers: "log", "outlet", or another one's path
        self.opened_as: Dict[str, str] = {}  # the words of the call that opened them
        self.bytes = bytearray(bytes_of(os.path.join(folder, log)))
        self.is_new = len(self.bytes) == 0
        self.safe = bytes(self.bytes)  # by the last sync
        self.gate = read_log(self.safe).tail - 1 if not self.is_new else -1
        self.body: Optional[bytearray] = None  # of the frame that is being written
        self.gate_is_written = False
        self.folder_is_synced = False
        self.sent = bytearray()
        self.named = 0  # of the sent packets
        self.commits = 0

    def follow(self, calls: Sequence[Call]) -> None:
        for call in calls:
            if call.name in ("open", "openat", "creat") and call.answer >= 0:
                self.opened(call)
            else:
                self.called(call)
        demand(bytes(self.bytes) == self.safe, "the log isn't synced at the end")

    def opened(self, call: Call) -> None:
        path = os.fsdecode(call.strings[0])
        self.files[call.answer] = path
        for name, wanted in self.paths.items():
            if path == wanted:
                demand(name not in self.opened_as, f"the {name} is opened twice")
                self.files[call.answer] = name
                self.opened_as[name] = " ".join(call.words)
        demand("O_TRUNC" not in self.opened_as.get("log", ""), "the log is opened with O_TRUNC")

    def called(self, call: Call) -> None:
        name = self.files.get(call.file(), "")
        if call.name == "mmap":
            demand(self.files.get(int(call.words[4]), "") not in self.paths, "the log or the outlet is mapped")
        elif name == "log":
            demand(call.name in LOG_CALLS, f"{call.name} on the log")
            self.on_log(call)
        elif name == "outlet":
            demand(call.name in OUTLET_CALLS, f"{call.name} on the outlet")
            self.on_outlet(call)
        elif call.name in SYNCS and call.answer == 0 and name and self.is_folder(name):
            self.folder_is_synced = True
        if call.name == "close":
            self.files.pop(call.file(), None)

    def is_folder(self, path: str) -> bool:
        log = os.path.join(self.folder, self.paths["log"] or "")
        return os.path.realpath(os.path.join(self.folder, path)) == os.path.dirname(os.path.realpath(log))

    def on_log(self, call: Call) -> None:
        if call.name == "pwrite64":
            self.written(call.strings[0][: max(call.answer, 0)], int(call.words[3]))
        elif call.name in SYNCS and call.answer == 0:
            self.synced()

    def written(self, data: bytes, at: int) -> None:
        demand(not self.is_new or self.folder_is_synced, "the log is written before its folder is synced")
        if self.gate >= 0:
            self.check_place(data, at)
        self.bytes[at : at + len(data)] = data

    def check_place(self, data: bytes, at: int) -> None:
        """A body goes behind the closed gate, in one piece or more, and a 1 on the gate once the body is safe."""
        demand(not self.gate_is_written, "a write before the gate's sync")
        if at != self.gate:
            end = self.gate + 1 + len(self.body or b"")
            demand(at == end, f"a write at {at}, which isn't {end} behind the gate")
            self.body = (self.body or bytearray()) + data
            return
        demand(data == b"\x01", f"the gate gets {data.hex()}")
        demand(self.body is not None and is_frame(self.body), "the gate is opened to no whole frame")
        demand(bytes(self.bytes) == self.safe, "the gate is opened before its frame is synced")
        self.gate_is_written = True

    def synced(self) -> None:
        self.safe = bytes(self.bytes)
        if self.gate < 0 and self.safe == EMPTY_LOG:
            self.gate = len(self.safe) - 1
        elif self.gate_is_written:
            self.gate += len(self.body or b"")
            self.body, self.gate_is_written = None, False
            self.commits += 1

    def on_outlet(self, call: Call) -> None:
        if call.name == "ftruncate":
            demand(not self.sent, "the outlet is emptied after a packet")
        elif call.name == "write":
            demand(self.body is None, "a packet is sent amid a commit")
            self.sent += call.strings[0][: max(call.answer, 0)]
            self.check_names()

    def check_names(self) -> None:
        packets: List[Sent] = whole_packets(bytes(self.sent))[0]
        try:
            wrong = misnamed(read_log(self.safe), packets[self.named :])
        except Damaged as damage:
            wrong = f"it is damaged at {damage.offset}"
        demand(wrong is None, f"a packet is sent, and of the log that is safe then {wrong}")
        self.named = len(packets)


def is_frame(body: bytes) -> bool:
    """A length, a message of that length, and a closed gate."""
    return len(body) >= 5 and len(body) == 4 + int.from_bytes(body[:4], "big") + 1 and body[-1] == 0
