#!/usr/bin/env python3
"""The edge to real files, which no proof reaches: calls on the system that are left out, cut short, or fail.

Order: a traced run writes a frame behind the closed gate, syncs, writes the gate, syncs, and only then sends; of a new
log the folder is synced first. Short calls: where each read and write moves but a few bytes, all files and reports are
the same. Failing calls: each call on a file fails once; the run ends with that file's fault, and the log can be read,
tells what it told before, names the sender of each packet that went out, and is taken by the next run. Sizes: those of
files of more than 4 GiB, too.

The first part needs strace, the second a C compiler, the third one of both; what is missing is skipped. The last line
is 'N passed, M failed', and the exit status 0 where M is 0. Usage: check_edge.py PROGRAM
"""

from __future__ import annotations

import errno
import os
import shutil
import subprocess
import sys
from typing import Callable, Dict, Iterator, List, NamedTuple, Optional, Sequence, Tuple

from log_form import EMPTY_LOG, Damaged, Told, read_log
from model import told_lines
from senders import NoOutlet, Stream, closed, keeps, misnamed, whole_packets
from traced_calls import Follower, OutOfOrder, traced
from work_folder import WorkFiles, work_folder

SCRIPTS = os.path.dirname(os.path.abspath(__file__))
FIRST_MOMENT = 1_000_000
RUN = ("run", "config.toml", "log", "out", "in")
RECORDS = 6  # of the runs whose calls fail
NOTHING = "records 0\nsent 0\nmarks 0\n"
LOG_FAULT, OUT_FAULT, READ_FAULT = (5, "fault LogFault\n"), (6, ""), (4, "fault ReadFault\n")
Answer = Tuple[int, str]


class Wrong(Exception):
    """What a case found."""


def demand(holds: bool, what: str) -> None:
    if not holds:
        raise Wrong(what)


class Room(WorkFiles):
    """A folder with the files of one case, and the program in it."""

    def call(self, *words: str, before: Sequence[str] = (), settings: Optional[Dict[str, str]] = None) -> Answer:
        """The status and the report, which goes to a file. Nothing goes to standard error."""
        with open(self.path("report"), "wb") as report:
            done = subprocess.run(
                [*before, self.program, *words],
                cwd=self.folder,
                env={**os.environ, **(settings or {})},
                stdout=report,
                stderr=subprocess.PIPE,
                check=False,
                timeout=600,
            )
        demand(done.stderr == b"", f"'{' '.join(words)}' says {done.stderr[:200]!r}")
        return done.returncode, self.read("report").decode()

    def first_run(self, records: int) -> None:
        """A log of a run that ended well, with open leases."""
        self.write("in", Stream(1).part(FIRST_MOMENT, records))
        demand(self.call("init", "log") == (0, ""), "init fails")
        demand(self.call(*RUN)[0] == 0, "a run fails")
        os.rename(self.path("out"), self.path("out0"))

    def next_input(self, records: int) -> None:
        begin = read_log(self.read("log")).end() + 1
        self.write("in", Stream(2).part(begin, records))


# ---- the order of calls


def init_is_safe(room: Room) -> None:
    for log in ("log", "folder/log"):
        os.makedirs(room.path("folder"), exist_ok=True)
        follower = Follower(room.folder, log, None)
        follower.follow(traced(room.program, room.folder, ("init", log)))
        demand(room.read(log) == EMPTY_LOG == follower.safe, "init makes no empty log that is synced")


def run_is_ordered(room: Room) -> None:
    """Two runs, the second of which recovers the log first."""
    room.first_run(0)
    for turn in range(2):
        room.next_input(60)
        follower = Follower(room.folder, "log", "out")
        follower.follow(traced(room.program, room.folder, RUN))
        demand(follower.safe == room.read("log"), "the log has bytes that no call wrote")
        demand(follower.sent == room.read("out"), "the outlet has bytes that no call wrote")
        demand(follower.commits > 10 and follower.named > 40, f"run {turn} has too few commits to tell")


# ---- calls that are cut short


def story_of(room: Room, settings: Dict[str, str]) -> Tuple[List[Answer], List[bytes]]:
    """What some commands answer and leave with these settings of the library."""
    answers, left = [room.call("init", "log", settings=settings)], []
    for number in (1, 2):
        room.write("in", Stream(number).part(FIRST_MOMENT + (number - 1) * 100_000, 40))
        answers.append(room.call(*RUN, settings=settings))
        left.append(room.read("out"))
    for words in (("leases", "log"), ("init", "log"), ("trace", "log", "192.0.2.8", "1024", str(FIRST_MOMENT))):
        answers.append(room.call(*words, settings=settings))
    return answers, [*left, room.read("log")]


def short_calls_change_nothing(room: Room, library: str) -> None:
    plain = story_of(room, {})
    demand(min(len(whole_packets(outlet)[0]) for outlet in plain[1][:2]) > 20, "too few packets to tell")
    for most in (1, 7):
        with work_folder("short_calls", room.folder) as folder:
            other = Room(room.program, folder)
            settings = {"LD_PRELOAD": library, "SHORT_CALLS_MOST": str(most), "SHORT_CALLS_SEEN": other.path("seen")}
            found = story_of(other, settings)
            cuts = other.read("seen").count(b"c")
            differing = [pair for pair in zip(found[0], plain[0]) if pair[0] != pair[1]]
            demand(not differing, f"with {most} bytes a call, and without that, it answers {differing[:1]}")
            demand(found[1] == plain[1], f"with {most} bytes a call the outlets or the log have other bytes")
            demand(cuts > 100, f"only {cuts} calls were cut")


# ---- calls that fail


class Fault(NamedTuple):
    """A call of a kind on a file fails, the first or a later one."""

    kind: str
    file: str
    error: int
    answer: Answer  # how the command has to end
    most: int = 0  # where above 0, all calls are cut short too
    words: Sequence[str] = RUN

    def name(self) -> str:
        error = errno.errorcode.get(self.error, "an answer of 0")
        short = f", with {self.most} bytes a call" if self.most else ""
        short += f", and the outlet is the {self.file}" if self in SHARED else ""
        return f"{self.words[0]}: a {self.kind} of the {self.file} fails with {error}{short}"


FAULTS = [
    *[Fault("write", "log", error, LOG_FAULT, most) for error in (errno.EIO, errno.ENOSPC) for most in (0, 7)],
    *[Fault(kind, "log", errno.EIO, LOG_FAULT) for kind in ("read", "sync", "lock", "stat")],
    *[Fault("write", "out", error, OUT_FAULT, most) for error in (errno.EIO, errno.ENOSPC) for most in (0, 7)],
    Fault("write", "log", 0, LOG_FAULT),
    Fault("write", "out", 0, OUT_FAULT),
    *[Fault(kind, "out", errno.EIO, OUT_FAULT) for kind in ("stat", "truncate")],
    Fault("read", "in", errno.EIO, READ_FAULT, 100),
    Fault("read", "config.toml", errno.EIO, READ_FAULT),
    *[Fault("write", name, errno.EINTR, answer) for name, answer in (("log", LOG_FAULT), ("out", OUT_FAULT))],
    *[Fault("sync", "log", errno.EINTR, LOG_FAULT), Fault("read", "log", errno.EINTR, LOG_FAULT)],
    Fault("read", "in", errno.EINTR, READ_FAULT),
]
INIT_FAULTS = [
    Fault("sync", ".", errno.EIO, LOG_FAULT, words=("init", "log")),
    *[Fault(kind, "log", errno.EIO, LOG_FAULT, words=("init", "log")) for kind in ("write", "sync", "lock", "stat")],
]
# The outlet is one of the files, and the call by which that is known fails.
SHARED = [
    Fault("stat", file, errno.EIO, LOG_FAULT, words=(*RUN[:3], file, "in")) for file in ("log", "in")
]


class Way:
    """How the numbered call of a fault is made to fail. Each fails in a run of its own, until there is none more."""

    name = ""

    def call(self, room: Room, fault: Fault, number: int) -> Tuple[Answer, bool]:
        """What the command ends with, and whether a call failed."""
        raise NotImplementedError


class ByLibrary(Way):
    """A library that stands before the C library."""

    name = "the library"

    def __init__(self, library: str) -> None:
        self.library = library

    def call(self, room: Room, fault: Fault, number: int) -> Tuple[Answer, bool]:
        room.write("seen", b"")
        settings = {
            "LD_PRELOAD": self.library,
            "SHORT_CALLS_SEEN": room.path("seen"),
            "SHORT_CALLS_FAIL": f"{fault.kind} {number} {fault.error} {room.path(fault.file)}",
            **({"SHORT_CALLS_MOST": str(fault.most)} if fault.most else {}),
        }
        return room.call(*fault.words, settings=settings), b"f" in room.read("seen")


class ByStrace(Way):
    """A tracer that answers in the system's place. It can't cut a call short."""

    name = "strace"
    CALLS = {
        "read": "read,pread64",
        "write": "write,pwrite64",
        "sync": "fsync,fdatasync",
        "lock": "flock",
        "stat": "statx,fstat,newfstatat",
        "truncate": "ftruncate",
    }

    def call(self, room: Room, fault: Fault, number: int) -> Tuple[Answer, bool]:
        calls = self.CALLS[fault.kind]
        how = f"error={errno.errorcode[fault.error]}" if fault.error else "retval=0"
        inject = ["-e", f"trace={calls}", "-e", f"inject={calls}:{how}:when={number}"]
        before = ["strace", "-f", "-o", room.path("seen"), "-P", os.path.normpath(room.path(fault.file)), *inject]
        return room.call(*fault.words, before=before), b"INJECTED" in room.read("seen")


def numbers(fault: Fault) -> Iterator[int]:
    """Of the many short calls every seventh fails."""
    return iter(range(1, 400, 7 if 0 < fault.most < 100 else 1))


def calls_fail(room: Room, way: Way, fault: Fault) -> None:
    room.first_run(RECORDS)
    room.next_input(RECORDS)
    kept = {name: room.read(name) for name in ("log", "in")}
    whole = room.call(*RUN), room.read("log"), room.read("out")
    for number in numbers(fault):
        for name, data in kept.items():
            room.write(name, data)
        room.write("out", b"")
        answer, failed = way.call(room, fault, number)
        found = answer, room.read("log"), room.read("out")
        if not failed:
            demand(number > 1, "there is no such call")
            demand(found == whole, "a run without a fault is another")
            return
        went_on = fault.error == errno.EINTR and found == whole  # such a call may be made again
        demand(answer == fault.answer or went_on, f"call {number}: the run ends with {answer}")
        log_is_kept(room, read_log(kept["log"]), f"call {number}: ")


def log_is_kept(room: Room, before: Told, where: str) -> None:
    """The log is one, tells what it told, and names each packet; so it does after the next run, which takes it."""
    packets = [packet for name in ("out0", "out") for packet in whole_packets(room.read(name))[0]]
    found = told_now(room, where)
    demand(room.call("leases", "log") == (0, told_lines(found)), f"{where}leases says something else than the log")
    demand(keeps(before, found), f"{where}the log lost something")
    wrong = misnamed(found, packets)
    demand(wrong is None, f"{where}{wrong}")
    demand(room.call("run", "config.toml", "log", "nowhere", "nothing") == (0, NOTHING), f"{where}no run goes on")
    recovered = told_now(room, where)
    demand(told_lines(recovered) == told_lines(closed(found)), f"{where}the next run does more than close all leases")
    wrong = misnamed(recovered, packets)
    demand(wrong is None, f"{where}after the next run {wrong}")


def told_now(room: Room, where: str) -> Told:
    try:
        return read_log(room.read("log"))
    except Damaged as damage:
        raise Wrong(f"{where}the log is damaged at {damage.offset}") from None


def init_fails(room: Room, way: Way, fault: Fault) -> None:
    """What couldn't be made is a part of an empty log. One without a byte is made by the next init."""
    for number in numbers(fault):
        room.write("log", b"")
        answer, failed = way.call(room, fault, number)
        if not failed:
            demand(number > 1 and answer == (0, ""), f"init ends with {answer}, and no call {number} failed")
            return
        demand(answer == fault.answer, f"call {number}: init ends with {answer}")
        left = room.read("log")
        again = (0, "") if left == b"" else (9, f"fault AlreadyThere {len(left)}\n")
        demand(EMPTY_LOG.startswith(left), f"call {number}: init leaves {left.hex()}")
        demand(room.call("init", "log") == again, f"call {number}: another init doesn't end with {again}")


def shared_files_are_kept(room: Room, way: Way, fault: Fault) -> None:
    """No file is spoilt. Where it isn't seen that the outlet is one of them, it counts as one that can't be opened."""
    room.first_run(RECORDS)
    room.next_input(RECORDS)
    log, source = read_log(room.read("log")), room.read("in")
    for number in numbers(fault):
        answer, failed = way.call(room, fault, number)
        demand(keeps(log, told_now(room, f"call {number}: ")), f"call {number}: the log lost something")
        demand(room.read("in") == source, f"call {number}: the input loses its bytes")
        demand(answer in (fault.answer, OUT_FAULT), f"call {number}: the run ends with {answer}")
        if not failed:
            demand(number > 1, "there is no such call")
            return


# ---- sizes


HUGE = (1 << 32) + 5  # its lower 32 bits are few


def sizes_are_right(room: Room) -> None:
    for size in (1, 16, 17, 65_536, HUGE):
        room.write("some", b"\1" * min(size, 16))
        os.truncate(room.path("some"), size)
        found = room.call("init", "some")
        demand(found == (9, f"fault AlreadyThere {size}\n"), f"init on {size} bytes ends with {found}")
        demand(os.path.getsize(room.path("some")) == size, f"init changes a file of {size} bytes")
        os.remove(room.path("some"))


def long_file_is_a_log(room: Room) -> None:
    """More than 4 GiB behind the closed gate: the log is read, and goes on in its place."""
    room.first_run(RECORDS)
    kept = room.read("log")
    os.truncate(room.path("log"), HUGE)
    demand(room.call("leases", "log") == (0, told_lines(read_log(kept))), "leases says something else than the log")
    room.write("in", Stream(2).part(read_log(kept).end() + 1, RECORDS))
    demand(room.call(*RUN)[0] == 0, "no run goes on")
    demand(os.path.getsize(room.path("log")) == HUGE, "the run changes the file's size")
    with open(room.path("log"), "rb") as source:
        told = read_log(source.read(1 << 20))
    demand(keeps(read_log(kept), told), "the log lost something")
    wrong = misnamed(told, whole_packets(room.read("out0"))[0] + whole_packets(room.read("out"))[0])
    demand(wrong is None, wrong or "")


# ---- all cases


class Checks:
    """Counts what passed and what failed; says what failed or is skipped."""

    def __init__(self, program: str) -> None:
        self.program = program
        self.passed = self.failed = 0

    def check(self, name: str, case: Callable[[Room], None]) -> None:
        try:
            with work_folder("check_edge") as folder:
                case(Room(self.program, folder))
            self.passed += 1
        except (Wrong, OutOfOrder, NoOutlet, Damaged) as wrong:
            self.failed += 1
            said = f"the log is damaged at {wrong}" if isinstance(wrong, Damaged) else wrong
            print(f"failed: {name}\n    {said}\n    the files are in {folder}")


def has_strace() -> bool:
    words = ["strace", "-f", "-xx", "-o", os.devnull, "true"]
    if shutil.which("strace") is None:
        return False
    return subprocess.run(words, check=False, capture_output=True).returncode == 0


def built_library(folder: str) -> Optional[str]:
    """The library that cuts calls short, where a C compiler builds it."""
    library = os.path.join(folder, "short_calls.so")
    for compiler in ("cc", "gcc", "clang"):
        if shutil.which(compiler) is not None:
            words = [compiler, "-O1", "-shared", "-fPIC", "-o", library, os.path.join(SCRIPTS, "short_calls.c")]
            if subprocess.run(words, check=False, capture_output=True).returncode == 0:
                return library
    return None


def is_heard(program: str, library: str) -> bool:
    """Whether the program's calls go through the library. They don't where it is linked statically."""
    with work_folder("check_edge") as folder:
        room = Room(program, folder)
        settings = {"LD_PRELOAD": library, "SHORT_CALLS_SEEN": room.path("seen"), "SHORT_CALLS_MOST": "1"}
        room.call("init", "log", settings=settings)
        seen = room.read("seen")
    return seen.startswith(b"l") and b"c" in seen


def injects(program: str) -> bool:
    """Whether strace makes calls on a file fail, which old ones don't."""
    fault = Fault("lock", "log", errno.EIO, LOG_FAULT, words=("init", "log"))
    with work_folder("check_edge") as folder:
        return ByStrace().call(Room(program, folder), fault, 1)[1]


def check_faults(checks: Checks, way: Way, faults: Sequence[Fault]) -> None:
    for fault in faults:
        case = init_fails if fault in INIT_FAULTS else shared_files_are_kept if fault in SHARED else calls_fail
        checks.check(f"{fault.name()}, by {way.name}", lambda room, case=case, fault=fault: case(room, way, fault))


def check_all(checks: Checks, folder: str) -> None:
    checks.check("sizes of files", sizes_are_right)
    checks.check("a log in a long file", long_file_is_a_log)
    traces = has_strace()
    if traces:
        checks.check("the order of init's calls", init_is_safe)
        checks.check("the order of a run's calls", run_is_ordered)
    else:
        print("skipped: no strace, so the order of calls isn't looked at")
    library = built_library(folder)
    if library is not None and is_heard(checks.program, library):
        checks.check("short calls", lambda room: short_calls_change_nothing(room, library))
        check_faults(checks, ByLibrary(library), INIT_FAULTS + SHARED + FAULTS)
        return
    why = "no C compiler" if library is None else "the program doesn't call the C library"
    print(f"skipped: {why}, so no call is cut short")
    if traces and injects(checks.program):
        check_faults(checks, ByStrace(), [fault for fault in INIT_FAULTS + SHARED + FAULTS if not fault.most])
    else:
        print("skipped: nor is there a strace that makes calls fail, so none fails")


def main() -> int:
    if len(sys.argv) != 2 or not os.access(sys.argv[1], os.X_OK):
        print("usage: check_edge.py PROGRAM", file=sys.stderr)
        return 1
    checks = Checks(os.path.abspath(sys.argv[1]))
    with work_folder("check_edge") as folder:
        check_all(checks, folder)
    print(f"{checks.passed} passed, {checks.failed} failed")
    return 1 if checks.failed else 0


if __name__ == "__main__":
    sys.exit(main())
