#!/usr/bin/env python3
"""Kills runs at random moments, and lets the program go on with the log that it finds: every packet that ever stood
whole in an outlet must be named by the log, as it lies and ever after, with its sender and nobody else.

One log is made. Each run gets the next part of an endless input and an outlet of its own, and is killed while it
runs; half of the times a run without any record comes next, which recovers the log. After each kill and each run the
log is read on, and what it tells is asked of `leases`, and whom it names for some packets of `trace`. What is told once
stays told: open leases close at the horizon, and nothing else changes. A packet is looked up as long as its lease is
open, and no lease may ever meet another one. At the end, and all along where the kills are few, the plain model's
reader reads the whole log, and every packet so far is looked up in what it reads.

Then recoveries are killed that write more than one frame, of a log of many open leases that nobody closed. The next
run takes up where the last one was, and leaves the bytes that one recovery alone leaves.

Prints one line of counts. At the first violation it says what happened, keeps the files, and ends with 1.
"""

from __future__ import annotations

import argparse
import os
import random
import subprocess
import sys
import time
from collections import Counter
from copy import deepcopy
from typing import List, Tuple

from growing_log import Changed, GrowingLog, Step
from log_form import Batch, Damaged, Lease, Prefix, Told, read_log, spelled_log
from model import SUBSCRIBER_LENGTH, told_lines, trace_line
from packets import quad, softwire_of
from senders import NoOutlet, Promises, Sent, Stream, closed, ends_in_pieces, keeps, misnamed, whole_packets
from work_folder import WorkFiles, work_folder

FIRST_MOMENT = 1_000_000
SETTLING = 1_000  # a run's first packets are this long before the moment from which packets are sent
RUN_SECONDS = 0.5  # of a whole run, about
FEWEST, MOST = 100, 4_000  # records of a run
FEW_KILLS = 10  # after each of which the plain reader reads the log, too
OPEN_LEASES = 1_100
NOTHING = "records 0\nsent 0\nmarks 0\n"


class Violation(Exception):
    """The program broke its promise."""


def demand(holds: bool, what: str) -> None:
    if not holds:
        raise Violation(what)


class Files(WorkFiles):
    """The program in a folder with its files, and its whole and its killed runs."""

    def call(self, *words: str) -> str:
        """What a command prints, which has to end well."""
        done = subprocess.run(
            [self.program, *words], cwd=self.folder, capture_output=True, text=True, check=False, timeout=600
        )
        said = f"'{' '.join(words)}' ended with {done.returncode} and {(done.stdout + done.stderr)[:200]!r}"
        demand(done.returncode == 0 and done.stderr == "", said)
        return done.stdout

    def run(self, outlet: str, source: str, log: str = "log") -> Tuple[str, float]:
        """What a whole run prints, and the seconds that it took."""
        begin = time.monotonic()
        printed = self.call("run", "config.toml", log, outlet, source)
        return printed, time.monotonic() - begin

    def run_killed(self, outlet: str, source: str, seconds: float, log: str = "log", grown: bool = False) -> bool:
        """Starts a run and kills it these seconds later, or later than the log grew. Whether it still ran then."""
        words = [self.program, "run", "config.toml", log, outlet, source]
        size = os.path.getsize(self.path(log))
        with subprocess.Popen(words, cwd=self.folder, stdout=subprocess.DEVNULL, stderr=subprocess.PIPE) as process:
            while grown and process.poll() is None and os.path.getsize(self.path(log)) == size:
                time.sleep(0.0005)
            try:
                process.wait(seconds)
            except subprocess.TimeoutExpired:
                process.kill()
            said = process.communicate()[1]
        status = process.returncode
        demand(status in (0, -9) and said == b"", f"a run ended with {status} and {said[:200]!r}")
        return status != 0


class Trial:
    """One log, and all that was sent onto its name."""

    def __init__(self, files: Files, seed: int, asked: int, is_short: bool) -> None:
        self.files = files
        self.random = random.Random(seed)
        self.stream = Stream(seed)
        self.asked = asked
        self.is_short = is_short
        self.promises = Promises()
        self.log = GrowingLog()
        self.plain = Told()
        self.counts: Counter[str] = Counter()
        self.records = FEWEST
        self.start = self.seconds = 0.0  # of a run without a record, and of the records of one

    @property
    def told(self) -> Told:
        return self.log.told

    @property
    def packets(self) -> List[Sent]:
        return self.promises.packets

    def measure(self) -> None:
        """Finds how many records make a run of the wanted length, on a log that isn't used otherwise."""
        for scale in ("first", "second"):
            log = f"{scale}.log"
            self.files.call("init", log)
            self.files.write("in", Stream(0).part(FIRST_MOMENT, self.records))
            _, self.start = self.files.run("out", "nothing", log)
            self.seconds = max(self.files.run("out", "in", log)[1] - self.start, 0.001)
            if scale == "first":
                self.records = min(MOST, max(FEWEST, round(self.records * RUN_SECONDS / self.seconds)))

    def delay(self) -> float:
        """Seconds up to a kill: once in four runs in its beginning, where the log is read and recovered."""
        if self.random.random() < 0.25:
            return self.random.uniform(0, self.start)
        return self.start + self.random.uniform(-0.05 * self.start, 1.05 * self.seconds)

    def kill_one(self, turn: int) -> None:
        """A run on the next part of the input, which is killed."""
        floor, outlet = self.told.end(), f"out{turn}"
        self.files.write("in", self.stream.part(max(FIRST_MOMENT, floor - SETTLING), self.records))
        was_running = self.files.run_killed(outlet, "in", self.delay())
        found = self.files.read(outlet)
        packets, cut = whole_packets(found)
        self.promises.add(packets)
        self.look("after the kill")
        early = [packet for packet in packets if packet.moment <= floor]
        demand(not early, f"a packet left at {early[:1]}, and the log tells up to {floor} what was before")
        self.counts["ended" if not was_running else "amid" if found else "early"] += 1
        self.counts["cut"] += cut > 0
        self.counts["apart"] += ends_in_pieces(found)
        self.counts["gated"] += len(self.files.read("log")) > self.told.tail
        self.ask(packets[-self.asked // 4 :] + self.some(self.packets, self.asked - self.asked // 4))

    def recover(self) -> None:
        """A run without a record: it closes all leases at the horizon, and does nothing else."""
        printed, self.start = self.files.run("nowhere", "nothing")
        demand(printed == NOTHING, f"a run without a record prints {printed!r}")
        demand(self.files.read("nowhere") == b"", "a run without a record sends something")
        step = self.look("after the recovery")
        as_wanted = told_lines(closed(step.before)) == told_lines(step.after)
        demand(as_wanted, "the recovery did more than to close all leases at the horizon")
        self.ask(self.some(self.packets, self.asked // 4))

    def run_whole(self) -> None:
        """Last, a run that nobody kills."""
        self.files.write("in", self.stream.part(self.told.end() + 1, self.records))
        printed, _ = self.files.run("last", "in")
        found = self.files.read("last")
        packets, cut = whole_packets(found)
        demand(not ends_in_pieces(found), "of the last run's last packet a piece is missing")
        demand(f"sent {len(packets)}\n" in printed and packets != [] and cut == 0, f"the last run prints {printed!r}")
        demand(any(packet.is_later for packet in packets), "no packet of the last run was cut")
        self.promises.add(packets)
        self.look("after the last run")

    def look(self, when: str) -> Step:
        """Reads the log on as it lies: it tells what it told before, and names every packet so far."""
        step = read_on(self.log, self.files.read("log"), when)
        wrong = self.promises.broken(self.told.horizon, step.opened)
        demand(wrong is None, f"{when} {wrong}")
        printed = self.files.call("leases", "log")
        demand(printed == self.log.lines(), f"{when} `leases` tells something else than stands there")
        if self.is_short:
            self.look_plainly(when)
        return step

    def look_plainly(self, when: str) -> None:
        """The same for the whole log and every packet so far, by the plain reader."""
        plain = read_log(self.files.read("log"))
        demand(self.log.told.is_as(plain), f"{when} the log that was read on isn't as the plain reader reads it")
        demand(told_lines(plain) == self.log.lines(), f"{when} the lines of the log that was read on are others")
        demand(keeps(self.plain, plain), f"{when} the whole log doesn't tell all that it told before")
        wrong = misnamed(plain, self.packets)
        demand(wrong is None, f"{when} {wrong}, by the plain reader")
        self.plain = plain

    def ask(self, packets: List[Sent]) -> None:
        """The program's own answers, which have to be those of the reader."""
        for packet in packets:
            answer = self.files.call("trace", "log", *packet.words())
            read = trace_line(self.told, packet.place, packet.moment)
            said = f"trace answers {answer!r} and the reader {read!r} for {packet}"
            demand(answer == read == packet.answer(), said)
        self.counts["asked"] += len(packets)

    def some(self, packets: List[Sent], count: int) -> List[Sent]:
        return self.random.sample(packets, min(count, len(packets)))


def read_on(log: GrowingLog, data: bytes, when: str) -> Step:
    """What a log tells now that it has these bytes: all that it told before, and more."""
    try:
        step = log.read_on(data)
    except Damaged as damage:
        raise Violation(f"{when} the log is damaged at {damage.offset}") from None
    except Changed as changed:
        raise Violation(f"{when} the log has another byte at {changed.offset} than it had before") from None
    demand(keeps(step.before, step.after), f"{when} the log doesn't tell all that it told before")
    return step


def log_of_open_leases() -> bytes:
    """A log of a greater pool: its recovery takes a frame of 1,024 closings and a smaller one."""
    messages, count = [], 0
    for first in range(0, OPEN_LEASES, 1000):
        numbers = range(first, min(first + 1000, OPEN_LEASES))
        batch = Batch(FIRST_MOMENT, horizon=FIRST_MOMENT + 2000, openings=[open_lease(number) for number in numbers])
        messages.append(batch.message(count))
        count += batch.count()
    return spelled_log(messages)


def open_lease(number: int) -> Lease:
    """Of another subscriber and another block each: an address has 126."""
    first = 1024 + 512 * (number % 126)
    owner = Prefix(softwire_of(number, 0), SUBSCRIBER_LENGTH)
    return Lease(owner, quad("198.51.100.0") + number // 126, first, first + 511, FIRST_MOMENT)


def kill_recoveries(trial: Trial, kills: int) -> None:
    """Kills each a few milliseconds after it began to write, and lets the next run end."""
    files, before = trial.files, log_of_open_leases()
    files.write("many.log", before)
    files.run("nowhere", "nothing", "many.log")
    alone = files.read("many.log")
    demand(told_lines(read_log(alone)) == told_lines(closed(read_log(before))), "a recovery leaves leases open")
    log = GrowingLog()
    log.read_on(before)
    for _ in range(kills):
        files.write("many.log", before)
        was_running = files.run_killed("nowhere", "nothing", trial.random.uniform(0, 0.02), "many.log", True)
        step = read_on(deepcopy(log), files.read("many.log"), "after a recovery was killed")
        left = len(step.after.open_leases())
        other = f"a recovery that left {left} leases open isn't taken up by the next run"
        trial.counts["recoveries"] += was_running
        trial.counts["halves"] += 0 < left < OPEN_LEASES
        files.run("nowhere", "nothing", "many.log")
        demand(files.read("many.log") == alone, other)


def summary(trial: Trial) -> str:
    counts = trial.counts
    kills, pieces = counts["amid"] + counts["early"] + counts["ended"], sum(packet.is_later for packet in trial.packets)
    return (
        f"{kills} kills of runs of {trial.records} records: {counts['amid']} amid the sending, "
        f"{counts['early']} before the first packet, {counts['ended']} after the end; {counts['cut']} cut a record, "
        f"{counts['apart']} came between a packet's pieces, {counts['gated']} left bytes behind the closed gate; "
        f"{len(trial.packets)} packets named, {pieces} of them pieces behind a first one, "
        f"{counts['asked']} asked; {counts['recoveries']} recoveries killed, {counts['halves']} between their frames"
    )


def go(trial: Trial, kills: int) -> None:
    trial.files.call("init", "log")
    trial.measure()
    turn = 0
    while turn < kills or trial.counts["amid"] == 0 and turn < 3 * kills:  # a busy machine may need some more
        trial.kill_one(turn)
        if trial.random.random() < 0.5:
            trial.recover()
        turn += 1
    trial.recover()
    trial.run_whole()
    trial.look_plainly("at the end")
    kill_recoveries(trial, max(4, kills // 4))
    demand(kills < 10 or trial.counts["amid"] > 0, "no kill came amid a run, so nothing was tried")


def main() -> int:
    parser = argparse.ArgumentParser(description="Kills runs and looks whether the log still names every sender.")
    parser.add_argument("program")
    parser.add_argument("--kills", type=int, default=100)
    parser.add_argument("--seed", type=int, default=int(time.time()))
    parser.add_argument("--asked", type=int, default=20, help="packets that are asked of trace after each kill")
    arguments = parser.parse_args()
    program = os.path.abspath(arguments.program)
    if not os.access(program, os.X_OK):
        print(f"no program at {program}: run scripts/build.sh", file=sys.stderr)
        return 1
    try:
        with work_folder("kill_and_recover") as folder:
            files, is_short = Files(program, folder), arguments.kills <= FEW_KILLS
            trial = Trial(files, arguments.seed, arguments.asked, is_short)
            go(trial, arguments.kills)
    except (Violation, NoOutlet, Damaged) as violation:
        print(f"failed: {violation}; {summary(trial)}; seed {arguments.seed}; the files are in {folder}")
        return 1
    print(f"{summary(trial)}; seed {arguments.seed}")
    return 0


if __name__ == "__main__":
    sys.exit(main())
