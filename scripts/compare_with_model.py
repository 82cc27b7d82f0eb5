#!/usr/bin/env python3
"""Compares the built program with the plain model of model.py.

First come the cases that were worked out by hand, of cases.py and the other files of cases, which both must meet; then
random inputs, logs and words. The inputs are the same for the same seed. Each call of the program is one comparison: of
its exit status, what it prints, and every file that it leaves. Without a program the cases alone are checked, on the
model.
The last line is 'N passed, M failed', and the exit status 0 where M is 0.
"""

from __future__ import annotations

import argparse
import os
import random
import re
import subprocess
import sys
import tempfile
from typing import Iterator, List, Optional, Sequence, Set, Tuple

import log_form
import model
import random_logs
import streams
from cases import cases
from cut_cases import cuts
from error_cases import errors
from log_digits import FIRST_LOG, RICH_LOG
from log_form import EMPTY_LOG, Damaged, Told
from model import Files
from piece_cases import pieces
from whole_cases import wholes
from refusal_cases import refusals
from streams import RUN, Session

ALL_KINDS = 100  # so many streams have each kind of input among them
DEFAULTS = model.Config()


class Comparison:
    """Calls the program, and counts and prints where it differs from the model."""

    def __init__(self, program: Optional[str], folder: str) -> None:
        self.program = program and os.path.abspath(program)
        self.folder = folder
        self.passed = self.failed = 0
        self.reports: Set[str] = set()

    def called(self, words: List[str], files: Files) -> Tuple[int, bytes, bytes, Files]:
        """Exit status, output, standard error and the files left, in a folder of these files alone."""
        for name, data in files.items():
            with open(os.path.join(self.folder, name), "wb") as out:
                out.write(data)
        assert self.program is not None
        call = [self.program, *words]
        done = subprocess.run(
            call, cwd=self.folder, stdin=subprocess.DEVNULL, capture_output=True, check=False, timeout=60
        )
        left: Files = {}
        for entry in os.scandir(self.folder):
            with open(entry.path, "rb") as source:
                left[entry.name] = source.read()
            os.remove(entry.path)
        return done.returncode, done.stdout, done.stderr, left

    def check(
        self, label: str, words: List[str], files: Files, wanted: model.Answer, config: model.Config = DEFAULTS
    ) -> None:
        """One case with what is wanted of it, by the model, and by the program where there is one. It has the defaults."""
        answered = model.answer(words, files, config)
        found = [f"the model answers {answered.report!r}"] if answered != wanted else []
        if self.program is not None and config == DEFAULTS:
            found += self.differences(words, files, wanted)
        self.count(label, words, files, found)

    def count(self, label: str, words: List[str], files: Files, found: List[str], pieces: Sequence[bytes] = ()) -> None:
        if found:
            self.failed += 1
            self.show(label, words, files, pieces, found)
        else:
            self.passed += 1

    def differences(self, words: List[str], files: Files, wanted: model.Answer) -> List[str]:
        status, report, errors, left = self.called(words, files)
        self.reports.update(re.findall("^(?:fault|drop) [A-Za-z]+|^[a-z]+", wanted.report, re.MULTILINE))
        found = []
        if status != wanted.status:
            found.append(f"status {status}, wanted {wanted.status}")
        if report != wanted.report.encode():
            found.append(f"printed {report[:400]!r}, wanted {wanted.report[:400]!r}")
        if errors:
            found.append(f"standard error has {errors[:200]!r}")
        for name in sorted(left.keys() | wanted.files.keys()):
            found += file_differences(name, left.get(name), wanted.files.get(name))
        return found

    def compare(self, label: str, words: List[str], files: Files, pieces: Sequence[bytes] = ()) -> model.Answer:
        """One comparison; gives the model's answer. A difference is shown with few pieces of the input."""
        wanted = model.answer(words, files)
        self.count(label, words, files, self.differences(words, files, wanted), pieces)
        return wanted

    def miss(self) -> None:
        """Counts and prints the lines that no report had, of which the comparison shows nothing."""
        lines = "records sent marks named unheld beyond lease plan horizon".split()
        faults = "BadWords BadConfig BadInput ReadFault LogFault LogDamaged AlreadyThere".split()
        # With the default configuration all mappings that a subscriber may have fit into the blocks that it may have, and
        # every remote may send to a mapping.
        drops = [f"drop {cause}" for cause in model.CAUSES if cause not in ("QuotaBlocks", "Filtered")]
        for line in [*lines, *drops, *(f"fault {name}" for name in faults)]:
            if line not in self.reports:
                self.failed += 1
                print(f"no report has a line '{line}'")

    def show(self, label: str, words: List[str], files: Files, pieces: Sequence[bytes], found: List[str]) -> None:
        if pieces:
            pieces = self.reduced(words, files, pieces)
            files = {**files, "in": b"".join(pieces)}
            found = self.differences(words, files, model.answer(words, files))
        print(f"{label}: {' '.join(map(ascii, words))}")
        for line in found:
            print(f"    {line}")
        for name, data in files.items():
            for piece in pieces[:12] if name == "in" and pieces else [data]:
                print(f"    {name}: {len(piece)} bytes {piece[:120].hex()}")

    def reduced(self, words: List[str], files: Files, pieces: Sequence[bytes]) -> Sequence[bytes]:
        """Fewer pieces of the input that still make a difference."""
        size = len(pieces)
        while size := size // 2:
            at = 0
            while at < len(pieces):
                fewer = [*pieces[:at], *pieces[at + size :]]
                fewer_files = {**files, "in": b"".join(fewer)}
                if self.differences(words, fewer_files, model.answer(words, fewer_files)):
                    pieces = fewer
                else:
                    at += size
        return pieces


def file_differences(name: str, got: Optional[bytes], wanted: Optional[bytes]) -> List[str]:
    if got == wanted:
        return []
    if got is None or wanted is None:
        return [f"{name} is {'missing' if got is None else 'there'}, and should not be"]
    at = len(os.path.commonprefix([got, wanted]))
    shown = f"from {at} on {got[at : at + 40].hex()}, wanted {wanted[at : at + 40].hex()}"
    return [f"{name} has {len(got)} bytes, wanted {len(wanted)}; {shown}"]


def check_cases(comparison: Comparison) -> None:
    """The cases that were worked out by hand."""
    for case in cases():
        wanted = model.Answer(case.status, case.report(), case.after())
        comparison.check(case.name, list(case.words), case.before(), wanted)
    for refusal in (*refusals(), *errors()):
        files: Files = {"config": b"", "log": EMPTY_LOG, "in": b"".join(refusal.records)}
        config = model.Config(is_by_address=refusal.is_by_address)
        wanted = model.Answer(0, refusal.report(), model.answer(RUN, files, config).files)
        comparison.check(refusal.name, RUN, files, wanted, config)
        for record in refusal.shown():
            found = [] if record in wanted.files["out"] else [f"the model doesn't send {record.hex()}"]
            comparison.count(f"{refusal.name}, what is sent", RUN, files, found)


def check_exchanges(comparison: Comparison) -> None:
    """Those of packets in pieces and of packets that are cut, all of whose outlet was worked out."""
    for exchange in (*pieces(), *wholes(), *cuts()):
        files: Files = {"config": b"", "log": exchange.log, "in": b"".join(exchange.records)}
        config = model.Config(**exchange.config)
        left = {**model.answer(RUN, files, config).files, "out": b"".join(exchange.sent)}
        comparison.check(exchange.name, RUN, files, model.Answer(0, exchange.report(), left), config)


def compare_run(comparison: Comparison, label: str, rng: random.Random, session: Session, traces: int) -> None:
    """The run of an input, then what its log tells. Few runs are refused for another file than the input."""
    files: Files = {"config": b"", "log": EMPTY_LOG, "in": b"".join(session.pieces)}
    if rng.random() < 0.5:
        files["out"] = rng.randbytes(rng.randrange(50))
    change = rng.random()
    if change < 0.03:
        files["config"] = rng.choice((b"\n", b"x", b"block_size = 512\n", bytes(65537)))
    elif change < 0.06:
        files["log"] = random_logs.random_log(rng)
    elif change < 0.10:
        files["log"] = rng.choice((b"", EMPTY_LOG[:16], EMPTY_LOG + rng.randbytes(300), log_form.HEADER + b"\2"))
    elif change < 0.13:
        del files[rng.choice(("config", "log", "in"))]
    answer = comparison.compare(label, RUN, files, session.pieces if "in" in files else ())
    if "log" in answer.files:
        compare_log(comparison, label, rng, answer.files["log"], traces)
    compare_later_run(comparison, f"{label}, a later run", rng, answer.files.get("log", EMPTY_LOG), traces // 4)


def compare_later_run(comparison: Comparison, label: str, rng: random.Random, log: bytes, traces: int) -> None:
    """The run of another input on a log that a run left, or on one that another program may have written."""
    if rng.random() < 0.5:
        log = random_logs.random_log(rng, is_sound=True)
    session = streams.ordinary(rng, told_of(log))
    files = {"config": b"", "log": log, "in": b"".join(session.pieces)}
    answer = comparison.compare(label, RUN, files, session.pieces)
    compare_log(comparison, label, rng, answer.files["log"], traces)


def told_of(log: bytes) -> Told:
    """What a log tells once all that was open has closed; nothing where it is damaged."""
    try:
        told = log_form.read_log(log)
    except Damaged:
        return Told()
    for row in told.rows():
        row.until = told.horizon if row.until is None else row.until
    return told


def compare_log(comparison: Comparison, label: str, rng: random.Random, log: bytes, traces: int) -> None:
    """All leases that a log tells, and who had places at and beside their ends."""
    comparison.compare(label, ["leases", "log"], {"log": log})
    told = told_of(log)
    for _ in range(traces):
        comparison.compare(label, random_logs.trace_words(rng, told), {"log": log})


def compare_cuts(comparison: Comparison, label: str, rng: random.Random) -> None:
    """A short input, cut at every byte."""
    session = Session(rng)
    while sum(map(len, session.pieces)) < 150:
        (session.outbound if rng.random() < 0.7 else session.other)()
    data = b"".join(session.pieces)
    for size in range(min(len(data), 300)):
        comparison.compare(f"{label}, cut at {size}", RUN, {"config": b"", "log": EMPTY_LOG, "in": data[:size]})


def changed_logs(rng: random.Random, log: bytes) -> Iterator[bytes]:
    """The log cut at every byte, and with every byte changed: one bit of it, to 0 and to 255."""
    for at, octet in enumerate(log):
        yield log[:at]
        for other in sorted({octet ^ 1 << rng.randrange(8), 0, 255} - {octet}):
            yield log[:at] + bytes([other]) + log[at + 1 :]


def compare_log_bytes(comparison: Comparison, seed: int) -> None:
    """What two sound logs tell after a change of each of their bytes."""
    leases, trace = ["leases", "log"], ["trace", "log", "192.0.2.8", "1024", "1000000"]
    for log in changed_logs(random.Random(seed), bytes.fromhex(FIRST_LOG)):
        comparison.compare("the first log, changed", leases, {"log": log})
        comparison.compare("the first log, changed", trace, {"log": log})
    for log in changed_logs(random.Random(seed), bytes.fromhex(RICH_LOG)):
        comparison.compare("a log of all sets, changed", leases, {"log": log})


def compare_peers(comparison: Comparison, seed: int) -> None:
    """The run of a subscriber with too many peers, and what its log tells."""
    session = streams.many_peers(random.Random(seed))
    files = {"config": b"", "log": EMPTY_LOG, "in": b"".join(session.pieces)}
    answer = comparison.compare(f"seed {seed}, peers", RUN, files, session.pieces)
    comparison.compare(f"seed {seed}, peers", ["leases", "log"], {"log": answer.files["log"]})


def compare_stream(comparison: Comparison, seed: int, number: int, traces: int) -> None:
    """One numbered stream: a run with its log, a log of its own, and words."""
    rng = random.Random(f"{seed} {number}")
    label = f"seed {seed}, stream {number}"
    rare = {10: streams.full_block, 30: streams.long_input, 60: streams.full_pool, 80: streams.long_input}
    usual = [streams.ordinary] * 10 + [streams.mutated] * 4 + [streams.connections] * 3 + [streams.inward] * 3
    usual += [streams.echoes] * 3 + [streams.errors] * 4 + [streams.long_packets] * 8
    compare_run(comparison, label, rng, rare.get(number % 100, rng.choice(usual))(rng), traces)
    if number % 100 == 40:
        compare_cuts(comparison, label, rng)
    if number % 50 == 45:
        compare_log(comparison, f"{label}, a long log", rng, random_logs.long_log(rng), 2)
    for _ in range(2):
        compare_log(comparison, f"{label}, a log", rng, random_logs.random_log(rng), traces // 4)
    for _ in range(3):
        log = rng.choice((b"", EMPTY_LOG, EMPTY_LOG, random_logs.random_log(rng)))
        files = {"config": b"", "log": log, "in": b"", "out": b"old"}
        comparison.compare(f"{label}, words", streams.random_words(rng), files)


def compare_all(comparison: Comparison, seed: int, count: int, traces: int) -> None:
    """All random streams."""
    for number in range(count):
        compare_stream(comparison, seed, number, traces)
    compare_peers(comparison, seed)
    compare_log_bytes(comparison, seed)
    if count >= ALL_KINDS:
        comparison.miss()


def main() -> int:
    parser = argparse.ArgumentParser(description="Compares the built program with the plain model.")
    parser.add_argument("program", nargs="?", help="none: the cases alone, on the model")
    parser.add_argument("--seed", type=int, default=1)
    parser.add_argument("--streams", type=int, default=300)
    parser.add_argument("--only", type=int, metavar="NUMBER", help="one stream by its number, to see it again")
    parser.add_argument("--traces", type=int, default=12, help="queries of each run's log")
    arguments = parser.parse_args()
    if arguments.program is not None and not os.access(arguments.program, os.X_OK):
        parser.error(f"no program at {arguments.program}: run scripts/build.sh")
    with tempfile.TemporaryDirectory() as folder:
        comparison = Comparison(arguments.program, folder)
        if arguments.only is not None:
            compare_stream(comparison, arguments.seed, arguments.only, arguments.traces)
        else:
            check_cases(comparison)
            check_exchanges(comparison)
        if arguments.program is not None and arguments.only is None:
            compare_all(comparison, arguments.seed, arguments.streams, arguments.traces)
    print(f"{comparison.passed} passed, {comparison.failed} failed")
    return 1 if comparison.failed else 0


if __name__ == "__main__":
    sys.exit(main())
