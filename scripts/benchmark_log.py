#!/usr/bin/env python3
"""Measures what a query of a long log takes: 'trace' and 'leases' over logs of 10,000 and 100,000 records, the best
time of three runs each and the most memory. Usage: benchmark_log.py [PROGRAM..], the built one where none is given.
A measurement, which nothing is tested by.

The logs are written by the model, one frame a moment as a run writes them: all 504 blocks of the default pool are taken
by turns, each by another subscriber once its lease has closed.
"""

from __future__ import annotations

import os
import subprocess
import sys
import tempfile
import time
from typing import List, Tuple

import log_form
from log_form import Batch, Lease, Log, Prefix, Told
from model import BLOCK_SIZE, FIRST_PORTS, Config
from model_packets import POOL
from packets import softwire_of

TOP = os.path.dirname(os.path.dirname(os.path.abspath(__file__)))
SIZES = (10_000, 100_000)
RUNS = 3
FIRST_MOMENT, STEP = 1_000_000, 1_000


def made_log(records: int) -> bytes:
    """A log of about so many records; the newest 504 leases are open."""
    log, config, horizon, moment = Log(log_form.EMPTY_LOG, Told()), Config(), 0, FIRST_MOMENT
    places = [(address, first) for address in POOL for first in FIRST_PORTS]
    leases: List[Lease] = []
    while log.count < records:
        number = len(leases)
        address, first = places[number % len(places)]
        batch = Batch(moment)
        if number >= len(places):
            batch.closings.append(leases[number - len(places)])
        leases.append(Lease(Prefix(softwire_of(number % 65536, 0), 56), address, first, first + BLOCK_SIZE - 1, moment))
        batch.openings.append(leases[-1])
        if horizon < moment:
            horizon = batch.horizon = moment + config.horizon
        log.commit(batch, config.log_limit)
        moment += STEP
    return bytes(log.data)


def measured(words: List[str]) -> Tuple[float, int]:
    """The seconds that a command takes, and the most memory that it had, in KiB."""
    start = time.monotonic()
    with subprocess.Popen(words, stdout=subprocess.DEVNULL) as child:
        _, status, usage = os.wait4(child.pid, 0)
        child.returncode = os.waitstatus_to_exitcode(status)
    if child.returncode != 0:
        raise SystemExit(f"{' '.join(words)} ends with {child.returncode}")
    return time.monotonic() - start, usage.ru_maxrss


def best(words: List[str]) -> Tuple[float, int]:
    runs = [measured(words) for _ in range(RUNS)]
    return min(seconds for seconds, _ in runs), max(memory for _, memory in runs)


def measure(program: str, name: str, words: List[str], logs: List[str]) -> None:
    """Prints a line for each log, and how much longer the last one takes than the first."""
    times = []
    for log, size in zip(logs, SIZES):
        seconds, memory = best([program, words[0], log, *words[1:]])
        times.append(seconds)
        print(f"{name}, {size} records: {1000 * seconds:.1f} ms, {memory} KiB, by {program}")
    print(f"{name}: {times[-1] / times[0]:.1f} times as long for {SIZES[-1] // SIZES[0]} times as many records")


def main() -> int:
    programs = sys.argv[1:] or [os.path.join(TOP, "crates/aftr/out/aftr")]
    for program in programs:
        if not os.access(program, os.X_OK):
            print(f"no program at {program}: run scripts/build.sh", file=sys.stderr)
            return 1
    with tempfile.TemporaryDirectory() as folder:
        logs = []
        for size in SIZES:
            logs.append(os.path.join(folder, f"log-{size}"))
            with open(logs[-1], "wb") as out:
                out.write(made_log(size))
        last = ["trace", "192.0.2.11", "65023", str(FIRST_MOMENT)]
        for program in programs:
            measure(program, "trace", last, logs)
            measure(program, "leases", ["leases"], logs)
    return 0


if __name__ == "__main__":
    sys.exit(main())
