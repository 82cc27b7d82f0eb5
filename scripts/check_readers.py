#!/usr/bin/env python3
"""Lets readers of IPFIX that others wrote read a log of the program: tshark, libfixbuf's ipfixDump, python-ipfix's
ipfix2csv. What isn't installed is skipped.

The program makes a log of 1,000 leases and their closings. Each reader must read all of its messages without a
complaint, and find in them exactly the leases that the program tells, and its horizon. The last line is
'N passed, M failed', and the exit status 0 where M is 0. Usage: check_readers.py [PROGRAM]
"""

from __future__ import annotations

import csv
import ipaddress
import os
import re
import shutil
import subprocess
import sys
import tempfile
from datetime import datetime, timezone
from typing import Callable, Dict, List, NamedTuple, Sequence, Tuple

from packets import FROM_SOFTWIRE, TICK, Softwire, Udp, frame, softwire_of

TOP = os.path.dirname(os.path.dirname(os.path.abspath(__file__)))
ELEMENTS = os.path.join(TOP, "examples", "elements")
SUBSCRIBERS = 500  # of 504 blocks
FIRST_MOMENT = 1_000_000
IDLE = 300_000
COLUMNS = (
    "observationTimeMilliseconds natEvent sourceIPv6Address sourceIPv6PrefixLength postNATSourceIPv4Address "
    "portRangeStart portRangeEnd"
).split()

TSHARK_FIELDS = (
    "cflow.observation_time_milliseconds cflow.nat_event cflow.srcaddrv6 cflow.srcmaskv6 "
    "cflow.post_natsource_ipv4_address cflow.port_range_start cflow.port_range_end "
    "_ws.expert.severity _ws.expert.message _ws.malformed"
).split()


class Found(NamedTuple):
    """What a reader found: blocks as (moment, natEvent, prefix, address, first port, last port), and horizons."""

    blocks: List[Tuple[str, ...]]
    horizons: List[int]


class Complaint(Exception):
    """A reader said that something is wrong."""


def made_input() -> bytes:
    """Each subscriber sends once, twice over; all leases have closed at the end of each turn."""
    records = []
    for turn in range(2):
        begin = FIRST_MOMENT + turn * (IDLE + SUBSCRIBERS)
        for number in range(SUBSCRIBERS):
            packet = Softwire(Udp().spelled(), source=softwire_of(number))
            records.append(frame(FROM_SOFTWIRE, begin + number, packet.spelled()))
        records.append(frame(TICK, begin + IDLE + SUBSCRIBERS - 1, b""))
    return b"".join(records)


def called(*words: str) -> str:
    """What a command prints. It must end well, and print nothing to standard error but a word on who runs it."""
    environment = {**os.environ, "LC_ALL": "C", "TZ": "UTC"}
    done = subprocess.run(words, capture_output=True, text=True, check=False, timeout=600, env=environment)
    errors = [line for line in done.stderr.splitlines() if line and not line.startswith("Running as user")]
    if done.returncode != 0 or errors:
        raise Complaint(f"{os.path.basename(words[0])} ends with {done.returncode} {errors[:2]}")
    return done.stdout


def milliseconds(text: str) -> int:
    """The moment of a text of a date and a time, as one of the readers prints it."""
    day, point, fraction = text.replace(" UTC", "").partition(".")
    form = "%Y-%m-%d %H:%M:%S" if day[0].isdigit() else "%b %d, %Y %H:%M:%S"
    seconds = datetime.strptime(" ".join(day.split()), form).replace(tzinfo=timezone.utc).timestamp()
    return round(seconds) * 1000 + int(fraction[:3].ljust(3, "0"))


def block(moment: str, event: str, address: str, length: str, public: str, first: str, last: str) -> Tuple[str, ...]:
    prefix = ipaddress.ip_network(f"{address}/{length}")
    return str(milliseconds(moment)), event, str(prefix), public, first, last


def told(program: str, log: str) -> Found:
    """What the program tells of the log itself."""
    found = Found([], [])
    for line in called(program, "leases", log).splitlines():
        name, *words = line.split()
        if name == "horizon":
            found.horizons.append(int(words[0]))
        else:
            address, first, last, since, until, prefix = words
            rest = (str(ipaddress.ip_network(prefix)), address, first, last)
            found.blocks.extend([(since, "16", *rest), (until, "17", *rest)])
    return found


def by_tshark(messages: str) -> Found:
    options = [word for name in TSHARK_FIELDS for word in ("-e", name)]
    found = Found([], [])
    for line in called("tshark", "-n", "-r", messages, "-T", "fields", "-E", "aggregator=;", *options).splitlines():
        moments, events, *columns, severity, said, malformed = line.split("\t")
        if severity or said or malformed:
            raise Complaint(f"tshark says {said or malformed or severity}")
        rows = zip(*(column.split(";") for column in [events, *columns])) if events else []
        found.blocks.extend(block(moments.split(";")[0], *row) for row in rows)
    whole = called("tshark", "-n", "-r", messages, "-V")
    values = re.findall(r"Enterprise Private entry: .* Type 1: Value \(hex bytes\): ((?:[0-9a-f]{2} ?){8})", whole)
    found.horizons.extend(int(value.replace(" ", ""), 16) for value in values)
    return found


def by_fixbuf(messages: str) -> Found:
    found = Found([], [])
    printed = called("ipfixDump", "--in", messages, "--data", "--element-file", f"{ELEMENTS}.xml")
    for record in printed.split("--- data record ")[1:]:
        values: Dict[str, str] = dict(re.findall(r"^\t\([0-9/]+\) +(\w+) : (.*)$", record, re.MULTILINE))
        if "logHorizonMilliseconds" in values:
            found.horizons.append(milliseconds(values["logHorizonMilliseconds"]))
        else:
            found.blocks.append(block(*(values[name] for name in COLUMNS)))
    return found


def by_python_ipfix(messages: str) -> Found:
    def rows(*names: str) -> List[Dict[str, str]]:
        printed = called("ipfix2csv", "-s", f"{ELEMENTS}.iespec", "-f", messages, *names)
        return list(csv.DictReader(printed.splitlines()))

    horizons = [milliseconds(row["logHorizonMilliseconds"]) for row in rows(COLUMNS[0], "logHorizonMilliseconds")]
    return Found([block(*(row[name] for name in COLUMNS)) for row in rows(*COLUMNS)], horizons)


READERS: Sequence[Tuple[str, Callable[[str], Found]]] = (
    ("tshark", by_tshark),
    ("ipfixDump", by_fixbuf),
    ("ipfix2csv", by_python_ipfix),
)


def make_log(program: str, folder: str) -> str:
    """A log of the program's, in this folder."""
    log, config, source = (os.path.join(folder, name) for name in ("log", "config.toml", "in0"))
    with open(config, "wb"), open(source, "wb") as out:
        out.write(made_input())
    called(program, "init", log)
    called(program, "run", config, log, os.path.join(folder, "out"), source)
    return log


def differences(wanted: Found, found: Found) -> List[str]:
    if sorted(found.blocks) != sorted(wanted.blocks):
        other = set(found.blocks) ^ set(wanted.blocks)
        return [f"{len(found.blocks)} blocks, wanted {len(wanted.blocks)}; {sorted(other)[:2]}"]
    if not found.horizons or found.horizons[-1] != wanted.horizons[-1]:
        return [f"horizons {found.horizons[-2:]}, wanted {wanted.horizons}"]
    return []


def checked(reader: Callable[[str], Found], messages: str, wanted: Found) -> List[str]:
    """What is wrong by a reader."""
    try:
        return differences(wanted, reader(messages))
    except (Complaint, ValueError, KeyError, TypeError) as error:
        return [repr(error)]


def main() -> int:
    program = os.path.abspath(sys.argv[1] if len(sys.argv) > 1 else os.path.join(TOP, "crates/aftr/out/aftr"))
    if not os.access(program, os.X_OK):
        print(f"no program at {program}: run scripts/build.sh", file=sys.stderr)
        return 1
    passed = failed = 0
    with tempfile.TemporaryDirectory() as folder:
        log = make_log(program, folder)
        wanted = told(program, log)
        if len(wanted.blocks) != 4 * SUBSCRIBERS:
            print(f"the program tells {len(wanted.blocks) // 2} leases, and should tell {2 * SUBSCRIBERS}")
            failed += 1
        messages = os.path.join(folder, "messages.ipfix")
        with open(messages, "wb") as out:
            script = os.path.join(TOP, "scripts", "log_messages.py")
            subprocess.run([sys.executable, script, log], stdout=out, check=True)
        for name, reader in READERS:
            if shutil.which(name) is None:
                print(f"skipped: no {name}, so it reads no log")
                continue
            wrong = checked(reader, messages, wanted)
            passed, failed = (passed, failed + 1) if wrong else (passed + 1, failed)
            for line in wrong:
                print(f"{name}: {line}")
    print(f"{passed} passed, {failed} failed")
    return 1 if failed else 0


if __name__ == "__main__":
    sys.exit(main())
