"""What the program does with words and files, each case worked out by hand: what it prints, and what it leaves.

Bytes are hexadecimal digits, with spaces where they help.
"""

from __future__ import annotations

from typing import Iterator, List, Sequence

from case import RUN, Case
from log_cases import log_cases
from log_digits import CLOSED_LOG, CLOSING_MESSAGE, EMPTY_LOG, FIRST_BLOCK, FIRST_LOG, FIRST_MESSAGE, FREE_MESSAGE
from log_digits import HELD_MESSAGE, OTHER_BLOCK, PLAN_LOG, PLAN_MESSAGE, at, blocks, closing, frames, horizon, log_of
from log_digits import message, plan


def run_of(name: str, records: str, sent: str, logged: str, lines: Sequence[str], **files: str) -> Case:
    """A run of these records over an empty configuration and log, with other files, and what it sends and logs."""
    before = {"config.toml": "", "in0": records, "log": EMPTY_LOG, **files}
    status = {"BadInput": 3}.get(lines[0].split()[1], 0)
    return Case(name, RUN, before, status, lines, {"log": logged, "out": sent})


def summary(records: int, sent: int, *drops: str) -> List[str]:
    return [f"records {records}", f"sent {sent}", "marks 0", *(f"drop {drop}" for drop in drops)]


# ---- packets

# A subscriber sends "abcd" from 192.0.0.2 port 5000 to 203.0.113.5 port 53, in its softwire to the AFTR.
FIRST_PACKET = """00000051 01 00000000000f4240 60000000 0020 04 40
    20010db8010000000000000000000002 20010db8000000000000000000000001
    45000020 00010000 40117ec4 c0000002 cb007105 13880035 000c2b4a 61626364"""
# It leaves from the pool's first place, 192.0.2.8 port 1024, with one hop less.
FIRST_SENT = """00000029 02 00000000000f4240
    45000020 00010000 3f117dbe c0000208 cb007105 04000035 000c38cc 61626364"""

# Half a second later, from the same port to another remote.
OTHER_REMOTE = """00000051 01 00000000000f4434 60000000 0020 04 40
    20010db8010000000000000000000002 20010db8000000000000000000000001
    45000020 00010000 40117ec3 c0000002 cb007106 13880035 000c2b49 61626364"""
OTHER_REMOTE_SENT = """00000029 02 00000000000f4434
    45000020 00010000 3f117dbd c0000208 cb007106 04000035 000c38cb 61626364"""

# The first packet in another subscriber's softwire.
OTHER_SUBSCRIBER = """00000051 01 00000000000f4241 60000000 0020 04 40
    20010db8010001000000000000000002 20010db8000000000000000000000001
    45000020 00010000 40117ec4 c0000002 cb007105 13880035 000c2b4a 61626364"""
OTHER_SENT = """00000029 02 00000000000f4241
    45000020 00010000 3f117dbe c0000208 cb007105 06000035 000c36cc 61626364"""

# The first packet with a limit of encapsulations in Destination Options (RFC 2473 4.1.1).
WITH_LIMIT = """00000059 01 00000000000f4240 60000000 0028 3c 40
    20010db8010000000000000000000002 20010db8000000000000000000000001 0400040104010100
    45000020 00010000 40117ec4 c0000002 cb007105 13880035 000c2b4a 61626364"""

# The first packet without a UDP checksum, and with one that the translation would make 0.
NO_CHECKSUM = FIRST_PACKET.replace("000c2b4a", "000c0000")
NO_CHECKSUM_SENT = FIRST_SENT.replace("000c38cc", "000c0000")
TO_ZERO = FIRST_PACKET.replace("000c2b4a 61626364", "000cf27d 61629c30")
TO_ZERO_SENT = FIRST_SENT.replace("000c38cc 61626364", "000cffff 61629c30")

# The remote answers 400 ms later, and its reply goes into the softwire that the mapping remembers.
REPLY = """00000029 02 00000000000f43d0
    45000020 00070000 40117cb8 cb007105 c0000208 00350400 000c38cc 61626364"""
REPLY_SENT = """00000051 01 00000000000f43d0 60000000 0020 04 40
    20010db8000000000000000000000001 20010db8010000000000000000000002
    45000020 00070000 3f117fbe cb007105 c0000002 00351388 000c2b4a 61626364"""
# The same reply one millisecond before the mapping's deadline, which is 300 s after the packet, and at it.
LAST_REPLY, LAST_REPLY_SENT = (text.replace("0f43d0", "13d61f") for text in (REPLY, REPLY_SENT))
LATE_REPLY, LATE_REPLY_SENT = (text.replace("0f43d0", "13d620") for text in (REPLY, REPLY_SENT))

# A tick at the deadline closes the lease, which is then held for 120 s.
TICK = "00000009 03 000000000013d620"
# The other subscriber's packet in the hold's last millisecond gets the next block, and at its end the same.
HELD_PACKET, HELD_SENT = (text.replace("0f4241", "15aadf") for text in (OTHER_SUBSCRIBER, OTHER_SENT))
FREE_PACKET, FREE_SENT = OTHER_SUBSCRIBER.replace("0f4241", "15aae0"), FIRST_SENT.replace("0f4240", "15aae0")

# Another remote up to the horizon that the first packet set, 2 s after it, and past it.
LAST_OTHER, LAST_OTHER_SENT = (text.replace("0f4434", "0f4a10") for text in (OTHER_REMOTE, OTHER_REMOTE_SENT))
LATE_OTHER, LATE_OTHER_SENT = (text.replace("0f4434", "0f4a11") for text in (OTHER_REMOTE, OTHER_REMOTE_SENT))
LATE_MESSAGE = message(1002, 2, horizon(1_002_001, 1_004_001))
# The first packet at its mapping's deadline: the lease closes, and is its subscriber's again a millisecond later.
LATE_PACKET, LATE_SENT = (text.replace("0f4240", "13d620") for text in (FIRST_PACKET, FIRST_SENT))
LATE_SENT = LATE_SENT.replace("04000035 000c38cc", "06000035 000c36cc")
NEXT_BLOCK = FIRST_BLOCK.replace("0400 05ff", "0600 07ff")
LATE_BOTH = message(
    1300, 2, horizon(1_300_000, 1_302_000) + blocks(closing(1_300_000, FIRST_BLOCK), at(1_300_000, NEXT_BLOCK))
)
NO_RECORDS = message(7, 0, "")

# A millisecond later the first subscriber sends to the other one's place, where it comes from 192.0.2.8 port 1024.
BETWEEN = """00000051 01 00000000000f4242 60000000 0020 04 40
    20010db8010000000000000000000002 20010db8000000000000000000000001
    45000020 00010000 4011f8c1 c0000002 c0000208 13880600 000c9f7c 61626364"""
BETWEEN_SENT = """00000051 01 00000000000f4242 60000000 0020 04 40
    20010db8000000000000000000000001 20010db8010001000000000000000002
    45000020 00010000 3f11f9c1 c0000208 c0000002 04001388 000ca17c 61626364"""
# To a port of that address that nobody has, and to the place that its own packets come from.
TO_NOBODY = BETWEEN.replace("13880600 000c9f7c", "13880800 000c9d7c")
TO_ITSELF = BETWEEN.replace("13880600 000c9f7c", "13880400 000ca17c")
TO_ITSELF_SENT = BETWEEN_SENT.replace("20010db801000100", "20010db801000000")
# 100 s before the first packet's mapping ends.
NOBODY_LATER, ITSELF_LATER, ITSELF_LATER_SENT = (
    text.replace("0f4242", "124f80") for text in (TO_NOBODY, TO_ITSELF, TO_ITSELF_SENT)
)
ITSELF_MESSAGE = message(1200, 2, horizon(1_200_000, 1_202_000))
BOTH_BLOCKS = log_of(FIRST_MESSAGE, message(1000, 2, blocks(OTHER_BLOCK)))

# An echo request with identifier 7, which leaves from 192.0.2.8 with identifier 1024 (RFC 5508 3.1).
ECHO = """00000051 01 00000000000f4240 60000000 0020 04 40
    20010db8010000000000000000000002 20010db8000000000000000000000001
    45000020 00010000 40017ed4 c0000002 cb007105 08001927 00070001 70696e67"""
ECHO_SENT = """00000029 02 00000000000f4240
    45000020 00010000 3f017dce c0000208 cb007105 0800152e 04000001 70696e67"""
# Its reply a millisecond before the mapping's deadline, which is 60 s after the request, and at it.
ECHO_REPLY = """00000029 02 0000000000102c9f
    45000020 00010000 40017cce cb007105 c0000208 00001d2e 04000001 70696e67"""
ECHO_REPLY_SENT = """00000051 01 0000000000102c9f 60000000 0020 04 40
    20010db8000000000000000000000001 20010db8010000000000000000000002
    45000020 00010000 3f017fd4 cb007105 c0000002 00002127 00070001 70696e67"""
LATE_ECHO_REPLY = ECHO_REPLY.replace("102c9f", "102ca0")
ECHO_CLOSING = message(1060, 2, blocks(closing(1_060_000, FIRST_BLOCK)))
# The request to 192.0.2.8, from where it comes back with its own identifier.
ECHO_TO_ITSELF = ECHO.replace("7ed4", "f8d1").replace("cb007105", "c0000208")
ECHO_TO_ITSELF_SENT = """00000051 01 00000000000f4240 60000000 0020 04 40
    20010db8000000000000000000000001 20010db8010000000000000000000002
    45000020 00010000 3f01f9d1 c0000208 c0000002 08001927 00070001 70696e67"""

# A SYN from 192.0.0.2 port 5000 to 203.0.113.5 port 80, and the error of a router at 198.51.100.1 whose hop was its last
# (RFC 792). It quotes the SYN as it left; the subscriber gets it with its own address and port (RFC 5508 4.2).
SEGMENT = """00000059 01 00000000000f4240 60000000 0028 04 40
    20010db8010000000000000000000002 20010db8000000000000000000000001
    45000028 00024000 40063ec6 c0000002 cb007105 13880050 00000001 00000000 5002ffff a0010000"""
SEGMENT_SENT = """00000031 02 00000000000f4240
    45000028 00024000 3f063dc0 c0000208 cb007105 04000050 00000001 00000000 5002ffff ad830000"""
ABOUT_SEGMENT = """00000041 02 00000000000f42a4
    45000038 00030000 3a019485 c6336401 c0000208 0b00f0ae 00000000
    45000028 00024000 01067bc0 c0000208 cb007105 04000050 00000001"""
ABOUT_SEGMENT_SENT = """00000069 01 00000000000f42a4 60000000 0038 04 40
    20010db8000000000000000000000001 20010db8010000000000000000000002
    45000038 00030000 3901978b c6336401 c0000002 0b00e126 00000000
    45000028 00024000 01067dc6 c0000002 cb007105 13880050 00000001"""
# The first packet with one hop, and the AFTR's error about it, which quotes it up to the ports and the sum.
LAST_HOP = FIRST_PACKET.replace("40117ec4", "0111bdc4")
LAST_HOP_SENT = """00000069 01 00000000000f4240 60000000 0038 04 40
    20010db8000000000000000000000001 20010db8010000000000000000000002
    45000038 00004000 4001bac1 c0000001 c0000002 0b00b5ec 00000000
    45000020 00010000 0111bdc4 c0000002 cb007105 13880035 000c2b4a"""

# ---- runs

RUNS = [
    run_of("one packet", FIRST_PACKET, FIRST_SENT, FIRST_LOG, summary(1, 1)),
    run_of(
        "another remote gets the same place",
        FIRST_PACKET + OTHER_REMOTE,
        FIRST_SENT + OTHER_REMOTE_SENT,
        FIRST_LOG,
        summary(2, 2),
    ),
    run_of(
        "another subscriber gets the next block",
        FIRST_PACKET + OTHER_SUBSCRIBER,
        FIRST_SENT + OTHER_SENT,
        log_of(FIRST_MESSAGE, message(1000, 2, blocks(OTHER_BLOCK))),
        summary(2, 2),
    ),
    run_of("a limit of encapsulations", WITH_LIMIT, FIRST_SENT, FIRST_LOG, summary(1, 1)),
    run_of("no UDP checksum stays none", NO_CHECKSUM, NO_CHECKSUM_SENT, FIRST_LOG, summary(1, 1)),
    run_of("a UDP checksum of 0 is sent as ffff", TO_ZERO, TO_ZERO_SENT, FIRST_LOG, summary(1, 1)),
    run_of("an input of no bytes", "", "", EMPTY_LOG, summary(0, 0)),
    run_of("an outlet starts empty", "", "", EMPTY_LOG, summary(0, 0), out=FIRST_SENT),
    run_of("an input cut short", FIRST_PACKET + OTHER_REMOTE[:-8], FIRST_SENT, FIRST_LOG, ["fault BadInput 0 85"]),
    run_of(
        "an input cut in a record's head",
        FIRST_PACKET + OTHER_REMOTE + "00000051 01",
        FIRST_SENT + OTHER_REMOTE_SENT,
        FIRST_LOG,
        ["fault BadInput 0 170"],
    ),
    run_of(
        "a record of no kind",
        FIRST_PACKET + TICK.replace("09 03", "09 05") + OTHER_REMOTE,
        FIRST_SENT,
        FIRST_LOG,
        ["fault BadInput 0 85"],
    ),
    # replies, and the mapping's end
    run_of("a reply comes back", FIRST_PACKET + REPLY, FIRST_SENT + REPLY_SENT, FIRST_LOG, summary(2, 2)),
    run_of("a reply to no mapping", REPLY, "", EMPTY_LOG, summary(1, 0, "NoMapping 1")),
    run_of(
        "a reply up to the mapping's deadline",
        FIRST_PACKET + REPLY + LAST_REPLY + LATE_REPLY,
        FIRST_SENT + REPLY_SENT + LAST_REPLY_SENT,
        CLOSED_LOG,
        summary(4, 3, "NoMapping 1"),
    ),
    run_of(
        "a later packet moves the deadline",
        FIRST_PACKET + OTHER_REMOTE + LATE_REPLY,
        FIRST_SENT + OTHER_REMOTE_SENT + LATE_REPLY_SENT,
        FIRST_LOG,
        summary(3, 3),
    ),
    run_of(
        "a closed block is held",
        FIRST_PACKET + TICK + HELD_PACKET,
        FIRST_SENT + HELD_SENT,
        log_of(FIRST_MESSAGE, CLOSING_MESSAGE, HELD_MESSAGE),
        summary(3, 2),
    ),
    run_of(
        "a held block comes free",
        FIRST_PACKET + TICK + FREE_PACKET,
        FIRST_SENT + FREE_SENT,
        log_of(FIRST_MESSAGE, CLOSING_MESSAGE, FREE_MESSAGE),
        summary(3, 2),
    ),
    run_of(
        "a change of the configuration", "00000009 04 0000000000000001", "", EMPTY_LOG, summary(1, 0, "BadChange 1")
    ),
    # packets between subscribers
    run_of(
        "a packet to another subscriber's place",
        FIRST_PACKET + OTHER_SUBSCRIBER + BETWEEN,
        FIRST_SENT + OTHER_SENT + BETWEEN_SENT,
        BOTH_BLOCKS,
        summary(3, 3),
    ),
    run_of(
        "a packet to nobody's place",
        FIRST_PACKET + OTHER_SUBSCRIBER + TO_NOBODY,
        FIRST_SENT + OTHER_SENT,
        BOTH_BLOCKS,
        summary(3, 2, "NoMapping 1"),
    ),
    run_of(
        "a packet to its own place",
        FIRST_PACKET + TO_ITSELF,
        FIRST_SENT + TO_ITSELF_SENT,
        FIRST_LOG,
        summary(2, 2),
    ),
    run_of(
        "a refused packet to the pool moves no deadline",
        FIRST_PACKET + NOBODY_LATER + LAST_REPLY + LATE_REPLY,
        FIRST_SENT + LAST_REPLY_SENT,
        CLOSED_LOG,
        summary(4, 2, "NoMapping 2"),
    ),
    run_of(
        "one that comes through does",
        FIRST_PACKET + ITSELF_LATER + LATE_REPLY,
        FIRST_SENT + ITSELF_LATER_SENT + LATE_REPLY_SENT,
        log_of(FIRST_MESSAGE, ITSELF_MESSAGE),
        summary(3, 3),
    ),
    run_of(
        "a mapping that a refused packet to the pool made",
        TO_NOBODY.replace("0f4242", "0f4240") + REPLY,
        REPLY_SENT,
        FIRST_LOG,
        summary(2, 1, "NoMapping 1"),
    ),
    # echo messages
    run_of(
        "an echo request and its reply, up to the mapping's deadline",
        ECHO + ECHO_REPLY + LATE_ECHO_REPLY,
        ECHO_SENT + ECHO_REPLY_SENT,
        log_of(FIRST_MESSAGE, ECHO_CLOSING),
        summary(3, 2, "NoMapping 1"),
    ),
    run_of(
        "an echo request and a datagram get the same port",
        ECHO + FIRST_PACKET,
        ECHO_SENT + FIRST_SENT,
        FIRST_LOG,
        summary(2, 2),
    ),
    run_of("an echo request to its own place", ECHO_TO_ITSELF, ECHO_TO_ITSELF_SENT, FIRST_LOG, summary(1, 1)),
    run_of(
        "an echo reply that answers nothing",
        ECHO.replace("08001927", "00002127"),
        "",
        EMPTY_LOG,
        summary(1, 0, "NoMapping 1"),
    ),
    # errors
    run_of(
        "an error about a segment",
        SEGMENT + ABOUT_SEGMENT,
        SEGMENT_SENT + ABOUT_SEGMENT_SENT,
        FIRST_LOG,
        summary(2, 2),
    ),
    run_of("a packet's last hop", LAST_HOP, LAST_HOP_SENT, EMPTY_LOG, summary(1, 1, "TtlSpent 1")),
    # the horizon
    run_of(
        "a packet at the horizon",
        FIRST_PACKET + LAST_OTHER,
        FIRST_SENT + LAST_OTHER_SENT,
        FIRST_LOG,
        summary(2, 2),
    ),
    run_of(
        "a packet past the horizon",
        FIRST_PACKET + LATE_OTHER,
        FIRST_SENT + LATE_OTHER_SENT,
        log_of(FIRST_MESSAGE, LATE_MESSAGE),
        summary(2, 2),
    ),
    run_of(
        "a closing and an opening past the horizon",
        FIRST_PACKET + LATE_PACKET,
        FIRST_SENT + LATE_SENT,
        log_of(FIRST_MESSAGE, LATE_BOTH),
        summary(2, 2),
    ),
    run_of(
        "a tick and a refused packet past the horizon",
        FIRST_PACKET
        + "00000009 03 00000000000f4e20"
        + LATE_OTHER.replace("0f4a11", "0f4e21").replace("04 40", "3b 40"),
        FIRST_SENT,
        FIRST_LOG,
        summary(3, 1, "NotTunnel 1"),
    ),
    # logs that tell nothing
    run_of("a gate that isn't open", FIRST_PACKET, FIRST_SENT, FIRST_LOG, summary(1, 1), log=EMPTY_LOG[:-2] + "02"),
    run_of(
        "bytes behind the closed gate",
        FIRST_PACKET,
        FIRST_SENT,
        FIRST_LOG + "ee" * 13,
        summary(1, 1),
        log=EMPTY_LOG + "ee" * 160,
    ),
    run_of("bytes behind no frame", "", "", EMPTY_LOG + "0102", summary(0, 0), log=EMPTY_LOG + "0102"),
    run_of(
        "a message of templates alone",
        FIRST_PACKET,
        FIRST_SENT,
        log_of(NO_RECORDS, FIRST_MESSAGE),
        summary(1, 1),
        log=log_of(NO_RECORDS),
    ),
]

# ---- runs on a log that tells something

INPUT = {"config.toml": "", "in0": FIRST_PACKET}


def later_run(name: str, records: str, log: str, sent: str, left: str, lines: Sequence[str]) -> Case:
    """A run of these records on a log that tells something."""
    return Case(name, RUN, {"config.toml": "", "in0": records, "log": log}, 0, lines, {"log": left, "out": sent})


# The first log's lease closes at the horizon, up to which nothing is sent. The same packet after it opens a lease anew.
RECOVERED = message(1002, 2, blocks(closing(1_002_000, FIRST_BLOCK)))
SETTLING = FIRST_PACKET.replace("0f4240", "0f4a10")
AGAIN, AGAIN_SENT = (text.replace("0f4240", "0f4a11") for text in (FIRST_PACKET, FIRST_SENT))
AGAIN_MESSAGE = message(1002, 3, horizon(1_002_001, 1_004_001) + blocks(at(1_002_001, FIRST_BLOCK)))
# Another subscriber gets the next block until the first one's hold time is over.
NEXT, NEXT_SENT = (text.replace("0f4241", "0f4a11") for text in (OTHER_SUBSCRIBER, OTHER_SENT))
NEXT_MESSAGE = message(1002, 3, horizon(1_002_001, 1_004_001) + blocks(at(1_002_001, OTHER_BLOCK)))
# A plan closes before a lease does.
PLANNED = log_of(PLAN_MESSAGE, message(1000, 2, blocks(OTHER_BLOCK)))
CLOSED_PLAN = message(1002, 3, plan(1_002_000, "") + blocks(closing(1_002_000, OTHER_BLOCK)))
# A plan that ended a second past the horizon, up to which nothing is sent.
ENDED_PLAN = PLAN_LOG[:-2] + frames(message(1003, 2, plan(1_003_000, "")))
PLAN_SETTLING = FIRST_PACKET.replace("0f4240", "0f4df8")
PAST_PLAN, PAST_PLAN_SENT = (text.replace("0f4240", "0f4df9") for text in (FIRST_PACKET, FIRST_SENT))
PAST_PLAN_MESSAGE = message(1003, 3, horizon(1_003_001, 1_005_001) + blocks(at(1_003_001, FIRST_BLOCK)))
# A lease of two blocks' ports, which both are held for another subscriber.
WIDE_BLOCK = at(1_000_000, OTHER_BLOCK).replace("0600 07ff", "0400 07ff")
WIDE_LOG = log_of(message(1000, 0, horizon(1_000_000, 1_002_000) + blocks(WIDE_BLOCK)))
THIRD_SENT = AGAIN_SENT.replace("04000035 000c38cc", "08000035 000c34cc")
THIRD_BLOCK = at(1_002_001, FIRST_BLOCK).replace("0400 05ff", "0800 09ff")
THIRD_MESSAGE = message(1002, 3, horizon(1_002_001, 1_004_001) + blocks(THIRD_BLOCK))
LATER_RUNS = [
    later_run("nothing to send later", "", FIRST_LOG, "", log_of(FIRST_MESSAGE, RECOVERED), summary(0, 0)),
    later_run(
        "the first packet again",
        SETTLING + AGAIN,
        FIRST_LOG,
        AGAIN_SENT,
        log_of(FIRST_MESSAGE, RECOVERED, AGAIN_MESSAGE),
        summary(2, 1, "Settling 1"),
    ),
    later_run(
        "another subscriber later",
        NEXT,
        FIRST_LOG,
        NEXT_SENT,
        log_of(FIRST_MESSAGE, RECOVERED, NEXT_MESSAGE),
        summary(1, 1),
    ),
    later_run("a log of closed leases", "", CLOSED_LOG, "", CLOSED_LOG, summary(0, 0)),
    later_run("a plan and a lease", "", PLANNED, "", PLANNED[:-2] + frames(CLOSED_PLAN), summary(0, 0)),
    later_run(
        "a plan alone", "", PLAN_LOG, "", PLAN_LOG[:-2] + frames(message(1002, 2, plan(1_002_000, ""))), summary(0, 0)
    ),
    later_run(
        "a plan that ended past the horizon",
        PLAN_SETTLING + PAST_PLAN,
        ENDED_PLAN,
        PAST_PLAN_SENT,
        ENDED_PLAN[:-2] + frames(PAST_PLAN_MESSAGE),
        summary(2, 1, "Settling 1"),
    ),
    later_run(
        "a lease of more than one block",
        AGAIN,
        WIDE_LOG,
        THIRD_SENT,
        WIDE_LOG[:-2] + frames(message(1002, 2, blocks(closing(1_002_000, WIDE_BLOCK))), THIRD_MESSAGE),
        summary(1, 1),
    ),
    later_run(
        "bytes behind", "", FIRST_LOG + "ff" * 150, "", log_of(FIRST_MESSAGE, RECOVERED) + "ff" * 23, summary(0, 0)
    ),
]

# ---- what is refused

NO_LOG = {"log": "", "out": ""}
REFUSED = [
    Case("making a log", ("init", "log"), {}, 0, [], {"log": EMPTY_LOG}),
    Case("making a log of a file of no bytes", ("init", "log"), {"log": ""}, 0, [], {"log": EMPTY_LOG}),
    Case("making a log twice", ("init", "log"), {"log": EMPTY_LOG}, 9, ["fault AlreadyThere 17"]),
    Case("making a log of a file that is none", ("init", "log"), {"log": "00"}, 9, ["fault AlreadyThere 1"]),
    Case("no text of keys", RUN, {**INPUT, "config.toml": "78"}, 2, ["fault BadConfig text"], NO_LOG),
    Case("a log that wasn't made", RUN, INPUT, 7, ["fault LogDamaged 0"], NO_LOG),
    Case("a missing input", (*RUN[:4], "nowhere"), {**INPUT, "log": EMPTY_LOG}, 4, ["fault ReadFault"], {"out": ""}),
    Case("a missing input and no log", (*RUN[:4], "nowhere"), INPUT, 7, ["fault LogDamaged 0"], NO_LOG),
    Case("a missing configuration", ("run", "nowhere", *RUN[2:]), INPUT, 4, ["fault ReadFault"], NO_LOG),
    # an outlet that is another file of the run: all files keep their bytes
    *[
        Case(f"an outlet that is {name}", ("run", "config.toml", "log", name, "in0"), files, 5, ["fault LogFault"])
        for name in ("log", "in0", "config.toml", "./log")
        for files in ({**INPUT, "log": FIRST_LOG}, {**INPUT, "log": EMPTY_LOG})
    ],
    Case(
        "an outlet that is a configuration of other bytes",
        ("run", "in0", "log", "in0", "config.toml"),
        {**INPUT, "log": EMPTY_LOG},
        2,
        ["fault BadConfig text"],
    ),
    # words that are no command touch no file
    *[
        Case(f"no command: '{words}'", words.split(" "), INPUT, 1, ["fault BadWords"])
        for words in (
            "run a b c",
            "--help",
            "walk config.toml log out in0",
            "run config.toml log out -",
            "init",
            "init log log",
            "init -log",
            "leases",
            "leases log log",
            "leases -log",
            "trace log 192.0.2.8 1024",
            "trace log 192.0.2 1024 0",
            "trace log 192.0.2.08 1024 0",
            "trace log 192.0.2.8 65536 0",
            "trace log 192.0.2.8 1024 4294967296000",
        )
    ],
    Case("no command: no word", (), INPUT, 1, ["fault BadWords"]),
    Case("no command: an empty word", (*RUN[:4], ""), INPUT, 1, ["fault BadWords"]),
    Case("no command: a word that isn't UTF-8", (*RUN[:4], "in\udcff"), INPUT, 1, ["fault BadWords"]),
]


def cases() -> Iterator[Case]:
    """All cases."""
    yield from RUNS
    yield from LATER_RUNS
    yield from REFUSED
    yield from log_cases()
