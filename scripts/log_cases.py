"""What queries answer over a log, and what is no log: each kind of damage, with the offset of its gate."""

from __future__ import annotations

from typing import Iterator, NamedTuple, Sequence

from case import RUN, Case
from log_digits import CLOSED_LOG, CLOSING_MESSAGE, EMPTY_LOG, FIRST_BLOCK, FIRST_END, FIRST_HORIZON, FIRST_LOG
from log_digits import FIRST_MESSAGE, FREE_MESSAGE, HEADER, OTHER_BLOCK, PLAN, PLAN_LOG, RICH_LOG
from log_digits import TEMPLATES, at, blocks, closing, frames, horizon, log_of, message, plan, size_of

SUBSCRIBER = "2001:0db8:0100:0000:0000:0000:0000:0000/56"
SECOND_SUBSCRIBER = "2001:0db8:0100:0100:0000:0000:0000:0000/56"
OPEN_LINE = f"lease 192.0.2.8 1024 1535 1000000 open {SUBSCRIBER}"
CLOSED_LINE = f"lease 192.0.2.8 1024 1535 1000000 1300000 {SUBSCRIBER}"
LAST = 4_294_967_295_999
FIRST_TRACE = "trace log 192.0.2.8 1024 1000000"


def query_of(words: str, log: str, status: int, lines: Sequence[str], name: str = "") -> Case:
    """A query over this log, which it leaves as it is."""
    label = f"'{words}' over {name or f'{size_of(log)} bytes'}"
    return Case(label, words.split(" "), {"log": log}, status, lines)


# ---- what a log tells

FROM_TO = log_of(
    FIRST_MESSAGE, message(1300, 2, horizon(1_300_000, 1_400_000) + blocks(closing(1_300_000, FIRST_BLOCK)))
)
LONG_LOG = log_of(
    FIRST_MESSAGE,
    CLOSING_MESSAGE,
    *[
        message(1300, 3 + 1800 * number, blocks(*900 * [at(1_002_000, OTHER_BLOCK), closing(1_002_000, OTHER_BLOCK)]))
        for number in range(3)
    ],
)
QUERIES = [
    # the lease's first and last port, and both ends of its time; then places and moments beside it
    *[
        query_of(f"trace log {place}", FROM_TO, 0, [f"named {SUBSCRIBER}"])
        for place in ("192.0.2.8 1024 1000000", "192.0.2.8 1535 1100000", "192.0.2.8 1024 1300000")
    ],
    *[
        query_of(f"trace log 192.0.2.{place}", FROM_TO, 0, ["unheld"])
        for place in ("8 1024 999999", "8 1024 1300001", "8 1023 1000000", "8 1536 1000000", "9 1024 1000000")
    ],
    # up to the horizon, and past it
    query_of("trace log 192.0.2.8 1024 1002000", FIRST_LOG, 0, [f"named {SUBSCRIBER}"]),
    query_of("trace log 192.0.2.8 1024 1002001", FIRST_LOG, 0, ["beyond 1002000"]),
    query_of("trace log 192.0.2.8 1536 1002001", FIRST_LOG, 0, ["beyond 1002000"]),
    query_of("trace log 192.0.2.8 1024 1002001", CLOSED_LOG, 0, ["beyond 1002000"]),
    query_of(f"trace log 192.0.2.8 1024 {LAST}", FROM_TO, 0, ["beyond 1400000"]),
    query_of("trace log 192.0.2.8 1024 0", EMPTY_LOG, 0, ["unheld"]),
    query_of("trace log 192.0.2.8 1024 1", EMPTY_LOG, 0, ["beyond 0"]),
    query_of(FIRST_TRACE, LONG_LOG, 0, [f"named {SUBSCRIBER}"]),
    query_of("leases log", FIRST_LOG, 0, [OPEN_LINE, "horizon 1002000"]),
    query_of("leases log", EMPTY_LOG, 0, ["horizon 0"]),
    query_of("leases log", FROM_TO, 0, [CLOSED_LINE, "horizon 1400000"]),
    query_of(
        "leases log",
        log_of(FIRST_MESSAGE, CLOSING_MESSAGE, FREE_MESSAGE),
        0,
        [CLOSED_LINE, f"lease 192.0.2.8 1024 1535 1420000 open {SECOND_SUBSCRIBER}", "horizon 1422000"],
    ),
    query_of(
        "leases log",
        log_of(
            FIRST_MESSAGE,
            message(1000, 2, blocks(OTHER_BLOCK)),
            message(1300, 3, blocks(closing(1_300_000, FIRST_BLOCK))),
        ),
        0,
        [CLOSED_LINE, f"lease 192.0.2.8 1536 2047 1000001 open {SECOND_SUBSCRIBER}", "horizon 1002000"],
    ),
    query_of("leases log", LONG_LOG[:-2] + "01", 7, [f"fault LogDamaged {size_of(LONG_LOG) - 1}"]),
    # a plan is listed; who has a block by it isn't asked yet
    query_of("leases log", PLAN_LOG, 0, [f"plan 1000000 open {PLAN}", "horizon 1002000"]),
    query_of("trace log 192.0.2.8 1024 1000000", PLAN_LOG, 0, ["unheld"]),
    query_of("trace log 192.0.2.8 1024 1002001", PLAN_LOG, 0, ["beyond 1002000"]),
    query_of("trace log 192.0.2.8 1536 1000001", RICH_LOG, 0, [f"named {SECOND_SUBSCRIBER}"]),
    query_of("trace log 192.0.2.8 1536 1000000", RICH_LOG, 0, ["unheld"]),
    query_of(
        "leases log",
        RICH_LOG,
        0,
        [
            f"lease 192.0.2.8 1536 2047 1000001 1002001 {SECOND_SUBSCRIBER}",
            f"plan 1000000 1002001 {PLAN}",
            "horizon 1004000",
        ],
    ),
    # a query of a log that is missing makes none
    Case("a trace of a missing log", ("trace", "log", "192.0.2.8", "1024", "0"), {}, 5, ["fault LogFault"]),
    Case("the leases of a missing log", ("leases", "log"), {}, 5, ["fault LogFault"]),
]

# ---- what may stand in a log

WIDE = "20010db8010000000000000000000000 38"  # the first block's prefix


def sound(name: str, log: str, *lines: str) -> Case:
    """A log that tells these lines."""
    return query_of("leases log", log, 0, lines, name)


def in_first(old: str, new: str) -> str:
    """The first log with other digits in its message."""
    assert FIRST_LOG.count(old) == 1
    return FIRST_LOG.replace(old, new)


def behind(sets: str) -> str:
    """The first log, and a message of these sets."""
    return log_of(FIRST_MESSAGE, message(1000, 2, sets))


SOUND = [
    sound("any export time", in_first("000003e8", "ffffffff"), OPEN_LINE, "horizon 1002000"),
    sound("a gate of ff at the end", FIRST_LOG[:-2] + "ff", OPEN_LINE, "horizon 1002000"),
    sound("bytes behind the closed gate", FIRST_LOG + "01 00000010", OPEN_LINE, "horizon 1002000"),
    sound("templates alone", log_of(message(0, 0, ""), message(0, 0, "")), "horizon 0"),
    sound("a horizon that stays", behind(horizon(LAST, 1_002_000)), OPEN_LINE, "horizon 1002000"),
    sound("the last horizon", behind(horizon(0, LAST)), OPEN_LINE, f"horizon {LAST}"),
    sound(
        "an opening at the horizon",
        behind(blocks(at(1_002_000, OTHER_BLOCK))),
        OPEN_LINE,
        f"lease 192.0.2.8 1536 2047 1002000 open {SECOND_SUBSCRIBER}",
        "horizon 1002000",
    ),
    sound(
        "a closing past the horizon",
        behind(blocks(closing(LAST, FIRST_BLOCK))),
        f"lease 192.0.2.8 1024 1535 1000000 {LAST} {SUBSCRIBER}",
        "horizon 1002000",
    ),
    sound(
        "a closing at the opening",
        behind(blocks(closing(1_000_000, FIRST_BLOCK))),
        f"lease 192.0.2.8 1024 1535 1000000 1000000 {SUBSCRIBER}",
        "horizon 1002000",
    ),
    sound(
        "an opening before a closing, and again",
        behind(blocks(OTHER_BLOCK, closing(5_000_000, FIRST_BLOCK), at(7, FIRST_BLOCK))),
        f"lease 192.0.2.8 1024 1535 1000000 5000000 {SUBSCRIBER}",
        f"lease 192.0.2.8 1536 2047 1000001 open {SECOND_SUBSCRIBER}",
        f"lease 192.0.2.8 1024 1535 7 open {SUBSCRIBER}",
        "horizon 1002000",
    ),
    sound(
        "all ports of all addresses",
        in_first(f"{WIDE} c0000208 0400 05ff", f"{'00' * 16} 00 00000000 0000 ffff"),
        "lease 0.0.0.0 0 65535 1000000 open 0000:0000:0000:0000:0000:0000:0000:0000/0",
        "horizon 1002000",
    ),
    sound(
        "one port of one address",
        in_first(f"{WIDE} c0000208 0400 05ff", f"{'ff' * 16} 80 ffffffff ffff ffff"),
        "lease 255.255.255.255 65535 65535 1000000 open ffff:ffff:ffff:ffff:ffff:ffff:ffff:ffff/128",
        "horizon 1002000",
    ),
    sound(
        "the same ports of another address",
        behind(blocks(FIRST_BLOCK.replace("c0000208", "c0000209"))),
        OPEN_LINE,
        OPEN_LINE.replace("2.8", "2.9"),
        "horizon 1002000",
    ),
    sound(
        "33 zeros behind a block",
        log_of(message(0, 0, FIRST_HORIZON + f"0100 0047 {FIRST_BLOCK} {'00' * 33}")),
        OPEN_LINE,
        "horizon 1002000",
    ),
    sound(
        "15 zeros behind a horizon",
        log_of(message(0, 0, FIRST_HORIZON.replace("0014", "0023") + "00" * 15)),
        "horizon 1002000",
    ),
    sound(
        "8 zeros behind a plan's end",
        PLAN_LOG[:-2] + frames(message(0, 2, f"0102 0015 {1_000_000:016x} 00 {'00' * 8}")),
        f"plan 1000000 1000000 {PLAN}",
        "horizon 1002000",
    ),
    sound(
        "a plan's length in three bytes",
        PLAN_LOG.replace(" 3d ", " ff003d ").replace("004a", "004c").replace("b2", "b4"),
        f"plan 1000000 open {PLAN}",
        "horizon 1002000",
    ),
    sound(
        "a plan's end of three bytes",
        PLAN_LOG[:-2] + frames(message(0, 2, f"0102 000f {1_000_001:016x} ff0000")),
        f"plan 1000000 1000001 {PLAN}",
        "horizon 1002000",
    ),
]

# ---- damage


class Damage(NamedTuple):
    """A log that is damaged at this gate."""

    name: str
    log: str
    gate: int

    def cases(self) -> Iterator[Case]:
        """Queries and a run name the gate. The log keeps its bytes."""
        line = f"fault LogDamaged {self.gate}"
        for words in ("leases log", FIRST_TRACE):
            yield query_of(words, self.log, 7, [line], self.name)
        yield Case(
            f"a run on {self.name}", RUN, {"config.toml": "", "in0": "", "log": self.log}, 7, [line], {"out": ""}
        )


def first(name: str, old: str, new: str) -> Damage:
    return Damage(name, in_first(old, new), 16)


def second(name: str, sets: str) -> Damage:
    """Sets that may not follow the first message."""
    return Damage(name, behind(sets), FIRST_END)


def planned(name: str, sets: str) -> Damage:
    """Sets that may not follow the opening of a plan."""
    return Damage(name, PLAN_LOG[:-2] + frames(message(0, 2, sets)), size_of(PLAN_LOG) - 1)


LATER = horizon(1_000_000, 1_003_000)
OTHER = blocks(OTHER_BLOCK)
NO_MESSAGE = "000a 0010 00000000 00000002 00000001"
FILES = [
    Damage("a log of no bytes", "", 0),
    Damage("a header alone", HEADER, 0),
    Damage("a cut header", HEADER[:-2], 0),
    Damage("another letter", EMPTY_LOG.replace("41", "42"), 0),
    Damage("another form", EMPTY_LOG.replace("4c4f4701", "4c4f4702"), 0),
    Damage("a header that doesn't end with zeros", EMPTY_LOG.replace("00000000 00000000", "00000000 00000001"), 0),
    Damage("an open gate at the end", HEADER + "01", 16),
    Damage("a cut length", HEADER + "01 000000", 16),
    Damage("a length without bytes", HEADER + "01 0000008e", 16),
    Damage("a frame without a gate behind it", FIRST_LOG[:-2], 16),
    Damage("a cut frame", FIRST_LOG[:-5], 16),
    Damage("a second frame that is cut", FIRST_LOG[:-2] + "01", FIRST_END),
    Damage("a length of 15", HEADER + frames("000a 000f 00000000 00000000 000000"), 16),
    Damage("a length of 65,536", HEADER + frames("000a 0000 00000000 00000000 00000001" + 65520 * "00"), 16),
]
MESSAGES = [
    first("another version", "000a 008e", "0009 008e"),
    first("a shorter message", "000a 008e", "000a 008d"),
    first("a longer message", "000a 008e", "000a 008f"),
    first("a sequence number past the first", "00000000 00000001", "00000001 00000001"),
    Damage("a sequence number that stays", log_of(FIRST_MESSAGE, message(1000, 0, OTHER)), FIRST_END),
    Damage("a sequence number of messages", log_of(FIRST_MESSAGE, message(1000, 1, OTHER)), FIRST_END),
    Damage("a sequence number that skips", log_of(FIRST_MESSAGE, message(1000, 3, OTHER)), FIRST_END),
    first("another domain", "00000000 00000001", "00000000 00000000"),
    Damage("a message without templates", log_of(FIRST_MESSAGE, NO_MESSAGE), FIRST_END),
    Damage(
        "templates cut short", log_of(FIRST_MESSAGE, NO_MESSAGE.replace("0010", "0053") + TEMPLATES[:-2]), FIRST_END
    ),
    first("another template", "016a 0002", "016a 0004"),
    first("another enterprise", "8001 0008 00007ed9", "8001 0008 00007ed8"),
    Damage(
        "templates behind a set",
        log_of(FIRST_MESSAGE, NO_MESSAGE.replace("0010", f"{84 + 38:04x}") + OTHER + TEMPLATES),
        FIRST_END,
    ),
    second("templates twice", TEMPLATES + OTHER),
    second("blocks before the horizon", OTHER + LATER),
    second("blocks before a plan", OTHER + plan(1_000_000, PLAN)),
    second("a plan before the horizon", plan(1_000_000, PLAN) + LATER),
    second("two sets of blocks", OTHER + blocks(closing(1_300_000, FIRST_BLOCK))),
    second("two horizons", LATER + LATER),
    second("two sets of plans", plan(1_000_000, PLAN) + plan(1_000_001, "")),
    *[second(f"set {number}", OTHER.replace("0100", f"{number:04x}", 1)) for number in (0, 1, 2, 3, 255, 259, 65535)],
]
SETS = [
    *[second(f"set {number} without a record", f"{number:04x} 0004") for number in (256, 257, 258)],
    *[second(f"set {number} of zeros alone", f"{number:04x} 0008 00000000") for number in (256, 257, 258)],
    second("a set shorter than its head", OTHER + "0100 0003"),
    second("a set of no length", "0100 0000"),
    second("a set past the message", OTHER.replace("0026", "0027")),
    *[second(f"{count} bytes behind the sets", OTHER + count * "00") for count in (1, 2, 3)],
    second("a block that is cut", "0100 0025" + OTHER_BLOCK[:-2]),
    second("a second block that is cut", f"0100 0047 {OTHER_BLOCK} {FIRST_BLOCK.replace('c0000208', 'c0000209')[:-2]}"),
    second("a horizon that is cut", LATER[:-2].replace("0014", "0013")),
    second("a plan's record that is cut", "0102 000c 00000000000f4240"),
    second("zeros that end with a one", f"0100 0028 {OTHER_BLOCK} 0001"),
    second("zeros that begin with a one", f"0100 0028 {OTHER_BLOCK} 0100"),
    second("34 zeros behind a block", f"0100 0048 {OTHER_BLOCK} {'00' * 34}"),
    second("a one behind a horizon", LATER.replace("0014", "0015") + "01"),
    second("16 zeros behind a horizon", LATER.replace("0014", "0024") + "00" * 16),
    second("two horizons in a set", LATER.replace("0014", "0024") + LATER[10:]),
    planned("a one behind a plan's end", f"0102 000e {1_000_000:016x} 00 01"),
    planned("9 zeros behind a plan's end", f"0102 0016 {1_000_000:016x} 00 {'00' * 9}"),
    planned("a plan's length past its set", f"0102 000d {1_000_000:016x} 01"),
    planned("a plan's length of two bytes", f"0102 000e {1_000_000:016x} ff00"),
    planned("a plan's long length past its set", f"0102 0010 {1_000_000:016x} ff0002 20"),
]
RECORDS = [
    *[first(f"natEvent {number}", "0f4240 10", f"0f4240 {number:02x}") for number in (0, 4, 5, 12, 15, 17, 18, 255)],
    first("a prefix of 129 bits", f"{WIDE} c0", f"{WIDE[:-2]}81 c0"),
    first("a prefix of 255 bits", f"{WIDE} c0", f"{WIDE[:-2]}ff c0"),
    first("a bit past the prefix", f"{WIDE} c0", f"{WIDE[:17]}8{WIDE[18:]} c0"),
    first("the last bit past the prefix", f"{WIDE} c0", f"{WIDE[:31]}1 7f c0"),
    first("a bit past no prefix", f"{WIDE} c0", f"8{'0' * 31} 00 c0"),
    first("a last port before the first", "0400 05ff", "0600 05ff"),
    second("a block that opens twice", blocks(FIRST_BLOCK)),
    second("a port of an open block", blocks(OTHER_BLOCK.replace("0600", "05ff"))),
    second("a block around an open one", blocks(OTHER_BLOCK.replace("0600 07ff", "0000 ffff"))),
    second("a block within an open one", blocks(OTHER_BLOCK.replace("0600 07ff", "0500 0500"))),
    second("a block that opens twice in a message", blocks(OTHER_BLOCK, OTHER_BLOCK)),
    second("a closing of no block", blocks(closing(1_300_000, OTHER_BLOCK))),
    second("another's closing", blocks(closing(1_300_000, FIRST_BLOCK.replace("b80100", "b80101")))),
    second("a closing of another prefix", blocks(closing(1_300_000, FIRST_BLOCK.replace(" 38 ", " 39 ")))),
    second("a closing of another address", blocks(closing(1_300_000, FIRST_BLOCK.replace("c0000208", "c0000209")))),
    second("a closing from another port", blocks(closing(1_300_000, FIRST_BLOCK.replace("0400", "0401")))),
    second("a closing up to another port", blocks(closing(1_300_000, FIRST_BLOCK.replace("05ff", "05fe")))),
    second("a closing twice", blocks(closing(1_300_000, FIRST_BLOCK), closing(1_300_000, FIRST_BLOCK))),
    second("a closing before the opening", blocks(closing(999_999, FIRST_BLOCK))),
    second("a closing past the last moment", blocks(closing(LAST + 1, FIRST_BLOCK))),
    second("an opening past the last moment", horizon(0, LAST) + blocks(at(LAST + 1, OTHER_BLOCK))),
    second("an opening past the horizon", blocks(at(1_002_001, OTHER_BLOCK))),
    second("an opening past a new horizon", LATER + blocks(at(1_003_001, OTHER_BLOCK))),
    first("an opening without a horizon", f"{FIRST_HORIZON} 0100", f"{horizon(1_000_000, 0)} 0100"),
    second("a horizon before the last one", horizon(1_000_000, 1_001_999)),
    second("a horizon past the last moment", horizon(1_000_000, LAST + 1)),
    second("a horizon logged past the last moment", horizon(LAST + 1, 1_002_000)),
    second("a plan past the horizon", plan(1_002_001, PLAN)),
    second("a plan past the last moment", horizon(0, LAST) + plan(LAST + 1, PLAN)),
    second("a plan's end before any plan", plan(1_000_000, "")),
    planned("a plan in a plan", plan(1_000_000, PLAN)),
    planned("a plan's end before its opening", plan(999_999, "")),
    planned("a plan's end past the last moment", plan(LAST + 1, "")),
    Damage(
        "a plan's end after its end",
        PLAN_LOG[:-2] + frames(message(0, 2, plan(1_000_000, "")), message(0, 3, plan(1_000_000, ""))),
        size_of(PLAN_LOG) - 1 + 102,
    ),
]

# ---- the texts of plans

A, P = "a 20010db8010000000000000000000000", "p c0000208"


def prefixes(count: int) -> str:
    return " ".join(f"{number:02x}{30 * '0'}/56" for number in range(count))


def addresses(count: int) -> str:
    return " ".join(f"{0xC000_0208 + number:08x}/32" for number in range(count))


GOOD_PLANS = (
    PLAN,
    f"56 512 0 {A}/40 {P}/30",
    f"56 16 4032 {A}/56 {P}/32",
    f"56 16384 3 {A}/54 {P}/31",
    f"16 2048 4 a {'0' * 32}/16 {P}/32",
    f"128 2048 4 a {'f' * 31}e/127 {P}/32",
    f"56 2048 0 a 20010db8{24 * '0'}/32 {P}/32",
    f"56 2048 4 {A}/56 20010db8010001000000000000000000/56 {P}/32 c000020c/30",
    f"56 2048 4 a {prefixes(64)} p {addresses(64)}",
    f"56 2048 4 {A}/54 p 01000000/16",
    f"56 2048 4 {A}/54 p dfff0000/16",
    f"56 2048 4 {A}/54 p 7e000000/18 7effc000/18 80000000/18",
    f"56 2048 4 {A}/54 p bfffffff/32 c0000008/32",
)
BAD_PLANS = (
    " ",
    "56",
    PLAN + " ",
    " " + PLAN,
    PLAN + "\n",
    PLAN + "\0",
    PLAN.replace(" ", "  ", 1),
    PLAN.replace(" a ", " A "),
    PLAN.replace(" p ", " "),
    PLAN.replace(" ", "\t", 1),
    PLAN.replace("b8", "B8"),
    PLAN.replace("/54", ""),
    PLAN.replace("/54", "/"),
    PLAN.replace("/54", "/054"),
    PLAN.replace("/32", "/032"),
    PLAN.replace(" 4 ", " 04 "),
    PLAN.replace("56 ", "056 "),
    PLAN.replace("56 ", "+56 "),
    PLAN.replace("56 ", "18446744073709551672 "),
    PLAN.replace(" 4 ", " 65540 "),
    PLAN.replace(" 4 ", " -4 "),
    PLAN.replace("0/54", "/54"),
    PLAN.replace("0/54", "00/54"),
    PLAN.replace("c0000208", "0000208"),
    PLAN.replace(" 4 ", " "),
    PLAN.replace("a 20", "a  20"),
    PLAN.replace("p c0", "p  c0"),
    PLAN.replace("c0000208", "c000020"),
    PLAN.replace("c0000208", "0c0000208"),
    "56 2048 4 a p c0000208/32",
    f"56 2048 4 {A}/54 p",
    # values that no configuration may have
    f"15 2048 0 a {'0' * 32}/15 {P}/32",
    f"129 2048 4 {A}/127 {P}/32",
    f"56 2048 0 {A}/57 {P}/32",
    f"56 2048 0 a 20{30 * '0'}/31 {P}/32",
    f"56 2048 4 a 20010db8010000000000000000000001/54 {P}/32",
    f"56 2048 4 a 20010db8010001000000000000000000/54 {P}/32",
    f"56 2048 0 {A}/54 20010db8010001000000000000000000/56 {P}/32",
    f"56 2048 4 {A}/56 {A[2:]}/56 {P}/32",
    f"56 2048 4 a 20010db8010001000000000000000000/56 {A[2:]}/56 {P}/32",
    f"56 2048 4 a {prefixes(65)} p c0000240/26",
    f"56 2048 4 {A}/54 p {addresses(65)}",
    f"56 2048 4 {A}/54 p c0020000/15",
    f"56 2048 4 {A}/54 {P}/33",
    f"56 2048 4 {A}/54 {P}/28",
    f"56 2048 4 {A}/54 p c0010000/16 c0020001/32",
    f"56 2048 4 {A}/54 {P}/30 c000020b/32",
    f"56 2048 4 {A}/54 p c000020c/32 c0000208/32",
    f"56 2048 4 {A}/54 p 00ff0000/16",
    f"56 2048 4 {A}/54 p 7f000001/32",
    f"56 2048 4 {A}/54 p e0000000/32",
    f"56 2048 4 {A}/54 p c0000000/32",
    f"56 2048 4 {A}/54 p c0000007/32",
    f"56 2048 4 {A}/54 p c0000000/16",
    f"56 8 4 {A}/54 {P}/32",
    f"56 32768 1 {A}/56 {P}/32",
    f"56 0 4 {A}/54 {P}/32",
    f"56 2047 4 {A}/54 {P}/32",
    f"56 2048 32 {A}/56 {P}/32",
    f"56 16 4033 {A}/56 {P}/32",
    f"56 2048 3 {A}/54 {P}/32",
    f"56 16384 3 {A}/53 {P}/31",
    "0" * 4096,
    "0" * 20000,
)


def plan_cases() -> Iterator[Case]:
    """Texts of plans that may be, and of none."""
    for text in GOOD_PLANS:
        lines = [OPEN_LINE, f"plan 1000000 open {text}", "horizon 1002000"]
        yield sound(f"the plan '{text[:60]}'", behind(plan(1_000_000, text)), *lines)
    for text in BAD_PLANS:
        log = behind(plan(1_000_000, text))
        yield query_of("leases log", log, 7, [f"fault LogDamaged {FIRST_END}"], f"the plan '{text[:60]}'")


def log_cases() -> Iterator[Case]:
    """All cases."""
    yield from QUERIES
    yield from SOUND
    for damage in [*FILES, *MESSAGES, *SETS, *RECORDS]:
        yield from damage.cases()
    yield from plan_cases()
