"""Logs in hexadecimal digits, spelled by hand: the forms of the file and of its messages (RFC 7011), and some logs."""

from __future__ import annotations

HEADER = "41465452 4c4f4701 00000000 00000000"
EMPTY_LOG = HEADER + "00"
# The templates of blocks (256), of the horizon (257) and of a plan (258).
TEMPLATES = """0002 0044 0100 0007 0143 0008 00e6 0001 001b 0010 001d 0001 00e1 0004 0169 0002 016a 0002
    0101 0002 0143 0008 8001 0008 00007ed9 0102 0002 0143 0008 8002 ffff 00007ed9"""
# At 1,000,000 this prefix got ports 1024 to 1535 of 192.0.2.8, and names are promised up to 1,002,000.
FIRST_BLOCK = "00000000000f4240 10 20010db8010000000000000000000000 38 c0000208 0400 05ff"
FIRST_HORIZON = "0101 0014 00000000000f4240 00000000000f4a10"
FIRST_MESSAGE = f"000a 008e 000003e8 00000000 00000001 {TEMPLATES} {FIRST_HORIZON} 0100 0026 {FIRST_BLOCK}"
FIRST_LOG = f"{HEADER} 01 0000008e {FIRST_MESSAGE} 00"  # of 164 bytes
FIRST_END = 163  # where the first frame's end is, and the gate behind it
# A millisecond later another subscriber's block.
OTHER_BLOCK = "00000000000f4241 10 20010db8010001000000000000000000 38 c0000208 0600 07ff"


def size_of(digits: str) -> int:
    return len(bytes.fromhex(digits))


def message(seconds: int, records_before: int, sets: str) -> str:
    """A message of a log (RFC 7011 3.1)."""
    return f"000a {16 + 68 + size_of(sets):04x} {seconds:08x} {records_before:08x} 00000001 {TEMPLATES} {sets}"


def frames(*messages: str) -> str:
    """The rest of a log from a gate on: each message behind an open gate, and a closed one."""
    return "".join(f"01 {size_of(text):08x} {text}" for text in messages) + "00"


def log_of(*messages: str) -> str:
    return HEADER + frames(*messages)


def at(moment: int, block: str) -> str:
    """The record of a block at another moment."""
    return f"{moment:016x}{block[16:]}"


def closing(moment: int, block: str) -> str:
    return f"{moment:016x} 11{block[19:]}"


def blocks(*records: str) -> str:
    """The set of blocks."""
    return f"0100 {4 + 34 * len(records):04x} " + "".join(records)


def horizon(moment: int, reach: int) -> str:
    """The set of the horizon."""
    return f"0101 0014 {moment:016x} {reach:016x}"


def plan(moment: int, text: str) -> str:
    """The set of a plan; an empty text closes it."""
    length = f"{len(text):02x}" if len(text) < 255 else f"ff{len(text):04x}"
    record = f"{moment:016x} {length} {text.encode().hex()}"
    return f"0102 {4 + size_of(record):04x} {record}"


# The first block is closed when its mapping is over; then the other subscriber gets the next block or the same one.
CLOSING_MESSAGE = message(1300, 2, blocks(closing(1_300_000, FIRST_BLOCK)))
HELD_MESSAGE = message(1419, 3, horizon(1_419_999, 1_421_999) + blocks(at(1_419_999, OTHER_BLOCK)))
FREE_BLOCK = at(1_420_000, OTHER_BLOCK).replace("0600 07ff", "0400 05ff")
FREE_MESSAGE = message(1420, 3, horizon(1_420_000, 1_422_000) + blocks(FREE_BLOCK))
CLOSED_LOG = log_of(FIRST_MESSAGE, CLOSING_MESSAGE)

# A plan of four blocks of 2,048 ports for the first four subscribers.
PLAN = "56 2048 4 a 20010db8010000000000000000000000/54 p c0000208/32"
PLAN_MESSAGE = message(1000, 0, horizon(1_000_000, 1_002_000) + plan(1_000_000, PLAN))
PLAN_LOG = log_of(PLAN_MESSAGE)
# Sets of each kind, with zeros behind their records (RFC 7011 3.3.1).
RICH_LOG = log_of(
    PLAN_MESSAGE,
    message(0, 2, f"0101 0017 00000000000f4a10 00000000000f51e0 000000 0100 0028 {OTHER_BLOCK} 0000"),
    message(9, 4, f"0102 0010 00000000000f4a11 00 000000 0100 0026 {closing(0xF4A11, OTHER_BLOCK)}"),
)
