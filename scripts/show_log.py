#!/usr/bin/env python3
"""Prints the frames and records of a log, a line each. Whether what stands there is a log, the program says.

    frame at OFFSET: N bytes exported at SECONDS, N records before
      horizon at MOMENT: up to MOMENT
      opens|closes at MOMENT: ADDRESS FIRST to LAST, PREFIX/LENGTH
      plan at MOMENT: TEXT, nothing where it ends
"""

import ipaddress
import struct
import sys

from log_messages import HEADER, show

BLOCKS, HORIZON, PLAN = 256, 257, 258
BLOCK = struct.Struct(">QB16sB4sHH")
EVENTS = {16: "opens", 17: "closes"}


def records_of(number, body):
    """A line for each record of a set."""
    if number == BLOCKS:
        for at in range(0, len(body) - BLOCK.size + 1, BLOCK.size):
            moment, event, prefix, length, address, first, last = BLOCK.unpack_from(body, at)
            place = f"{ipaddress.ip_address(address)} {first} to {last}"
            verb = EVENTS.get(event, f"natEvent {event}")
            yield f"{verb} at {moment}: {place}, {ipaddress.ip_address(prefix)}/{length}"
    elif number == HORIZON:
        yield "horizon at {}: up to {}".format(*struct.unpack_from(">QQ", body))
    elif number == PLAN:
        begin = 9 if body[8] < 255 else 11
        length = body[8] if body[8] < 255 else struct.unpack_from(">H", body, 9)[0]
        yield f"plan at {struct.unpack_from('>Q', body)[0]}: {body[begin : begin + length].decode('latin-1')}"


def sets_of(message):
    at = 16
    while at + 4 <= len(message):
        number, length = struct.unpack_from(">HH", message, at)
        yield number, message[at + 4 : at + length]
        at += max(length, 4)


def print_frames(messages, damage):
    gate = len(HEADER)
    for message in messages:
        _, length, exported, before, _ = struct.unpack_from(">HHIII", message)
        print(f"frame at {gate}: {length} bytes exported at {exported}, {before} records before")
        for number, body in sets_of(message):
            for line in records_of(number, body):
                print(f"  {line}")
        gate += 5 + len(message)
    print(f"end at {gate}" if damage is None else f"damage at {damage}")


if __name__ == "__main__":
    sys.exit(show(sys.argv, "show_log.py LOG", print_frames))
