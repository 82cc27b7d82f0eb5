#!/usr/bin/env python3
"""Writes the IPFIX messages of a log to standard output, one after another, for a collector or a reader of IPFIX files.

Nothing is looked at inside a message: only the log's header, its gates and its lengths. The log may be one that a run
is writing. Where it is damaged, the messages before the damage are written, and the exit status is 1.
"""

import sys

HEADER = b"AFTRLOG\x01" + bytes(8)
OPEN_GATE = 1
SHORTEST, LONGEST = 16, 65535


def messages_of(log):
    """Each message, and at the end the offset of the gate where the log is damaged, or None."""
    if len(log) <= len(HEADER) or not log.startswith(HEADER):
        return [], 0
    messages, gate = [], len(HEADER)
    while log[gate] == OPEN_GATE:
        begin = gate + 5
        end = begin + int.from_bytes(log[gate + 1 : begin], "big")
        if not SHORTEST <= end - begin <= LONGEST or end >= len(log):
            return messages, gate
        messages.append(log[begin:end])
        gate = end
    return messages, None


def show(words, usage, write):
    """Writes the messages of the log that the words name in some way, and where it is damaged. The exit status."""
    if len(words) != 2:
        print(f"usage: {usage}", file=sys.stderr)
        return 2
    with open(words[1], "rb") as source:
        messages, damage = messages_of(source.read())
    write(messages, damage)
    return 0 if damage is None else 1


def write_messages(messages, damage):
    sys.stdout.buffer.write(b"".join(messages))
    if damage is not None:
        print(f"the log is damaged at {damage}", file=sys.stderr)


if __name__ == "__main__":
    sys.exit(show(sys.argv, "log_messages.py LOG > FILE", write_messages))
