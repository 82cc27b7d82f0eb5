#!/usr/bin/env python3
"""Makes an input for the program: frames of softwire packets, the same for the same arguments.

Each frame bears one plain UDP packet inside IPv6. The subscribers take turns; each has eight ports, and the sixteen
destinations take turns too. Moments rise by one millisecond a frame.
"""

import argparse
import struct

AFTR = 0x2001_0DB8_0000_0000_0000_0000_0000_0001
FIRST_SOFTWIRE = 0x2001_0DB8_0100_0000_0000_0000_0000_0002
SUBSCRIBER_STEP = 1 << 72  # the next prefix of 56 bits
INNER = 0xC000_0002  # 192.0.0.2
FIRST_REMOTE = 0xCB00_7101  # 203.0.113.1
REMOTES = 16
FIRST_PORT = 5000
PORTS = 8
FIRST_MOMENT = 1_000_000
FROM_SOFTWIRE = 1
IPV4_IN_IPV6 = 4
UDP = 17


def checksum(data):
    """The Internet checksum of a whole number of 16-bit words (RFC 1071)."""
    total = sum(struct.unpack(f">{len(data) // 2}H", data))
    while total > 0xFFFF:
        total = (total & 0xFFFF) + (total >> 16)
    return 0xFFFF - total


def udp_datagram(source, destination, source_port, payload, with_checksum):
    length = 8 + len(payload)
    head = struct.pack(">HHH", source_port, 53, length)
    if not with_checksum:
        return head + bytes(2) + payload
    pseudo = struct.pack(">IIHH", source, destination, UDP, length)
    value = checksum(pseudo + head + bytes(2) + payload)
    return head + struct.pack(">H", value or 0xFFFF) + payload


def ipv4_packet(source, destination, identification, payload):
    length = 20 + len(payload)
    head = struct.pack(">BBHHHBB", 0x45, 0, length, identification, 0, 64, UDP)
    addresses = struct.pack(">II", source, destination)
    value = checksum(head + bytes(2) + addresses)
    return head + struct.pack(">H", value) + addresses + payload


def ipv6_packet(source, destination, payload):
    head = struct.pack(">IHBB", 0x6000_0000, len(payload), IPV4_IN_IPV6, 64)
    return head + source.to_bytes(16, "big") + destination.to_bytes(16, "big") + payload


def frame(number, subscribers, with_checksum):
    softwire = FIRST_SOFTWIRE + (number % subscribers) * SUBSCRIBER_STEP
    turn = number // subscribers
    port = FIRST_PORT + turn % PORTS
    remote = FIRST_REMOTE + (turn // PORTS + number) % REMOTES
    payload = struct.pack(">I", number & 0xFFFF_FFFF)
    datagram = udp_datagram(INNER, remote, port, payload, with_checksum)
    inner = ipv4_packet(INNER, remote, number & 0xFFFF, datagram)
    packet = ipv6_packet(softwire, AFTR, inner)
    return struct.pack(">IBQ", 9 + len(packet), FROM_SOFTWIRE, FIRST_MOMENT + number) + packet


def main():
    parser = argparse.ArgumentParser(description="Makes frames of softwire packets.")
    parser.add_argument("out", help="the file that is written")
    parser.add_argument("--frames", type=int, default=100_000)
    parser.add_argument("--subscribers", type=int, default=200, help="at most 504 find a block of ports by the defaults")
    parser.add_argument("--no-checksum", action="store_true", help="UDP without a checksum")
    arguments = parser.parse_args()
    with open(arguments.out, "wb") as out:
        for number in range(arguments.frames):
            out.write(frame(number, arguments.subscribers, not arguments.no_checksum))


if __name__ == "__main__":
    main()
