#!/usr/bin/env python3
"""Makes LSPs of about 425 octets, with good checksums: areas, protocols, a hostname, neighbours and prefixes.

usage: pdus.py COUNT FOLDER

Writes FOLDER/pdus.pcap, a capture of them all as Ethernet frames, and FOLDER/lines.1, lines.2 and so on: a PDU in hex
on each line, as many lines in a file as an input may have octets.
"""
import random
import struct
import sys

LIMIT = 16_777_216


def tlv(code, value):
    return bytes([code, len(value)]) + value


def with_checksum(packed):
    """The two octets at 24 that make the two sums over the octets from 12 on 0 modulo 255."""
    first = second = 0
    for octet in packed[12:]:
        first += octet
        second += first
    behind = len(packed) - 25
    x = (behind * first - second) % 255
    y = (second - (behind + 1) * first) % 255
    return packed[:24] + bytes([x or 255, y or 255]) + packed[26:]


def pdu(generator, number):
    system = b"\x00\x00" + struct.pack(">I", number)
    areas, protocols = tlv(1, bytes.fromhex("03490001")), tlv(129, b"\xcc")
    hostname = tlv(137, b"router%06d" % number)
    neighbours = b"".join(
        struct.pack(">HIB3sB", 0, generator.randrange(1, 1 << 32), 0, b"\x00\x00\x0a", 0) for _ in range(generator.randrange(10, 15))
    )
    prefixes = b"".join(
        struct.pack(">IB3s", generator.randrange(1, 1000), 24, bytes([10, generator.randrange(256), generator.randrange(256)]))
        for _ in range(generator.randrange(28, 33))
    )
    tlvs = areas + protocols + hostname + tlv(22, neighbours) + tlv(135, prefixes[:120]) + tlv(135, prefixes[120:])
    head = struct.pack("8B", 0x83, 27, 1, 0, 18, 1, 0, 0)
    fields = struct.pack(">HH6sBBIHB", 27 + len(tlvs), generator.randrange(1, 1200), system, 0, 0, generator.randrange(1, 1 << 32), 0, 3)
    return with_checksum(head + fields + tlvs)


def main():
    count, folder = int(sys.argv[1]), sys.argv[2]
    generator = random.Random(1)
    pdus = [pdu(generator, number) for number in range(1, count + 1)]
    with open(folder + "/pdus.pcap", "wb") as capture:
        capture.write(struct.pack("<IHHiIII", 0xA1B2C3D4, 2, 4, 0, 0, 65535, 1))
        for octets in pdus:
            payload = b"\xfe\xfe\x03" + octets
            frame = bytes.fromhex("0180c2000014" "020000000001") + struct.pack(">H", len(payload)) + payload
            capture.write(struct.pack("<IIII", 0, 0, len(frame), len(frame)) + frame)
    files, room = 0, 0
    lines = None
    for octets in pdus:
        line = octets.hex() + "\n"
        if len(line) > room:
            files, room = files + 1, LIMIT
            lines = open("%s/lines.%d" % (folder, files), "w")
        lines.write(line)
        room -= len(line)
    print("%d PDUs, %d octets each on average, %d inputs" % (count, sum(map(len, pdus)) // count, files))


main()
