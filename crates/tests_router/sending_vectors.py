#!/usr/bin/env python3
"""Packs PDUs with `struct` and signs them with `hmac`, from the layouts of ISO 10589 9, RFC 1195 5.3, RFC 5303 3.1
and RFC 5304 2.

Prints the PDUs of src/sending.rt. It shares nothing with the crates.
"""

import hmac
import struct

SYSTEM = bytes.fromhex("000000000001")
AREA = b"\x01\x04\x03\x49\x00\x01"
PROTOCOL = b"\x81\x01\xcc"
ADDRESS = b"\x84\x04\x0a\x00\x00\x01"


def start(header, kind):
    return struct.pack("8B", 0x83, header, 1, 0, kind, 1, 0, 0)


def point_hello(tlvs):
    return start(20, 17) + struct.pack(">B6sHHB", 3, SYSTEM, 30, 20 + len(tlvs), 1) + tlvs


def lan_hello(tlvs):
    return start(27, 15) + struct.pack(">B6sHHB6sB", 3, SYSTEM, 30, 27 + len(tlvs), 64, SYSTEM, 1) + tlvs


def csnp(tlvs):
    return start(33, 25) + struct.pack(">H7s8s8s", 33 + len(tlvs), SYSTEM + b"\0", bytes(8), b"\xff" * 8) + tlvs


def psnp(tlvs):
    return start(17, 26) + struct.pack(">H7s", 17 + len(tlvs), SYSTEM + b"\0") + tlvs


def signed(key, header, pdu, tlvs):
    if not key:
        return pdu(tlvs)
    auth = b"\x0a\x11\x36"
    blank = pdu(auth + bytes(16) + tlvs)
    assert blank[header:header + 3] == auth
    return pdu(auth + hmac.new(key, blank, "md5").digest() + tlvs)


def in_pieces(code, size, items):
    tlvs = b""
    for place in range(0, len(items), size):
        value = b"".join(items[place:place + size])
        tlvs += bytes([code, len(value)]) + value
    return tlvs


def entry(number):
    return struct.pack(">H6sBBIH", 1200, SYSTEM, 0, number, number, 258)


def show(name, pdu):
    print(f'const {name}: &[u8] = b"' + "".join(f"\\x{octet:02x}" for octet in pdu) + '";')


COMMON = AREA + PROTOCOL + ADDRESS
SNPAS = [bytes([2, 0, 0, 0, 0, number]) for number in range(1, 44)]
ENTRIES = [entry(number) for number in range(1, 17)]
show("POINT", signed(b"key", 20, point_hello, COMMON + b"\xf0\x0f\x01" + struct.pack(">I6sI", 257, SNPAS[0], 513)))
show("LAN", signed(b"key", 27, lan_hello, COMMON + in_pieces(6, 42, SNPAS)))
show("CSNP", signed(b"", 33, csnp, in_pieces(9, 15, ENTRIES)))
show("PSNP", signed(b"area", 17, psnp, in_pieces(9, 15, ENTRIES[:1])))
