#!/usr/bin/env python3
"""Packs LSPs with `struct` and signs them with `hmac`, from the layouts of ISO 10589 9.8 and RFC 5304 2.

Prints the rows of src/octets.rt, the key, the sequence number, the TLVs and the octets, and then AGED of src/made.rt;
LIVE stands for the octets of the first row. The check octets are found by trying all pairs. It shares nothing with the
crates.
"""

import hmac
import struct

ID = bytes.fromhex("0000000000010000")


def lsp(lifetime, number, checksum, flags, tlvs):
    head = struct.pack(">8BHH8sIHB", 0x83, 27, 1, 0, 18, 1, 0, 0, 27 + len(tlvs), lifetime, ID, number, checksum, flags)
    return head + tlvs


def digest(key, octets):
    blank = bytearray(octets)
    blank[10:12] = blank[24:26] = bytes(2)
    blank[30:46] = bytes(16)
    return hmac.new(key, bytes(blank), "md5").digest()


def signed(key, octets_of, tlvs):
    if not key:
        return tlvs
    auth = b"\x0a\x11\x36"
    return auth + digest(key, octets_of(auth + bytes(16) + tlvs)) + tlvs


def holds(octets):
    plain = sum(octets)
    weighted = sum((len(octets) - place) * octet for place, octet in enumerate(octets))
    return plain % 255 == 0 and weighted % 255 == 0


def summed(octets):
    for first in range(1, 256):
        for second in range(1, 256):
            tried = octets[:24] + bytes([first, second]) + octets[26:]
            if holds(tried[12:]):
                return tried


def issued(key, number, tlvs):
    return summed(lsp(1200, number, 0, 3, signed(key, lambda all: lsp(1200, number, 0, 3, all), tlvs)))


def purge(key, number):
    return lsp(0, number, 0, 3, signed(key, lambda all: lsp(0, number, 0, 3, all), b""))


def literal(octets):
    return 'b"' + "".join(f"\\x{octet:02x}" for octet in octets) + '"'


PROTOCOL = b"\x81\x01\xcc"
for key, number, tlvs in [(b"", 1, b""), (b"", 258, PROTOCOL), (b"key", 258, PROTOCOL), (b"k" * 65, 4294967295, b"")]:
    print(f"    ({literal(key)}, {number}, {literal(tlvs)}, {literal(issued(key, number, tlvs))}),")
for key in (b"", b"key"):
    print(f"    ({literal(key)}, {literal(purge(key, 7))}),")
aged = issued(b"", 1, b"")
print(f"    {literal(aged[:10] + struct.pack('>H', 600) + aged[12:])}")
