#!/usr/bin/env python3
"""Makes the tables of src/auth.rt: digests, and PDUs that are signed or spoilt, by Python's hmac and hashlib.

It packs the PDUs from the layouts of ISO 10589 9 and signs them as RFC 5304 2 says. It shares nothing with hmac_auth.
"""

import hashlib
import hmac
import struct

LENGTHS = [0, 64, 65]
AREA, DOMAIN, LINK = b"area key", b"\x00" * 20, bytes(range(70))
SYSTEM = bytes.fromhex("000000000001")
PROTOCOLS = b"\x81\x01\xcc"
AREAS = b"\x01\x04\x03\x49\x00\x01"
DIGEST = b"\x0a\x11\x36" + bytes(16)


def md5(key, message):
    return hmac.new(key, message, hashlib.md5).digest()


def common(kind, header):
    return bytes([0x83, header, 1, 0, kind, 1, 0, 0])


def lan_hello(kind, tlvs):
    head = common(kind, 27) + b"\x03" + SYSTEM + struct.pack(">HH", 30, 27 + len(tlvs))
    return head + b"\x40" + SYSTEM + b"\x02" + tlvs


def p2p_hello(tlvs):
    return common(17, 20) + b"\x03" + SYSTEM + struct.pack(">HHB", 30, 20 + len(tlvs), 1) + tlvs


def lsp(kind, lifetime, number, tlvs, checksum=0x1234):
    head = common(kind, 27) + struct.pack(">HH", 27 + len(tlvs), lifetime) + SYSTEM + b"\x00\x00"
    return head + struct.pack(">IHB", number, checksum, 3) + tlvs


def csnp(kind, tlvs):
    head = common(kind, 33) + struct.pack(">H", 33 + len(tlvs)) + SYSTEM + b"\x00"
    return head + bytes(8) + b"\xff" * 8 + tlvs


def psnp(kind, tlvs):
    return common(kind, 17) + struct.pack(">H", 17 + len(tlvs)) + SYSTEM + b"\x00" + tlvs


def signed(key, pdu, place):
    """The PDU with its digest from a place on."""
    message = bytearray(pdu)
    message[place : place + 16] = bytes(16)
    if pdu[4] & 31 in (18, 20):
        message[10:12] = bytes(2)
        message[24:26] = bytes(2)
    return pdu[:place] + md5(key, bytes(message)) + pdu[place + 16 :]


def with_octet(pdu, place, change=1):
    return pdu[:place] + bytes([pdu[place] ^ change]) + pdu[place + 1 :]


def entry(lifetime, number, checksum):
    return b"\x09\x10" + struct.pack(">H", lifetime) + SYSTEM + b"\x00\x00" + struct.pack(">IH", number, checksum)


def pdus():
    """Key, PDU and fault."""
    body = DIGEST + AREAS + PROTOCOLS
    live = signed(AREA, lsp(18, 1199, 7, body), 30)
    purge = signed(AREA, lsp(18, 0, 7, DIGEST, 0), 30)
    hello = signed(LINK, lan_hello(15, DIGEST + AREAS), 30)
    yield AREA, live, "Good"
    yield DOMAIN, signed(DOMAIN, lsp(20, 1, 1, AREAS + DIGEST + PROTOCOLS), 36), "Good"
    yield AREA, live[:10] + b"\x00\x01" + live[12:], "Good"
    yield AREA, live[:24] + b"\xff\xff" + live[26:], "Good"
    yield AREA, purge, "Good"
    yield AREA, signed(AREA, lsp(18, 0, 7, DIGEST + b"\x0a\x01\x01", 0), 30), "Good"
    yield LINK, hello, "Good"
    yield b"", signed(b"", lan_hello(16, PROTOCOLS + DIGEST), 33), "Good"
    yield LINK, signed(LINK, p2p_hello(DIGEST + b"\xf0\x01\x02"), 23), "Good"
    yield AREA, signed(AREA, csnp(24, DIGEST + entry(1199, 7, 0x1234)), 36), "Good"
    yield DOMAIN, signed(DOMAIN, csnp(25, entry(0, 2, 0) + DIGEST), 54), "Good"
    yield AREA, signed(AREA, psnp(26, DIGEST + entry(1199, 7, 0x1234)), 20), "Good"
    yield DOMAIN, signed(DOMAIN, psnp(27, DIGEST), 20), "Good"
    # The first of two digests counts, and the second one is a part of its message.
    twice = signed(AREA, psnp(26, DIGEST + DIGEST), 20)
    yield AREA, twice, "Good"
    yield AREA, signed(AREA, psnp(26, DIGEST + DIGEST), 39), "Wrong"
    yield AREA, with_octet(twice, 50), "Wrong"

    yield AREA, lan_hello(15, b""), "Missing"
    yield AREA, lsp(18, 1199, 7, AREAS + PROTOCOLS), "Missing"
    yield AREA, lsp(20, 0, 7, AREAS, 0), "Missing"
    yield AREA, psnp(26, entry(10, 0x0A113600, 0x0A11)), "Missing"
    yield AREA, psnp(26, b"\x0a\x05\x01area"), "OtherType"
    yield AREA, psnp(26, b"\x0a\x00"), "OtherType"
    yield AREA, psnp(26, b"\x0a\x11\x01" + bytes(16)), "OtherType"
    yield AREA, psnp(26, b"\x0a\x10\x36" + bytes(15)), "OtherType"
    yield AREA, csnp(24, b"\x0a\x01\x36" + DIGEST), "OtherType"
    yield AREA, lsp(18, 0, 7, b"\x0a\x15\x36" + bytes(20) + AREAS, 0), "OtherType"
    yield AREA, signed(AREA, lsp(18, 0, 7, DIGEST + AREAS, 0), 30), "PurgeBody"
    yield AREA, lsp(20, 0, 7, AREAS + DIGEST, 0), "PurgeBody"
    yield AREA, live[:10] + b"\x00\x00" + live[12:], "PurgeBody"
    yield DOMAIN, live, "Wrong"
    yield AREA, hello, "Wrong"
    yield LINK, with_octet(hello, 30, 0x80), "Wrong"
    yield LINK, with_octet(hello, 45), "Wrong"
    yield LINK, with_octet(hello, len(hello) - 1), "Wrong"
    yield AREA, with_octet(live, 26), "Wrong"
    yield AREA, with_octet(live, 23), "Wrong"
    yield AREA, with_octet(purge, 4, 18 ^ 20), "Wrong"
    # Signed with the lifetime and the checksum as they are.
    yield AREA, live[:30] + md5(AREA, live[:30] + bytes(16) + live[46:]) + live[46:], "Wrong"


def spelt(octets):
    return octets.hex() or "-"


def row(count, step, first):
    return bytes((step * place + first) % 256 for place in range(count))


def main():
    for key in LENGTHS:
        for message in LENGTHS:
            print(key, message, md5(row(key, 11, 5), row(message, 7, 3)).hex())
    for key, pdu, fault in pdus():
        print(spelt(key), spelt(pdu), *([] if fault == "Good" else [fault]))


if __name__ == "__main__":
    main()
