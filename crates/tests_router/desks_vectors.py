#!/usr/bin/env python3
"""Packs datagrams with `struct` and signs them with `hmac`, from the layouts of ISO 10589 9 and RFC 5304 2.

Prints the table of src/desks.rt: the desk, the circuit, the datagram in hex, and the cause in the form of Rust's
`Debug`. The check octets of LSPs are found by trying all pairs. It shares nothing with the crates.
"""

import hmac
import struct

SENDER = bytes.fromhex("000000000002")
BOOT = bytes.fromhex("01020304")
FRAME = b"ISU2" + SENDER + BOOT
AREA = b"\x01\x04\x03\x49\x00\x01"
ENTRY = bytes(16)


def start(header, kind):
    return struct.pack("8B", 0x83, header, 1, 0, kind, 1, 0, 0)


def lan_hello(level, tlvs=b""):
    return start(27, 14 + level) + struct.pack(">B6sHHB6sB", level, SENDER, 30, 27 + len(tlvs), 64, SENDER, 1) + tlvs


def point_hello(tlvs=b""):
    return start(20, 17) + struct.pack(">B6sHHB", 3, SENDER, 30, 20 + len(tlvs), 1) + tlvs


def csnp(level, tlvs=b""):
    return start(33, 23 + level) + struct.pack(">H7s8s8s", 33 + len(tlvs), SENDER + b"\0", bytes(8), b"\xff" * 8) + tlvs


def psnp(level, tlvs=b""):
    return start(17, 25 + level) + struct.pack(">H7s", 17 + len(tlvs), SENDER + b"\0") + tlvs


def holds(octets):
    plain = sum(octets)
    weighted = sum((len(octets) - place) * octet for place, octet in enumerate(octets))
    return plain % 255 == 0 and weighted % 255 == 0


def lsp(level, lifetime, number, checksum=None, tlvs=b""):
    head = start(27, 16 + 2 * level) + struct.pack(">HH8sI", 27 + len(tlvs), lifetime, SENDER + b"\0\0", number)
    rest = b"\x03" + tlvs
    if checksum is None:
        pairs = [bytes([x, y]) for x in range(1, 256) for y in range(1, 256)]
        checksum = next(pair for pair in pairs if holds(head[12:] + pair + rest))
    return head + checksum + rest


def signed(key, make):
    blank = make(b"\x0a\x11\x36" + bytes(16))
    return blank[:-16] + hmac.new(key, blank, "md5").digest()


def row(desk, circuit, pdu, cause="None", frame=FRAME):
    print(desk, circuit, (frame + pdu).hex(), cause)


# one PDU of each type, on each kind of circuit that it goes on
row("open", 1, point_hello(AREA))
row("open", 2, lan_hello(1, AREA))
row("open", 2, lan_hello(2, AREA))
for circuit in (1, 2):
    for level in (1, 2):
        row("open", circuit, lsp(level, 1200, 1, tlvs=AREA))
        row("open", circuit, csnp(level, b"\x09\x10" + ENTRY))
        row("open", circuit, psnp(level, b"\x09\x10" + ENTRY))
# octets behind a PDU, a purge whose checksum doesn't hold, and PDUs that are signed
row("open", 1, psnp(1) + b"\x01")
row("open", 1, lsp(1, 0, 1, b"\x00\x01"))
row("keyed", 1, signed(b"link", point_hello))
row("keyed", 1, signed(b"area", lambda tlvs: psnp(1, tlvs)))
row("keyed", 2, lan_hello(1, AREA))
# each cause
row("open", 1, b"", "Some(Frame(Short))", FRAME[:13])
row("open", 1, b"", "Some(Frame(Short))", b"ISU")
row("open", 1, b"", "Some(Frame(Magic))", b"ISU3" + FRAME[4:])
row("open", 1, b"", "Some(Version)", b"ISU1")
row("open", 1, point_hello(AREA), "Some(Version)", b"ISU1" + SENDER)
row("open", 1, b"", "Some(Pdu(PduFault { kind: Short, place: 0 }))")
row("open", 1, psnp(1)[:16], "Some(Pdu(PduFault { kind: Short, place: 16 }))")
row("open", 1, lan_hello(1), "Some(WrongKind)")
row("open", 2, point_hello(), "Some(WrongKind)")
row("keyed", 1, psnp(2), "Some(WrongLevel)")
row("keyed", 1, lan_hello(2), "Some(WrongKind)")
row("keyed", 1, psnp(1), "Some(Auth(Missing))")
row("keyed", 1, signed(b"area", point_hello), "Some(Auth(Wrong))")
row("keyed", 1, psnp(1, b"\x0a\x02\x01\x61"), "Some(Auth(OtherType))")
row("keyed", 1, signed(b"area", lambda tlvs: lsp(1, 0, 1, b"\0\0", AREA + tlvs)), "Some(Auth(PurgeBody))")
row("open", 1, point_hello(b"\x01\x05\x03\x49\x00\x01\x0e"), "Some(Value { place: 26 })")
row("open", 1, point_hello(b"\x06\x07" + SENDER + b"\x00"), "Some(Value { place: 28 })")
row("open", 2, lan_hello(1, AREA + b"\xf0\x01\x03"), "Some(Value { place: 35 })")
row("open", 1, psnp(1, b"\x09\x11" + ENTRY + b"\x00"), "Some(Value { place: 35 })")
row("open", 1, csnp(1, b"\x09\x00\x09\x01\x00"), "Some(Value { place: 37 })")
row("open", 1, lsp(1, 1200, 0), "Some(ZeroNumber)")
row("open", 1, lsp(1, 0, 0, b"\0\0"), "Some(ZeroNumber)")
row("open", 1, lsp(1, 1200, 1, b"\0\0"), "Some(BadChecksum)")
row("open", 1, lsp(1, 1200, 1, b"\0\1"), "Some(BadChecksum)")
