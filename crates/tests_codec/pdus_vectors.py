#!/usr/bin/env python3
"""Packs PDUs with `struct`, from the layouts of ISO 10589 9.5 to 9.13.

Prints the tables of src/pdus.rt: of each PDU its octets in hex, the number of octets behind it, and its value in the
form of Rust's `Debug`; then octets that are no PDU, with the fault and its place. It shares nothing with isis_pdu.
"""

import struct

LEVELS = {1: "One", 2: "Two", 3: "Both"}
ONES = "ffffffffffff"


def start(header, kind, id_length=0, reserved=0, last=0, areas=0):
    return struct.pack("8B", 0x83, header, 1, id_length, reserved | kind, 1, last, areas)


def system(text):
    return "SystemId([%s])" % ", ".join(str(octet) for octet in bytes.fromhex(text))


def node(text, pseudonode):
    return "NodeId { system: %s, pseudonode: %d }" % (system(text), pseudonode)


def lsp(text, pseudonode, number):
    return "LspId { node: %s, number: %d }" % (node(text, pseudonode), number)


def octets(tlvs):
    return "[%s]" % ", ".join(str(octet) for octet in tlvs)


def row(packed, says, behind=b""):
    print(packed.hex() + behind.hex(), len(behind), says)


def lan_hello(level, levels, source, holding, priority, lan, tlvs=b"", bits=0, circuit=0, behind=b"", **rest):
    packed = start(27, 14 + level, **rest) + struct.pack(
        ">B6sHHB6sB", circuit | levels, bytes.fromhex(source), holding, 27 + len(tlvs), bits | priority, bytes.fromhex(lan[0]), lan[1]
    )
    says = "LanHello { level: %s, circuit_type: %s, source: %s, holding: %d, priority: %d, lan: %s, tlvs: %s }"
    row(packed + tlvs, says % (LEVELS[level], LEVELS[levels], system(source), holding, priority, node(*lan), octets(tlvs)), behind)


def point_hello(levels, source, holding, circuit, tlvs=b"", bits=0, behind=b"", **rest):
    packed = start(20, 17, **rest) + struct.pack(">B6sHHB", bits | levels, bytes.fromhex(source), holding, 20 + len(tlvs), circuit)
    says = "PointHello { circuit_type: %s, source: %s, holding: %d, circuit: %d, tlvs: %s }"
    row(packed + tlvs, says % (LEVELS[levels], system(source), holding, circuit, octets(tlvs)), behind)


def link_state(level, lifetime, name, number, checksum, flags, tlvs=b"", behind=b"", **rest):
    packed = start(27, 16 + 2 * level, **rest) + struct.pack(
        ">HH6sBBIHB", 27 + len(tlvs), lifetime, bytes.fromhex(name[0]), name[1], name[2], number, checksum, flags
    )
    says = "Lsp { level: %s, lifetime: %d, id: %s, number: %d, checksum: %d, flags: %d, tlvs: %s }"
    row(packed + tlvs, says % (LEVELS[level], lifetime, lsp(*name), number, checksum, flags, octets(tlvs)), behind)


def csnp(level, source, first, last, tlvs=b"", behind=b"", **rest):
    packed = start(33, 23 + level, **rest) + struct.pack(
        ">H6sB6sBB6sBB", 33 + len(tlvs), bytes.fromhex(source[0]), source[1], bytes.fromhex(first[0]), first[1], first[2],
        bytes.fromhex(last[0]), last[1], last[2]
    )
    says = "Csnp { level: %s, source: %s, start: %s, end: %s, tlvs: %s }"
    row(packed + tlvs, says % (LEVELS[level], node(*source), lsp(*first), lsp(*last), octets(tlvs)), behind)


def psnp(level, source, tlvs=b"", behind=b"", **rest):
    packed = start(17, 25 + level, **rest) + struct.pack(">H6sB", 17 + len(tlvs), bytes.fromhex(source[0]), source[1])
    row(packed + tlvs, "Psnp { level: %s, source: %s, tlvs: %s }" % (LEVELS[level], node(*source), octets(tlvs)), behind)


areas = bytes.fromhex("010403490001")
print("-- PDUs as they are written")
lan_hello(1, 3, "000000000001", 30, 64, ("000000000002", 1), areas)
lan_hello(1, 1, ONES, 65535, 127, (ONES, 255), b"\x06\x00")
lan_hello(2, 2, "0123456789ab", 256, 0, ("cdef01234567", 137), areas + b"\x81\x01\xcc")
point_hello(1, "0123456789ab", 30, 1)
point_hello(2, ONES, 65535, 255, b"\xf0\x01\x02")
point_hello(3, "000000000001", 1, 0, areas)
link_state(1, 1199, ("0123456789ab", 205, 239), 19088743, 35243, 3, areas)
link_state(2, 65535, (ONES, 255, 255), 4294967295, 65535, 255)
link_state(2, 0, ("000000000001", 0, 0), 1, 0, 0)
csnp(1, ("0123456789ab", 0), ("000000000000", 0, 0), (ONES, 255, 255), b"\x09\x10" + bytes(range(16)))
csnp(2, (ONES, 255), ("cdef01234567", 137, 171), ("cdef01234567", 137, 172))
psnp(1, ("0123456789ab", 205), b"\x09\x00")
psnp(2, (ONES, 255))

print("-- the same with what isn't looked at, and with octets behind")
lan_hello(1, 3, "000000000001", 30, 64, ("000000000002", 1), areas, bits=0x80, circuit=0xFC, id_length=6, reserved=0xE0, last=255, areas=3)
lan_hello(2, 1, "000000000001", 30, 0, ("000000000002", 1), behind=b"\x01", bits=0x80)
point_hello(2, "000000000001", 30, 7, areas, bits=0x44, reserved=0x20, behind=b"\x83\x1b")
link_state(1, 1199, ("000000000001", 0, 7), 5, 43981, 0x0B, areas, behind=bytes(40), id_length=6)
csnp(2, ("000000000001", 0), ("000000000000", 0, 0), (ONES, 255, 255), reserved=0xC0, behind=b"\xff")
psnp(1, ("000000000001", 0), areas, areas=3, last=1, behind=b"\x00\x00")


def bad(packed, kind, place):
    print(packed.hex() or "-", kind, place)


def changed(packed, *octets):
    packed = bytearray(packed)
    for place, octet in octets:
        packed[place] = octet
    return bytes(packed)


print("-- octets that are no PDU")
one = bytes.fromhex("000000000001")
state = start(27, 18) + struct.pack(">HH6sBBIHB", 33, 1200, one, 0, 0, 1, 0xABCD, 3) + areas
hello = start(27, 15) + struct.pack(">B6sHHB6sB", 3, one, 30, 33, 64, one, 1) + areas
point = start(20, 17) + struct.pack(">B6sHHB", 3, one, 30, 26, 1) + areas
part = start(17, 26) + struct.pack(">H6sB", 23, one, 0) + areas
full = start(33, 25) + struct.pack(">H6sB8s8s", 39, one, 0, bytes(8), b"\xff" * 8) + areas
bad(b"", "Short", 0)
bad(b"\x00" * 7, "Short", 7)
bad(changed(state, (0, 0x82), (2, 2)), "Discriminator", 0)
bad(changed(state, (2, 0), (3, 8)), "Version", 2)
bad(changed(state, (3, 8), (4, 0)), "IdLength", 3)
bad(changed(state, (3, 1)), "IdLength", 3)
for kind in [0, 14, 19, 21, 22, 23, 28, 31]:
    bad(changed(state, (4, kind), (5, 0)), "PduType", 4)
bad(changed(state, (5, 2), (7, 1)), "Version", 5)
bad(changed(state, (7, 1), (1, 26)), "MaxAreas", 7)
bad(changed(state, (1, 28))[:20], "HeaderLength", 1)
bad(changed(state, (4, 20), (1, 33)), "HeaderLength", 1)
bad(changed(state, (9, 0))[:26], "Short", 26)
bad(point[:19], "Short", 19)
bad(part[:16], "Short", 16)
bad(full[:32], "Short", 32)
bad(changed(hello, (8, 0), (18, 0)), "CircuitType", 8)
bad(changed(point, (8, 0xFC)), "CircuitType", 8)
bad(changed(hello, (18, 26)), "PduLength", 17)
bad(changed(point, (18, 27)), "PduLength", 17)
bad(changed(point, (17, 1)), "PduLength", 17)
bad(changed(state, (9, 26)), "PduLength", 8)
bad(state[:-1], "PduLength", 8)
bad(changed(part, (9, 16)), "PduLength", 8)
bad(changed(full, (9, 32)), "PduLength", 8)
bad(changed(full, (9, 40)), "PduLength", 8)
bad(changed(state, (9, 28)), "Tlv", 27)
bad(changed(state, (9, 32)), "Tlv", 27)
bad(changed(point, (21, 5)), "Tlv", 20)
bad(changed(part, (18, 3)), "Tlv", 22)
bad(changed(full, (34, 2)), "Tlv", 37)
bad(changed(hello, (28, 1)), "Tlv", 32)
