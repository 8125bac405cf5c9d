#!/usr/bin/env python3
"""Packs values of TLVs with `struct`, from the layouts of ISO 10589 9.5 and 9.10, RFC 5303 3 and RFC 5305 3 and 4.

Prints a row a value: the code, the value in hex, what it says in decimal numbers, and `!PLACE` where an item at
that place doesn't fit. It shares nothing with isis_tlv; src/tlvs.rt has its rows.
"""

import ipaddress
import struct


def number(octets):
    return int.from_bytes(octets, "big")


def area(text):
    octets = bytes.fromhex(text.replace(".", ""))
    return struct.pack("B", len(octets)) + octets, [len(octets), *octets]


def snpa(text):
    octets = bytes.fromhex(text.replace(".", ""))
    return octets, [number(octets)]


def entry(lifetime, lsp, seq, checksum):
    octets = bytes.fromhex(lsp.replace(".", "").replace("-", ""))
    return struct.pack(">H8sIH", lifetime, octets, seq, checksum), [lifetime, number(octets), seq, checksum]


def neighbour(node, metric, subs=b""):
    octets = bytes.fromhex(node.replace(".", ""))
    packed = octets + struct.pack(">I", metric)[1:] + struct.pack("B", len(subs)) + subs
    return packed, [number(octets), metric]


def prefix(text, metric, down=False, subs=None, dirt=0):
    net = ipaddress.ip_network(text)
    held = -(-net.prefixlen // 8)
    control = (0x80 if down else 0) | (0 if subs is None else 0x40) | net.prefixlen
    octets = bytearray(net.network_address.packed[:held])
    if held:
        octets[-1] |= dirt
    packed = struct.pack(">IB", metric, control) + bytes(octets)
    if subs is not None:
        packed += struct.pack("B", len(subs)) + subs
    return packed, [int(net.network_address), net.prefixlen, metric, int(down)]


def row(code, items, bad=None):
    value = b"".join(packed for packed, _ in items)
    says = [str(n) for _, numbers in items for n in numbers]
    if bad is not None:
        says.append("!%d" % len(value))
        value += bad
    print(code, value.hex() or "-", *says)


def three_way(state, own=None, system=None, theirs=None, bad=False):
    value = struct.pack("B", state)
    says = [state]
    if own is not None:
        value += struct.pack(">I", own)
        says.append(own)
    if system is not None:
        octets = bytes.fromhex(system.replace(".", ""))
        value += octets + struct.pack(">I", theirs)
        says += [number(octets), theirs]
    print(240, value.hex() or "-", *(["!0"] if bad else says))


row(1, [])
row(1, [area("49.0001")])
row(1, [area("49.0001"), area("49.0002"), area("47.0005.80ff")])
row(1, [area("49")])
row(1, [area("39.840f.8000.0000.0000.0000.0123")])
row(1, [area("49.0001")], b"\x00\x49")
row(1, [area("49.0001"), area("49")], b"\x0e" + bytes(14))
row(1, [], b"\x03\x49\x00")
row(6, [])
row(6, [snpa("0000.0000.0001")])
row(6, [snpa("00aa.bbcc.ddee"), snpa("ffff.ffff.ffff"), snpa("0000.0000.0002")])
row(6, [snpa("0000.0000.0001")], b"\x00\x00\x00\x00\x00")
row(9, [])
row(9, [entry(1199, "0000.0000.0001.00-00", 1, 0xABCD)])
row(9, [entry(1200, "1921.6800.1001.02-03", 4294967295, 65535), entry(0, "ffff.ffff.ffff.ff-ff", 7, 0)])
row(9, [entry(65535, "0000.0000.0000.00-00", 0, 1), entry(1, "0000.0000.0003.01-00", 256, 2), entry(60, "0000.0000.0003.01-01", 65536, 3)])
row(9, [entry(300, "0000.0000.0004.00-00", 17, 0x0102)], bytes(15))
row(22, [])
row(22, [neighbour("0000.0000.0002.00", 10)])
row(22, [neighbour("0000.0000.0002.01", 16777215), neighbour("1921.6800.1002.00", 0)])
row(22, [neighbour("0000.0000.0002.00", 63, bytes.fromhex("0604c0a80001"))])
row(22, [neighbour("0000.0000.0002.00", 100, bytes.fromhex("0604c0a800010804c0a80002")), neighbour("0000.0000.0003.00", 65536)])
row(22, [neighbour("0000.0000.0002.00", 10)], bytes(10))
row(22, [neighbour("0000.0000.0002.00", 10, b"\x03\x00")], bytes.fromhex("000000000003" "00" "00000a" "05" "00000000"))
row(135, [])
row(135, [prefix("0.0.0.0/0", 20)])
row(135, [prefix("10.0.0.0/8", 10)])
row(135, [prefix("192.168.1.0/24", 10)])
row(135, [prefix("192.168.1.1/32", 0)])
row(135, [prefix("172.16.0.0/12", 4294967295)])
row(135, [prefix("10.1.2.128/25", 4261412864, down=True)])
row(135, [prefix("10.1.0.0/17", 5), prefix("10.1.128.0/17", 6), prefix("0.0.0.0/0", 7, down=True)])
row(135, [prefix("128.0.0.0/1", 1), prefix("192.0.0.0/2", 2), prefix("224.0.0.0/3", 3), prefix("10.0.0.0/9", 4)])
row(135, [prefix("10.64.0.0/10", 30, subs=bytes.fromhex("010400000001"))])
row(135, [prefix("10.64.0.0/10", 30, subs=b""), prefix("10.0.0.0/8", 1)])
row(135, [prefix("10.0.0.0/9", 12, dirt=0x7F), prefix("192.168.0.0/20", 13, dirt=0x05), prefix("64.0.0.0/2", 14, down=True, dirt=0x3F)])
row(135, [prefix("10.0.0.0/9", 12, down=True, subs=b"\x02\x00", dirt=0x01), prefix("0.0.0.0/0", 9, subs=b"\x01\x00")])
row(135, [prefix("10.0.0.0/8", 10)], struct.pack(">IB", 10, 33) + bytes(5))
row(135, [prefix("10.0.0.0/8", 10)], struct.pack(">IB", 10, 63) + bytes(8))
row(135, [prefix("10.0.0.0/8", 10)], struct.pack(">IB", 10, 17) + bytes(2))
row(135, [prefix("192.168.1.0/24", 10)], struct.pack(">IB", 10, 0x40 | 8) + b"\x0a")
row(135, [prefix("192.168.1.0/24", 10)], struct.pack(">IB", 10, 0x40 | 8) + b"\x0a\x03\x00\x00")
row(135, [], struct.pack(">I", 10))
three_way(0)
three_way(1)
three_way(2)
three_way(2, 257)
three_way(1, 4294967295)
three_way(0, 257, "0000.0000.0002", 513)
three_way(1, 0, "ffff.ffff.fffe", 4294967295)
three_way(3, bad=True)
three_way(3, 257, bad=True)
three_way(255, 257, "0000.0000.0002", 513, bad=True)
print(240, "-", "!0")
print(240, "0000000101aa", "!0")
print(240, (b"\x00" + struct.pack(">I", 257) + bytes(9)).hex(), "!0")
print(240, (b"\x00" + struct.pack(">I", 257) + bytes(11)).hex(), "!0")
