#!/usr/bin/env python3
"""Packs PDUs with `struct`, from the layouts of ISO 10589 9.5 to 9.13, and says how `isis show` writes them.

`vectors.py table` prints the table of src/tests/show.rt: a PDU's octets in hex, then its lines with `pdu N` left out.
`vectors.py example` and `vectors.py shown` print the PDUs of examples/link.hex and what they are shown as. It shares
nothing with the crate.
"""

import struct
import sys

LEVELS = {1: "L1", 2: "L2", 3: "L1L2"}
ONES = b"\xff" * 8


def start(header, kind):
    return struct.pack("8B", 0x83, header, 1, 0, kind, 1, 0, 0)


def system_text(octets):
    digits = octets[:6].hex()
    return ".".join(digits[at:at + 4] for at in (0, 4, 8))


def node_text(octets):
    return "%s.%02x" % (system_text(octets), octets[6])


def lsp_text(octets):
    return "%s-%02x" % (node_text(octets), octets[7])


def tlv(code, value):
    return bytes([code, len(value)]) + value


def shown(word, packed, header, fields):
    """The lines of a PDU, without the words `pdu N`."""
    lines, at = [], header
    while at < len(packed):
        lines.append("tlv %d at %d length %d" % (packed[at], at, packed[at + 1]))
        at += 2 + packed[at + 1]
    return ["%s length %d %s tlvs %d" % (word, len(packed), fields, len(lines))] + lines


def lan_hello(level, levels, source, holding, priority, lan, tlvs=b""):
    packed = start(27, 14 + level) + struct.pack(">B6sHHB7s", levels, source, holding, 27 + len(tlvs), priority, lan) + tlvs
    fields = "circuit %s source %s holding %d priority %d lan %s" % (LEVELS[levels], system_text(source), holding, priority, node_text(lan))
    return packed, shown("l%d-lan-hello" % level, packed, 27, fields)


def point_hello(levels, source, holding, circuit, tlvs=b""):
    packed = start(20, 17) + struct.pack(">B6sHHB", levels, source, holding, 20 + len(tlvs), circuit) + tlvs
    fields = "circuit %s source %s holding %d id %d" % (LEVELS[levels], system_text(source), holding, circuit)
    return packed, shown("p2p-hello", packed, 20, fields)


def sums(octets):
    first = second = 0
    for octet in octets:
        first = (first + octet) % 255
        second = (second + first) % 255
    return first, second


def with_checksum(packed):
    """The two octets at 24 that make both sums over the octets from 12 on 0: found by trying."""
    for first in range(1, 256):
        for second in range(1, 256):
            tried = packed[:24] + bytes([first, second]) + packed[26:]
            if sums(tried[12:]) == (0, 0):
                return tried
    raise ValueError


def link_state(level, lifetime, name, number, flags, tlvs=b"", checksum=None):
    """The checksum is computed where none is given."""
    packed = start(27, 16 + 2 * level) + struct.pack(">HH8sIHB", 27 + len(tlvs), lifetime, name, number, checksum or 0, flags) + tlvs
    if checksum is None:
        packed = with_checksum(packed)
    (field,) = struct.unpack(">H", packed[24:26])
    word = "purge" if lifetime == 0 else "good" if field and sums(packed[12:]) == (0, 0) else "bad"
    fields = "lifetime %d id %s number %d checksum %04x %s flags %02x" % (lifetime, lsp_text(name), number, field, word, flags)
    return packed, shown("l%d-lsp" % level, packed, 27, fields)


def csnp(level, source, first, last, tlvs=b""):
    packed = start(33, 23 + level) + struct.pack(">H7s8s8s", 33 + len(tlvs), source, first, last) + tlvs
    return packed, shown("l%d-csnp" % level, packed, 33, "source %s start %s end %s" % (node_text(source), lsp_text(first), lsp_text(last)))


def psnp(level, source, tlvs=b""):
    packed = start(17, 25 + level) + struct.pack(">H7s", 17 + len(tlvs), source) + tlvs
    return packed, shown("l%d-psnp" % level, packed, 17, "source " + node_text(source))


def table():
    zero, one, low = bytes(8), bytes.fromhex("0123456789abcdef"), bytes(7)
    areas = tlv(1, bytes.fromhex("0349 0001"))
    for level in (1, 2):
        yield lan_hello(level, 1, zero[:6], 0, 0, low)
        yield lan_hello(level, 3, ONES[:6], 65535, 127, ONES[:7], tlv(255, b""))
        yield lan_hello(level, 2, one[:6], 30, 64, one[:7], areas + tlv(129, b"\xcc") + tlv(8, bytes(3)) + tlv(8, b""))
        yield link_state(level, 0, zero, 0, 0, checksum=0)
        yield link_state(level, 0, one, 7, 3, areas, checksum=0x1234)
        yield link_state(level, 1, zero, 0, 0, checksum=0)
        yield link_state(level, 65535, ONES, 2**32 - 1, 255, tlv(255, b"\xff"), checksum=65535)
        yield link_state(level, 65535, ONES, 2**32 - 1, 255, tlv(255, b"\xff"))
        yield link_state(level, 1200, one, 1, 1, areas + tlv(129, b"\xcc"))
        yield link_state(level, 1199, one, 1, 3, areas, checksum=0)
        yield csnp(level, low, zero, zero)
        yield csnp(level, ONES[:7], ONES, ONES, tlv(255, b""))
        yield csnp(level, one[:7], zero, ONES, tlv(9, bytes(16)) + tlv(9, bytes(32)))
        yield psnp(level, low)
        yield psnp(level, ONES[:7], tlv(255, b""))
        yield psnp(level, one[:7], tlv(9, b""))
    yield point_hello(1, zero[:6], 0, 0)
    yield point_hello(3, ONES[:6], 65535, 255, tlv(255, b"\xff" * 255))
    yield point_hello(2, one[:6], 27, 1, areas + tlv(240, bytes(5)))


def example():
    """Two routers on a link: a hello of the first, its LSP, the second's list of all it holds, and its acknowledgement."""
    first, second = bytes.fromhex("000000000001"), bytes.fromhex("000000000002")
    areas, protocols = tlv(1, bytes.fromhex("03490001")), tlv(129, b"\xcc")
    three_way = tlv(240, bytes([0]) + struct.pack(">I6sI", 1, second, 1))
    yield point_hello(3, first, 27, 1, areas + protocols + tlv(132, bytes([10, 0, 0, 1])) + three_way)
    neighbour = tlv(22, second + b"\0" + (10).to_bytes(3, "big") + b"\0")
    prefix = tlv(135, struct.pack(">IB3s", 10, 24, bytes([10, 0, 0])))
    lsp, lines = link_state(1, 1199, first + b"\0\0", 5, 3, areas + protocols + tlv(137, b"first") + neighbour + prefix)
    yield lsp, lines
    (sum_of_first,) = struct.unpack(">H", lsp[24:26])
    entry = struct.pack(">H8sIH", 1199, first + b"\0\0", 5, sum_of_first)
    other = struct.pack(">H8sIH", 1180, second + b"\0\0", 9, 0x6B1F)
    yield csnp(1, second + b"\0", bytes(8), ONES, tlv(9, entry + other))
    yield psnp(1, second + b"\0", tlv(9, entry))


def main():
    (what,) = sys.argv[1:]
    if what == "table":
        for packed, lines in table():
            print('        ("%s", "%s"),' % (packed.hex(), "".join(line + "\\n" for line in lines)))
        return
    for number, (packed, lines) in enumerate(example(), 1):
        if what == "example":
            print(packed.hex())
        else:
            print("\n".join(["pdu %d %s" % (number, lines[0])] + lines[1:]))


main()
