"""What the scripts about daemons share: the octets of PDUs and of the datagrams around them, as docs/PROTOCOL.md lays them out.

Nothing is judged here that the program judges: octets that are no PDU have no type, and the caller passes over them.
"""
import hashlib
import hmac

# What a datagram begins with, and the octets before its PDU: these four, the sender's SNPA, and its boot number.
MAGIC, FRAME = b"ISU2", 14
# The octets of each type's header.
HEADERS = {15: 27, 16: 27, 17: 20, 18: 27, 20: 27, 24: 33, 25: 33, 26: 17, 27: 17}
POINT_HELLO = 17
LAN_HELLOS, LSPS, CSNPS, PSNPS = {1: 15, 2: 16}, {1: 18, 2: 20}, {1: 24, 2: 25}, {1: 26, 2: 27}
HELLOS = (15, 16, 17)
SECOND_LEVEL = (16, 20, 25, 27)
# TLV codes.
AREAS, SNPAS, PADDING, ENTRIES, DIGEST, NEIGHBOURS, PROTOCOLS, ADDRESSES, PREFIXES, THREE_WAY = 1, 6, 8, 9, 10, 22, 129, 132, 135, 240


def framed(snpa, boot, pdu):
    """A datagram."""
    return MAGIC + snpa + boot.to_bytes(4, "big") + pdu


def pdu_of(datagram):
    """The PDU of a datagram; none where the octets have no frame."""
    return datagram[FRAME:] if datagram.startswith(MAGIC) else b""


def type_of(pdu):
    """A PDU's type; 0 where it has none, or is shorter than the header of its type."""
    kind = pdu[4] & 31 if len(pdu) > 7 and pdu[0] == 0x83 else 0
    return kind if len(pdu) >= HEADERS.get(kind, len(pdu) + 1) else 0


def level_of(kind):
    return 2 if kind in SECOND_LEVEL else 1


def header(kind):
    """What every PDU of a type begins with."""
    return bytes((0x83, HEADERS[kind], 1, 0, kind, 1, 0, 0))


def length_place(kind):
    return 17 if kind in HELLOS else 8


def without_tail(pdu):
    """The PDU without what stands past its length."""
    place = length_place(type_of(pdu))
    return pdu[: int.from_bytes(pdu[place : place + 2], "big")]


def tlv(code, value):
    return bytes((code, len(value))) + value


def tlvs(pdu):
    """Each TLV: its place, its code and its value, as far as they fit."""
    place = HEADERS[type_of(pdu)]
    while place + 2 <= len(pdu) and place + 2 + pdu[place + 1] <= len(pdu):
        end = place + 2 + pdu[place + 1]
        yield place, pdu[place], bytes(pdu[place + 2 : end])
        place = end


def values(pdu, code):
    return [value for _, it, value in tlvs(pdu) if it == code]


def entries(pdu):
    """The LSP entries of a sequence number PDU, each as its lifetime, LSP ID, number and checksum."""
    for value in values(pdu, ENTRIES):
        for place in range(0, len(value) - 15, 16):
            it = value[place : place + 16]
            yield int.from_bytes(it[:2], "big"), it[2:10], int.from_bytes(it[10:14], "big"), it[14:16]


def entry_of(lsp):
    """What stands for an LSP in a sequence number PDU."""
    return lsp[10:12] + lsp[12:20] + lsp[20:24] + lsp[24:26]


def checksum(lsp):
    """The two octets that make the checksum hold, each 1 to 255."""
    covered = lsp[12:24] + bytes(2) + lsp[26:]
    first = second = 0
    for octet in covered:
        first += octet
        second += first
    high = ((len(covered) - 13) * first - second) % 255 or 255
    return bytes((high, (-first - high) % 255 or 255))


def digest(pdu, place, key):
    """The HMAC-MD5 of a PDU whose TLV 10 stands at this place."""
    covered = bytearray(pdu)
    covered[place + 3 : place + 19] = bytes(16)
    if type_of(pdu) in LSPS.values():
        covered[10:12] = covered[24:26] = bytes(2)
    return hmac.new(key, bytes(covered), hashlib.md5).digest()


def sealed(pdu, key=None):
    """The PDU with its length; where there is a key and a TLV 10 for it, with its digest; and with its checksum where it is a live LSP."""
    pdu, kind = bytearray(pdu), type_of(pdu)
    place = length_place(kind)
    pdu[place : place + 2] = len(pdu).to_bytes(2, "big")
    signed = [place for place, code, value in tlvs(pdu) if code == DIGEST and len(value) == 17][:1]
    if key and signed:
        pdu[signed[0] + 3 : signed[0] + 19] = digest(pdu, signed[0], key)
    if kind in LSPS.values() and any(pdu[10:12]):
        pdu[24:26] = checksum(bytes(pdu))
    return bytes(pdu)


def room_for_digest(key):
    """The TLV that `sealed` fills; nothing without a key."""
    return tlv(DIGEST, bytes((54,)) + bytes(16)) if key else b""


def dotted(octets):
    """A system ID, node ID or LSP ID as docs/TEXTS.md writes it."""
    digits = octets.hex()
    text = ".".join(digits[place : place + 4] for place in range(0, 12, 4))
    return text + "".join(mark + digits[place : place + 2] for mark, place in ((".", 12), ("-", 14)) if len(digits) > place)


def undotted(text):
    """The octets of such a text, or of an area address."""
    return bytes.fromhex(text.replace(".", "").replace("-", ""))
