"""What a router makes of a datagram: the word of the first test that it fails, by the tables of docs/PROTOCOL.md, or None where it is taken.

Written from the tables and not from the program, so that one is held against the other.
"""
import hmac
from itertools import accumulate

HEADERS = {15: 27, 16: 27, 17: 20, 18: 27, 20: 27, 24: 33, 25: 33, 26: 17, 27: 17}
HELLOS, LSPS, SNPS, PSNPS = (15, 16, 17), (18, 20), (24, 25, 26, 27), (26, 27)
LEVELS = {15: 1, 16: 2, 18: 1, 20: 2, 24: 1, 25: 2, 26: 1, 27: 2}
FRAME, MAGIC, OLD_MAGIC = 14, b"ISU2", b"ISU1"
# The greatest PDU length of an LSP or SNP.
LONGEST = 1492
# These words don't hang on what the router has heard, but on its configuration alone.
FIXED = ("frame", "version", "pdu", "too-long", "wrong-kind", "wrong-level", "auth", "value", "zero-number", "checksum", "own-id", "other-snpa")


class Hearer:
    """A router that hears datagrams on one circuit: what the tests ask of it, at a moment."""

    def __init__(self, system, areas, levels, extended, is_lan):
        # levels: 1, 2, or 3 for both; extended: its system ID and its circuit's extended ID, as a hello has them
        self.system, self.areas, self.levels, self.is_lan = system, areas, levels, is_lan
        self.named = system + extended
        # keys by 0 for hellos, and by the level of LSPs and SNPs
        self.keys = {}
        # by level, the neighbours that are up: on a LAN by SNPA, on a link by None; each its system ID and its boot
        self.up = {1: {}, 2: {}}
        # the greatest boot number that is remembered of a system
        self.boots = {}
        self.designated_at = ()

    def hears(self, system, boot, levels=(1, 2)):
        """A neighbour that is up at these levels."""
        self.boots[system] = boot
        for level in levels:
            self.up[level][system if self.is_lan else None] = system, boot


def pdu_length(octets):
    """The length of the PDU that octets begin with; None where they begin with none."""
    if len(octets) < 8 or octets[0] != 0x83 or octets[2] != 1 or octets[3] not in (0, 6) or octets[5] != 1 or octets[7] not in (0, 3):
        return None
    kind = octets[4] & 31
    header = HEADERS.get(kind)
    if header is None or octets[1] != header or len(octets) < header:
        return None
    if kind in HELLOS:
        if not octets[8] & 3:
            return None
        size = octets[17] << 8 | octets[18]
    else:
        size = octets[8] << 8 | octets[9]
    if not header <= size <= len(octets):
        return None
    place = header
    while place + 1 < size:
        place += 2 + octets[place + 1]
    return size if place == size else None


def tlvs(pdu):
    """The code and the value of each TLV of a PDU, and where the value begins."""
    place = pdu[1]
    while place < len(pdu):
        begin, end = place + 2, place + 2 + pdu[place + 1]
        yield pdu[place], pdu[begin:end], begin
        place = end


def areas(value):
    """The area addresses of a TLV 1; None where one doesn't fit."""
    found, place = [], 0
    while place < len(value):
        end = place + 1 + value[place]
        if not 1 <= value[place] <= 13 or end > len(value):
            return None
        found.append(value[place + 1 : end])
        place = end
    return found


def is_faulty(kind, code, value):
    """Whether a value has a fault and must be read."""
    if kind in SNPS:
        return code == 9 and len(value) % 16 != 0
    if kind in LSPS:
        return False
    if code == 1:
        return areas(value) is None
    if code == 6:
        return len(value) % 6 != 0
    return code == 240 and (len(value) not in (1, 5, 15) or value[0] > 2)


def digest(key, pdu, place):
    """The digest of a PDU whose 16 octets for it begin at a place (RFC 5304)."""
    blank = bytearray(pdu)
    blank[place : place + 16] = bytes(16)
    if pdu[4] & 31 in LSPS:
        blank[10:12] = blank[24:26] = b"\0\0"
    return hmac.digest(key, blank, "md5")


def is_authentic(key, pdu, kind):
    """Whether a PDU is authentic under a key."""
    listed = list(tlvs(pdu))
    first = next((it for it in listed if it[0] == 10), None)
    if first is None or len(first[1]) != 17 or first[1][0] != 54:
        return False
    if kind in LSPS and pdu[10:12] == b"\0\0" and any(code != 10 for code, _, _ in listed):
        return False
    return digest(key, pdu, first[2] + 1) == first[1][1:]


def sums(octets):
    """The sum of octets and the sum of their running sums, modulo 255."""
    return sum(octets) % 255, sum(accumulate(octets)) % 255


def unread(at, pdu, kind):
    """The word of the first test that a PDU fails before what it says is looked at."""
    if kind not in HELLOS and len(pdu) > LONGEST:
        return "too-long"
    if kind in HELLOS and (kind == 17) == at.is_lan:
        return "wrong-kind"
    if kind != 17 and not at.levels & LEVELS[kind]:
        return "wrong-level"
    key = at.keys.get(0 if kind in HELLOS else LEVELS[kind])
    if key is not None and not is_authentic(key, pdu, kind):
        return "auth"
    if kind not in LSPS:
        return "value" if any(is_faulty(kind, code, value) for code, value, _ in tlvs(pdu)) else None
    if pdu[20:24] == b"\0\0\0\0":
        return "zero-number"
    if pdu[10:12] != b"\0\0" and (pdu[24:26] == b"\0\0" or sums(pdu[12:]) != (0, 0)):
        return "checksum"
    return None


def hello_drop(at, snpa, boot, pdu, kind):
    """The word of the first test that a hello fails. A circuit that heard 200 neighbours, or 256 systems, isn't met here."""
    source = pdu[9:15]
    if source == at.system:
        return "own-id"
    if source != snpa:
        return "other-snpa"
    if boot < at.boots.get(source, 0):
        return "old-boot"
    listed = list(tlvs(pdu))
    shares = any(area in at.areas for code, value, _ in listed if code == 1 for area in areas(value))
    both = pdu[8] & at.levels & (3 if kind == 17 else LEVELS[kind])
    if not both & (3 if shares else 2):
        return "no-area" if both & 1 else "no-level"
    if kind == 17:
        three_way = next((value for code, value, _ in listed if code == 240), None)
        if three_way is None:
            return "no-three-way"
        if len(three_way) == 15 and three_way[5:] != at.named:
            return "other-neighbour"
    return None


def heard_drop(at, snpa, boot, pdu, kind):
    """The word of the first test that an LSP or SNP fails. A full database isn't met here."""
    level = LEVELS[kind]
    kept = at.up[level].get(snpa if at.is_lan else None)
    if kept is None or kept[1] != boot or (kind in SNPS and pdu[10:16] != kept[0]):
        return "no-adjacency"
    if kind in PSNPS and at.is_lan and level not in at.designated_at:
        return "not-designated"
    return None


def first_drop(at, datagram):
    """The word of the first test that a datagram fails, or None where it is taken."""
    if datagram[:4] == OLD_MAGIC:
        return "version"
    if len(datagram) < FRAME or datagram[:4] != MAGIC:
        return "frame"
    size = pdu_length(datagram[FRAME:])
    if size is None:
        return "pdu"
    pdu = datagram[FRAME : FRAME + size]
    kind = pdu[4] & 31
    word = unread(at, pdu, kind)
    if word:
        return word
    test = hello_drop if kind in HELLOS else heard_drop
    return test(at, datagram[4:10], int.from_bytes(datagram[10:14], "big"), pdu, kind)
