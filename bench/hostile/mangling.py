"""Datagrams that nobody sends, made from a seed: those of a run, cut, spliced, and with what they say changed."""
from verdicts import FRAME, HEADERS, HELLOS, LEVELS, LSPS, digest, pdu_length, sums, tlvs

# What stands in the PDUs of each type: place and octets. The octets of the header that all have come first.
SHARED = [(place, 1) for place in range(8)]
FIELDS = {kind: SHARED + [(8, 1), (9, 6), (15, 2), (17, 2), (19, 1)] for kind in HELLOS}
FIELDS.update({kind: FIELDS[kind] + [(20, 7)] for kind in (15, 16)})
FIELDS.update({kind: SHARED + [(8, 2), (10, 2), (12, 8), (18, 1), (19, 1), (20, 4), (24, 2), (26, 1)] for kind in LSPS})
FIELDS.update({kind: SHARED + [(8, 2), (10, 7), (17, 8), (25, 8)] for kind in (24, 25)})
FIELDS.update({kind: SHARED + [(8, 2), (10, 7)] for kind in (26, 27)})
# Values of TLVs that are good in some PDU, and some that are good in none.
VALUES = [bytes.fromhex(text) for text in ("", "00", "0349000103490002", "000000000001", "01" * 16, "00000001020304", "0a000001", "03", "0000000101" * 3)]
CODES = (1, 6, 8, 9, 10, 22, 129, 132, 135, 240, 0, 255)


def mended(pdu, keys):
    """A PDU whose length, digest and checksum are made to fit, as far as there is a place for each."""
    pdu = bytearray(pdu)
    kind = pdu[4] & 31
    place = 17 if kind in HELLOS else 8
    pdu[place : place + 2] = min(len(pdu), 0xFFFF).to_bytes(2, "big")
    if pdu_length(pdu) is None:
        return pdu
    key = keys.get(0 if kind in HELLOS else LEVELS[kind])
    signed = next((begin + 1 for code, value, begin in tlvs(pdu) if code == 10 and len(value) == 17), None)
    if key is not None and signed is not None:
        pdu[signed : signed + 16] = digest(key, pdu, signed)
    if kind in LSPS and pdu[10:12] != b"\0\0":
        pdu[24:26] = b"\0\0"
        first, second = sums(pdu[12:])
        # the checksum is octet 12, counted from the LSP ID
        high = ((len(pdu) - 25) * first - second) % 255 or 255
        pdu[24:26] = high, (-first - high) % 255 or 255
    return pdu


class Mangler:
    """Makes datagrams of a run's own, by a source of random numbers."""

    def __init__(self, numbers, sent, keys):
        self.numbers, self.sent, self.keys = numbers, sent, keys
        self.ways = [self.cut, self.octets_changed, self.spliced, self.field_changed, self.field_changed, self.field_changed]
        self.ways += [self.tlvs_changed, self.tlvs_changed, self.entry_changed, self.frame_changed, self.longer]

    def below(self, count):
        """A number from 0, below a count."""
        return int(self.numbers() * count)

    def one_of(self, things):
        return things[int(self.numbers() * len(things))]

    def next(self):
        """The next datagram: one of the run's, once or twice mangled."""
        whole = self.one_of(self.sent)
        made = self.one_of(self.ways)(whole[:FRAME], whole[FRAME:])
        if self.numbers() < 0.1 and len(made) > FRAME + 20:
            made = self.one_of(self.ways)(made[:FRAME], made[FRAME:])
        return bytes(made)

    def maybe_mended(self, pdu):
        """Of four PDUs three are mended, if they have a type, so that tests further behind are met."""
        is_typed = len(pdu) >= 20 and (pdu[4] & 31) in HEADERS and len(pdu) >= HEADERS[pdu[4] & 31]
        return mended(pdu, self.keys) if is_typed and self.numbers() < 0.75 else pdu

    def cut(self, frame, pdu):
        whole = frame + pdu
        return whole[: 1 + self.below(len(whole))]

    def octets_changed(self, frame, pdu):
        whole = bytearray(frame + pdu)
        for _ in range(1 + self.below(3)):
            whole[self.below(len(whole))] = self.below(256)
        return whole

    def spliced(self, frame, pdu):
        other = self.one_of(self.sent)[FRAME:]
        return frame + self.maybe_mended(pdu[: self.below(len(pdu) + 1)] + other[self.below(len(other)) :])

    def changed(self, octets):
        """The first eight octets, or as many as there are, as another number: an end, near to what it was, or any."""
        size = min(len(octets), 8)
        top, now = (1 << 8 * size) - 1, int.from_bytes(octets[:size], "big")
        near = self.one_of((0, 1, top, now + 1, now - 1, now ^ 1 << self.below(8 * size), self.below(top + 1)))
        return (near & top).to_bytes(size, "big") + octets[size:]

    def field_changed(self, frame, pdu):
        pdu = bytearray(pdu)
        place, size = self.one_of(FIELDS.get(pdu[4] & 31, SHARED))
        pdu[place : place + size] = self.changed(pdu[place : place + size] or b"\0")
        return frame + self.maybe_mended(pdu)

    def tlvs_changed(self, frame, pdu):
        """A TLV that is new, that goes, that stands twice, or whose length, or value, is another."""
        if pdu_length(pdu) is None:
            return frame + pdu
        listed = [(code, bytes(value)) for code, value, _ in tlvs(pdu[: pdu_length(pdu)])]
        place, way = self.below(len(listed) + 1), self.below(5)
        if way == 0 or place == len(listed):
            listed.insert(place, (self.one_of(CODES), self.one_of(VALUES)))
        elif way == 1:
            del listed[place]
        elif way == 2:
            listed.insert(self.below(len(listed)), listed[place])
        else:
            code, value = listed[place]
            listed[place] = code, value[: self.below(len(value) + 1)] if way == 3 else self.changed(value or b"\0")
        body = b"".join(bytes((code, len(value))) + value for code, value in listed)
        return frame + self.maybe_mended(pdu[: pdu[1]] + body)

    def entry_changed(self, frame, pdu):
        """An octet behind the header is another, or an entry's lifetime, number or checksum, where there are entries."""
        pdu = bytearray(pdu)
        begin = min(pdu[1], len(pdu) - 1)
        place = begin + self.below(len(pdu) - begin)
        size = self.one_of((1, 2, 4))
        pdu[place : place + size] = self.changed(pdu[place : place + size])
        return frame + self.maybe_mended(pdu)

    def frame_changed(self, frame, pdu):
        frame = bytearray(frame)
        place, size = self.one_of(((0, 4), (3, 1), (4, 6), (9, 1), (10, 4), (13, 1)))
        frame[place : place + size] = self.changed(frame[place : place + size])
        return frame + pdu

    def longer(self, frame, pdu):
        """Octets behind the PDU, or now and then a PDU of more than 1,492 octets."""
        if self.numbers() < 0.98:
            return frame + pdu + bytes(self.below(256) for _ in range(1 + self.below(8)))
        padding = b"\x08\xff" + bytes(255)
        return frame + self.maybe_mended(pdu + padding * (5 + self.below(2)))
