"""Chapter 11 packets made from their parts, which so know their own source packet; and packets and source packets
at each edge of 17 and 18."""
import collections

import packer

Parts = collections.namedtuple("Parts", "channel plain secondary data checksum")
KINDS = {0: 0, 1: 1, 2: 2, 4: 3}  # of the data checksum, by its bytes


def some_parts(rng, size):
    """`plain` is what the header holds beside lengths and flags: version, sequence, flag bits, type, time."""
    return Parts(rng.choice((0, 0x0FFF, 0x1000, 0xFFFF, rng.randrange(0x10000))), rng.randbytes(10),
                 rng.randbytes(rng.choice((0, 12))), rng.randbytes(size), rng.randbytes(rng.choice((0, 1, 2, 4))))


def little(value, size):
    return value.to_bytes(size, "little")


def with_checksum(head):
    """The header's first 22 bytes, and their checksum."""
    words = [int.from_bytes(head[at:at + 2], "little") for at in range(0, 22, 2)]
    return head[:22] + little(sum(words) % 0x10000, 2)


def changed(packet, at, part):
    """A packet with other header bytes at a place and the checksum that suits them."""
    head = packet[:at] + part + packet[at + len(part):24]
    return with_checksum(head) + packet[24:]


def packet(parts, fill):
    version, sequence, flags, *rest = parts.plain
    flags = flags & 0x7C | 0x80 * bool(parts.secondary) | KINDS[len(parts.checksum)]
    body = parts.secondary + parts.data + fill + parts.checksum
    head = b"\x25\xEB" + little(parts.channel, 2) + little(24 + len(body), 4) + little(len(parts.data), 4)
    return with_checksum(head + bytes([version, sequence, flags, *rest])) + body


def protected(channel, trailer, length):
    return b"".join(map(packer.golay, (channel >> 12, channel & 0xFFF, trailer << 7 | length >> 12, length & 0xFFF)))


def cut(parts, fill):
    """The packet with the fill that is left of `fill`."""
    return packet(parts, fill[:len(fill) % 4])


def source_packet(parts, fill):
    trailer = len(parts.secondary) + len(fill) % 4 + len(parts.checksum)
    return protected(parts.channel, trailer, len(parts.data)) + cut(parts, fill)[12:]


# ---- packets to compose: (packet, its source packet or the number of its refusal) ----

def some_fill(rng):
    """Fill, and whether bytes that will be cut aren't zero; those that are kept may be anything."""
    count = rng.choice((0, 1, 2, 3, 4, 5, 6, 7, 8, 9, 40, 1000))
    fill = bytearray(rng.randbytes(count % 4) + bytes(count - count % 4))
    if count < 4 or rng.random() < 0.7:
        return bytes(fill), False
    fill[rng.choice((count % 4, count - 1, rng.randrange(count % 4, count)))] = rng.choice((1, 0x80, 0xFF))
    return bytes(fill), True


def to_compose(rng, size):
    parts = some_parts(rng, size)
    fill, refused = some_fill(rng)
    return packet(parts, fill), 18 if refused else source_packet(parts, fill)


def not_composed(rng, size):
    """A packet that is wrong in one respect alone; some have fill that would be refused as well."""
    parts = some_parts(rng, size)
    good = packet(parts, rng.choice((b"", bytes(2), b"fills the rest")))
    used = 24 + len(parts.secondary) + len(parts.checksum)
    flags = good[14:15]
    return rng.choice((
        lambda: good[:23], lambda: good[:rng.randrange(24)], lambda: b"",
        lambda: changed(good, 0, b"\xEB\x25"), lambda: changed(good, 0, b"\x24"), lambda: changed(good, 1, b"\xEA"),
        lambda: changed(good, 4, little(len(good) + 1, 4)), lambda: changed(good, 4, little(len(good) - 1, 4)),
        lambda: changed(good, 6, b"\1"), lambda: changed(good, 7, b"\1"), lambda: good + b"\0",
        lambda: good[:22] + bytes([good[22] ^ 1]) + good[23:],
        lambda: good[:23] + bytes([good[23] ^ 0x80]) + good[24:],
        lambda: good[:12] + bytes([good[12] ^ 0x10]) + good[13:],
        lambda: changed(good, 8, little(len(good) - used + 1, 4)), lambda: changed(good, 8, b"\xFF\xFF\xFF\xFF"),
        lambda: changed(good, 8, little(2 ** 32 - used, 4)), lambda: changed(good, 11, b"\x80"),
        lambda: changed(packet(parts._replace(secondary=b"", checksum=b""), b""), 14, bytes([flags[0] | 0x80])),
        lambda: changed(packet(parts._replace(checksum=b""), b""), 14, bytes([flags[0] & 0xFC | rng.randrange(1, 4)])),
    ))(), 17


# ---- source packets to reassemble: (source packet, its packet or the number of its refusal) ----

def flipped(rng, sp, flips, first=0):
    """Flips in the four Golay words: so many in one of them, up to three in the others; bits before `first` stay."""
    sp, chosen = bytearray(sp), rng.randrange(4)
    for word in range(4):
        for bit in rng.sample(range(first, 24), flips if word == chosen else rng.randrange(4)):
            sp[3 * word + bit // 8] ^= 0x80 >> bit % 8
    return bytes(sp)


def to_reassemble(rng, size):
    parts = some_parts(rng, size)
    fill = rng.randbytes(rng.randrange(4))
    sp, whole = source_packet(parts, fill), cut(parts, fill)
    return rng.choice((
        lambda: (sp, whole), lambda: (flipped(rng, sp, 3), whole),
        lambda: (packer.golay(rng.randrange(0x1000) & 0xFF0 | parts.channel >> 12) + sp[3:], whole),
        lambda: (sp[:12] + b"unread bytes" + sp[24:], whole[:12] + b"unread bytes" + whole[24:]),
        lambda: any_trailer(rng, parts),
    ))()


def any_trailer(rng, parts):
    """Trailer bytes that no packet of ours could have."""
    body, trailer = parts.data + parts.secondary, rng.randrange(32)
    while len(body) < trailer:
        body += b"more"
    sp = protected(parts.channel, trailer, len(body) - trailer) + parts.plain + b"??" + body
    head = b"\x25\xEB" + little(parts.channel, 2) + little(len(sp), 4) + little(len(body) - trailer, 4)
    return sp, head + sp[12:]


def not_reassembled(rng, size):
    parts = some_parts(rng, size)
    sp = source_packet(parts, b"")
    trailer = len(parts.secondary) + len(parts.checksum)
    return rng.choice((
        lambda: sp[:23], lambda: sp[:rng.randrange(24)], lambda: b"", lambda: sp[:-1], lambda: sp + b"\0",
        lambda: flipped(rng, sp, 4), lambda: flipped(rng, sp, 4, 12),
        lambda: protected(parts.channel, trailer + 1, size) + sp[12:],
        lambda: protected(parts.channel, trailer, size + 1) + sp[12:],
        lambda: protected(parts.channel, trailer, size ^ 0x1000) + sp[12:],
        lambda: protected(parts.channel, trailer, size ^ 0x40000) + sp[12:],
    ))(), 17
