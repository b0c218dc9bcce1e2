"""Chapter 11 packets: made from their parts, read from an input one by one, and a sample of every kind."""
from lib.command import Stop

SYNC = b"\x25\xeb"
HEADER = 24
SECONDARY = bytes(range(0xa0, 0xac))
CHECKSUMS = (0, 1, 2, 4)  # bytes of data checksum, by the two low bits of the flags


def packet(channel, data, kind=0, secondary=b"", fill=b""):
    """A packet with its header checksum, and the data checksum of this kind over secondary header, data and fill."""
    body = secondary + data + fill
    size = CHECKSUMS[kind]
    total = sum(int.from_bytes(body[i:i + size], "little") for i in range(0, len(body), size or 1)) % 256 ** size
    head = SYNC + channel.to_bytes(2, "little") + (HEADER + len(body) + size).to_bytes(4, "little")
    head += len(data).to_bytes(4, "little") + bytes([6, 7, 0x80 * bool(secondary) + kind, 9]) + bytes(range(1, 7))
    words = sum(int.from_bytes(head[i:i + 2], "little") for i in range(0, len(head), 2))
    return head + (words % 65536).to_bytes(2, "little") + body + total.to_bytes(size, "little")


def read(source):
    """The packets of an input, each with the byte at which it begins. What is none stops the tool."""
    while head := source.take(HEADER):
        at = source.at - len(head)
        length = int.from_bytes(head[4:8], "little")
        if head[:2] != SYNC[:len(head)]:
            raise Stop("packet at byte %d: no sync pattern EB25" % at)
        if len(head) == HEADER and length < HEADER:
            raise Stop("packet at byte %d: a packet length of %d" % (at, length))
        whole = head + source.take(max(length - HEADER, 0))
        if len(whole) < HEADER or len(whole) < length:
            raise Stop("packet at byte %d: cut short" % at)
        yield at, whole


def sample(longest):
    """Pairs: a packet, and what it is with its fill cut. Every kind, fill of 0 to 9 bytes, and lengths at the edges."""
    def both(channel, data, kind, secondary, fill):
        kept = bytes(range(1, fill % 4 + 1))  # what is kept of the fill may be anything; zeros leave the data checksum as it is
        return [packet(channel, data, kind, secondary, kept + bytes(cut)) for cut in (fill - len(kept), 0)]

    for secondary in (b"", SECONDARY):
        for kind in range(4):
            for fill in range(10):
                yield both(0x1000 * fill + kind, bytes(range(fill * 3 + kind)), kind, secondary, fill)
    yield both(0, b"", 0, b"", 0)  # a header alone
    for size in (1, 4095, 4096, 4097):
        yield both(0xffff, bytes(i % 251 for i in range(size)), 3, b"", 4)
    yield both(0x0fff, bytes(i % 241 for i in range(longest - HEADER)), 0, b"", 0)
    yield both(0xf000, bytes(i % 239 for i in range(longest - HEADER - len(SECONDARY) - 4 - 7)), 3, SECONDARY, 7)
