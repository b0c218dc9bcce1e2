"""Small recordings for the listing program, each with the lines that document 01 asks for."""
import packer
from packer import FIRST, LAST, MIDDLE, NO_START, WHOLE, ep

BROKEN = bytes.fromhex("00000F")  # a word beyond repair
GAP = None


def tp(offset, *parts, low=False, byte=0x00):
    return packer.tp(byte, low, offset, b"".join(parts))


def with_word(one, word):
    return one[:1] + word + one[4:]


def data(length):
    return bytes(range(0x30, 0x30 + length))


def notice(number, kind):
    return "%d notice %d 0" % (number, kind)


# TP length 16: payload of 12 bytes
LONG = ep(1, WHOLE, data(10))
LONG_1 = tp(0, LONG[:12])
LONG_2 = tp(4, LONG[12:], ep(0, WHOLE, b"\xaa\xaa"))
HEAD = tp(0, ep(1, FIRST, data(6)))
TAIL = tp(0, ep(1, LAST, data(6)))
FULL = tp(0, ep(1, WHOLE, data(6)))
EMPTY_LOW = ep(1, WHOLE, b"")
CUT_FILL = bytes(5)

SMALL = [
    ("6, 8, 7, 9 are checked in this order",
     [with_word(tp(0, bytes(12), byte=0x11), BROKEN)[:15], with_word(tp(0, bytes(12), byte=0x11), BROKEN),
      with_word(tp(0, bytes(12), byte=0x01), BROKEN), with_word(tp(0, bytes(12)), BROKEN)],
     [notice(1, 6), notice(2, 8), notice(3, 7), notice(4, 9)]),
    ("6 and 8 leave the receiver in step",
     [LONG_1, LONG_2[:15], LONG_2 + b"\0", b"", tp(0, bytes(12), byte=0xF0), LONG_2],
     [notice(2, 6), notice(3, 6), notice(4, 6), notice(5, 8), "6 ordinary 1 10"]),
    ("7 loses step", [LONG_1, tp(0, bytes(12), byte=0x02), LONG_2], [notice(2, 7)]),
    ("9 loses step", [LONG_1, with_word(LONG_2, BROKEN), LONG_2], [notice(2, 9)]),
    ("reserved bits are ignored",
     [tp(0, ep(1, WHOLE, data(6), None, 3), byte=0x0C), tp(NO_START, ep(2, WHOLE, data(5), None, 3), b"\0", low=True)],
     ["1 ordinary 1 6", "2 low 2 5"]),
    ("fragments are joined", [HEAD, TAIL], ["2 ordinary 1 12"]),
    ("a told gap drops the held fragments", [HEAD, GAP, TAIL], [notice(2, 14)]),
    ("a told gap drops the unfinished EP", [LONG_1, GAP, LONG_2], []),
    ("13 drops the held fragments", [HEAD, tp(6, data(6), ep(1, LAST, b""))], [notice(2, 13), notice(2, 14)]),
    ("13 comes before what a header finished here would give",
     [tp(0, ep(0, WHOLE, data(3)), ep(9, WHOLE, b"")[:3]),
      tp(5, ep(9, WHOLE, b"")[3:], data(2), ep(1, WHOLE, b"x"))],
     [notice(2, 13), "2 ordinary 1 1"]),
    ("13 loses the packet that would have finished here",
     [LONG_1, tp(5, LONG[12:], b"?", ep(2, WHOLE, b"x"))], [notice(2, 13), "2 ordinary 2 1"]),
    ("13 with 2047 stays out of step, silently", [FULL, tp(NO_START, data(12)), tp(NO_START, data(12)), FULL],
     ["1 ordinary 1 6", notice(2, 13), "4 ordinary 1 6"]),
    ("an EP that ends with the payload foretells no start",
     [tp(0, ep(2, WHOLE, data(18))[:12]), tp(NO_START, ep(2, WHOLE, data(18))[12:]), FULL],
     ["2 ordinary 2 18", "3 ordinary 1 6"]),
    ("between two EPs, a low-latency part that ends at P leaves no start",
     [FULL, tp(NO_START, ep(2, WHOLE, data(5)), b"\0", low=True), FULL],
     ["1 ordinary 1 6", "2 low 2 5", "3 ordinary 1 6"]),
    ("between two EPs, the next begins right after the low-latency part",
     [FULL, tp(7, EMPTY_LOW, b"\0", CUT_FILL, low=True), tp(1, b"\0", ep(4, WHOLE, data(5)))],
     ["1 ordinary 1 6", "2 low 1 0", "3 ordinary 4 5"]),
    ("an offset counted from after the low-latency part lies inside it",
     [tp(0, ep(1, WHOLE, data(7))[:12]), tp(1, EMPTY_LOW, b"\0", data(1), bytes(4), low=True)],
     ["2 low 1 0", notice(2, 21)]),
    ("out of step, everything before the offset is passed over",
     [tp(5, data(5), ep(1, WHOLE, b"x"))], ["1 ordinary 1 1"]),
    ("10: offset P and beyond P, with a low-latency part or without",
     [tp(12, bytes(12)), tp(2046, bytes(12)), tp(12, ep(1, WHOLE, data(5)), b"\0", low=True)],
     [notice(1, 10), notice(2, 10), "3 low 1 5", notice(3, 10)]),
    ("21: an offset before the low-latency part's end, be that P, and not one at its end",
     [tp(6, EMPTY_LOW, b"\0", CUT_FILL, low=True), tp(7, EMPTY_LOW, b"\0", CUT_FILL, low=True),
      tp(11, ep(1, WHOLE, data(5)), b"\0", low=True)],
     ["1 low 1 0", notice(1, 21), "2 low 1 0", "3 low 1 5", notice(3, 21)]),
    ("10 loses step", [HEAD, tp(12, bytes(12)), TAIL], [notice(2, 10), notice(3, 14)]),
    ("21 loses step and drops the ordinary bytes",
     [HEAD, tp(0, EMPTY_LOW, b"\0", CUT_FILL, low=True), TAIL], ["2 low 1 0", notice(2, 21), notice(3, 14)]),
    ("21 comes before 12 on a header begun earlier, and in place of 13",
     [tp(0, ep(0, WHOLE, data(5)), BROKEN[:1]), tp(0, EMPTY_LOW, b"\0", BROKEN[1:], bytes(3), low=True), FULL],
     ["2 low 1 0", notice(2, 21), "3 ordinary 1 6"]),
    ("11: header, length, end byte, fewer than 7 bytes",
     [tp(NO_START, BROKEN, bytes(9), low=True), tp(NO_START, ep(1, WHOLE, data(6), 6), low=True),
      tp(NO_START, ep(1, WHOLE, data(5)), b"\x0f", low=True),
      tp(7, EMPTY_LOW, b"\xff", CUT_FILL, low=True), tp(NO_START, ep(1, WHOLE, data(5)), b"\0", low=True)],
     [notice(1, 11), notice(2, 11), notice(3, 11), "4 low 1 0", notice(4, 11), "5 low 1 5"]),
    ("11 loses step and drops the rest",
     [HEAD, tp(0, EMPTY_LOW, b"\x0f", CUT_FILL, low=True), TAIL], [notice(2, 11), notice(3, 14)]),
    ("an LLEP that gets 11 gets no 16", [tp(7, ep(9, FIRST, b""), b"\xf0", CUT_FILL, low=True)], [notice(1, 11)]),
    ("12 on a header begun here drops the rest",
     [tp(0, BROKEN, bytes(3), ep(2, WHOLE, b"")), FULL], [notice(1, 12), "2 ordinary 1 6"]),
    ("12 on a header begun earlier resumes at the offset, even inside its bytes",
     [tp(0, ep(0, WHOLE, data(5)), BROKEN[:1]), tp(2, BROKEN[1:], ep(1, WHOLE, data(4)))],
     [notice(2, 12), "2 ordinary 1 4"]),
    ("12 on a header begun earlier, with 2047",
     [tp(0, ep(0, WHOLE, data(5)), BROKEN[:1]), tp(NO_START, BROKEN[1:], bytes(10)), FULL],
     [notice(2, 12), "3 ordinary 1 6"]),
    ("12 on a header begun earlier that ends with the payload",
     [tp(0, ep(0, WHOLE, data(5)), BROKEN[:1]), tp(7, EMPTY_LOW, b"\0", BROKEN[1:], bytes(3), low=True)],
     ["2 low 1 0", notice(2, 12)]),
    ("a cut header that is still not whole foretells no start",
     [tp(0, ep(0, WHOLE, data(4)), ep(3, WHOLE, data(9))[:2]),
      tp(NO_START, ep(1, WHOLE, data(4)), b"\0", ep(3, WHOLE, data(9))[2:3], low=True),
      tp(NO_START, ep(3, WHOLE, data(9))[3:]), FULL],
     ["2 low 1 4", "3 ordinary 3 9", "4 ordinary 1 6"]),
    ("a cut header is judged when it is whole, not earlier",
     [tp(0, ep(0, WHOLE, data(2)), BROKEN, b"\0"),
      tp(NO_START, ep(1, WHOLE, data(4)), b"\0", b"\0", low=True), tp(1, b"\0", bytes(6), bytes(5))],
     ["2 low 1 4", notice(3, 12)]),
    ("an empty packet whose header ends the payload is handed out here",
     [tp(0, ep(0, WHOLE, b""), ep(5, WHOLE, b""))], ["1 ordinary 5 0"]),
    ("fill with a flag and nothing held is silent", [tp(0, ep(0, LAST, data(6))), tp(0, ep(0, MIDDLE, data(6)))], []),
]

# TP length 40: payload of 36 bytes
MEDIUM = [
    ("16 for an LLEP with a flag or a reserved content, not for fill",
     [tp(31, ep(1, FIRST, b"a"), b"\xff", ep(9, WHOLE, b""), b"\xff", ep(0, LAST, b"zz"), b"\xff",
         ep(9, MIDDLE, b""), b"\0", CUT_FILL, low=True)],
     [notice(1, 16)] * 3),
    ("end bytes with three flips",
     [tp(16, ep(1, WHOLE, b"a"), b"\x1f", ep(2, WHOLE, b"b"), b"\x07", ep(0, WHOLE, data(14)), low=True)],
     ["1 low 1 1", "1 low 2 1"]),
    ("LLEPs never touch held fragments",
     [tp(8, ep(1, WHOLE, b"a"), b"\0", ep(2, FIRST, data(22)), low=True),
      tp(8, ep(2, WHOLE, b"b"), b"\0", ep(2, LAST, data(22)), low=True)],
     ["1 low 1 1", "2 low 2 1", "2 ordinary 2 44"]),
    ("fill breaks a held series, whatever its flag",
     [tp(0, ep(1, FIRST, data(4)), ep(0, MIDDLE, data(4)), ep(1, LAST, data(10)))], [notice(1, 14)] * 2),
    ("14 then 16, 14 then a packet, a middle of reserved content",
     [tp(0, ep(1, FIRST, b""), ep(9, WHOLE, b""), ep(2, FIRST, b"x"), ep(3, WHOLE, b"y"), ep(9, MIDDLE, b""),
         bytes(4))],
     [notice(1, 14), notice(1, 16), notice(1, 14), "1 ordinary 3 1", notice(1, 14)]),
    ("14 drops a series of another content, and a first starts a new one",
     [tp(0, ep(1, FIRST, b""), ep(2, MIDDLE, b""), ep(1, LAST, b""),
         ep(2, FIRST, b""), ep(2, FIRST, b""), ep(2, LAST, b""))],
     [notice(1, 14)] * 3 + ["1 ordinary 2 0"]),
    ("contents 7 and 15 are reserved, 6 is not",
     [tp(14, ep(7, WHOLE, b""), b"\xff", ep(6, WHOLE, b""), b"\0",
         ep(7, WHOLE, b""), ep(15, FIRST, b""), ep(6, WHOLE, data(4)), low=True)],
     [notice(1, 16), "1 low 6 0", notice(1, 16), notice(1, 16), "1 ordinary 6 4"]),
    ("a middle and a last without a first",
     [tp(0, ep(1, MIDDLE, data(12)), ep(1, LAST, data(12)))], [notice(1, 14)] * 2),
    ("15 above the room", [tp(0, ep(1, WHOLE, data(30), 32769))], [notice(1, 15)]),
    ("no 15 at the room's length", [tp(0, ep(1, WHOLE, data(30), 32768))], []),
    ("15 counts the held bytes", [tp(0, ep(1, FIRST, b"x"), ep(1, MIDDLE, data(23), 32768))], [notice(1, 15)]),
    ("held bytes up to the room's length",
     [tp(0, ep(1, FIRST, b"x"), ep(1, MIDDLE, data(23), 32767))], []),
    ("after 14 no held bytes are counted for 15",
     [tp(0, ep(1, FIRST, data(20)), ep(1, FIRST, data(4), 32760))], [notice(1, 14)]),
    ("14 then 15", [tp(0, ep(1, FIRST, b""), ep(1, WHOLE, data(24), 40000))], [notice(1, 14), notice(1, 15)]),
    ("after 16 no 15 follows", [tp(0, ep(9, WHOLE, data(30), 40000))], [notice(1, 16)]),
    ("a middle passed over by 14 gets no 15", [tp(0, ep(1, MIDDLE, data(30), 40000))], [notice(1, 14)]),
    ("fill is never too long", [tp(0, ep(0, WHOLE, data(30), 40000))], []),
    ("EPs passed over foretell like any other",
     [tp(0, ep(9, WHOLE, data(40))[:36]), tp(10, ep(9, WHOLE, data(40))[36:], ep(1, WHOLE, data(20)))],
     [notice(1, 16), "2 ordinary 1 20"]),
]


def oversized():
    """15 drops the series; each later piece gives its own 14."""
    maker = packer.Sender(2051, 0, 1, 0, 0)
    for flag, size in ((FIRST, 30000), (MIDDLE, 2769), (LAST, 1)):
        maker.put_raw("ordinary", ep(1, flag, bytes(size)))
    while maker.queue["ordinary"]:
        maker.draw()
    return "an oversized packet", maker.tps, [notice(15, 15), notice(17, 14)]


GROUPS = [(16, SMALL), (40, MEDIUM), (2051, [oversized()])]

# Where finds began: TPs, then each answer with the TP number and place that it carries, then by how much the
# count rises. None carries the count before its call: the old one if the TP gave nothing else.
PLACED_ROOM = 30
OTHER_ROOM = "a call with a room of another length"

PLACED_SMALL = [
    ("a packet begun in this TP, and one begun in the TP before", [FULL, LONG_1, LONG_2],
     ["ordinary 1 1 0", "none 1 0", "none 2 0", "ordinary 1 2 0", "none 3 0"], 3),
    ("6 and 8 don't count and carry the count before them, 7 and 9 count",
     [FULL, FULL[:15], tp(0, bytes(12), byte=0x10), tp(0, bytes(12), byte=0x01), with_word(FULL, BROKEN), b"", FULL],
     ["ordinary 1 1 0", "none 1 0", "6 1 0", "8 1 0", "7 2 0", "9 3 0", "6 3 0", "ordinary 1 4 0", "none 4 0"], 4),
    ("6 and 8 between two TPs of a packet", [LONG_1, LONG_2[:15], tp(0, bytes(12), byte=0xF1), LONG_2],
     ["none 1 0", "6 1 0", "8 1 0", "ordinary 1 1 0", "none 2 0"], 2),
    ("a gap keeps the count", [LONG_1, GAP, GAP, LONG_2, FULL],
     ["none 1 0", "none 2 0", "ordinary 1 3 0", "none 3 0"], 3),
    ("1 carries the count and doesn't raise it", [OTHER_ROOM, FULL, OTHER_ROOM],
     ["1 0 0", "ordinary 1 1 0", "none 1 0", "1 1 0"], 1),
    ("a joined packet began with its first piece, whose header is cut",
     [tp(0, ep(0, WHOLE, data(4)), ep(1, FIRST, data(2))[:2]), tp(6, ep(1, FIRST, data(2))[2:], ep(1, MIDDLE, b"")),
      tp(NO_START, ep(2, WHOLE, data(5)), b"\0", low=True), TAIL],
     ["none 1 0", "none 2 0", "low 2 3 0", "none 3 0", "ordinary 1 1 10", "none 4 0"], 4),
    ("a header cut by two TP ends began in the first",
     [tp(0, ep(0, WHOLE, data(4)), ep(3, WHOLE, data(9))[:2]),
      tp(NO_START, ep(1, WHOLE, data(4)), b"\0", ep(3, WHOLE, data(9))[2:3], low=True),
      tp(NO_START, ep(3, WHOLE, data(9))[3:]), FULL],
     ["none 1 0", "low 1 2 0", "none 2 0", "ordinary 3 1 10", "none 3 0", "ordinary 1 4 0", "none 4 0"], 4),
    ("12 names a header begun here", [tp(6, ep(0, WHOLE, b""), BROKEN, bytes(3)), FULL],
     ["12 1 6", "none 1 0", "ordinary 1 2 0", "none 2 0"], 2),
    ("12 names a header begun earlier",
     [tp(0, ep(0, WHOLE, data(5)), BROKEN[:1]), tp(2, BROKEN[1:], ep(1, WHOLE, data(4)))],
     ["none 1 0", "12 1 11", "ordinary 1 2 2", "none 2 0"], 2),
    ("10, 13 and 21 name the TP",
     [FULL, tp(6, ep(0, WHOLE, b""), ep(1, WHOLE, b"")), tp(12, bytes(12)),
      tp(6, EMPTY_LOW, b"\0", CUT_FILL, low=True)],
     ["ordinary 1 1 0", "none 1 0", "13 2 0", "ordinary 1 2 6", "none 2 0", "10 3 0", "none 3 0", "low 1 4 0",
      "21 4 0", "none 4 0"], 4),
    ("13 in place of what a cut header would give, then a packet at the offset",
     [tp(0, ep(0, WHOLE, data(3)), ep(9, WHOLE, b"")[:3]),
      tp(5, ep(9, WHOLE, b"")[3:], data(2), ep(1, WHOLE, b"x"))],
     ["none 1 0", "13 2 0", "ordinary 1 2 5", "none 2 0"], 2),
    ("14 and 16 name an EP whose header began in the TP before",
     [tp(0, ep(1, FIRST, b""), ep(9, WHOLE, data(3))[:6]), tp(3, data(3), ep(2, LAST, b"")[:6], bytes(3)),
      tp(3, bytes(3), ep(9, MIDDLE, data(3))), tp(0, ep(0, WHOLE, b"x"), ep(9, FIRST, b"")[:5]),
      tp(1, ep(9, FIRST, b"")[5:], ep(0, WHOLE, data(5)))],
     ["14 1 6", "16 1 6", "none 1 0", "14 2 3", "none 2 0", "14 3 3", "none 3 0", "none 4 0", "16 4 7", "none 5 0"],
     5),
    ("15 names its EP, be it a later piece",
     [HEAD, tp(0, ep(1, MIDDLE, data(6), 25)), tp(NO_START, data(12)), tp(7, data(7), ep(1, LAST, b"")[:5]),
      tp(1, ep(1, LAST, b"")[5:], ep(0, WHOLE, data(5)))],
     ["none 1 0", "15 2 0", "none 2 0", "none 3 0", "none 4 0", "14 4 7", "none 5 0"], 5),
    ("11 names its LLEP", [tp(NO_START, BROKEN, bytes(9), low=True), tp(7, EMPTY_LOW, b"\xff", CUT_FILL, low=True)],
     ["11 1 0", "none 1 0", "low 1 2 0", "11 2 7", "none 2 0"], 2),
    ("11 with no byte left names P", [tp(NO_START, ep(1, WHOLE, data(5)), b"\xff", low=True)],
     ["low 1 1 0", "11 1 12", "none 1 0"], 1),
]

PLACED_MEDIUM = [
    ("low-latency packets and 16 name their own first byte, an ordinary one counts the low-latency part",
     [tp(24, ep(1, WHOLE, b"a"), b"\xff", ep(0, WHOLE, b""), b"\xff", ep(2, FIRST, b"bc"), b"\0", ep(4, WHOLE, data(6)),
         low=True)],
     ["low 1 1 0", "16 1 15", "ordinary 4 1 24", "none 1 0"], 1),
    ("a series broken by a first: the new series began there",
     [tp(0, ep(1, FIRST, data(2)), ep(1, FIRST, data(2)), ep(1, LAST, b""), ep(3, WHOLE, data(8)))],
     ["14 1 8", "ordinary 1 1 8", "ordinary 3 1 22", "none 1 0"], 1),
    ("a series dropped by 15 gives its place to nobody",
     [tp(0, ep(1, FIRST, data(2)), ep(1, MIDDLE, data(22), 29)), tp(7, data(7), ep(1, WHOLE, data(23)))],
     ["15 1 8", "none 1 0", "ordinary 1 2 7", "none 2 0"], 2),
]

PLACED = [(16, PLACED_SMALL), (40, PLACED_MEDIUM)]


def joined(group):
    """All cases of a group as one list of TPs with gaps between, and the lines expected of it."""
    stretch, lines = [], []
    count = 0
    for _, tps, expected in group:
        stretch += [GAP] + list(tps)
        for line in expected:
            number, rest = line.split(" ", 1)
            lines.append("%d %s" % (int(number) + count, rest))
        count += sum(one is not GAP for one in tps)
    return stretch, lines
