"""House records: made, cut out of bytes, and read from an input one by one. docs/RECORDS.md has the layout."""
import collections

from lib.command import Stop

MARK = b"\xc7\x07"
HEAD = 8
LONGEST = 32768
SETUP, ORDINARY, LOW, DRAW, TP, GAP = range(6)

# where it begins, and what it says; `whole` is the record itself
Record = collections.namedtuple("Record", "at kind content data whole")
Setup = collections.namedtuple("Setup", "tp_length stream piece")


def record(kind, content=0, data=b""):
    return MARK + bytes([kind, content]) + len(data).to_bytes(4, "big") + bytes(data)


def setup(tp_length, stream, piece):
    return record(SETUP, 0, tp_length.to_bytes(2, "big") + bytes([stream]) + piece.to_bytes(2, "big"))


def setup_of(data):
    return Setup(int.from_bytes(data[:2], "big"), data[2], int.from_bytes(data[3:], "big"))


def length_of(head):
    return int.from_bytes(head[4:HEAD], "big")


def split(stream):
    """The records at the start of the stream, as bytes each, and the rest that is none."""
    parts, at = [], 0
    while len(stream) - at >= HEAD and stream[at:at + 2] == MARK:
        end = at + HEAD + length_of(stream[at:])
        if end > len(stream):
            break
        parts.append(stream[at:end])
        at = end
    return parts, stream[at:]


def length_fits(kind, length):
    if kind == SETUP:
        return length == 5
    return length == 0 if kind in (DRAW, GAP) else length <= LONGEST


def fault_of(head, kinds):
    """What is wrong with a record's head where these kinds may stand, in the programs' words; None if nothing is."""
    if len(head) < HEAD:
        return "cut short"
    if head[:2] != MARK:
        return "no mark"
    if head[2] not in kinds:
        return "a kind that has no place here"
    if head[3] != 0 and head[2] not in (ORDINARY, LOW):
        return "content not 0"
    if not length_fits(head[2], length_of(head)):
        return "wrong length"
    return None


def read(source, *kinds):
    """The records of an input: the setup, then any of these kinds. What is none stops the tool."""
    if not source.ask(1):
        raise Stop("no setup record")
    allowed = (SETUP,)
    while head := source.take(HEAD):
        at = source.at - len(head)
        fault = fault_of(head, allowed)
        data = b"" if fault else source.take(length_of(head))
        if fault or len(data) < length_of(head):
            raise Stop("record at byte %d: %s" % (at, fault or "cut short"))
        yield Record(at, head[2], head[3], data, head + data)
        allowed = kinds
