"""House records as readable lines, and back: tools/records --help has the words."""
import itertools
import re

from lib import house
from lib.house import DRAW, GAP, HEAD, LOW, ORDINARY, SETUP, TP

NAMES = ["setup", "ordinary", "low", "draw", "tp", "gap"]
MOST_BYTES = 1 << 24  # of one line
MOST_DRAWS = 1000000
RAW_STRETCH = 1 << 15


class BadLine(ValueError):
    """A line that is no record's, in plain words."""


# ---- lines to records ----

def number_in(word, what, most, least=0):
    if not (word.isascii() and word.isdigit() and len(word) <= 20 and least <= int(word) <= most):
        raise BadLine("%s '%s' is not a number from %d to %d" % (what, word, least, most))
    return int(word)


def bytes_in(word):
    digits, star, times = word.partition("*")
    if not re.fullmatch("[0-9A-Fa-f]*", digits):
        raise BadLine("'%s' is not hexadecimal" % digits[:40])
    if len(digits) % 2:
        raise BadLine("'%s' has an odd number of digits" % digits[:40])
    count = number_in(times, "behind the star,", MOST_BYTES) if star else 1
    if len(digits) // 2 * count > MOST_BYTES:
        raise BadLine("'%s' is more than %d bytes" % (word[:40], MOST_BYTES))
    return bytes.fromhex(digits) * count


def bytes_of(words):
    data = bytearray()
    for word in words:
        data += bytes_in(word)
        if len(data) > MOST_BYTES:
            raise BadLine("more than %d bytes in a line" % MOST_BYTES)
    return bytes(data)


def setup_in(rest):
    if len(rest) != 3:
        raise BadLine("setup takes three numbers: TP length, stream and F")
    names = (("TP length", 65535), ("stream", 255), ("F", 65535))
    return house.setup(*[number_in(word, what, most) for word, (what, most) in zip(rest, names)])


def packet_in(kind, rest):
    if not rest:
        raise BadLine("%s takes a content number, then the packet's bytes" % NAMES[kind])
    return house.record(kind, number_in(rest[0], "content", 255), bytes_of(rest[1:]))


def draws_in(rest):
    if len(rest) > 1:
        raise BadLine("draw takes one number, or none")
    return house.record(DRAW) * (number_in(rest[0], "count", MOST_DRAWS, 1) if rest else 1)


def gap_in(rest):
    if rest:
        raise BadLine("gap stands alone")
    return house.record(GAP)


READERS = {"setup": setup_in, "ordinary": lambda rest: packet_in(ORDINARY, rest), "low": lambda rest: packet_in(LOW, rest),
           "draw": draws_in, "tp": lambda rest: house.record(TP, 0, bytes_of(rest)), "gap": gap_in, "raw": bytes_of}


def encode_line(line):
    words = line.split("#")[0].split()
    if not words:
        return b""
    if words[0] not in READERS:
        raise BadLine("'%s' is none of %s" % (words[0][:40], ", ".join(READERS)))
    return READERS[words[0]](words[1:])


# ---- records to lines ----

def hex_words(data):
    """Hexadecimal, with long runs of one byte told short."""
    words = []
    for run in re.finditer(rb"(.)\1{15,}|(?:(?!(.)\2{15,}).)+", data, re.DOTALL):
        piece = run.group(0)
        if len(piece) >= 16 and len(set(piece)) == 1:
            words.append("%02x*%d" % (piece[0], len(piece)))
        else:
            words.append(piece.hex())
    return " ".join(words)


def decode_record(part):
    """The line that gives exactly this record."""
    kind, content, data = part[2], part[3], part[HEAD:]
    if kind == SETUP and content == 0 and len(data) == 5:
        return "setup %d %d %d" % house.setup_of(data)
    if kind in (ORDINARY, LOW):
        return ("%s %d %s" % (NAMES[kind], content, hex_words(data))).rstrip()
    if kind == TP and content == 0:
        return ("tp " + hex_words(data)).rstrip()
    if kind in (DRAW, GAP) and content == 0 and not data:
        return NAMES[kind]
    return "raw " + hex_words(part)


def draws_together(lines):
    """The lines, with draws that follow each other told as one."""
    for is_draw, run in itertools.groupby(lines, lambda line: line == "draw"):
        if not is_draw:
            yield from run
            continue
        many, count = divmod(sum(1 for _ in run), MOST_DRAWS)
        yield from ["draw %d" % MOST_DRAWS] * many
        if count:
            yield "draw %d" % count


def raw_lines(source, count):
    """The next bytes of an input as lines of a bounded length; all that are left if no count is given."""
    while count != 0:
        data = source.take(RAW_STRETCH if count is None else min(count, RAW_STRETCH))
        if not data:
            return
        yield "raw " + hex_words(data)
        count = count and count - len(data)


def lines_in(source):
    """The lines of an input's records. From where no record begins, all that is left is told raw, and so is one that is
    longer than a record may be."""
    while source.ask(HEAD) and source.next(2) == house.MARK:
        length = house.length_of(source.next(HEAD))
        if length > house.LONGEST:
            yield from raw_lines(source, HEAD + length)
        elif source.ask(HEAD + length):
            yield decode_record(source.take(HEAD + length))
        else:
            break
    yield from raw_lines(source, None)


def lines_of(stream):
    parts, rest = house.split(stream)
    lines = [decode_record(part) for part in parts]
    return list(draws_together(lines + (["raw " + hex_words(rest)] if rest else [])))
