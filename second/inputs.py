"""Inputs from a seed: scripts and recordings for the programs, lists of calls, and sections of words."""
import itertools

import chapter11
import downlink
import packer
from packer import FIRST, LAST, MIDDLE, NO_START, WHOLE

TP_LENGTHS = (16, 16, 17, 17, 18, 19, 21, 24, 30, 40, 64, 100, 255, 700, 2050, 2051)
PIECES = (1, 2, 5, 5, 17, 100, 1000, 32768, 65535)
PROGRAM_BUFFER = 32768  # queues and room of the programs


def settings(rng):
    return rng.choice(TP_LENGTHS), rng.randrange(16), rng.choice(PIECES)


def some_bytes(rng, length):
    """Random bytes, or a byte repeated, or bytes that look like headers and end bytes."""
    style = rng.randrange(4)
    if style == 0:
        return bytes([rng.choice((0x00, 0xFF, 0xAA, 0x0F))]) * length
    if style == 1:
        return (packer.ep(rng.randrange(16), rng.randrange(4), b"", rng.randrange(40)) * (length // 6 + 1))[:length]
    return rng.randbytes(length)


# ---- recordings of the sending program ----

def ordinary_size(rng, payload, piece, big):
    if big:
        return rng.choice((4681, 4682, 20000, 32762, 32763, 32768, rng.randrange(32769)))
    near = rng.choice((0, 0, 1, 2, piece - 1, piece, piece + 1, 2 * piece, 2 * piece + 1, 3 * piece,
                       payload - 7, payload - 6, payload - 5, payload, 2 * payload,
                       rng.randrange(40), rng.randrange(200)))
    return near if near <= 600 else rng.randrange(200)


def low_size(rng, payload):
    size = rng.choice((0, 0, 1, 2, 3, 5, payload - 13, payload - 9, payload - 8, payload - 7,
                       payload - 6, payload, rng.randrange(payload)))
    return max(0, size)


def some_content(rng):
    return rng.choice((0, 7, 15, 16, 255)) if rng.random() < 0.03 else rng.randrange(1, 7)


# weights of (ordinary offer, low-latency offer, draw), and the share of big ordinary offers
SEND_STYLES = ((2, 1, 4, 0), (4, 1, 3, 0), (1, 3, 3, 0), (1, 0, 6, 0), (0, 1, 6, 0), (0, 6, 1, 0),
               (2, 2, 3, 0.2), (6, 1, 1, 0.5))


def send_steps(rng, tp_length, piece):
    """(sort, content, data) of offers, and None for draws."""
    draws = max(40, min(400, 60000 // tp_length))
    style = rng.choice(SEND_STYLES)
    while draws > 0:
        if rng.random() < 0.02:
            style = rng.choice(SEND_STYLES)
        what = rng.choices(("ordinary", "low", "draw"), style[:3])[0]
        if what == "draw":
            draws -= 1
            yield None
        elif what == "low":
            yield what, some_content(rng), some_bytes(rng, low_size(rng, tp_length - 4))
        else:
            size = ordinary_size(rng, tp_length - 4, piece, rng.random() < style[3])
            yield what, some_content(rng), some_bytes(rng, max(0, size))


def send_recording(rng, records, count=None):
    """Good records, the sender that they make, and (byte, number) of each refused offer."""
    tp_length, stream, piece = settings(rng)
    sender = packer.Sender(tp_length, stream, piece, PROGRAM_BUFFER, PROGRAM_BUFFER)
    good, refused = [records.setup(tp_length, stream, piece)], []
    for step in send_steps(rng, tp_length, piece):
        if step is None:
            sender.draw()
            good.append(records.record(records.DRAW))
        else:
            sort, content, data = step
            number = sender.offer(sort, content, data)
            refused += [(sum(map(len, good)), number)] if number else []
            kind = records.LOW if sort == "low" else records.ORDINARY
            good.append(records.record(kind, content, data))
        if count is not None and len(good) >= count:
            break
    return good, sender, refused


# ---- records that stop a program ----

def bad_records(records, sending):
    """Bytes that stop the program, each beginning with a record that doesn't follow the rules."""
    good = records.record(records.ORDINARY, 1, b"abc") if sending else records.record(records.TP, 0, bytes(16))
    foreign = (records.TP, records.GAP) if sending else (records.ORDINARY, records.LOW, records.DRAW)
    empty = records.DRAW if sending else records.GAP
    bad = [b"\xc7\x08" + good[2:], b"\x07\xc7" + good[2:], b"\0" + good, records.setup(16, 0, 1),
           records.record(empty, 1), records.record(empty, 255), records.record(empty, 0, b"x"),
           records.record(good[2], good[3], bytes(32769)), good[:4] + b"\xff\xff\xff\xff" + good[8:]]
    bad += [records.record(kind) for kind in foreign + (6, 7, 128, 255)]
    if not sending:
        bad.append(good[:3] + b"\x01" + good[4:])
    ignored = records.record(empty) + good + records.record(empty)
    cut = [good[:length] for length in (1, 2, 3, 7, 8, len(good) - 1)]
    return [one + ignored for one in bad] + cut


def bad_starts(records):
    """Recordings that have no good setup: nothing is to be printed."""
    good = records.setup(16, 0, 1)
    bad = [records.setup(*one) for one in ((15, 0, 1), (2052, 0, 1), (65535, 0, 1), (0, 0, 1), (16, 16, 1),
                                           (16, 255, 1), (16, 0, 0))]
    bad += [records.record(records.SETUP, 1, good[8:]), records.record(records.SETUP, 0, good[8:12]),
            records.record(records.SETUP, 0, good[8:] + b"\0"), records.record(records.DRAW),
            records.record(records.GAP), bytes(40), b"\xc7\x06" + good[2:]]
    cut = [good[:length] for length in (0, 1, 7, 8, 12)]
    return [one + good + records.record(records.DRAW) for one in bad] + cut


# ---- streams of another maker ----

def odd_eps(rng, payload):
    """Some ordinary EPs, one after the other, that our sender might never make."""
    def one(content, flag, size, length=None):
        reserved = rng.randrange(4) if rng.random() < 0.3 else 0
        return packer.ep(content, flag, some_bytes(rng, size), length, reserved)

    def size():
        return rng.choice((0, 0, 1, 2, 5, payload - 6, payload - 7, payload, rng.randrange(30)))

    content = rng.randrange(1, 7)
    kind = rng.randrange(10)
    if kind <= 1:
        return [one(content, WHOLE, size())]
    if kind <= 4:
        middles = [one(content, MIDDLE, size()) for _ in range(rng.randrange(4))]
        return [one(content, FIRST, size())] + middles + [one(content, LAST, size())]
    if kind == 5:
        return [one(rng.choice((content, content, rng.randrange(16))), rng.randrange(4), size()) for _ in range(4)]
    if kind == 6:
        return [one(rng.randrange(7, 16), rng.randrange(4), size())]
    if kind == 7:
        return [one(0, rng.randrange(4), size())]
    if kind == 8:
        return [one(content, rng.randrange(4), size(), rng.choice((0, 1, 40, 32768, 32769, 65535)))]
    return [one(content, FIRST, size()), one(0, rng.randrange(4), size()), one(content, LAST, size())]


def room_eps(payload):
    """Series that fill a room of 32,768 bytes exactly, and by one byte too many."""
    def series(sizes):
        flags = [FIRST] + [MIDDLE] * (len(sizes) - 2) + [LAST]
        return [packer.ep(3, flag, b"r" * size) for flag, size in zip(flags, sizes)]
    return (series([32768 - payload, payload]) + [packer.ep(2, WHOLE, b"w" * 32768)] +
            series([30000, 2767, 1]) + series([30000, 2768, 1]) + series([32768, 0, 0]) +
            series([0, 32769]) + [packer.ep(2, WHOLE, b"w" * 32769)])


def odd_low(rng, payload):
    reserved = rng.randrange(4) if rng.random() < 0.3 else 0
    size = min(low_size(rng, payload), payload - 7)
    content, flag = rng.randrange(1, 7), WHOLE
    kind = rng.randrange(6)
    if kind == 0:
        content, flag = 0, rng.randrange(4)
    elif kind == 1:
        content, flag = rng.randrange(7, 16), rng.randrange(4)
    elif kind == 2:
        flag = rng.randrange(1, 4)
    return packer.ep(content, flag, some_bytes(rng, size), None, reserved)


def other_maker(rng, tp_length, stream, count):
    """A packer that has drawn `count` TPs of odd EPs."""
    maker = packer.Sender(tp_length, stream, 1, 0, 0)
    low_share = rng.choice((0, 0.1, 0.5))
    idle_share = rng.choice((0, 0, 0.1))
    if tp_length > 600 and rng.random() < 0.5:
        for encoded in room_eps(maker.payload):
            maker.put_raw("ordinary", encoded)
    for _ in range(count):
        while not maker.queue["ordinary"] and rng.random() >= idle_share:
            for encoded in odd_eps(rng, maker.payload):
                maker.put_raw("ordinary", encoded)
        while rng.random() < low_share:
            maker.put_raw("low", odd_low(rng, maker.payload))
        while len(maker.queue["low"]) > 4:
            maker.queue["low"].popleft()
        maker.draw()
    return maker


# ---- faults ----

def with_offset(tp, change):
    number = (tp[1] << 4 | tp[2] >> 4)  # the number half of an intact word
    return tp[:1] + packer.golay(change(number)) + tp[4:]


def near_offset(rng, offset, payload):
    return rng.choice((offset + 1, offset - 1, 0, 1, 6, payload - 1, payload, payload + 1, 2046,
                       NO_START, NO_START, rng.randrange(payload))) & 0x7FF


def cut_or_extend(rng, tp):
    return rng.choice((b"", tp[:1], tp[:-1], tp + b"\0", tp * 2, tp[:4]))


def garbage(rng, tp):
    start = rng.randrange(4, len(tp))
    length = rng.randrange(1, 20)
    return (tp[:start] + some_bytes(rng, length) + tp[start + length:])[:len(tp)]


def fault_in_tp(rng, tp):
    """The TP with one fault that needs no knowledge of its words."""
    payload = len(tp) - 4
    return rng.choice((
        lambda: with_offset(tp, lambda n: n & 0x800 | near_offset(rng, n & 0x7FF, payload)),
        lambda: with_offset(tp, lambda n: n & 0x800 | near_offset(rng, n & 0x7FF, payload)),
        lambda: with_offset(tp, lambda n: n ^ 0x800),
        lambda: bytes([tp[0] ^ rng.choice((0x04, 0x08, 0x0C))]) + tp[1:],
        lambda: bytes([tp[0] ^ rng.choice((0x01, 0x02, 0x03, 0x0F))]) + tp[1:],
        lambda: bytes([tp[0] ^ rng.choice((0x10, 0x80, 0xF0, 0x11))]) + tp[1:],
        lambda: cut_or_extend(rng, tp),
        lambda: garbage(rng, tp),
    ))()


def fault_in_word(rng, tps, places):
    """Flips in a Golay word: within repair, just beyond, or any number."""
    count = rng.choice((1, 2, 3, 3, 4, 4, 5, rng.randrange(25)))
    downlink.flip(tps, places, rng.sample(range(8 * len(places)), min(count, 8 * len(places))))


def by_tp(places_list, count):
    table = [[] for _ in range(count)]
    for places in places_list:
        for number in {number for number, _ in places}:
            table[number].append(places)
    return table


def faulty(rng, maker, rate):
    """The maker's TPs under faults, as a list in which None is a gap."""
    tps = [bytearray(tp) for tp in maker.tps]
    if rng.random() < 0.3:
        downlink.flip_all(rng, tps, maker)
    words = by_tp(maker.word_places(), len(tps))
    ends = by_tp([[place] for place in maker.end_places], len(tps))
    for number in range(len(tps)):
        if rng.random() < rate:
            fault_in_word(rng, tps, rng.choice(words[number]))
        if ends[number] and rng.random() < rate / 2:
            fault_in_word(rng, tps, rng.choice(ends[number]))
    out = []
    for tp in map(bytes, tps):
        fate = rng.random() / rate
        if fate < 0.5:
            out.append(fault_in_tp(rng, tp))
        elif fate < 0.7:
            out += rng.choice(([], [None], [None, tp], [tp, tp], [tp, None], [None, None, tp]))
        else:
            out.append(tp)
    return out


def faulty_stretch(rng, tp_length, stream, piece):
    """Our sender's or another maker's TPs under faults, None for a gap; and their maker."""
    count = max(40, min(400, 80000 // tp_length))
    if rng.random() < 0.25:
        maker = packer.Sender(tp_length, stream, piece, PROGRAM_BUFFER, PROGRAM_BUFFER)
        for step in send_steps(rng, tp_length, piece):
            maker.draw() if step is None else maker.offer(*step)
    else:
        maker = other_maker(rng, tp_length, stream, count)
    return faulty(rng, maker, rng.choice((0.005, 0.03, 0.1, 0.3, 0.8))), maker


def list_recording(rng, records):
    """Good records for the listing program."""
    tp_length, stream, piece = settings(rng)
    stretch, maker = faulty_stretch(rng, tp_length, stream, piece)
    good = [records.setup(tp_length, stream, piece)]
    good += [records.record(records.GAP) if tp is None else records.record(records.TP, 0, tp) for tp in stretch]
    return good, maker


# ---- Chapter 11 packets in and out ----

SIZES = (0, 0, 1, 2, 5, 30, 100, 1000, 4095, 4096)


def pack_script(rng, records):
    """A script with Chapter 11 packets among other offers, what becomes of it, and (byte, number) of the refusals."""
    parts = [records.setup(*settings(rng))]
    packed, refused = parts[:], []
    for _ in range(100):
        kind = rng.choice((records.ORDINARY, records.LOW))
        if rng.random() < 0.3:
            other = rng.choice((records.record(records.DRAW), records.record(kind, rng.choice((0, 2, 4, 255)), b"any")))
            parts.append(other)
            packed.append(other)
            continue
        size = rng.choice(SIZES) if rng.random() < 0.97 else 30000
        packet, answer = rng.choice((chapter11.to_compose, chapter11.not_composed))(rng, size)
        if isinstance(answer, int):
            refused.append((sum(map(len, parts)), answer))
        else:
            packed.append(records.record(kind, 3, answer))
        parts.append(records.record(kind, 3, packet))
    return parts, b"".join(packed), refused


def unpack_recording(rng, records):
    """A recording with source packets of content 3 among others, what comes out, and (byte, number) of the refusals."""
    tp_length, stream, piece = rng.choice((64, 100, 255, 700, 2051)), rng.randrange(16), rng.choice((50, 1000, 65535))
    sender = packer.Sender(tp_length, stream, piece, PROGRAM_BUFFER, PROGRAM_BUFFER)
    answers = {}
    for _ in range(60):
        size = rng.choice(SIZES) if rng.random() < 0.97 else 30000
        sp, answer = rng.choice((chapter11.to_reassemble, chapter11.not_reassembled))(rng, size)
        answers[sp] = answer
        sender.offer(rng.choice(("ordinary", "low")), rng.choice((3, 3, 3, 3, 1)), sp)
        while sender.queue["low"] or len(sender.queue["ordinary"]) > 2:
            sender.draw()
    while sender.queue["ordinary"] or sender.current:
        sender.draw()
    parts = [records.setup(tp_length, stream, piece)] + [records.record(records.TP, 0, tp) for tp in sender.tps]
    out, refused = b"", []
    for found in downlink.expected(sender, sender.tps, range(len(sender.tps))):
        answer = answers[found.data] if found.content == 3 else b""
        if isinstance(answer, int):
            refused.append((len(parts[0]) + found.tp * len(parts[1]), answer))
        else:
            out += answer
    return parts, out, refused


# ---- lists of calls ----

(SENDER, ORDINARY, LOW, DRAW, RECEIVER, NEXT, GAP, WRITE, HAND, LIMIT, ALL, NEXT_ABOUT, ALL_ABOUT) = range(1, 14)
OP_NAMES = ("", "sender", "ordinary", "low", "draw", "receiver", "next", "gap", "write", "hand",
            "limit", "all", "next, about", "all, about")


def call(op, a=0, b=0, c=0, d=0, e=0, data=b""):
    fields = (a, b, c, d, e, len(data))
    return bytes([op]) + b"".join(f.to_bytes(4, "big") for f in fields) + bytes(data)


def call_words(entry):
    fields = [int.from_bytes(entry[i:i + 4], "big") for i in range(1, 21, 4)]
    return " ".join([OP_NAMES[entry[0]]] + [str(f) for f in fields] + [entry[25:].hex()]).rstrip()


def off(rng, length, share=0.04):
    """A length, now and then another one."""
    return length if rng.random() >= share else max(0, length + rng.choice((-1, 1, -length, 7)))


def sender_calls(rng):
    """One sender with small queues, its calls in any order, its queues written into now and then."""
    tp_length, stream, piece = rng.choice((16, 16, 17, 20, 33, 64)), rng.randrange(16), rng.choice((1, 2, 5, 30, 65535))
    queues = rng.choice((0, 5, 6, 13, 40, 100, 300)), rng.choice((0, 5, 6, 12, 40, 100, 300))
    overwrite = rng.choice((0, 0, 0.05, 0.3))
    room = rng.choice((0, 1, 10, 50, 300))
    yield call(SENDER, tp_length, stream, piece, *queues)
    yield call(RECEIVER, tp_length, stream, room)
    for _ in range(rng.randrange(20, 120)):
        lent = off(rng, queues[0]), off(rng, queues[1])
        what = rng.random()
        if what < overwrite:
            yield from overwriting(rng, queues)
        elif what < 0.3:
            size = ordinary_size(rng, tp_length - 4, piece, False) % 120
            yield call(ORDINARY, some_content(rng), 0, 0, *lent, some_bytes(rng, size))
        elif what < 0.55:
            yield call(LOW, some_content(rng), 0, 0, *lent, some_bytes(rng, low_size(rng, tp_length - 4)))
        else:
            yield call(DRAW, off(rng, tp_length), 0, 0, *lent)
            yield call(HAND)
            yield call(rng.choice((ALL, ALL_ABOUT, NEXT_ABOUT)), off(rng, tp_length), 0, off(rng, room))


def written_round(buffer, size, place, data):
    """Writes into a queue, round its end."""
    place %= size
    yield call(WRITE, buffer, place, data=data[:size - place])
    if len(data) > size - place:
        yield call(WRITE, buffer, 0, data=data[size - place:])


def flipped(rng, encoded):
    """A header with one to four flips in one of its words."""
    one = bytearray(encoded)
    start = rng.choice((0, 24))
    for bit in rng.sample(range(start, start + 24), rng.randrange(1, 5)):
        one[bit // 8] ^= 0x80 >> bit % 8
    return bytes(one)


def other_header(rng, content, length, queued, payload):
    """The header of a queued EP, changed in one respect; `queued` bytes are left from it on."""
    return rng.choice((
        lambda: packer.ep(content, WHOLE, b"", length, rng.randrange(1, 4)),
        lambda: packer.ep(content, rng.randrange(1, 4), b"", length),
        lambda: packer.ep(rng.choice((0, 7, 15)), WHOLE, b"", length),
        lambda: packer.ep(content, WHOLE, b"", max(0, queued - 6 + rng.randrange(-1, 2))),
        lambda: packer.ep(content, WHOLE, b"", payload - 7 + rng.randrange(-1, 2)),
        lambda: packer.ep(content, WHOLE, b"", rng.choice((0, length + 1, 65535))),
        lambda: flipped(rng, packer.ep(content, WHOLE, b"", length)),
        lambda: packer.ep(content, WHOLE, b"", length),
    ))()


def overwritten_low_calls(rng):
    """A queued LLEP's header changed where it lies, first or later, and draws after it."""
    tp_length, size = rng.choice((16, 20, 40)), rng.choice((60, 80))
    lent = (0, size)
    yield call(SENDER, tp_length, 1, 1, *lent)
    head = 0
    for _ in range(rng.randrange(12)):  # the head moves round the queue
        length = rng.randrange(6)
        yield call(LOW, 1, 0, 0, *lent, bytes(length))
        yield call(DRAW, tp_length, 0, 0, *lent)
        head += 6 + length
    lengths = [rng.randrange(6) for _ in range(rng.randrange(1, 5))]
    for length in lengths:
        yield call(LOW, 2, 0, 0, *lent, some_bytes(rng, length))
    victim = rng.choice((0, 0, len(lengths) - 1, rng.randrange(len(lengths))))
    before = sum(6 + length for length in lengths[:victim])
    queued = sum(6 + length for length in lengths[victim:])
    header = other_header(rng, 2, lengths[victim], queued, tp_length - 4)
    yield from written_round(1, size, head + before, header)
    for _ in range(3):
        yield call(DRAW, off(rng, tp_length, 0.2), 0, 0, *lent)
    yield call(LOW, 3, 0, 0, *lent, b"new")
    yield call(DRAW, tp_length, 0, 0, *lent)


def overwritten_ordinary_calls(rng):
    """A queued ordinary EP's header changed where it lies, and draws until the queue is empty."""
    tp_length, size = rng.choice((16, 17, 20, 40)), rng.choice((90, 120))
    lent = (size, 0)
    yield call(SENDER, tp_length, 1, 65535, *lent)
    start = 0
    for _ in range(rng.randrange(4)):  # EPs that fill their TPs leave no fill behind, and move the head on
        yield call(ORDINARY, 1, 0, 0, *lent, bytes(tp_length - 10))
        yield call(DRAW, tp_length, 0, 0, *lent)
        start += tp_length - 4
    lengths = [rng.randrange(20) for _ in range(rng.randrange(1, 4))]
    for length in lengths:
        yield call(ORDINARY, 2, 0, 0, *lent, some_bytes(rng, length))
    victim = rng.randrange(len(lengths))
    before = sum(6 + length for length in lengths[:victim])
    queued = sum(6 + length for length in lengths[victim:])
    header = other_header(rng, 2, lengths[victim], queued, tp_length - 4)
    yield from written_round(0, size, start + before, header)
    for _ in range(3):
        yield call(DRAW, tp_length, 0, 0, *lent)
        if rng.random() < 0.5:
            yield call(ORDINARY, 3, 0, 0, *lent, b"new")
    for _ in range(4):
        yield call(DRAW, tp_length, 0, 0, *lent)


def overwriting(rng, queues):
    which = rng.randrange(2)
    place = rng.randrange(queues[which] + 1)
    data = rng.choice((rng.randbytes(rng.randrange(1, 8)),
                       packer.ep(rng.randrange(8), rng.choice((0, 0, 0, 1)), b"", rng.randrange(20)),
                       packer.ep(1, 0, b"", rng.choice((0, 3, 65535))), bytes(6), bytes(1)))
    yield call(WRITE, which, min(place, max(0, queues[which] - len(data))), data=data[:queues[which]])


def receiver_calls(rng):
    """One receiver with a small room, fed by another maker; TP and room written into now and then."""
    tp_length, stream = rng.choice((16, 16, 17, 20, 33, 64)), rng.randrange(16)
    room = rng.choice((0, 1, 5, 20, 60, 200))
    odd = rng.choice((0, 0.1, 0.3))
    yield call(RECEIVER, tp_length, stream, room)
    maker = other_maker(rng, tp_length, stream, rng.randrange(20, 80))
    for tp in faulty(rng, maker, rng.choice((0.01, 0.05, 0.2))):
        if tp is None:
            yield call(GAP)
            continue
        yield call(WRITE, 4, 0, data=tp)
        if rng.random() < odd:
            yield from odd_calls(rng, tp, tp_length, room)
        yield call(rng.choice((ALL, ALL_ABOUT)), len(tp), 0, off(rng, room, 0.02))


def place_calls(rng):
    """One receiver, fed as the listing program is, which tells of each find where it began."""
    tp_length, stream, piece = settings(rng)
    room = rng.choice((20, 300, PROGRAM_BUFFER))
    yield call(RECEIVER, tp_length, stream, room)
    for tp in faulty_stretch(rng, tp_length, stream, piece)[0]:
        if tp is None:
            yield call(GAP)
        else:
            yield call(WRITE, 4, 0, data=tp)
            yield call(ALL_ABOUT, len(tp), 0, room)


def odd_calls(rng, tp, tp_length, room):
    """Finds of a TP one by one, with other things between them."""
    for _ in range(rng.randrange(1, 5)):
        yield call(rng.choice((NEXT, NEXT_ABOUT)), off(rng, len(tp)), 0, off(rng, room))
        what = rng.randrange(6)
        if what == 0:
            yield call(GAP)
        elif what == 1:
            yield call(WRITE, 4, rng.randrange(tp_length), data=rng.randbytes(rng.randrange(1, 8)))
        elif what == 2:
            yield call(WRITE, 2, rng.randrange(room + 1), data=rng.randbytes(rng.randrange(1, 8)))
        elif what == 3:
            yield call(WRITE, 4, 0, data=fault_in_tp(rng, tp)[:4096] if tp_length == len(tp) else tp)


def opening_calls(rng):
    """Openings at and beyond every limit, and offers at the limits of length."""
    yield call(LIMIT, 100)
    for tp_length in (0, 15, 16, 2051, 2052, 65535):
        yield call(SENDER, tp_length, 15, 1, 50, 50)
        yield call(RECEIVER, tp_length, 15, 50)
        yield call(DRAW, tp_length, 0, 0, 50, 50)
    for stream in (0, 15, 16, 255):
        yield call(SENDER, 16, stream, 1, 50, 50)
        yield call(RECEIVER, 16, stream, 50)
    for piece in (0, 1, 65535):
        yield call(SENDER, 16, 0, piece, 50, 50)
    for size in (0, 1048575, 1048576, 1048577):
        yield call(SENDER, 16, 0, 1, size, 50)
        yield call(DRAW, 16, 0, 0, size, 50)
        yield call(SENDER, 16, 0, 1, 50, size)
        yield call(DRAW, 16, 0, 0, 50, size)
    for size in (0, 131071, 131072, 131073):
        yield call(RECEIVER, 16, 0, size)
        yield call(ALL, 16, 0, size)
    yield call(ALL, 16, 0, 131072)  # the last opening was refused, so the one before still counts
    yield from long_offers(rng)
    yield call(LIMIT, 0xFFFFFFFF)


def long_offers(rng):
    """Offers of the longest packets, against queues that are just long enough and not quite."""
    for piece, size in ((65535, 65535), (65535, 65536), (65535, 131072), (1, 131072), (2, 131071)):
        needed = size + 6 * max(1, -(-size // piece))
        for queue in (needed - 1, needed):
            yield call(SENDER, 2051, 0, piece, queue, 0)
            yield call(ORDINARY, 1, 0, 0, queue, 0, bytes(size))
            yield call(DRAW, 2051, 0, 0, queue, 0)
    yield call(ORDINARY, 1, 0, 0, queue, 0, bytes(131073))
    yield call(ORDINARY, 0, 0, 0, queue, 0, bytes(131073))
    yield call(ORDINARY, 0, 0, 0, queue + 1, 0, bytes(131073))
    yield call(SENDER, 16, 0, 1, 50, 5)
    yield call(ORDINARY, 1, 0, 0, 50, 5, bytes(131073))
    yield call(LOW, 1, 0, 0, 50, 5, bytes(6))
    yield call(LOW, 7, 0, 0, 50, 5, bytes(6))
    yield call(LOW, 1, 0, 0, 50, 5, bytes(5))


def past_long_calls():
    """Draws past EPs of 32,767 bytes and more: each TP tells where the next EP begins, and the receiver reads it."""
    queue, room = 65600, 65535
    yield call(LIMIT, 100)
    for size in (32767, 32768, 65535):
        yield call(SENDER, 2051, 0, 65535, queue, 0)
        yield call(RECEIVER, 2051, 0, room)
        yield call(ORDINARY, 1, 0, 0, queue, 0, bytes(place % 251 for place in range(size)))
        yield call(ORDINARY, 2, 0, 0, queue, 0, b"next")
        for _ in range(size // 2047 + 2):
            yield call(DRAW, 2051, 0, 0, queue, 0)
            yield call(HAND)
            yield call(ALL_ABOUT, 2051, 0, room)
    yield call(LIMIT, 0xFFFFFFFF)


def call_list(rng):
    entries = []
    if rng.random() < 0.1:
        entries += opening_calls(rng)
    for _ in range(rng.randrange(6, 12)):
        entries += rng.choice((sender_calls, receiver_calls))(rng)
    for _ in range(6):
        entries += overwritten_low_calls(rng)
        entries += overwritten_ordinary_calls(rng)
    return entries


# ---- sections of words (words.h) ----

NOTHING, ENCODE, DECODE, END, PLACES = range(5)


def section(what, words):
    return bytes([what]) + len(words).to_bytes(2, "big") + b"".join(word.to_bytes(3, "big") for word in words)


def flipped_word(rng, word, flips):
    for bit in rng.sample(range(24), flips):
        word ^= 1 << bit
    return word


def word_sections(rng, count):
    """Any words for each sort, and code words with up to five flips."""
    def coded():
        return int.from_bytes(packer.golay(rng.randrange(4096)), "big")
    sections = [section(what, [rng.randrange(1 << 24) for _ in range(count)]) for what in range(5)]
    return sections + [section(what, [flipped_word(rng, coded(), flips) for _ in range(count)])
                       for what in (DECODE, PLACES) for flips in range(6)]


def all_errors(most):
    """Each way to flip up to `most` bits of a word, fewest first."""
    for count in range(most + 1):
        for bits in itertools.combinations(range(24), count):
            yield sum(1 << bit for bit in bits)


def flipped_sections(numbers):
    """For each number a section of its code word under all errors of up to four flips."""
    errors = list(all_errors(4))
    for number in numbers:
        word = int.from_bytes(packer.golay(number), "big")
        yield section(PLACES, [word ^ error for error in errors])


# ---- the longest packets (longest.c) ----

def longest_parts(rng, sent, lengths):
    """So many packets to send; then the TPs of packets of these lengths, with a low-latency one."""
    sender = packer.Sender(2051, 5, 65535, 1 << 20, 1 << 20)
    sender.offer("low", 1, rng.randbytes(100))
    for length in lengths:
        sender.offer("ordinary", 1, rng.randbytes(length))
        for _ in range(length // 2047 + 1):
            sender.draw()
    return [b"\1" + sent.to_bytes(2, "big"), b"\2", *sender.tps]
