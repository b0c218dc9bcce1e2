"""The index beside a recording (R-8): stories of recordings that grow and of indexes that come to harm, told to both
sides; and what an index must be, known from where each byte went."""
import collections
import os
import re
import tempfile

import cases
import downlink
import inputs
import own_tests
import packer
from own_tests import same

# what a program leaves: its status, its lines on standard error, its output, and the index file or None
Answer = collections.namedtuple("Answer", "status told output index")
EXACT = ("refused 23", "not an index", "no such packet")
STOPPED = re.compile(r"record at byte (\d+): (?!refused)")
LINE_0 = re.compile(rb"covered (\d{20}) since (\d{20}) end (\d{20}) from (\d{20}) size (\d{20})\n")
FOREIGN_SHARES = (0, 0, 0.1, 0.5)
LARGEST = 2 ** 64 - 1


def line_0(covered, since, end, begin, size):
    return b"covered %020d since %020d end %020d from %020d size %020d\n" % (covered, since, end, begin, size)


def numbers_of(index):
    """The numbers of line 0: covered, since, end, from, size."""
    return [int(number) for number in LINE_0.match(index).groups()]


def index_of(covered, since, end, begin, lines):
    text = b"".join(line.encode() + b"\n" for line in lines)
    return line_0(covered, since, end, begin, 133 + len(text)) + text


# ---- one side's files, and what its programs make of them ----

def told(text, name):
    """The lines on standard error; of a reason in the program's own words only that there is one."""
    lines = []
    for line in text.decode(errors="replace").splitlines():
        if line.startswith(name + ": "):
            what = line[len(name) + 2:]
            found = STOPPED.match(what)
            if found or "no setup record" in what:
                line = "%s: record at byte %s" % (name, found.group(1) if found else 0)
            elif what not in EXACT:
                line = name + ": in its own words"
        lines.append(line)
    return lines


class Desk:
    """Does the steps of a story in a folder of its own: ("recording", bytes), ("index file", bytes or None),
    ("index",), ("at", record, place, sort)."""

    def __init__(self, side, folder, names):
        self.side = side
        self.recording = os.path.join(folder, "recording")
        self.index = os.path.join(folder, "index")
        self.names = names

    def do(self, step):
        if step[0] == "recording":
            write(self.recording, step[1])
            return None
        if step[0] == "index file":
            write(self.index, step[1])
            return None
        words = [self.index] if step[0] == "index" else [str(word) for word in step[1:]]
        status, output, errors = self.side.ask(step[0], [self.recording] + words)
        return Answer(status, told(errors, self.names[step[0]]), output, contents(self.index))


def write(path, data):
    if data is not None:
        with open(path, "wb") as file:
            file.write(data)
    elif os.path.exists(path):
        os.remove(path)


def contents(path):
    if not os.path.exists(path):
        return None
    with open(path, "rb") as file:
        return file.read()


def follow(side, names, story):
    """The steps of a story that asks for the answers to them, and these answers."""
    steps, answers = [], []
    with tempfile.TemporaryDirectory() as folder:
        desk = Desk(side, folder, names)
        answer = None
        while True:
            try:
                steps.append(story.send(answer))
            except StopIteration:
                return steps, answers
            answer = desk.do(steps[-1])
            answers.append(answer)


def repeat(side, names, steps):
    """The answers of another side to the same steps."""
    with tempfile.TemporaryDirectory() as folder:
        desk = Desk(side, folder, names)
        return [desk.do(step) for step in steps]


# ---- stories ----

def recording(rng, records):
    """Records under faults, with TPs of another stream among them."""
    tp_length, stream, piece = inputs.settings(rng)
    stretch = inputs.faulty_stretch(rng, tp_length, stream, piece)[0]
    share = rng.choice(FOREIGN_SHARES)
    foreign = inputs.other_maker(rng, tp_length, (stream + rng.randrange(1, 16)) % 16, 5).tps
    mixed = []
    for tp in stretch:
        while rng.random() < share:
            mixed.append(rng.choice(foreign))
        mixed.append(tp)
    return own_tests.recording(records, tp_length, mixed, stream, piece)


def some_cuts(rng, parts):
    """Lengths of a recording that grows to its whole: inside records, between them, now and then not at all."""
    whole = sum(map(len, parts))
    between = [sum(map(len, parts[:count])) for count in rng.sample(range(1, len(parts) + 1), 4)]
    inside = [rng.randrange(13, whole + 1) for _ in range(4)]
    near = [place + rng.choice((-1, 1, 7, 8, 9)) for place in between]
    cuts = rng.sample([place for place in between + inside + near if 13 <= place <= whole], rng.randrange(1, 8))
    return sorted(cuts + rng.sample(cuts, rng.randrange(2))) + [whole]


def growing(rng, records):
    """A recording grows, its index with it; between the growths the index or the recording comes to harm and is put
    back, and packets are asked for."""
    parts = recording(rng, records)
    bad = rng.choice(inputs.bad_records(records, False)) if rng.random() < 0.4 else b""
    whole = b"".join(parts)
    if rng.random() < 0.4:
        yield from not_begun(rng, records)
    for cut in some_cuts(rng, parts):
        data = whole[:cut] + (bad if cut == len(whole) else b"")
        yield "recording", data
        index = (yield ("index",)).index
        if rng.random() < 0.3:
            yield ("index",)
        if rng.random() < 0.5:
            yield from harmed(rng, data, index)
        yield from asked(rng, index)


def not_begun(rng, records):
    """No good setup, with no index or one that is too short to be one: nothing is made."""
    yield "recording", rng.choice(inputs.bad_starts(records))
    yield "index file", rng.choice((None, b"", b"covered 0000", bytes(132)))
    yield ("index",)


def not_an_index(rng, index):
    """An index, changed so that line 0 doesn't read so."""
    covered, since, end, begin, size = numbers_of(index)
    place = rng.randrange(133)
    other = bytes([rng.choice(b"\0 -+x\n\xff")])
    return rng.choice((
        lambda: index[:place] + (other if other != index[place:place + 1] else b"y") + index[place + 1:],
        lambda: index[:rng.randrange(133, len(index))] if len(index) > 133 else b"x" * 133,
        lambda: line_0(covered, since, end, begin, len(index) + 1) + index[133:],
        lambda: line_0(covered, since, end, begin, rng.choice((0, 132))) + index[133:],
        lambda: line_0(covered, since, end, begin, LARGEST) + index[133:],
        lambda: index.replace(b"since 0", b"since 9", 1),
        lambda: line_0(LARGEST + 1, since, end, begin, size) + index[133:],
        lambda: index[1:] + b"\n",
        lambda: b"\n" + index,
        lambda: rng.randbytes(rng.randrange(133, 400)),
    ))()


def harmed(rng, data, index):
    """One harm, what the program makes of it, and all put back."""
    end = numbers_of(index)[2]
    shorter = data[:rng.choice((0, 12, 13, end - 1, rng.randrange(end)))]
    shorter = shorter if len(shorter) < end else data[:end - 1]
    harm = rng.randrange(8)
    if harm == 0:  # a growth that was killed
        yield "index file", index + rng.choice((b"1", b"7 0 low 1 1\n", rng.randbytes(500)))
        yield ("index",)
        return
    if harm == 1:
        yield "index file", index[:rng.choice((0, 1, 132, rng.randrange(133)))]
    elif harm == 2:
        yield "index file", None
    elif harm <= 4:
        yield "index file", not_an_index(rng, index)
        if rng.random() < 0.3:
            yield "recording", shorter
    elif harm <= 6:
        yield "recording", shorter
    else:
        yield "recording", rng.choice((b"\xc8\x07\0", b"\xc7\x07\4")) + data[3:]
    yield ("index",)
    yield "recording", data
    yield "index file", index


def asked(rng, index):
    """The packet of a line, and of any place."""
    lines = index[133:].decode().splitlines()
    covered = numbers_of(index)[0]
    if lines and rng.random() < 0.7:
        record, place, sort, _, _ = rng.choice(lines).split()
        yield "at", record, place, sort
    if rng.random() < 0.3:
        yield ("at", rng.choice((0, 1, covered - 1, covered, covered + 1, rng.randrange(covered + 1))),
               rng.choice((0, 1, 11, 12, 2047, rng.randrange(60))), rng.choice(("low", "ordinary")))


# ---- what is seen without the other side ----

def kinds_reached(steps, answers):
    """What the steps of a story reached, as told by the second program's answers."""
    data, before = b"", None
    for step, answer in zip(steps, answers, strict=True):
        if step[0] == "recording":
            data = step[1]
        elif step[0] == "index file":
            before = step[1]
        elif step[0] == "at":
            yield "a packet asked for" if answer.status == 0 else "no such packet"
        else:
            yield kind_reached(before, answer)
            if answer.status == 0 and numbers_of(answer.index)[2] < len(data):
                yield "a cut record"
            before = answer.index


def kind_reached(before, answer):
    if answer.told and answer.told[0] in ("c7index: refused 23", "c7index: not an index"):
        return answer.told[0].split(": ")[1]
    if answer.told:
        return "no setup" if answer.told[0].endswith(" 0") else "a bad record"
    if before is None or len(before) < 133:
        return "made"
    covered, since, _, _, _ = numbers_of(before)
    if numbers_of(answer.index)[0] == covered:
        return "nothing new"
    if since == 0:
        return "grown from its end"
    return "grown from its last record" if since == covered - 1 else "grown from an earlier record"


REACHED = ("made", "grown from its end", "grown from its last record", "grown from an earlier record", "nothing new",
           "a cut record", "a bad record", "no setup", "refused 23", "not an index", "a packet asked for",
           "no such packet")


def check_story(run, records, steps, answers):
    """An index's lines are the packets that are read out, in order, and what is asked for is the first of its sort
    among them that began there or later."""
    data, packets, index = b"", [], None
    for step, answer in zip(steps, answers, strict=True):
        if step[0] == "recording":
            data = step[1]
        elif step[0] == "index file":
            index = step[1]
        elif step[0] == "index" and (answer.status == 0 or answer.index != index):
            index = answer.index
            end = numbers_of(index)[2]
            packets = records.split(run("read", data[:end]))[0][1:]
            same("the lines' packets", [line.split()[2:] for line in index[133:].decode().splitlines()],
                 [[("", "ordinary", "low")[one[2]], str(one[3]), str(len(one) - 8)] for one in packets])
        elif step[0] == "at":
            wanted = [packet for line, packet in zip(index[133:].decode().splitlines(), packets, strict=True)
                      if line.split()[2] == step[3] and
                      tuple(map(int, line.split()[:2])) >= (int(step[1]), int(step[2]))]
            same("the packet asked for", answer.output, wanted[0] if wanted else b"")


# ---- indexes that are known from where each byte went ----

def known_index(records, sender, tps, arrived, stretch, count):
    """The index of the setup and the first `count` records of a stretch of TP numbers and gaps."""
    covered = stretch[:count]
    there = {number: record for record, number in enumerate(covered, 1) if number is not None}
    lines = ["%d %d %s %d %d" % (there[found.began[0]], found.began[1], found.sort, found.content, len(found.data))
             for found in downlink.expected(sender, tps, [number for number in arrived if number in there])]
    sizes = [13] + [8 if number is None else 8 + sender.tp_length for number in covered]
    since = there.get(unfinished_since(sender, covered), 0)
    return index_of(len(sizes), since, sum(sizes), sum(sizes[:since]), lines)


def unfinished_since(sender, covered):
    """The TP in which the oldest EP or series began that is still read on behind these records, or None."""
    run = []
    for number in reversed(covered):
        if number is None:
            break
        run.append(number)

    def open_one(eps):
        return (eps[0].places and eps[0].places[0][0] in run and
                not (eps[-1].drawn() and eps[-1].places[-1][0] <= run[0]))
    series = [packet.eps for packet in sender.packets if packet.sort == "ordinary"]
    began = [eps[0].places[0] for eps in series + [[one] for one in sender.all_eps] if open_one(eps)]
    return min(began)[0] if began else None


def known_growth(run, names, records, rng):
    """A recording under damage and losses grows in steps, cut anywhere; each index is known."""
    tp_length, stream, piece = rng.choice((16, 17, 20, 33, 64, 200)), rng.randrange(16), rng.choice((1, 5, 20, 65535))
    sender = own_tests.round_trip_script(rng, tp_length, stream, piece, rng.choice((100, 400, 3000)), 60)
    tps = downlink.damaged(rng, sender)
    arrived = downlink.losses(rng, len(tps))
    stretch = downlink.with_gaps(list(range(len(tps))), arrived)
    parts = own_tests.recording(records, tp_length, downlink.with_gaps(tps, arrived), stream, piece)
    whole = b"".join(parts)

    def story():
        for cut in sorted(rng.sample(range(13, len(whole) + 1), 5)) + [len(whole)]:
            yield "recording", whole[:cut]
            answer = yield ("index",)
            count = len(records.split(whole[:cut])[0]) - 1
            same("a growth to %d records" % count, answer,
                 Answer(0, [], b"", known_index(records, sender, tps, arrived, stretch, count)))
    follow(run, names, story())


# ---- examples ----

OWN = "in its own words"


def examples(run, names, records):
    """Document 01's example 6: its index and those of its parts, what each harm gives, and its packets asked for."""
    whole = own_tests.example_recording(records)
    setup, one, two = (line_0(1, 0, 13, 0, 133), line_0(2, 1, 37, 13, 145) + b"1 0 low 1 2\n",
                       line_0(3, 0, 61, 0, 162) + b"1 0 low 1 2\n1 9 ordinary 4 1\n")
    bad, lost = records.record(records.DRAW), whole[:37] + records.record(records.GAP) + whole[37:]
    torn = whole[:37] + bad + whole[37:]

    def index(what, data, before, after, line=None):
        answer = repeat(run, names, [("recording", data), ("index file", before), ("index",)])[2]
        same("index, " + what, answer, Answer(1 if line else 0, ["c7index: " + line] if line else [], b"", after))

    def at(what, data, words, output, line=None):
        answer = repeat(run, names, [("recording", data), ("at", *words)])[1]
        same("packet, " + what, answer, Answer(1 if line else 0, ["c7at: " + line] if line else [], output, None))

    index("made", whole, None, two)
    index("of the first two records", whole[:37], None, one)
    index("of the setup", whole[:13], None, setup)
    index("cut in the last record's data", whole[:60], None, one)
    index("cut in the last record's header", whole[:44], None, one)
    index("fewer than 8 bytes left, whatever they are", whole + b"1234567", None, two)
    index("grown", whole, one, two)
    index("grown from its setup", whole, setup, two)
    index("nothing new", whole, two, two)
    index("nothing new but a cut record", whole[:60], one, one)
    index("a gap counts as a record", lost, None, line_0(4, 0, 69, 0, 145) + b"1 0 low 1 2\n")
    index("too short for line 0", whole, two[:132], two)
    index("empty", whole, b"", two)
    index("a growth that was killed", whole, one + b"1 9 ord", two)
    index("a growth that was killed, and nothing new", whole, two + b"1 9 ord", two)
    index("23", whole[:60], two, two, "refused 23")
    index("23 before the setup", b"", two, two, "refused 23")
    index("none", whole, b"x" * 133, b"x" * 133, "not an index")
    index("none, before 23", b"", b"x" * 133, b"x" * 133, "not an index")
    for place in (0, 7, 8, 27, 111, 131, 132):
        other = two[:place] + b"x" + two[place + 1:]
        index("line 0 with another byte %d" % place, whole, other, other, "not an index")
    index("truncated", whole, two[:161], two[:161], "not an index")
    index("no setup", b"", None, None, "record at byte 0")
    index("no setup, too short for line 0", b"", b"x", b"x", "record at byte 0")
    index("a cut setup", whole[:12], None, None, "record at byte 0")
    index("a bad setup", bad + whole, two, two, "record at byte 0")
    index("a bad record", torn, None, one, "record at byte 37")
    index("a bad record again", torn, one, one, "record at byte 37")
    index("a length beyond its limit is no cut record", whole + bytes.fromhex("C7070400 00008001"), one, two,
          "record at byte 61")
    index("no recording", None, two, two, OWN)

    low, ordinary = records.record(records.LOW, 1, b"\x11\x22"), records.record(records.ORDINARY, 4, b"\x33")
    at("low", whole, ("1", "0", "low"), low)
    at("ordinary", whole, ("1", "9", "ordinary"), ordinary)
    at("begun behind the place", whole, ("1", "3", "ordinary"), ordinary)
    at("begun in a later record", whole, ("0", "99", "ordinary"), ordinary)
    at("behind which there is none", whole, ("1", "1", "low"), b"", "no such packet")
    at("begun before", whole, ("1", "10", "ordinary"), b"", "no such packet")
    at("not heard from its first byte", whole, ("2", "0", "ordinary"), b"", "no such packet")
    at("beyond the records", whole, ("3", "0", "low"), b"", "no such packet")
    at("the largest number", whole, (LARGEST, "0", "low"), b"", "no such packet")
    at("dropped by a gap", lost, ("1", "9", "ordinary"), b"", "no such packet")
    at("cut", whole[:60], ("1", "9", "ordinary"), b"", "no such packet")
    at("before a bad record", whole + bad, ("1", "9", "ordinary"), ordinary)
    at("behind a bad record", torn, ("1", "9", "ordinary"), b"", "record at byte 37")
    at("behind a bad record that is passed over", whole[:13] + bad + whole[13:], ("2", "0", "low"), b"",
       "record at byte 13")
    at("no setup", whole[13:], ("1", "0", "low"), b"", "record at byte 0")
    for words in (("1", "x", "low"), ("", "0", "low"), (LARGEST + 1, "0", "low"), ("1", "0", "notice"), ("1", "0"),
                  ("1", "0", "low", "low")):
        at("asked for by %s" % (words,), whole, words, b"", OWN)
    at("no recording", None, ("1", "0", "low"), b"", OWN)
    unfinished_examples(index, records)
    files_examples(run, names, whole)


def unfinished_examples(index, records):
    """What line 0 names: here behind one TP of 16 bytes that hands nothing out."""
    for what, payload in (("a fill", packer.ep(0, 0, bytes(6), 7)), ("a reserved one", packer.ep(9, 0, bytes(6), 7)),
                          ("a last without a first", packer.ep(1, 3, bytes(6), 7)),
                          ("one too long", packer.ep(1, 0, bytes(6), 32769)), ("a piece", packer.ep(1, 1, bytes(6), 7)),
                          ("a held series", packer.ep(1, 1, bytes(6))),
                          ("a cut header", packer.ep(0, 0, bytes(5)) + b"\0")):
        parts = own_tests.recording(records, 16, [None, packer.tp(0, False, 0, payload)])
        index("unfinished: " + what, b"".join(parts), None, line_0(3, 2, 45, 21, 133))
        index("dropped: " + what, b"".join(parts + parts[1:2]), None, line_0(4, 0, 53, 0, 133))
    parts = own_tests.recording(records, 2051, cases.oversized()[1])
    index("longer than the room", b"".join(parts), None, line_0(len(parts), 0, sum(map(len, parts)), 0, 133))


def files_examples(run, names, whole):
    """Files that can't be read or made, and words that are not two."""
    with tempfile.TemporaryDirectory() as folder:
        there, made = (os.path.join(folder, name) for name in ("recording", "index"))
        write(there, whole)
        for words in ((folder, made), (there, folder), (), (there,), (there, made, made),
                      (there, os.path.join(folder, "nowhere", "index"))):
            status, output, errors = run.ask("index", list(words))
            same("index, files or words", (status, output, told(errors, names["index"])), (1, b"", ["c7index: " + OWN]))
            same("index, made of bad files or words", os.listdir(folder), ["recording"])
