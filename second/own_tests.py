"""Tests of the second program by itself: document 01's examples, the appendix's tables, small cases,
the packer's reading of the sender, and round trips under damage."""
import os

import cases
import downlink
import inputs
import packer

HEADER = "tp what content bytes"


def digest(data):
    value = 0
    for byte in data:
        value = (value * 65599 + byte) % 4294967291
    return value


def hexed(text):
    return bytes.fromhex(text)


class Failure(Exception):
    pass


def shortened(value):
    text = value.hex() if isinstance(value, bytes) else str(value)
    return text if len(text) < 1000 else text[:1000] + "..."


def same(what, got, wanted):
    if got != wanted:
        raise Failure("%s\n  got    %s\n  wanted %s" % (what, shortened(got), shortened(wanted)))


# ---- document 01's examples ----

def examples_of_words(run):
    """1 to 3: of a single word the digest is the answer. A decoded word answers 8 times the number plus the count.
    Example 2's words also tell which bits were flipped (R-2)."""
    asked = [(inputs.ENCODE, 0x000, 0x000000), (inputs.ENCODE, 0x001, 0x0018EB), (inputs.ENCODE, 0x7FF, 0x7FF38A),
             (inputs.ENCODE, 0xFFF, 0xFFFFFF), (inputs.DECODE, 0x000007, 0x000 * 8 + 3),
             (inputs.DECODE, 0x00000F, 4), (inputs.DECODE, 0x7FF38D, 0x7FF * 8 + 3), (inputs.END, 0x07, 0x00),
             (inputs.END, 0x0F, 256), (inputs.END, 0x1F, 0xFF), (inputs.PLACES, 0x000007, 0x000007),
             (inputs.PLACES, 0x00000F, 0), (inputs.PLACES, 0x7FF38D, 0x000007), (inputs.PLACES, 0xFFFFFF, 0)]
    lines = run("words", b"".join(inputs.section(what, [word]) for what, word, _ in asked)).decode().splitlines()
    same("examples 1 to 3", [int(line.split()[2]) for line in lines], [answer for _, _, answer in asked])


def places_told(sections):
    """Up to three flips are told as they were made, four not at all."""
    errors = [error if error.bit_count() < 4 else 0 for error in inputs.all_errors(4)]
    return ("places %d %d\n" % (len(errors), digest(errors)) * len(sections)).encode()


def drawn(run, records, lines):
    output = run("send", b"".join(map(records.encode_line, lines)))
    return [part[8:] for part in records.split(output)[0][1:]]


def examples_of_sending(run, records):
    """4, 6, 7 and 8."""
    first = drawn(run, records, ["setup 19 0 2", "ordinary 1 010203", "draw"])
    same("example 4", [tp[4:] for tp in first], [hexed("050EFE 00293E 0102 070833 0018EB 03")])
    first = drawn(run, records, ["setup 16 0 65535", "low 1 1122", "ordinary 4 33", "draw 2"])
    same("example 6", first, [hexed("00 80 99 58 04 0D 99 00 29 3E 11 22 00 10 07 B4"),
                              hexed("00 00 4A 97 00 18 EB 33 00 00 00 00 29 3E AA AA")])
    first = drawn(run, records, ["setup 16 0 65535", "ordinary 1 1122", "draw 2"])
    same("example 7, first payload's end", [tp[12:] for tp in first[:1]], [bytes(4)])
    same("example 7", first[1:], [b"\0" + packer.golay(2) + hexed("00 00 000000 004A97 AA AA AA AA")])
    first = drawn(run, records, ["setup 16 0 65535", "low 1 0102030405", "low 1 010203040506", "draw 2"])
    same("example 8", [tp[1] >> 7 for tp in first], [1, 0])


def example_recording(records):
    data = hexed("C7 07 00 00 00000005 00 10 00 FF FF")
    for tp in ("00 80 99 58 04 0D 99 00 29 3E 11 22 00 10 07 B4", "00 00 4A 97 00 18 EB 33 00 00 00 00 29 3E AA AA"):
        data += records.record(records.TP, 0, hexed(tp))
    return data


def example_listed(run, records):
    listed = run("list", example_recording(records))
    same("example 6, listed", listed, b"tp what content bytes\n1 low 1 2\n2 ordinary 4 1\n")


def example_read(run, records):
    wanted = hexed("C707 00 00 00000005 00 10 00 FF FF  C707 02 01 00000002 11 22  C707 01 04 00000001 33")
    same("example 6, read", run("read", example_recording(records)), wanted)


def stored(run, command, data, answer):
    same("the stored answer of " + command, run(command, data), answer)


def examples_of_calls(run):
    """5 and 8: how many EPs an offer makes shows in the queue that is just long enough."""
    entries, wanted = [inputs.call(inputs.LIMIT, 64)], ["limit"]
    for size, parts in ((65535, [(0, 65535)]), (65536, [(1, 65535), (3, 1)]),
                        (131072, [(1, 65535), (2, 65535), (3, 2)])):
        queue = b"".join(packer.ep(1, flag, b"d" * length) for flag, length in parts)
        for short in (1, 0):
            space = len(queue) - short
            entries += [inputs.call(inputs.WRITE, 0, 0, data=bytes(64)),
                        inputs.call(inputs.SENDER, 16, 0, 65535, space, 0),
                        inputs.call(inputs.ORDINARY, 1, 0, 0, space, 0, b"d" * size)]
            after = digest(bytes(64)) if short else digest(queue[:64])
            wanted += ["write", "sender 0 0 0", "ordinary %d %d 0" % (4 if short else 0, after)]
    entries.append(inputs.call(inputs.ORDINARY, 1, 0, 0, space, 0, b"d" * 131073))
    wanted.append("ordinary 3 %d 0" % after)
    entries += [inputs.call(inputs.SENDER, 16, 0, 1, 0, 64), inputs.call(inputs.LOW, 1, 0, 0, 0, 64, b"d" * 5),
                inputs.call(inputs.LOW, 1, 0, 0, 0, 64, b"d" * 6)]
    low = digest((packer.ep(1, 0, b"d" * 5) + bytes(64))[:64])
    wanted += ["sender 0 0 0", "low 0 0 %d" % low, "low 3 0 %d" % low]
    same("examples 5 and 8", run("calls", b"".join(entries)).decode().splitlines(), wanted)


def flipped(encoded, *bits):
    """Bytes with some bits flipped, counted from the first byte's most significant bit."""
    number = int.from_bytes(encoded, "big") ^ sum(1 << 8 * len(encoded) - 1 - bit for bit in bits)
    return number.to_bytes(len(encoded), "big")


CARRIED = (  # (EP, its end byte or nothing, what is found with it, and the flips carried)
    (flipped(packer.ep(1, 0, b"a"), 0, 30, 47), b"\x07", "low 1 1", 6),
    (flipped(packer.ep(9, 0, b""), 1, 2, 3), b"", "16", 0),
    (flipped(packer.ep(0, 0, b""), 4, 5, 6), b"", None, 0),
    (flipped(packer.ep(1, 1, b"x"), 23), b"", None, 0),
    (flipped(packer.ep(1, 3, b"y"), 0, 1, 2, 24, 25), b"", "ordinary 1 2", 6),
    (packer.ep(2, 0, b"z"), b"", "ordinary 2 1", 0),
    (flipped(packer.ep(2, 2, b""), 40), b"", "14", 0),
    (flipped(packer.ep(2, 0, b"1234567"), 12), b"", "ordinary 2 7", 1))


def flips_carried(run):
    """One TP of 64 bytes; its own header has flips as well, which count for nothing."""
    payload = b"".join(encoded + end for encoded, end, _, _ in CARRIED)
    tp = flipped(packer.tp(0, True, 8, payload), 8, 20)
    entries = [inputs.call(inputs.RECEIVER, 64, 0, 10), inputs.call(inputs.WRITE, 4, 0, data=tp),
               inputs.call(inputs.ALL_ABOUT, 64, 0, 10)]
    finds = heard(run("calls", b"".join(entries)).decode())[0]
    told = [(" ".join(words[:words.index("about")][:3]), int(words[-1])) for _, words in finds]
    same("flips carried", told, [(find, flips) for _, _, find, flips in CARRIED if find])


def places_carried(run):
    """Each case's finds with the TP number and the place that they carry; one receiver hears all, with gaps between."""
    for tp_length, group in cases.PLACED:
        entries, wanted, count = [inputs.call(inputs.RECEIVER, tp_length, 0, cases.PLACED_ROOM)], [], 0
        for _, tps, lines, counted in group:
            entries.append(inputs.call(inputs.GAP))
            for tp in tps:
                entries += placed_calls(tp)
            for line in lines:
                find, number, place = line.rsplit(" ", 2)
                wanted.append("%s %d %s" % (find, int(number) + count, place))
            count += counted
        same("places with TP length %d" % tp_length, begins_told(run("calls", b"".join(entries)).decode()), wanted)


def placed_calls(tp):
    if tp is cases.GAP:
        return [inputs.call(inputs.GAP)]
    if tp is cases.OTHER_ROOM:
        return [inputs.call(inputs.NEXT_ABOUT, 16, 0, cases.PLACED_ROOM + 1)]
    return [inputs.call(inputs.WRITE, 4, 0, data=tp), inputs.call(inputs.ALL_ABOUT, len(tp), 0, cases.PLACED_ROOM)]


def begins_told(text):
    """What is found, with content or number, TP number and place."""
    lines = [line.split() for line in text.splitlines() if line.startswith(("next", "about"))]
    return [" ".join(find[1:3 if find[1] in ("low", "ordinary") else 2] + about[1:3])
            for find, about in zip(lines[::2], lines[1::2], strict=True)]


# ---- Chapter 11 packets, worked out by hand: channel 1, one byte of data, fill of 3, 7 and 4 bytes ----

CHAPTER_11 = (
    ("25EB 0100 1C000000 01000000 00000000 000000000000 43EB 55 000000",
     "000000 0018EB 18046E 0018EB 00000000 000000000000 43EB 55 000000"),
    ("25EB 0100 20000000 01000000 00000000 000000000000 47EB 55 00000000000000",
     "000000 0018EB 18046E 0018EB 00000000 000000000000 43EB 55 000000"),
    ("25EB 0100 1D000000 01000000 00000000 000000000000 44EB 55 00000000",
     "000000 0018EB 000000 0018EB 00000000 000000000000 40EB 55"))


def chapter11_packed(run, records):
    setup = records.setup(16, 0, 1)
    asked, wanted = ([records.record(records.ORDINARY, 3, hexed(pair[side])) for pair in CHAPTER_11] for side in (0, 1))
    same("Chapter 11 packets, packed", run("pack", b"".join([setup] + asked)), b"".join([setup] + wanted))


def chapter11_unpacked(run, records):
    """The first comes back as it was, the others with less fill, a new length and a new checksum."""
    sender = packer.Sender(64, 0, 65535, 1000, 1000)
    for _, sp in CHAPTER_11:
        sender.offer("ordinary", 3, hexed(sp))
        sender.draw()
    first = hexed(CHAPTER_11[0][0])
    third = hexed("25EB 0100 19000000 01000000 00000000 000000000000 40EB 55")
    same("Chapter 11 packets, unpacked", run("unpack", sent(records, sender, 65535)), first + first + third)


def failures_told(run, command, name):
    """Each in one line of the program's own: an input without a record, and one that can't be read."""
    def told(**given):
        return [(line.startswith(name + ": "), "no setup record" in line) for line in run.complaint(command, **given)]
    same(name + ", no input", told(input=b""), [(True, True)])
    folder = os.open(os.path.dirname(os.path.abspath(__file__)), os.O_RDONLY)
    same(name + ", a directory as input", told(stdin=folder), [(True, False)])
    os.close(folder)
    same(name + ", a closed input", [own for own, _ in told(preexec_fn=lambda: os.close(0))], [True])


# ---- the cases, the packer, tools/records ----

def recording(records, tp_length, stretch, stream=0, piece=65535):
    parts = [records.setup(tp_length, stream, piece)]
    parts += [records.record(records.GAP) if tp is None else records.record(records.TP, 0, tp) for tp in stretch]
    return parts


def listing(run, parts):
    return run("list", b"".join(parts)).decode().splitlines()


def small_cases(run, records, one_by_one):
    for tp_length, group in cases.GROUPS:
        if one_by_one:
            for name, tps, wanted in group:
                same(name, listing(run, recording(records, tp_length, tps)), [HEADER] + wanted)
        stretch, wanted = cases.joined(group)
        same("all cases with TP length %d" % tp_length,
             listing(run, recording(records, tp_length, stretch)), [HEADER] + wanted)


def sent(records, sender, piece):
    return b"".join([records.setup(sender.tp_length, sender.stream, piece)] +
                    [records.record(records.TP, 0, tp) for tp in sender.tps])


def packet_records(records, packets):
    kinds = {"ordinary": records.ORDINARY, "low": records.LOW}
    return b"".join(records.record(kinds[one.sort], one.content, one.data) for one in packets)


def read_out(records, sender, piece):
    """Demand 3 without damage, in bytes: what was accepted and drawn, each packet with its content and data."""
    setup = records.setup(sender.tp_length, sender.stream, piece)
    return setup + packet_records(records, downlink.expected(sender, sender.tps, range(len(sender.tps))))


def words_and_back(records, data):
    same("tools/records, there and back", b"".join(map(records.encode_line, records.lines_of(data))), data)


# ---- round trips under damage, listening from every transport packet on ----

def expected_from(sender, tps, start):
    return downlink.expected(sender, tps, range(start, len(tps)))


def round_trip_script(rng, tp_length, stream, piece, space, most):
    sender = packer.Sender(tp_length, stream, piece, space, space)
    low_share = rng.choice((0.1, 0.4))
    for _ in range(most):
        while rng.random() < 0.5:
            size = max(0, inputs.ordinary_size(rng, sender.payload, piece, False)) % 130
            sender.offer("ordinary", inputs.some_content(rng), inputs.some_bytes(rng, size))
        while rng.random() < low_share:
            sender.offer("low", inputs.some_content(rng), inputs.some_bytes(rng, inputs.low_size(rng, sender.payload)))
        sender.draw()
    return sender


def listen_calls(sender, tps, starts):
    entries = [inputs.call(inputs.LIMIT, 0)]
    for start in starts:
        entries.append(inputs.call(inputs.RECEIVER, sender.tp_length, sender.stream, 131072))
        for tp in tps[start:]:
            entries += [inputs.call(inputs.WRITE, 4, 0, data=tp),
                        inputs.call(inputs.ALL_ABOUT, sender.tp_length, 0, 131072)]
    return b"".join(entries)


def heard(text):
    """For each opening, the finds of its calls as (TP number, words of both lines but the buffers' digests)."""
    runs = []
    lines = (line.split() for line in text.splitlines())
    for words in lines:
        if words[0] == "receiver":
            runs.append([])
            number = -1
        elif words[0] == "write":
            number += 1
        elif words[0] == "next":
            about = next(lines)
            runs[-1] += [(number, words[1:-2] + about)] if words[1] != "none" else []
    return runs


def check_finds(what, start, finds, wanted):
    """Only packets that must come, and no notice but 14, where a series had begun earlier."""
    packets = [(number, words) for number, words in finds if words[0] in ("low", "ordinary")]
    same("%s, listening from %d" % (what, start), packets, wanted)
    notices = {words[0] for _, words in finds} - {"low", "ordinary"}
    same("%s, notices from %d" % (what, start), notices - ({"14"} if start else set()), set())


def round_trip_by_calls(run, what, sender, tps, starts):
    runs = heard(run("calls", listen_calls(sender, tps, starts)).decode())
    for start, finds in zip(starts, runs, strict=True):
        wanted = [(found.tp - start, [found.sort, str(found.content), str(len(found.data)), str(digest(found.data)),
                                      "about", str(found.began[0] - start + 1), str(found.began[1]),
                                      str(found.repaired)])
                  for found in expected_from(sender, tps, start)]
        check_finds(what, start, finds, wanted)


def all_starts(records, sender, tps, starts):
    """The programs start afresh after a gap, so one recording holds all starts."""
    stretch = [tp for start in starts for tp in [None] + tps[start:]]
    return recording(records, sender.tp_length, stretch, sender.stream)


def round_trip_by_read(run, records, what, sender, tps, starts):
    """Demand 3 in bytes, and nothing else comes out."""
    parts = all_starts(records, sender, tps, starts)
    wanted = [packet_records(records, expected_from(sender, tps, start)) for start in starts]
    same(what + ", read", run("read", b"".join(parts)), b"".join(parts[:1] + wanted))


def round_trip_by_list(run, records, what, sender, tps, starts):
    first = [sum(len(tps) - start for start in starts[:index]) for index in range(len(starts))]
    lines = listing(run, all_starts(records, sender, tps, starts))
    same(what + ", header line", lines[0], HEADER)
    by_start = [[] for _ in starts]
    for line in lines[1:]:
        number, sort, content, size = line.split()
        index = max(i for i, at in enumerate(first) if at < int(number))
        words = [content] if sort == "notice" else [sort, content, size]
        by_start[index].append((int(number) - 1 - first[index], words))
    for start, finds in zip(starts, by_start, strict=True):
        wanted = [(found.tp - start, [found.sort, str(found.content), str(len(found.data))])
                  for found in expected_from(sender, tps, start)]
        check_finds(what, start, finds, wanted)


def round_trips(rng, count):
    """(name, sender, damaged TPs, starts): short ones from every TP on, and one of the longest packets."""
    for index in range(count):
        tp_length = rng.choice((16, 16, 17, 18, 20, 33, 64, 200))
        piece = rng.choice((1, 2, 5, 20, 65535))
        sender = round_trip_script(rng, tp_length, rng.randrange(16), piece, rng.choice((100, 400, 3000)), 45)
        yield "round trip %d" % index, sender, downlink.damaged(rng, sender), list(range(45))
    sender = packer.Sender(2051, 3, 65535, 1 << 20, 1 << 20)
    for size in (131072, 65536, 65535, 0):
        sender.offer("ordinary", 3, inputs.some_bytes(rng, size))
        sender.offer("low", 1, bytes(2040))
    while sender.queue["ordinary"] or sender.current:
        sender.draw()
    tps = downlink.damaged(rng, sender)
    yield "the longest packets", sender, tps, [0, 1, 65, len(tps) - 1]


# ---- transport packets missing (R-13) ----

LACKING = ("nothing", "its first TP", "its last TP", "TPs between")


def lacking(packet, arrived):
    """What a drawn packet lacks, as one of these, or something else."""
    first, last = packet.begun_in(), packet.ended_in()
    missing = downlink.missing(packet, arrived)
    if not missing:
        return "nothing"
    if missing in ([first], [last]):
        return "its first TP" if missing == [first] else "its last TP"
    return "TPs between" if first not in missing and last not in missing else "several"


def lossy(rng, records):
    """A recording under damage and losses, what must be read out of it, and what each packet lacks."""
    tp_length, stream, piece = rng.choice((16, 17, 20, 33, 64, 200)), rng.randrange(16), rng.choice((1, 5, 20, 65535))
    sender = round_trip_script(rng, tp_length, stream, piece, rng.choice((100, 400, 3000)), 150)
    tps = downlink.damaged(rng, sender)
    arrived = downlink.losses(rng, len(tps))
    parts = recording(records, tp_length, downlink.with_gaps(tps, arrived), stream)
    wanted = parts[0] + packet_records(records, downlink.expected(sender, tps, arrived))
    return parts, wanted, [lacking(packet, arrived) for packet in sender.packets if packet.drawn()]
