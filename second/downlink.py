"""What must come out of a receiver under damage within the limits, where transport packets may be missing and
each place where some are is told as a gap: exactly the packets of which nothing is missing, with the bytes that
arrived."""
import collections


# the TP, from 0, that handed it out; began: the TP, from 0, and the payload place of its first byte
Found = collections.namedtuple("Found", "tp sort content data repaired began")


def flip(tps, places, bits):
    for bit in bits:
        number, byte = places[bit // 8]
        tps[number][byte] ^= 0x80 >> bit % 8


def flip_some(rng, tps, places, most=3):
    count = min(rng.choice((0, 1, 2, most, most)), 8 * len(places))
    flip(tps, places, rng.sample(range(8 * len(places)), count))


def flip_all(rng, tps, sender):
    """At most three flips in each Golay word and end byte."""
    for places in sender.word_places() + [[place] for place in sender.end_places]:
        flip_some(rng, tps, places)


def damaged(rng, sender):
    """The TPs, with at most three flips in each Golay word and end byte, and data at will."""
    tps = [bytearray(one) for one in sender.tps]
    flip_all(rng, tps, sender)
    for one in sender.all_eps:
        for number, byte in one.places[6:]:
            if rng.random() < 0.1:
                tps[number][byte] = rng.randrange(256)
    return [bytes(one) for one in tps]


def losses(rng, count):
    """The numbers of the TPs that arrive: single ones missing, whole runs, both, or none."""
    rate, run = rng.choice(((0, 1), (0.02, 1), (0.1, 1), (0.3, 1), (0.02, 20), (0.1, 5)))
    missing = set()
    for number in range(count):
        if rng.random() < rate:
            missing.update(range(number, number + rng.randint(1, run)))
    return [number for number in range(count) if number not in missing]


def with_gaps(tps, arrived):
    """The TPs that arrived, and None at each place where some are missing, be it the start or the end."""
    out, next_one = [], 0
    for number in arrived:
        out += [tps[number]] if number == next_one else [None, tps[number]]
        next_one = number + 1
    return out if next_one == len(tps) else out + [None]


def missing(packet, arrived):
    """The TPs from a drawn packet's first byte to its last that did not arrive."""
    return [number for number in range(packet.begun_in(), packet.ended_in() + 1) if number not in arrived]


def flips(sender, tps, places):
    """Bits of these places that differ from what was sent."""
    return sum((sender.tps[number][byte] ^ tps[number][byte]).bit_count() for number, byte in places)


def checked_places(packet):
    """The places of the EP headers and, of a low-latency packet, of the end byte behind it."""
    places = [place for one in packet.eps for place in one.places[:6]]
    if packet.sort == "low":
        number, byte = packet.eps[0].places[-1]
        places.append((number, byte + 1))
    return places


def expected(sender, tps, arrived):
    """What comes out of the TPs that arrived, in the order of reading."""
    arrived = set(arrived)
    finds = []
    for order, packet in enumerate(sender.packets):
        if not packet.drawn() or missing(packet, arrived):
            continue
        data = bytes(tps[number][byte] for number, byte in packet.data_places())
        key = (packet.ended_in(), packet.sort == "ordinary", order)
        number, byte = packet.eps[0].places[0]
        finds.append((key, Found(packet.ended_in(), packet.sort, packet.content, data,
                                 flips(sender, tps, checked_places(packet)), (number, byte - 4))))
    return [find for _, find in sorted(finds, key=lambda pair: pair[0])]
