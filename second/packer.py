"""An independent model of the sending end, which remembers where every byte went.

Used for what must come out of a sender, for damage within the limits, and, with raw EPs, for
streams of another maker that our sender would never make."""
from collections import deque

ROWS = [0xC75, 0x63B, 0xF68, 0x7B4, 0x3DA, 0xD99, 0x6CD, 0x367, 0xDC6, 0xA97, 0x93E, 0x8EB]
NO_START = 2047
WHOLE, FIRST, MIDDLE, LAST = range(4)


def golay(number):
    """The three bytes of a 12-bit number."""
    parity = 0
    for bit, row in enumerate(ROWS):
        if number >> (11 - bit) & 1:
            parity ^= row
    return (number << 12 | parity).to_bytes(3, "big")


def ep(content, fragment, data, length=None, reserved=0):
    """An encapsulation packet; a length given apart from the data may be a lie."""
    if length is None:
        length = len(data)
    word0 = reserved << 10 | content << 6 | fragment << 4 | length >> 12
    return golay(word0) + golay(length & 0xFFF) + bytes(data)


def tp(stream_byte, low_present, offset, payload):
    return bytes([stream_byte]) + golay((0x800 if low_present else 0) | offset) + bytes(payload)


class Packet:
    """A source packet that was accepted."""

    def __init__(self, sort, content):
        self.sort = sort
        self.content = content
        self.eps = []

    def drawn(self):
        return all(e.drawn() for e in self.eps)

    def begun_in(self):
        return self.eps[0].places[0][0] if self.eps[0].places else None

    def ended_in(self):
        return self.eps[-1].places[-1][0]

    def data_places(self):
        return [place for e in self.eps for place in e.places[6:]]


class Ep:
    """Encoded bytes, and the place (TP, byte) of each byte that was drawn."""

    def __init__(self, encoded, fill=False):
        self.encoded = encoded
        self.fill = fill
        self.places = []

    def drawn(self):
        return len(self.places) == len(self.encoded)


class Sender:
    def __init__(self, tp_length, stream, piece, ordinary_space, low_space):
        self.tp_length = tp_length
        self.payload = tp_length - 4
        self.stream = stream
        self.piece = piece
        self.space = {"ordinary": ordinary_space, "low": low_space}
        self.queue = {"ordinary": deque(), "low": deque()}
        self.current = None  # the ordinary EP that is partly drawn, fill included
        self.packets = []
        self.all_eps = []
        self.end_places = []
        self.tps = []

    def offer(self, sort, content, data):
        """0, or the number of the refusal."""
        low = sort == "low"
        if not 1 <= content <= 6:
            return 2
        if len(data) > 131072 if not low else 7 + len(data) > self.payload:
            return 3
        piece = len(data) if low else self.piece
        parts = [data[i:i + piece] for i in range(0, len(data), piece or 1)] or [b""]
        if 6 * len(parts) + len(data) > self.space[sort]:
            return 4
        packet = Packet(sort, content)
        for index, part in enumerate(parts):
            flag = WHOLE
            if len(parts) > 1:
                flag = FIRST if index == 0 else LAST if index == len(parts) - 1 else MIDDLE
            packet.eps.append(self.put_raw(sort, ep(content, flag, part)))
        self.packets.append(packet)
        return 0

    def put_raw(self, sort, encoded):
        """Queues bytes as one EP, whatever they are."""
        one = Ep(encoded)
        self.queue[sort].append(one)
        self.space[sort] -= len(encoded)
        return one

    def draw(self):
        payload = bytearray()
        number = len(self.tps)
        low_present = self._draw_low(payload, number)
        first = NO_START
        while len(payload) < self.payload:
            if self.current is None:
                first = min(first, len(payload))
                self.current = self._next_ordinary(self.payload - len(payload))
            self._draw_current(payload, number)
        self.tps.append(tp(self.stream << 4, low_present, first, payload))
        return self.tps[-1]

    def _draw_low(self, payload, number):
        queue = self.queue["low"]
        ends = []
        while queue and len(payload) + len(queue[0].encoded) + 1 <= self.payload:
            one = queue.popleft()
            one.places = [(number, 4 + len(payload) + i) for i in range(len(one.encoded))]
            payload += one.encoded
            self.space["low"] += len(one.encoded)
            self.all_eps.append(one)
            ends.append(len(payload))
            payload.append(0xFF)
        if ends:
            payload[ends[-1]] = 0
        self.end_places += [(number, 4 + end) for end in ends]
        return bool(ends)

    def _next_ordinary(self, left):
        if self.queue["ordinary"]:
            one = self.queue["ordinary"].popleft()
        else:
            one = Ep(ep(0, WHOLE, b"\xaa" * max(0, left - 6)), fill=True)
        self.all_eps.append(one)
        return one

    def _draw_current(self, payload, number):
        one = self.current
        done = len(one.places)
        part = one.encoded[done:done + self.payload - len(payload)]
        one.places += [(number, 4 + len(payload) + i) for i in range(len(part))]
        payload += part
        if not one.fill:
            self.space["ordinary"] += len(part)
        if one.drawn():
            self.current = None

    def word_places(self):
        """The places of each Golay word; at the last TP's end a word may be cut."""
        words = [[(number, byte) for byte in (1, 2, 3)] for number in range(len(self.tps))]
        for one in self.all_eps:
            words += [word for word in (one.places[0:3], one.places[3:6]) if word]
        return words

    def header_cuts(self):
        """How often an EP header lies in one TP, in two, in three."""
        counts = [0, 0, 0, 0, 0, 0, 0]
        for one in self.all_eps:
            counts[len({number for number, _ in one.places[:6]})] += 1
        return counts
