"""Workloads from a seed: a script for the sending program, and the recording that a sender makes of it.

Document 01's longest packet of 131,072 bytes cannot come in a script: a house record holds 32,768 bytes and
the programs' queues are as long. `longest` goes through programs of its own (second/longest.c), which make the calls.
For the driver of calls (calls/driver.c) every workload is house records, those of `longest` longer than the programs
would take.
"""
import os
import random
import sys
from collections import namedtuple
from importlib.machinery import SourceFileLoader
from importlib.util import module_from_spec, spec_from_loader

ROOT = os.path.dirname(os.path.dirname(os.path.abspath(__file__)))
sys.path.insert(0, os.path.join(ROOT, "second"))

import downlink  # noqa: E402
import packer  # noqa: E402


def load_tool(name):
    """A program of tools/ as a module; its file has no suffix."""
    loader = SourceFileLoader(name, os.path.join(ROOT, "tools", name))
    module = module_from_spec(spec_from_loader(name, loader))
    loader.exec_module(module)
    return module


records = load_tool("records")

QUEUE = 32768  # bytes of the programs' queues and room
NO_FRAGMENTS = 65535
TP_HEADER, EP_HEADER = 4, 6
STREAM = 5

Setup = namedtuple("Setup", "tp_length piece")
# What a program reads, and how much of it is its start-up, whose cost is subtracted.
Input = namedtuple("Input", "data start")
# What the driver of calls reads, and the lengths of the queues and of the room.
Steps = namedtuple("Steps", "data queue room")
# Each end's input, None where there is none; the payload bytes of all TPs; and which programs read it.
Workload = namedtuple("Workload", "script recording payload through", defaults=["house records"])


def payload_length(setup):
    return setup.tp_length - TP_HEADER


def encoded_length(setup, length):
    """Queue bytes of an ordinary packet."""
    return length + EP_HEADER * max(1, -(-length // setup.piece))


def setup_record(setup):
    return records.setup(setup.tp_length, STREAM, setup.piece)


# ---- steps: ("ordinary" or "low", data), or ("draw",) ----

def paced(rng, setup, length, count, waiting=0):
    """Ordinary packets, each drawn as soon as a TP can be filled with `waiting` bytes left; then the rest."""
    steps, queued = [], 0
    for _ in range(count):
        steps.append(("ordinary", rng.randbytes(length)))
        queued += encoded_length(setup, length)
        while queued >= waiting + payload_length(setup):
            steps.append(("draw",))
            queued -= payload_length(setup)
    return steps + [("draw",)] * -(-queued // payload_length(setup))


def low_steps(rng, setup, length, count):
    """As many low-latency packets before each draw as one TP takes."""
    fitting = payload_length(setup) // (length + EP_HEADER + 1)
    steps = []
    for _ in range(count // fitting):
        steps += [("low", rng.randbytes(length)) for _ in range(fitting)] + [("draw",)]
    return steps


def behind_setup(setup, some_records):
    start = setup_record(setup)
    return Input(start + b"".join(some_records), start)


def script_of(setup, steps):
    kinds = {"ordinary": records.ORDINARY, "low": records.LOW}
    return behind_setup(setup, [records.record(records.DRAW) if step[0] == "draw"
                                else records.record(kinds[step[0]], 1, step[1]) for step in steps])


def sent(setup, steps, queue=QUEUE):
    """The model of the sender after all steps. It counts drawn room as usable again."""
    sender = packer.Sender(setup.tp_length, STREAM, setup.piece, queue, queue)
    for step in steps:
        if step[0] == "draw":
            sender.draw()
        elif sender.offer(step[0], 1, step[1]) != 0:
            raise ValueError("a packet of the workload was refused")
    return sender


def received_only(setup, tps):
    recording = behind_setup(setup, [records.record(records.TP, 0, tp) for tp in tps])
    return Workload(None, recording, len(tps) * payload_length(setup))


def from_steps(setup, steps):
    return received_only(setup, sent(setup, steps).tps)._replace(script=script_of(setup, steps))


def ordinary(name, setup, length, count, waiting=0):
    return from_steps(setup, paced(random.Random(name), setup, length, count, waiting))


# ---- the workloads, by name ----

LONG = Setup(1784, NO_FRAGMENTS)
LONGEST = Setup(2051, NO_FRAGMENTS)
SHORT = Setup(223, NO_FRAGMENTS)
FRAGMENTS = Setup(1784, 64)
TINY = Setup(16, NO_FRAGMENTS)


LONGEST_QUEUE, LONGEST_ROOM = 262144, 131072


def longest_steps(count):
    packet = bytes(i % 251 for i in range(131072))
    return ([("ordinary", packet)] + [("draw",)] * 65) * count


def longest(count):
    """Packets of 131,072 bytes, each in 65 TPs; the sending side makes them itself."""
    tps = sent(LONGEST, longest_steps(count), LONGEST_QUEUE).tps
    return Workload(Input(b"\1" + count.to_bytes(2, "big"), b""), Input(b"\2" + b"".join(tps), b"\2"),
                    len(tps) * payload_length(LONGEST), "calls")


def steps_of(work, end):
    """A workload for the driver of calls; none if the end has nothing to do."""
    one = work.script if end == "sender" else work.recording
    if one is None or work.through != "calls":
        return one and Steps(one.data, QUEUE, QUEUE)
    data, length = one.data, LONGEST.tp_length
    if end == "sender":
        made = script_of(LONGEST, longest_steps(int.from_bytes(data[1:], "big")))
    else:
        tps = [data[at:at + length] for at in range(1, len(data), length)]
        made = received_only(LONGEST, tps).recording
    return Steps(made.data, LONGEST_QUEUE, LONGEST_ROOM)


def damaged(name, count):
    """Short packets with one to three flips in every Golay word: of TP headers and of EP headers, cut ones too."""
    rng = random.Random(name)
    sender = sent(SHORT, paced(rng, SHORT, 20, count))
    tps = list(map(bytearray, sender.tps))
    for places in sender.word_places():
        if len(places) == 3:  # the last TP may hold a part of a word
            bits = rng.sample(range(24), rng.randint(1, 3))
            downlink.flip(tps, places, bits)
    return received_only(SHORT, tps)


def noise(name, count):
    """Random bytes behind the right stream and version, without which a TP is not read at all."""
    rng = random.Random(name)
    return received_only(SHORT, [bytes([STREAM << 4]) + rng.randbytes(222) for _ in range(count)])


def low(name, count):
    return from_steps(SHORT, low_steps(random.Random(name), SHORT, 20, count))


def words(name, flips, count=1000):
    """One Golay word in each TP and nothing else to read: the receiver is out of step and no EP begins."""
    rng = random.Random(name)
    tps = []
    for _ in range(count):
        tp = int.from_bytes(packer.tp(STREAM << 4, False, packer.NO_START, bytes(payload_length(TINY))), "big")
        for bit in rng.sample(range(24), flips):
            tp ^= 1 << 8 * payload_length(TINY) + bit
        tps.append(tp.to_bytes(TINY.tp_length, "big"))
    return received_only(TINY, tps)


MAKERS = {
    "long": lambda name: ordinary(name, LONG, 1400, 200),
    "longest": lambda name: longest(4),
    "short": lambda name: ordinary(name, SHORT, 20, 2000),
    "fill": lambda name: from_steps(LONG, [("draw",)] * 150),
    "low": lambda name: low(name, 2000),
    "fragments": lambda name: ordinary(name, FRAGMENTS, 1400, 200),
    "tiny": lambda name: ordinary(name, TINY, 20, 1000),
    "damaged": lambda name: damaged(name, 1000),
    "noise": lambda name: noise(name, 1000),
    "intact": lambda name: words(name, 0),
    "repaired": lambda name: words(name, 3),
    "beyond": lambda name: words(name, 4),
}


def made(name):
    return MAKERS[name](name)


# ---- growth: one thing grows, all else stays ----

def longer_recordings():
    return [("%d packets of 1400" % count, ordinary("recording", LONG, 1400, count)) for count in (50, 200, 800)]


def fuller_queues():
    """Only the sender has a queue."""
    for waiting in (0, 15000, 30000):
        one = ordinary("queue", LONG, 700, 400, waiting)
        yield "%d bytes waiting" % waiting, one._replace(recording=None)


def longer_packets():
    return [("packets of %d" % length, ordinary("packet", LONG, length, 300000 // length))
            for length in (300, 3000, 30000)]


def more_packets():
    return [("%d packets of 20" % count, ordinary("packets", SHORT, 20, count)) for count in (500, 2000, 8000)]


GROWTH = {
    "recording length": longer_recordings,
    "queue fill": fuller_queues,
    "packet length": longer_packets,
    "number of packets": more_packets,
}
