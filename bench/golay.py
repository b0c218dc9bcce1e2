"""The Golay coders by themselves, by kind of word: our words program, the tuned opponent's, the second program's, and
liquid-dsp's where it can be had. Each is told to do nothing with the same words as well (second/words.h), and that is
subtracted."""
import glob
import os
import random
import re
import subprocess
import urllib.request

import programs  # puts second/ on the path
from programs import Program

import inputs
from inputs import DECODE, ENCODE, NOTHING, section

WORDS = 4096
TIMES, RUNS = 1000, 5  # each kind's words are repeated, and the runs too, before they are timed
# the flips in each word that is decoded; four are always beyond repair
KINDS = {"encode": None, "intact": 0, "one flip": 1, "two flips": 2, "three flips": 3, "beyond repair": 4}


# ---- liquid-dsp ----

def unpacked(folder):
    return (glob.glob(os.path.join(folder, "usr", "lib", "*", "libliquid.a")) or [None])[0]


def liquid_library():
    """Debian's static library for x86-64 in target/bench, unpacked and not installed; none if it cannot be had."""
    folder = os.path.join(programs.BENCH, "liquid")
    if unpacked(folder):
        return unpacked(folder)
    asked = subprocess.run(["apt-get", "download", "--print-uris", "libliquid-dev"], capture_output=True, text=True)
    told = re.search(r"'(\S+_)\w+\.deb'", asked.stdout)
    if not told:
        return None
    try:
        with urllib.request.urlopen(told.group(1) + "amd64.deb", timeout=60) as answer:
            package = programs.stored("libliquid-dev.deb", answer.read())
    except OSError:
        return None
    subprocess.run(["dpkg", "-x", package, folder], check=True)
    return unpacked(folder)


def liquid(library):
    """A program over liquid-dsp's coder."""
    built = os.path.join(programs.BENCH, "liquid-golay")
    source = os.path.join(os.path.dirname(os.path.abspath(__file__)), "liquid.c")
    subprocess.run([programs.COMPILER, "-std=c17", "-O3", "-static", source, library, "-o", built], check=True)
    return Program(built)


# ---- counting ----

def generator(program):
    """The code words of the twelve single bits; liquid-dsp's code is another one than the standard's."""
    asked = b"".join(section(ENCODE, [1 << bit]) for bit in range(12))
    return [int(line.split()[2]) for line in program.answer(asked).splitlines()]


def words_of(kind, rows):
    """The words to be given: numbers to encode, or code words of these rows with the kind's flips."""
    rng = random.Random("golay")
    numbers = [rng.randrange(4096) for _ in range(WORDS)]
    if KINDS[kind] is None:
        return numbers
    coded = []
    for number in numbers:
        word = 0
        for bit, row in enumerate(rows):
            word ^= row if number >> bit & 1 else 0
        coded.append(inputs.flipped_word(rng, word, KINDS[kind]))
    return coded


def sort_of(kind):
    return ENCODE if KINDS[kind] is None else DECODE


class Coder:
    def __init__(self, name, program):
        self.name, self.program = name, program
        self.rows = generator(program)

    def count(self, data):
        return self.program.count(data).instructions

    def cost(self, kind):
        """Instructions a word, beyond those of the same words with nothing to do; and the answer's line."""
        words = words_of(kind, self.rows)
        data = section(sort_of(kind), words)
        return (self.count(data) - self.count(section(NOTHING, words))) / WORDS, self.program.answer(data)

    def nanoseconds(self, kind):
        path = programs.stored("timed", section(sort_of(kind), words_of(kind, self.rows)) * TIMES)
        return min(self.program.seconds(path) for _ in range(RUNS)) / (WORDS * TIMES) * 1e9

    def cost_of_nothing(self):
        return (self.count(section(NOTHING, words_of("encode", self.rows))) - self.count(b"")) / WORDS


def coders(folder):
    """Each coder that is there, ours first."""
    named = [("ours", Program(os.path.join(folder, "words"))), ("tuned", Program(programs.TUNED, "words")),
             ("second", Program(programs.SECOND, "words"))]
    library = liquid_library()
    if library:
        named.append(("liquid-dsp", liquid(library)))
    else:
        print("\nliquid-dsp cannot be had from Debian's packages here")
    return [Coder(name, program) for name, program in named if program.exists()]


def print_seconds(folder):
    print("\nGolay: nanoseconds a word, reading and digest included; the best of several runs\n")
    there = coders(folder)
    print_head([coder.name for coder in there])
    for kind in KINDS:
        print_line(kind, ["%.1f" % coder.nanoseconds(kind) for coder in there])


def print_head(names):
    print_line("kind", names)
    print("|" + "-" * 15 + ("|" + "-" * 12) * len(names) + "|")


def print_line(first, cells):
    print("| %-13s |" % first + "".join(" %10s |" % cell for cell in cells), flush=True)


def ratio(own, other):
    """None where the other side costs no more than reading and digesting."""
    return "%.2f" % (own / other) if other >= 1 else "-"


def print_table(folder):
    """Answers whether the answers of ours, the tuned opponent and the second program differed."""
    there = coders(folder)
    compared = there[0].name == "ours"
    failed = False
    print("\nGolay: instructions a word, beyond those of reading it and digesting the answer (the last line)\n")
    print_head([coder.name for coder in there] + ["to tuned"] * compared)
    for kind in KINDS:
        costs, answers = zip(*[coder.cost(kind) for coder in there])
        print_line(kind, ["%.1f" % cost for cost in costs] + [ratio(*costs[:2])] * compared)
        if len({answer for coder, answer in zip(there, answers) if coder.name != "liquid-dsp"}) > 1:
            print("THE ANSWERS DIFFER")
            failed = True
    print_line("nothing", ["%.1f" % coder.cost_of_nothing() for coder in there] + ["-"] * compared)
    return failed
