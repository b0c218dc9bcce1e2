"""tools/chapter10: packets into a script and back; and, through the built programs, to the other end of the downlink."""
import os
import unittest

import trial
from lib import chapter11, house

LONGEST = 32762
SAMPLE = list(chapter11.sample(LONGEST))
PACKETS = b"".join(whole for whole, _ in SAMPLE)
CUT = b"".join(short for _, short in SAMPLE)
ONE = chapter11.packet(0x1234, b"\x11\x22")
WAY = ("c7pack", "c7send", "c7unpack")
MISSING = [name for name in WAY if not os.path.exists(os.path.join(trial.ROOT, "target", "bin", name))]


class Chapter10(trial.Case):
    def test_sample(self):
        self.assertEqual(self.works(trial.tool("chapter10", "--sample")), PACKETS)
        self.assertEqual({(whole[14], len(whole) - len(short)) for whole, short in SAMPLE if len(whole) < 200},
                         {(flags, cut) for flags in (0, 1, 2, 3, 128, 129, 130, 131) for cut in (0, 4, 8)})
        self.assertEqual(max(len(whole) for whole, _ in SAMPLE), LONGEST)
        self.assertEqual(min(len(whole) for whole, _ in SAMPLE), 24)

    def test_script(self):
        lines = trial.tool("records", "-d", data=self.works(trial.tool("chapter10", "--tp", "16", "--stream", "5", data=ONE)))
        self.assertEqual(lines.out.decode().splitlines()[0], "setup 16 5 65535")
        self.assertEqual(lines.out.decode().splitlines()[2:], ["draw 4"])  # 5 + 26 + 6 bytes in payloads of 12
        records, rest = house.split(self.works(trial.tool("chapter10", data=PACKETS)))
        self.assertEqual(rest, b"")
        self.assertEqual([record[8:] for record in records if record[2] == 1], [whole for whole, _ in SAMPLE])
        self.assertEqual({record[3] for record in records if record[2] == 1}, {3})

    def test_back(self):
        self.assertEqual(self.works(trial.tool("chapter10", "-d", data=self.works(trial.tool("chapter10", data=PACKETS)))), PACKETS)
        other = trial.records("setup 16 0 1\nordinary 4 11\nlow 3 22\ndraw\nordinary 3 33\n")
        self.assertEqual(self.works(trial.tool("chapter10", "-d", data=other)), b"\x22\x33")

    def test_no_packets(self):
        self.fails(trial.tool("chapter10", data=ONE + b"\x00" * 24), 1, "packet at byte 26: no sync pattern EB25")
        self.fails(trial.tool("chapter10", data=ONE + ONE[:-1]), 1, "packet at byte 26: cut short")
        self.fails(trial.tool("chapter10", data=ONE + ONE[:5]), 1, "packet at byte 26: cut short")
        self.fails(trial.tool("chapter10", data=ONE[:4] + bytes(20)), 1, "packet at byte 0: a packet length of 0")
        longer = chapter11.packet(1, bytes(LONGEST - 23))
        self.fails(trial.tool("chapter10", data=longer), 1, "packet at byte 0: 32769 bytes do not fit a queue of 32768")
        self.fails(trial.tool("chapter10", "--tp", "15"), 2, "'15' is not a number from 16 to 2051")

    @unittest.skipIf(MISSING, "not built: " + ", ".join(MISSING))
    def test_way(self):
        """To the other end, with each size of transport packet and of fragment: every packet, its fill cut and nothing else."""
        for words in ((), ("--tp", "16", "--piece", "100"), ("--tp", "223", "--stream", "15", "--piece", "1000")):
            with self.subTest(words):
                packets, cut = (PACKETS, CUT) if not words else (b"".join(whole for whole, _ in SAMPLE[:81]), b"".join(short for _, short in SAMPLE[:81]))
                passed = self.works(trial.tool("chapter10", *words, data=packets))
                for name in WAY:
                    done = trial.tool("run", name, data=passed)
                    passed = self.works(done)
                    self.assertEqual(done.said, "")
                self.assertEqual(passed, cut)
