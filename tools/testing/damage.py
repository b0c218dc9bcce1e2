"""tools/damage: what each option does, what it says, and what it refuses."""
import trial

SETUP = "setup 16 0 100\n"
TPS = ["tp %032x\n" % number for number in range(1, 11)]
RECORDING = trial.records(SETUP + "".join(TPS))


def parts(recording):
    """The lines of a recording behind its setup, and the bits in which each TP's Golay word differs from those sent."""
    lines = trial.tool("records", "-d", data=recording).out.decode().splitlines()
    words = [int(line[5:11], 16) if line.startswith("tp") else None for line in lines[1:]]
    return lines[1:], [None if word is None else bin(word).count("1") for word in words]


class Damage(trial.Case):
    def done(self, *words):
        done = trial.tool("damage", *words, data=RECORDING)
        self.works(done)
        return done.out, done.said

    def test_flips(self):
        out, said = self.done("--flips", "2")
        lines, flips = parts(out)
        self.assertEqual(flips, [2] * 10)
        self.assertEqual([line[11:] for line in lines], [line[11:].rstrip() for line in TPS])
        self.assertEqual(said, "tools/damage: 10 transport packets, 2 bits flipped in each header word\n")

    def test_lose(self):
        out, said = self.done("--lose", "3-5")
        self.assertEqual(out, trial.records(SETUP + "".join(TPS[:2]) + "gap\n" + "".join(TPS[5:])))
        self.assertEqual(said, "tools/damage: 10 transport packets, 3 to 5 lost\n")

    def test_garble(self):
        out, said = self.done("--garble", "10")
        self.assertEqual(parts(out)[1], [0] * 9 + [4])
        self.assertEqual(said, "tools/damage: 10 transport packets, 10 garbled\n")

    def test_seed(self):
        self.assertEqual(self.done("--flips", "3"), self.done("--flips", "3", "--seed", "1"))
        self.assertNotEqual(self.done("--flips", "3"), self.done("--flips", "3", "--seed", "2"))

    def test_without_options(self):
        out, said = self.done()
        self.assertEqual(parts(out)[1], [3, 3, None, 3, 3, 4, 3, 3, 3])
        self.assertEqual(said, "tools/damage: 10 transport packets, 3 bits flipped in each header word, 3 to 4 lost, 7 garbled\n")
        short = trial.tool("damage", data=trial.records(SETUP + "".join(TPS[:3])))
        self.assertEqual(parts(self.works(short))[1], [3, 3, None])
        self.assertEqual(short.said, "tools/damage: 3 transport packets, 3 bits flipped in each header word, 3 lost\n")

    def test_short_transport_packets_count(self):
        """As in the listing; they have no word in which to flip a bit."""
        recording = trial.records(SETUP + "tp 001122\n" + TPS[0])
        out = self.works(trial.tool("damage", "--flips", "3", "--garble", "2", data=recording))
        self.assertEqual(parts(out)[0][0], "tp 001122")
        self.assertEqual(parts(out)[1][1], 4)

    def test_what_does_not_exist(self):
        wrong = {"--lose 5-2": "5-2: the last comes before the first", "--lose 0-1": "'0' is not a number from 1",
                 "--lose 3": "'3' is not two numbers A-B", "--lose a-b": "'a' is not a number", "--garble 0": "'0' is not a number",
                 "--flips 4": "'4' is not a number from 0 to 3", "--lose 2-4 --garble 3": "--garble 3: that one is lost",
                 "--seed -1": "'-1' is not a number", "--flips": "expected one argument"}
        for words, said in wrong.items():
            with self.subTest(words):
                self.fails(trial.tool("damage", *words.split(), data=RECORDING), 2, said)
        for words, missing in (("--garble 999", 999), ("--lose 9-11", 11)):
            done = trial.tool("damage", *words.split(), data=RECORDING)
            self.assertEqual(done.status, 1)
            self.assertTrue(done.said.endswith("\ntools/damage: there is no transport packet %d\n" % missing), done.said)

    def test_no_recording(self):
        for data, said in ((b"", "no setup record"), (b"\0" + RECORDING, "record at byte 0: no mark"),
                           (RECORDING[13:], "record at byte 0: a kind that has no place here"),
                           (RECORDING[:20], "record at byte 13: cut short"), (RECORDING + RECORDING, "record at byte 253: a kind"),
                           (RECORDING[:-1], "record at byte 229: cut short"),
                           (RECORDING + b"\xc7", "record at byte 253: cut short"),
                           (trial.records(SETUP + "tp 00*32769"), "record at byte 13: wrong length"),
                           (trial.records(SETUP + "raw c7070401 00000000"), "record at byte 13: content not 0")):
            with self.subTest(said):
                self.fails(trial.tool("damage", data=data), 1, "tools/damage: " + said)
