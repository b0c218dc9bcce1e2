"""The built programs through tools/run: packets in and out, and one clear line with the right status for each failure."""
import os
import unittest

import trial

PROGRAMS = ["c7send", "c7list", "c7read"]
MISSING = [name for name in PROGRAMS if not os.path.exists(os.path.join(trial.ROOT, "target", "bin", name))]
SETUP = "setup 16 0 100\n"
PACKETS = "low 1 1122\nordinary 4 33\n"
SCRIPT = trial.records(SETUP + PACKETS + "draw 2\n")
RECORDING = trial.records(SETUP + """\
tp 00 809958 040d99 00293e 1122 00 1007b4
tp 00 004a97 0018eb 33 000000 00293e aaaa
""")  # document 01, example 6
INPUT = {"c7send": SCRIPT, "c7list": RECORDING, "c7read": RECORDING}
OUTPUT = {"c7send": RECORDING, "c7list": b"tp what content bytes\n1 low 1 2\n2 ordinary 4 1\n",
          "c7read": trial.records(SETUP + PACKETS)}


@unittest.skipIf(MISSING, "not built: " + ", ".join(MISSING))
class Programs(trial.Case):
    def test_example_6(self):
        for name in PROGRAMS:
            with self.subTest(name):
                self.assertEqual(trial.tool("run", name, data=INPUT[name]), (0, OUTPUT[name], ""))

    def test_what_cannot_be_read(self):
        for name in PROGRAMS:
            with self.subTest(name):
                self.fails(trial.tool("run", name, trial.ROOT), 1, name + ": cannot read")
                self.fails(trial.run(["bash", "-c", 'exec "$@" <&-', "-", *trial.words_of("run", name)], stdin=None), 1,
                           name + ": cannot read")

    def test_what_cannot_be_written(self):
        for name in PROGRAMS:
            with self.subTest(name):
                with open("/dev/full", "wb") as full:
                    self.fails(trial.tool("run", name, data=INPUT[name], stdout=full), 1, name + ": cannot write")
                self.fails(trial.run(["bash", "-c", 'exec "$@" >&-', "-", *trial.words_of("run", name)], INPUT[name]), 1,
                           name + ": cannot write")
                read, write = os.pipe()
                os.close(read)
                with os.fdopen(write, "wb") as nobody:
                    self.fails(trial.tool("run", name, data=INPUT[name], stdout=nobody), 1, name + ": ")

    def test_empty_input(self):
        for name in PROGRAMS:
            with self.subTest(name):
                self.fails(trial.tool("run", name, data=b""), 1, name + ": no setup record")

    def test_bad_records(self):
        for name in PROGRAMS:
            with self.subTest(name):
                done = trial.tool("run", name, data=INPUT[name] + bytes(8))
                self.fails(done, 1, "%s: record at byte %d: no mark" % (name, len(INPUT[name])))
                self.assertEqual(done.out, OUTPUT[name])
                done = trial.tool("run", name, data=INPUT[name] + trial.records("tp 00*20")[:-3])
                self.fails(done, 1, "%s: record at byte %d: " % (name, len(INPUT[name])))
                self.fails(trial.tool("run", name, data=trial.records("setup 15 0 1")), 1,
                           name + ": record at byte 0: a setup outside the limits")

    def test_refused_offers(self):
        script = trial.records(SETUP + "ordinary 7 00\nlow 1 00*6\nordinary 1 00*32768\n" + PACKETS + "draw 2\n")
        done = trial.tool("run", "c7send", data=script)
        self.assertEqual((done.status, done.out), (0, RECORDING))
        self.assertEqual(done.said, "c7send: record at byte 13: refused 2\nc7send: record at byte 22: refused 3\n"
                                    "c7send: record at byte 36: refused 4\n")

    def test_raw_bytes_to_packets(self):
        """The way of README's example: frames behind a sync word come to the same packets as the recording itself."""
        with open(os.path.join(trial.ROOT, "demo", "flight.txt"), "rb") as file:
            sent = self.works(trial.tool("run", "c7send", data=self.works(trial.tool("records", data=file.read()))))
        frames = self.works(trial.tool("wrap", "--off", "--sync", "FE6B2840", data=sent))
        recording = self.works(trial.tool("wrap", "--tp", "64", "--stream", "3", "--sync", "FE6B2840", data=frames))
        self.assertEqual(recording[13:], sent[13:])
        packets = self.works(trial.tool("run", "c7read", data=recording))
        self.assertEqual(packets[13:], self.works(trial.tool("run", "c7read", data=sent))[13:])
        self.assertEqual(trial.tool("pcap", data=packets).said.split(".")[0], "tools/pcap: 8 packets")

    def test_live(self):
        """Each record's answer comes before the next record is given."""
        tp = len(RECORDING) - 24
        self.passes_on(trial.words_of("run", "c7list"), [
            (RECORDING[:13], b"tp what content bytes\n"), (RECORDING[13:tp], b"1 low 1 2\n"),
            (RECORDING[tp:], b"2 ordinary 4 1\n")])
        self.passes_on(trial.words_of("run", "c7read"), [
            (RECORDING[:13], trial.records(SETUP)), (RECORDING[13:tp], trial.records("low 1 1122")),
            (RECORDING[tp:], trial.records("ordinary 4 33"))])
