"""tools/wrap: plain bytes into records and back, with and without a sync word, as they come."""
import tempfile

import trial

SYNC = bytes.fromhex("fe6b2840")
TPS = [bytes([number]) * 16 for number in (1, 2, 3)]
SETUP = "setup 16 5 65535\n"
RECORDING = trial.records(SETUP + "tp 01*16\ntp 02*16\ntp 03*16\n")
ON = ("--tp", "16", "--stream", "5")


def lines_of(recording):
    return trial.tool("records", "-d", data=recording).out.decode().splitlines()


class Wrap(trial.Case):
    def test_on(self):
        self.assertEqual(self.works(trial.tool("wrap", *ON, data=b"".join(TPS))), RECORDING)

    def test_off(self):
        with_gaps = trial.records(SETUP + "gap\ntp 01*16\ngap\ntp 02*16\ntp 03*16\n")
        self.assertEqual(self.works(trial.tool("wrap", "--off", data=with_gaps)), b"".join(TPS))
        self.assertEqual(self.works(trial.tool("wrap", "--off", "--sync", "fe6b 2840", data=RECORDING)),
                         b"".join(SYNC + tp for tp in TPS))

    def test_sync(self):
        frames = b"".join(SYNC + tp for tp in TPS)
        self.assertEqual(self.works(trial.tool("wrap", *ON, "--sync", "FE6B2840", data=frames)), RECORDING)

    def test_sync_lost(self):
        torn = b"xy" + SYNC + TPS[0] + b"\xfe\x6b\x28" + SYNC + TPS[1] + SYNC[:3] + b"?" + TPS[2] + b"\xfe"
        done = trial.tool("wrap", *ON, "--sync", "FE6B2840", data=torn)
        self.assertEqual(lines_of(self.works(done)), ["setup 16 5 65535", "gap", "tp 01*16", "gap", "tp 02*16", "gap"])
        self.assertEqual(done.said, "".join("tools/wrap: byte %d: no sync word, %d bytes passed over\n" % pair
                                            for pair in ((0, 2), (22, 3), (45, 21))))

    def test_sync_across_blocks(self):
        """A file is read in blocks of 65,536 bytes; the sync word is found wherever their edge cuts it."""
        for before in range(65536 - len(SYNC), 65537):
            with self.subTest(before), tempfile.NamedTemporaryFile() as file:
                file.write(bytes(before) + SYNC + TPS[0])
                file.flush()
                done = trial.tool("wrap", *ON, "--sync", "FE6B2840", file.name)
                self.assertEqual(lines_of(self.works(done)), ["setup 16 5 65535", "gap", "tp 01*16"])
                self.assertEqual(done.said, "tools/wrap: byte 0: no sync word, %d bytes passed over\n" % before)

    def test_sync_never(self):
        for data in (b"", b"\xfe", bytes(200000)):
            done = trial.tool("wrap", *ON, "--sync", "FE6B2840", data=data)
            self.assertEqual(done.status, 1)
            self.assertTrue(done.said.endswith("tools/wrap: no transport packet came\n"), done.said)

    def test_cut(self):
        done = trial.tool("wrap", *ON, data=b"".join(TPS)[:-3])
        self.fails(done, 1, "the input ends within a transport packet: 13 bytes left out")
        self.assertEqual(lines_of(done.out), ["setup 16 5 65535", "tp 01*16", "tp 02*16"])

    def test_asked_wrongly(self):
        wrong = {"": "--tp and --stream are needed", "--tp 16": "--tp and --stream are needed",
                 "--tp 15 --stream 0": "'15' is not a number from 16 to 2051", "--tp 2052 --stream 0": "'2052' is not a number",
                 "--tp 16 --stream 16": "'16' is not a number from 0 to 15", "--off --tp 16": "--off takes neither",
                 "--tp 16 --stream 0 --sync xy": "'xy' is not hexadecimal bytes", "--off --sync": "expected one argument"}
        for words, said in wrong.items():
            with self.subTest(words):
                self.fails(trial.tool("wrap", *words.split()), 2, said)
        self.fails(trial.tool("wrap", "--off", "--sync", ""), 2, "a sync word has 1 to 64 bytes")

    def test_off_of_another_length(self):
        done = trial.tool("wrap", "--off", data=RECORDING + trial.records("tp 04*15"))
        self.fails(done, 1, "record at byte 85: a transport packet of 15 bytes, where the setup says 16")
        self.assertEqual(done.out, b"".join(TPS))

    def test_live(self):
        tps = [trial.records("tp %02x*16" % number) for number in (1, 2, 3)]
        self.passes_on(trial.words_of("wrap", *ON), [
            (TPS[0], trial.records(SETUP) + tps[0]), (TPS[1] + b"\3", tps[1]), (b"\3" * 15, tps[2])])
        self.passes_on(trial.words_of("wrap", *ON, "--sync", "FE6B2840"), [
            (b"?" + SYNC + TPS[0], trial.records(SETUP + "gap\n") + tps[0]), (b"??" + SYNC[:2], b""),
            (SYNC[2:] + TPS[1], trial.records("gap") + tps[1])])
        self.passes_on(trial.words_of("wrap", "--off"), [
            (RECORDING[:40], TPS[0]), (RECORDING[40:], TPS[1] + TPS[2])])
