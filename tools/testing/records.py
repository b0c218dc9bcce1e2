"""tools/records: lines to records and back, and plain words for a line that is none."""
import trial

SAMPLE = """\
setup 64 3 40
ordinary 4 00112233
low 1 cafe
draw 3
tp 3080
tp
gap
draw 1
ordinary 1 aabb 77*90
raw c70709
"""
BYTES = bytes.fromhex("c707000000000005 0040030028 c707010400000004 00112233 c707020100000002 cafe") \
    + 3 * bytes.fromhex("c707030000000000") + bytes.fromhex("c707040000000002 3080 c707040000000000 c707050000000000") \
    + bytes.fromhex("c707030000000000 c70701010000005c aabb") + 90 * b"\x77" + bytes.fromhex("c70709")
BAD = {
    "ordnary 4 00": "'ordnary' is none of setup, ordinary, low, draw, tp, gap, raw",
    "setup 16 0": "setup takes three numbers: TP length, stream and F",
    "setup 16 x 5": "stream 'x' is not a number from 0 to 255",
    "setup 65536 0 5": "TP length '65536' is not a number from 0 to 65535",
    "setup 16 0 -1": "F '-1' is not a number from 0 to 65535",
    "low": "low takes a content number, then the packet's bytes",
    "ordinary 256 00": "content '256' is not a number from 0 to 255",
    "ordinary \u0664 00": "content '\u0664' is not a number",
    "tp 0g": "'0g' is not hexadecimal",
    "tp 123": "'123' has an odd number of digits",
    "tp 00*": "behind the star, '' is not a number from 0 to 16777216",
    "tp 00*-1": "behind the star, '-1' is not a number from 0 to 16777216",
    "tp 0000*16777216": "'0000*16777216' is more than 16777216 bytes",
    "tp 00*16777216 00": "more than 16777216 bytes in a line",
    "draw 0": "count '0' is not a number from 1 to 1000000",
    "draw 1 2": "draw takes one number, or none",
    "gap 1": "gap stands alone",
}


class Records(trial.Case):
    def test_there(self):
        self.assertEqual(self.works(trial.tool("records", data=SAMPLE.encode())), BYTES)

    def test_back(self):
        self.assertEqual(self.works(trial.tool("records", "-d", data=BYTES)).decode(), SAMPLE)

    def test_comments_ends_and_mark(self):
        text = b"\xef\xbb\xbfgap # a gap\r\n\r\n# nothing\n  tp 00 # \xc3\xa4"
        self.assertEqual(self.works(trial.tool("records", data=text)), bytes.fromhex("c707050000000000 c70704000000000100"))

    def test_bad_lines(self):
        for line, words in BAD.items():
            with self.subTest(line):
                done = trial.tool("records", data=("gap\n%s\ngap\n" % line).encode())
                self.fails(done, 1, "tools/records: line 2: " + words)
                self.assertEqual(done.out, bytes.fromhex("c707050000000000"))

    def test_no_text(self):
        self.fails(trial.tool("records", data="gap\n".encode("utf-16")), 1, "line 1: this is UTF-16")
        self.fails(trial.tool("records", data=b"gap\n\xff\xff\n"), 1, "line 2: this is not text")
        self.fails(trial.tool("records", data=b"raw " + b"00" * (1 << 20)), 1, "a line of more than 1048576 characters")

    def test_back_from_what_is_none(self):
        """A record that is too long, and an end within a record, come back as they were."""
        for stream in (trial.records("setup 16 0 1\ntp 00*40000\ngap\n"), BYTES[:-5], BYTES[:30], b"\xc7", b"nothing" * 9000):
            lines = self.works(trial.tool("records", "-d", data=stream))
            self.assertEqual(self.works(trial.tool("records", data=lines)), stream)

    def test_live(self):
        gap = bytes.fromhex("c707050000000000")
        self.passes_on(trial.words_of("records"), [(b"gap\n", gap), (b"# no\ntp 00", b""), (b"\n", gap[:2] + b"\4\0\0\0\0\1\0")])
        self.passes_on(trial.words_of("records", "-d"), [(gap, b"gap\n"), (gap[:5], b""), (gap[5:], b"gap\n")])
