"""tools/run, with stand-ins for the programs: what a program says gives the status, and is passed on."""
import os

import trial

STAND_INS = {
    "c7list": 'cat; echo "c7list has read $# words" >&2',
    "c7send": 'cat; echo "c7send: record at byte 13: refused 4" >&2; echo "c7send: record at byte 21: refused 12" >&2',
    "stops": 'echo begun; echo "stops: record at byte 99: cut short" >&2',
    "stops_late": 'echo "stops_late: record at byte 1: refused 4" >&2; printf "stops_late: cannot read" >&2',
    "odd": 'echo "odd: record at byte 9: refused to go on" >&2',
    "other": 'echo "another: cannot read" >&2; echo "other:no space" >&2',
    "dies": 'echo begun; kill -SEGV $$',
    "nobody": 'echo begun; kill -PIPE $$',
    "status": "exit 3",
    "c7index": 'printf "%s," "$@"; cat',
    "reads": 'head -c 1 >/dev/null || echo "reads: cannot read" >&2',
    "talks": 'while read -r line; do echo "$line" >&2; done',
}


class Run(trial.Case):
    def setUp(self):
        self.room = self.repository("run")
        trial.stand_in_programs(self.room, STAND_INS)

    def run_tool(self, *words, data=b"", **given):
        return trial.run([os.path.join(self.room, "tools", "run"), *words], data, **given)

    def test_all_well(self):
        self.assertEqual(self.run_tool("c7list", data=b"\0\n\xff"), (0, b"\0\n\xff", "c7list has read 0 words\n"))

    def test_file(self):
        path = os.path.join(self.room, "a file")
        with open(path, "wb") as file:
            file.write(b"bytes")
        self.assertEqual(self.run_tool("c7list", path), (0, b"bytes", "c7list has read 0 words\n"))
        self.fails(self.run_tool("c7list", path + "?"), 1, "tools/run: cannot read")
        self.fails(self.run_tool("c7list", path, path), 2, "tools/run: c7list reads one file, or standard input")

    def test_arguments_of_a_program(self):
        self.assertEqual(self.run_tool("c7index", "one file", "two", data=b"in"), (0, b"one file,two,in", ""))

    def test_refused_offers_are_no_stop(self):
        done = self.run_tool("c7send", data=b"out")
        self.assertEqual(done[:2], (0, b"out"))
        self.assertEqual(done.said, "c7send: record at byte 13: refused 4\nc7send: record at byte 21: refused 12\n")

    def test_a_stop(self):
        self.assertEqual(self.run_tool("stops"), (1, b"begun\n", "stops: record at byte 99: cut short\n"))
        self.assertEqual(self.run_tool("stops_late"),
                         (1, b"", "stops_late: record at byte 1: refused 4\nstops_late: cannot read\n"))
        self.fails(self.run_tool("odd"), 1, "odd: record at byte 9: refused to go on")

    def test_lines_that_are_not_the_program_s(self):
        self.assertEqual(self.run_tool("other"), (0, b"", "another: cannot read\nother:no space\n"))

    def test_a_death(self):
        done = self.run_tool("dies")
        self.fails(done, 1, "tools/run: dies was ended by signal 11")
        self.assertEqual(done.out, b"begun\n")
        self.fails(self.run_tool("nobody"), 1, "tools/run: nobody: nobody reads its output any more")
        self.assertEqual(self.run_tool("status"), (1, b"", ""))

    def test_descriptors(self):
        closing = ["bash", "-c", 'exec "$@" <&-', "-", os.path.join(self.room, "tools", "run"), "reads"]
        done = trial.run(closing, stdin=None)
        self.assertEqual((done.status, done.said.splitlines()[-1]), (1, "reads: cannot read"))
        closing[2:6] = ['exec "$@" 2>&-', *closing[3:5], "stops"]
        self.assertEqual(trial.run(closing, stdin=None), (1, b"begun\n", ""))
        closing[2] = 'exec "$@" >&-'
        self.assertEqual(trial.run(closing, stdin=None).status, 1)

    def test_live(self):
        words = ["bash", "-c", 'exec "$1" talks 2>&1', "-", os.path.join(self.room, "tools", "run")]
        self.passes_on(words, [(b"one\n", b"one\n"), (b"two\nthree\n", b"two\nthree\n")])

    def test_asked_wrongly(self):
        self.fails(self.run_tool(), 2, "tools/run: which program?")
        for name in ("nothing", "../bin/c7list", ""):
            self.fails(self.run_tool(name), 2, "tools/run: there is no program %s: 'tools/build %s' proves" % (name, name))
        for words in (["--help"], ["c7list", "--help"]):
            self.assertIn(b"Exit status", self.works(self.run_tool(*words)))
