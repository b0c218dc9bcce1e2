"""c7index and c7at through tools/run, and tools/jump: the index to the byte, grown and made afresh, and killed at any moment."""
import contextlib
import ctypes
import os
import pty
import resource
import shutil
import signal
import subprocess
import tempfile
import unittest

import trial

PROGRAMS = ["c7send", "c7index", "c7at"]
MISSING = [name for name in PROGRAMS if not os.path.exists(os.path.join(trial.ROOT, "target", "bin", name))]
SETUP = "setup 16 0 100\n"
RECORDING = trial.records(SETUP + """\
tp 00 809958 040d99 00293e 1122 00 1007b4
tp 00 004a97 0018eb 33 000000 00293e aaaa
""")  # document 01, example 6
TOP = "covered %020d since %020d end %020d from %020d size %020d\n"
WHOLE = (TOP % (3, 0, 61, 0, 162) + "1 0 low 1 2\n1 9 ordinary 4 1\n").encode()
FIRST = (TOP % (2, 1, 37, 13, 145) + "1 0 low 1 2\n").encode()
# pieces over several TPs, low-latency packets among them, a gap in the middle of a packet
SCRIPT = ("setup 24 0 9\nordinary 1 01*30\nlow 2 0203\ndraw 3\nlow 3 04\nordinary 4 05*3\nordinary 5 06*40\ndraw 9\n"
          "ordinary 6 07*2\nlow 1 08\ndraw 2\n")
TRACEME, SYSCALL = 0, 24


def words_of(name, *words):
    """The program itself, with no tool between."""
    return [os.path.join(trial.ROOT, "target", "bin", name), *words]


def trace(request, process):
    return ctypes.CDLL(None, use_errno=True).ptrace(ctypes.c_long(request), ctypes.c_long(process), ctypes.c_void_p(0),
                                                    ctypes.c_void_p(0))


def killed(words, stops):
    """Runs a program up to so many stops, before and behind each of its system calls, and kills it there; says whether it was so
    long. None where nobody may look into processes."""
    process = os.fork()
    if process == 0:
        nothing = os.open(os.devnull, os.O_RDWR)
        for number in range(3):
            os.dup2(nothing, number)
        try:
            if trace(TRACEME, 0) == 0:
                os.execv(words[0], words)
        finally:
            os._exit(127)
    _, status = os.waitpid(process, 0)
    if not os.WIFSTOPPED(status):
        return None
    for _ in range(stops):
        trace(SYSCALL, process)
        _, status = os.waitpid(process, 0)
        if not os.WIFSTOPPED(status):
            return False
    os.kill(process, signal.SIGKILL)
    os.waitpid(process, 0)
    return True


@unittest.skipIf(MISSING, "not built: " + ", ".join(MISSING))
class Index(trial.Case):
    def setUp(self):
        self.room = tempfile.mkdtemp()
        self.addCleanup(shutil.rmtree, self.room)
        self.recording = os.path.join(self.room, "recording")
        self.index = os.path.join(self.room, "index")

    def put(self, path, data):
        with open(path, "wb") as file:
            file.write(data)

    def got(self):
        with open(self.index, "rb") as file:
            return file.read()

    def grow(self, recording=None):
        if recording is not None:
            self.put(self.recording, recording)
        return trial.tool("run", "c7index", self.recording, self.index)

    def afresh(self, recording):
        if os.path.exists(self.index):
            os.unlink(self.index)
        self.works(self.grow(recording))
        return self.got()

    def sent(self):
        """A recording of some records, and the bytes at which they begin."""
        data = bytearray(self.works(trial.tool("run", "c7send", data=trial.records(SCRIPT))))
        places = list(range(13, len(data), 32))
        data[places[6]:places[6]] = trial.records("gap")
        places = places[:7] + [place + 8 for place in places[6:]] + [len(data)]
        return bytes(data), places

    def test_example_6(self):
        self.assertEqual(self.afresh(RECORDING), WHOLE)
        self.assertEqual(self.afresh(RECORDING[:37]), FIRST)
        self.assertEqual(self.grow(RECORDING), (0, b"", ""))
        self.assertEqual(self.got(), WHOLE)
        self.assertEqual(self.grow(), (0, b"", ""))
        self.assertEqual(self.got(), WHOLE)

    def test_grown_from_every_cut(self):
        whole, places = self.sent()
        wanted = self.afresh(whole)
        for cut in sorted({place + more for place in places[:-1] for more in (0, 7, 9)}):
            with self.subTest(cut):
                self.afresh(whole[:cut])
                self.works(self.grow(whole))
                self.assertEqual(self.got(), wanted)

    def grown_on_a_terminal(self):
        """Status and what a terminal shows, where standard error is one."""
        here, there = pty.openpty()
        words = trial.words_of("run", "c7index", self.recording, self.index)
        with subprocess.Popen(words, stderr=there, start_new_session=True) as running, trial.ends_in(trial.LIMIT, running):
            os.close(there)
            shown = b""
            with contextlib.suppress(OSError):  # nobody has the other side open any more
                while True:
                    shown += os.read(here, 1 << 16)
        os.close(here)
        return running.returncode, shown

    def test_progress_on_a_terminal(self):
        """A run of more lines than one block of output holds; what went wrong is still told, and the status."""
        many = RECORDING + RECORDING[13:] * 2500
        self.put(self.recording, many)
        status, shown = self.grown_on_a_terminal()
        self.assertEqual((status, shown.replace(b"read so far: 0 MiB\r", b"")), (0, b""))
        self.assertIn(b"read so far: 0 MiB\r", shown)
        self.assertEqual(self.got(), self.afresh(many))
        self.put(self.recording, many[:-30])
        self.assertEqual(self.grown_on_a_terminal(), (1, b"c7index: refused 23\r\n"))

    def test_refusals(self):
        self.afresh(RECORDING)
        self.fails(self.grow(RECORDING[:60]), 1, "c7index: refused 23")
        for bad in (WHOLE[:-1], b"x" + WHOLE[1:], WHOLE.replace(b"162\n", b"132\n"), b" " * 200):
            self.put(self.index, bad)
            self.fails(self.grow(RECORDING), 1, "c7index: not an index")
            self.assertEqual(self.got(), bad)

    def test_no_setup(self):
        self.fails(self.grow(b""), 1, "c7index: no setup record")
        self.fails(self.grow(RECORDING[:12]), 1, "c7index: record at byte 0: cut short")
        self.assertFalse(os.path.exists(self.index))

    def test_bad_record(self):
        self.fails(self.grow(RECORDING + bytes(8)), 1, "c7index: record at byte 61: no mark")
        self.assertEqual(self.got(), WHOLE)

    def test_words_and_files(self):
        self.fails(trial.tool("run", "c7index", self.recording), 1, "c7index: ")
        self.fails(self.grow(), 1, "c7index: cannot open the recording")
        self.put(self.recording, RECORDING)
        self.fails(trial.tool("run", "c7index", self.room, self.index), 1, "c7index: cannot read the recording")
        self.fails(trial.tool("run", "c7index", self.recording, self.room), 1, "c7index: cannot open the index")
        self.fails(trial.tool("run", "c7index", self.recording, os.path.join(self.index, "x")), 1, "c7index: cannot make the index")

    def kill_everywhere(self, before, wanted):
        """At each stop from before it opened a file on. What is left grows to the same; the same bytes need be tried but once."""
        words = words_of("c7index", self.recording, self.index)
        idle = 0
        while killed(words_of("c7index"), idle):
            idle += 16
        seen, stops, on = set(), max(0, idle - 32), True
        while on:
            if os.path.exists(self.index):
                os.unlink(self.index)
            if before is not None:
                self.put(self.index, before)
            on = killed(words, stops)
            if on is None:
                self.skipTest("processes cannot be looked into here")
            left = self.got() if os.path.exists(self.index) else None
            if left not in seen:
                seen.add(left)
                self.works(self.grow())
                self.assertEqual(self.got(), wanted, (stops, left))
            stops += 1
        return seen

    def test_killed_anywhere(self):
        whole, places = self.sent()
        wanted = self.afresh(whole)
        self.assertIn(wanted, self.kill_everywhere(None, wanted))
        old = self.afresh(whole[:places[4]])
        self.put(self.recording, whole)
        seen = self.kill_everywhere(old + b"1 0 low", wanted)
        for state in (old + b"1 0 low", old, old + wanted[len(old):], wanted):
            self.assertIn(state, seen)

    def test_full_disk(self):
        """No more than so many bytes: a line tells it, and what is left grows."""
        whole, _ = self.sent()
        wanted = self.afresh(whole)
        for size in (0, 1, 132, 133, 134, len(wanted) // 2, len(wanted) - 1):
            with self.subTest(size):
                os.unlink(self.index)

                def limited():
                    signal.signal(signal.SIGXFSZ, signal.SIG_IGN)
                    resource.setrlimit(resource.RLIMIT_FSIZE, (size, resource.RLIM_INFINITY))

                done = trial.run(words_of("c7index", self.recording, self.index), preexec_fn=limited, restore_signals=False)
                self.assertRegex(done.said, "^c7index: cannot (make|write) the index\n$")
                self.works(self.grow())
                self.assertEqual(self.got(), wanted)

    def test_every_line_leads_to_its_packet(self):
        whole, _ = self.sent()
        lines = self.afresh(whole)[133:].decode().splitlines()
        self.assertGreater(len(lines), 5)
        for number, line in enumerate(lines, 1):
            _, _, sort, content, length = line.split()
            with self.subTest(line):
                packet = self.works(trial.tool("jump", self.recording, self.index, str(number)))
                self.assertEqual(packet[:8], bytes([0xC7, 7, 1 + (sort == "low"), int(content)]) + int(length).to_bytes(4, "big"))
                self.assertEqual(len(packet), 8 + int(length))

    def test_packets_of_example_6(self):
        self.put(self.recording, RECORDING)
        at = lambda *words: trial.tool("run", "c7at", self.recording, *words)  # noqa: E731
        self.assertEqual(self.works(at("1", "0", "low")), trial.records("low 1 1122"))
        self.assertEqual(self.works(at("1", "9", "ordinary")), trial.records("ordinary 4 33"))
        self.assertEqual(self.works(at("0", "99", "ordinary")), trial.records("ordinary 4 33"))
        for words in (("1", "10", "ordinary"), ("2", "0", "low"), ("3", "0", "low"), ("18446744073709551615", "0", "low")):
            self.fails(at(*words), 1, "c7at: no such packet")
        for words in ((), ("1", "0"), ("1", "", "low"), ("1", "0x1", "low"), ("1", "0", "high"), ("18446744073709551616", "0", "low")):
            self.fails(at(*words), 1, "c7at: asks for ")

    def test_jump_asked_wrongly(self):
        self.afresh(RECORDING)
        self.fails(trial.tool("jump", self.recording, self.index, "3"), 1, "has no line 3")
        self.fails(trial.tool("jump", self.recording, self.recording, "1"), 1, "is not an index")
        self.fails(trial.tool("jump", self.recording, self.index, "0"), 2, "not a number from 1")
