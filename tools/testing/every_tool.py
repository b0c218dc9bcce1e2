"""What holds for every tool: --help, wrong words, what cannot be read or written, and constant memory on a pipe."""
import os
import resource
import subprocess

import trial
from lib import chapter11

SETUP = "setup 2051 0 65535\n"
# the words of a run, and an input from which it would write without end, once its second part is repeated
STREAMS = {
    "records": (["records"], b"", b"tp 00*2051\n"),
    "records -d": (["records", "-d"], trial.records(SETUP), trial.records("tp 0011*1000\ngap\n")),
    "records -d, one long record": (["records", "-d"], trial.records(SETUP + "raw c7070400ffffffff"), bytes(2051)),
    "damage": (["damage", "--flips", "1"], trial.records(SETUP), trial.records("tp 00*2051\n")),
    "wrap": (["wrap", "--tp", "2051", "--stream", "0"], b"", bytes(2051)),
    "wrap --sync": (["wrap", "--tp", "2051", "--stream", "0", "--sync", "C7"], b"", b"\xc7" + bytes(2051)),
    "wrap --off": (["wrap", "--off"], trial.records(SETUP), trial.records("tp 00*2051\n")),
    "chapter10": (["chapter10"], b"", chapter11.packet(1, bytes(2000))),
    "chapter10 -d": (["chapter10", "-d"], trial.records(SETUP), trial.records("ordinary 3 00*2051\n")),
    "pcap": (["pcap"], trial.records(SETUP), trial.records("low 1 00*2051\n")),
}
OTHERS = ["build", "cited", "corrections", "icount", "jump", "library", "library-test", "picture", "release", "run", "tests", "wrong"]
SOME = 200  # more than a block of output, and than a pipe holds
MANY = 20000  # these are more than the memory that a tool gets
MEMORY = 40 << 20


def little_memory():
    resource.setrlimit(resource.RLIMIT_AS, (MEMORY, MEMORY))


class EveryTool(trial.Case):
    def test_help(self):
        for name in [words[0] for words, _, _ in STREAMS.values()] + OTHERS + ["../demo/run"]:
            with self.subTest(name):
                done = trial.tool(name, "--help")
                self.assertGreater(len(self.works(done)), 100)
                self.assertEqual(done.said, "")

    def test_help_of_wrong(self):
        self.assertGreater(len(self.works(trial.tool("wrong", "--help", cwd="/"))), 100)
        self.fails(trial.tool("wrong", "no_such_crate", cwd=trial.ROOT), 2, "no edits in crates/no_such_crate/wrong/")

    def test_wrong_words(self):
        for name in [words[0] for words, _, _ in STREAMS.values()] + OTHERS + ["../demo/run"]:
            with self.subTest(name):
                self.fails(trial.tool(name, "--no-such-word"), 2, "--no-such-word")

    def test_full_disk(self):
        for name, (words, first, again) in STREAMS.items():
            with self.subTest(name):
                with open("/dev/full", "wb") as full:
                    self.fails(trial.tool(*words, data=first + again * SOME, stdout=full), 1, "cannot write: No space left")

    def test_help_on_a_full_disk(self):
        with open("/dev/full", "wb") as full:
            self.fails(trial.tool("records", "--help", stdout=full), 1, "cannot write: No space left")

    def test_broken_pipe(self):
        for name, (words, first, again) in STREAMS.items():
            with self.subTest(name):
                read, write = os.pipe()
                os.close(read)
                with os.fdopen(write, "wb") as nobody:
                    self.fails(trial.tool(*words, data=first + again * SOME, stdout=nobody), 1, "nobody reads the output")

    def test_closed_descriptors(self):
        for name, (words, first, again) in STREAMS.items():
            with self.subTest(name):
                closing = ["bash", "-c", 'exec "$@" <&-', "-", *trial.words_of(*words)]
                self.fails(trial.run(closing, stdin=None), 1, "cannot read standard input: Bad file descriptor")
                closing[2] = 'exec "$@" >&-'
                self.fails(trial.run(closing, first + again), 1, "cannot write: Bad file descriptor")
                closing[2] = 'exec "$@" 2>&-'
                done = trial.run(closing, first + again)
                self.assertEqual((done.status, done.said), (0, ""))

    def test_files(self):
        for name, (words, _, _) in STREAMS.items():
            with self.subTest(name):
                self.fails(trial.tool(*words, "no/such/file"), 1, "cannot read no/such/file: No such file")
                self.fails(trial.tool(*words, trial.ROOT), 1, "Is a directory")
                self.fails(trial.tool(*words, "a", "b"), 2, "unrecognized arguments: b")

    def test_constant_memory(self):
        for name, (words, first, again) in STREAMS.items():
            with self.subTest(name):
                with subprocess.Popen(trial.words_of(*words), stdin=subprocess.PIPE, stdout=subprocess.DEVNULL,
                                      stderr=subprocess.PIPE, preexec_fn=little_memory) as running:
                    running.stdin.write(first)
                    for _ in range(MANY // SOME):
                        running.stdin.write(again * SOME)
                    running.stdin.close()
                    self.assertEqual(running.wait(), 0, running.stderr.read())
