"""tools/build, with a stand-in for the kit: what is proved is copied, what is not is told, and the others are built all the same."""
import os
import shutil
import subprocess

import trial

MADE = "target/bin/%s: proved and made\n"
PROGRAMS = {"one": 'echo "one: has read $(wc -c) bytes"', "two": "echo no >&2; exit 3", "three": "exit"}


class Build(trial.Case):
    def setUp(self):
        self.room = self.repository("build")
        self.env = trial.stand_in_kit(self.room)
        trial.stand_in_crates(self.room, PROGRAMS)

    def build(self, *words, **given):
        return trial.tool(os.path.join(self.room, "tools", "build"), *words, **{"env": self.env, **given})

    def built(self):
        folder = os.path.join(self.room, "target", "bin")
        return sorted(os.listdir(folder)) if os.path.exists(folder) else []

    def source(self, name):
        return self.room, "crates", name, "src", "main.rt"

    def not_proved(self, name):
        trial.write("echo # not to be proved\n", *self.source(name))

    def test_all(self):
        """Of crates.txt, in its order; a program has no input, and what it prints is not the tool's."""
        self.assertEqual(self.build(data=b"input"), (0, "".join(MADE % name for name in PROGRAMS).encode(), ""))
        self.assertEqual(self.built(), sorted(PROGRAMS))
        self.assertEqual(trial.run([os.path.join(self.room, "target", "bin", "one")], b"input"), (0, b"one: has read 5 bytes\n", ""))

    def test_named(self):
        self.not_proved("one")
        self.assertEqual(self.build("three", "two"), (0, (MADE % "three" + MADE % "two").encode(), ""))
        self.assertEqual(self.built(), ["three", "two"])

    def test_not_proved(self):
        self.not_proved("one")
        self.not_proved("three")
        said = "".join("rt: lines on %s\ntools/build: %s is not proved\n" % (name, name) for name in ("one", "three"))
        self.assertEqual(self.build(), (1, (MADE % "two").encode(), said))
        self.assertEqual(self.built(), ["two"])

    def test_again(self):
        """Over the one that runs, which goes on."""
        shutil.copy("/bin/cat", os.path.join(*self.source("one")))
        self.works(self.build("one"))
        with trial.live([os.path.join(self.room, "target", "bin", "one")]) as running, trial.ends_in(trial.LIVE_LIMIT, running):
            trial.write(PROGRAMS["one"], *self.source("one"))
            self.works(self.build("one"))
            running.stdin.write(b"still there")
            running.stdin.close()
            self.assertEqual(running.stdout.read(), b"still there")
        self.assertEqual(trial.text_of(self.room, "target", "bin", "one"), PROGRAMS["one"])
        self.assertEqual(self.built(), ["one"])

    def test_asked_wrongly(self):
        for name in ("four", "low", "ffi", "../one", ""):
            self.fails(self.build("one", name), 2, "tools/build: there is no program '%s'" % name)
        self.assertEqual(self.built(), [])

    def test_no_kit(self):
        self.fails(self.build("one", env={"PATH": self.room}), 1, "tools/build: cannot run rt: No such file")

    def test_no_place(self):
        trial.write("", self.room, "target")
        self.fails(self.build("one"), 1, "tools/build: cannot copy ")
        os.remove(os.path.join(self.room, "crates.txt"))
        self.fails(self.build("one"), 1, "tools/build: cannot read ")
