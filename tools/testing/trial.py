"""What the tests share: a tool run on bytes, and the three things that it leaves: status, output, what it said."""
import collections
import contextlib
import os
import shutil
import signal
import subprocess
import sys
import tempfile
import threading
import unittest

ROOT = os.path.realpath(os.path.join(os.path.dirname(__file__), "..", ".."))
LIMIT = 120  # seconds for one run
LIVE_LIMIT = 20  # and for one between two pipes

Run = collections.namedtuple("Run", "status out said")
TOOLS = os.path.join(ROOT, "tools")


def run(words, data=b"", **given):
    data = None if "stdin" in given else data
    given = {"stdin": subprocess.PIPE, "stdout": subprocess.PIPE, **given}
    with subprocess.Popen(words, stderr=subprocess.PIPE, start_new_session=True, **given) as running, ends_in(LIMIT, running):
        out, said = running.communicate(data)
    return Run(running.returncode, out, said.decode(errors="replace"))


def words_of(name, *words):
    """How a tool is started; one in Python by this very interpreter, which needs nothing but its standard library."""
    path = os.path.join(TOOLS, name)
    with open(path, encoding="utf-8") as file:
        is_python = "python3" in file.readline()
    return [*([sys.executable, "-S"] if is_python else []), path, *words]


def tool(name, *words, data=b"", **given):
    return run(words_of(name, *words), data, **given)


def records(text):
    """House records of readable lines."""
    done = tool("records", data=text.encode())
    if done.status != 0:
        raise AssertionError(done.said)
    return done.out


def write(text, *path):
    """A text file, with the folders that it stands in."""
    os.makedirs(os.path.join(*path[:-1]), exist_ok=True)
    with open(os.path.join(*path), "w", encoding="utf-8") as file:
        file.write(text)


def text_of(*path):
    with open(os.path.join(*path), encoding="utf-8") as file:
        return file.read()


def write_script(text, *path):
    write("#!/bin/bash\n%s\n" % text, *path)
    os.chmod(os.path.join(*path), 0o755)


# proves what has not these words, makes a program of what should be its source, and runs it
PROVER = """echo "rt: lines on ${PWD##*/}" >&2
[ "$*" = run ] && ! grep -q 'not to be proved' src/main.rt || exit 1
install -D -m 755 src/main.rt "out/${PWD##*/}"
"out/${PWD##*/}"; exit 0"""


def stand_in_kit(room, rt=PROVER):
    """A kit whose rt is a shell script; gives the environment for it."""
    write_script(rt, room, "kit", "bin", "rt")
    return dict(os.environ, PATH=os.path.join(room, "kit", "bin") + ":" + os.environ["PATH"])


def stand_in_crates(room, programs):
    """Crates whose sources are shell scripts, and a library."""
    write("# Crates.\nlow:\nffi staticlib: low\n" + "".join("%s: low # on: it\n" % name for name in programs), room, "crates.txt")
    write("", room, "crates", "low", "src", "lib.rt")
    write("", room, "crates", "ffi", "src", "lib.rt")
    for name, text in programs.items():
        write("#!/bin/bash\n%s\n" % text, room, "crates", name, "src", "main.rt")


def stand_in_programs(room, programs):
    """Built programs that are shell scripts."""
    for name, text in programs.items():
        write_script(text, room, "target", "bin", name)


def live(words):
    """A tool between two pipes."""
    return subprocess.Popen(words, stdin=subprocess.PIPE, stdout=subprocess.PIPE, stderr=subprocess.DEVNULL, bufsize=0,
                            start_new_session=True)


@contextlib.contextmanager
def ends_in(seconds, running):
    """Processes that would wait for ever are ended, with all that they started, so that their reader sees the end."""
    clock = threading.Timer(seconds, os.killpg, (running.pid, signal.SIGKILL))
    clock.start()
    try:
        yield
    finally:
        clock.cancel()


class Case(unittest.TestCase):
    def fails(self, done, status, words):
        """The tool ended so, with one line that has these words."""
        self.assertEqual(done.status, status, done)
        self.assertEqual(done.said.count("\n"), 1, done)
        self.assertIn(words, done.said)

    def works(self, done):
        self.assertEqual(done.status, 0, done)
        return done.out

    def repository(self, *names):
        """A folder with these tools and no more, which goes with the test."""
        room = tempfile.mkdtemp()
        self.addCleanup(shutil.rmtree, room)
        shutil.copytree(os.path.join(TOOLS, "lib"), os.path.join(room, "tools", "lib"))
        for name in names:
            shutil.copy(os.path.join(TOOLS, name), os.path.join(room, "tools"))
        return room

    def passes_on(self, words, pieces):
        """Each piece of input leads to its piece of output before the next one is given."""
        with live(words) as running, ends_in(LIVE_LIMIT, running):
            for given, wanted in pieces:
                running.stdin.write(given)
                got = b""
                while len(got) < len(wanted):
                    more = running.stdout.read(len(wanted) - len(got))
                    self.assertTrue(more, "ended after %r" % got)
                    got += more
                self.assertEqual(got, wanted)
            running.stdin.close()
            self.assertEqual(running.stdout.read(), b"")
