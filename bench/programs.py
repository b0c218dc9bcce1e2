"""What is measured: our programs as rt built them, the tuned opponent and the second program, built for x86-64 with
gcc -O3; and the driver of calls, linked with each side's ends."""
import os
import re
import shutil
import subprocess
import sys
import time

from workloads import ROOT, load_tool

icount = load_tool("icount")

BENCH = os.path.join(ROOT, "target", "bench")
SECOND = os.path.join(BENCH, "c7")
TUNED = os.path.join(BENCH, "tuned")
LIBRARY = os.path.join(ROOT, "target", "staticlib", "libjenugathi.a")
COMPILER = "gcc"
PACKAGES = ["gcc", "libc6-dev", "valgrind"]


def lacks_something():
    """Whether a compiler, its static C library, or what tools/icount needs is missing."""
    for command in (COMPILER, "valgrind"):
        if shutil.which(command) is None:
            return True
    library = subprocess.run([COMPILER, "-print-file-name=libc.a"], capture_output=True, text=True).stdout
    return not os.path.isabs(library.strip())  # a library that is not there is answered without its folder


def install_missing():
    """Debian's packages; where they cannot be installed, says which."""
    if not lacks_something():
        return
    wanted = "bench/run: this needs Debian's packages " + " ".join(PACKAGES)
    root = [] if os.geteuid() == 0 else ["sudo"]
    if not all(map(shutil.which, root + ["apt-get"])):
        sys.exit(wanted)
    print(wanted + "; installing them", file=sys.stderr)
    subprocess.run(root + ["apt-get", "update"], stdout=subprocess.DEVNULL)
    subprocess.run(root + ["apt-get", "install", "-y", "--no-install-recommends"] + PACKAGES, stdout=subprocess.DEVNULL)
    if lacks_something():
        sys.exit(wanted)


def tell_unbuilt(folder, names):
    missing = [name for name in names if not os.access(os.path.join(folder, name), os.X_OK)]
    if missing:
        print("bench/run: not built yet: %s (tools/build %s)" % (", ".join(missing), " ".join(missing)), file=sys.stderr)


def sources_of_second():
    """The files that second/build names."""
    with open(os.path.join(ROOT, "second", "build"), encoding="utf-8") as file:
        return re.search(r"^sources='(.*)'$", file.read(), re.MULTILINE)[1].split()


def built(what, words, **where):
    os.makedirs(BENCH, exist_ok=True)
    if subprocess.run(words, **where).returncode != 0:
        sys.exit("bench/run: %s cannot be built" % what)


def in_bench(*names):
    return os.path.join(ROOT, "bench", *names)


def build_programs():
    second = [COMPILER, "-std=c17", "-O3", "-static"] + sources_of_second() + ["-o", SECOND]
    built("the second program", second, cwd=os.path.join(ROOT, "second"))
    tuned = [in_bench("tuned", "build"), COMPILER, TUNED, "-O3", "-flto", "-static", "-no-pie", "-fno-pie"]
    built("the tuned opponent", tuned)


def driver(side):
    return os.path.join(BENCH, "driver-" + side)


def build_drivers():
    """One for each side whose ends can be linked; each source by itself, as a caller of a library would."""
    second, tuned = os.path.join(ROOT, "second"), in_bench("tuned")
    sources = ["golay.c", "sender.c", "receiver.c"]
    linked = {"second": ("c7.h", [second], [os.path.join(second, one) for one in sources]),
              "tuned": ("c7.h", [tuned, second], [os.path.join(tuned, one) for one in sources])}
    if os.path.exists(LIBRARY):
        linked["ours"] = ("library.h", [os.path.join(ROOT, "include")], [LIBRARY])
    for side, (backend, folders, ends) in linked.items():
        words = [COMPILER, "-std=c17", "-O3", "-static", '-DBACKEND="%s"' % backend, "-I", in_bench("calls")]
        words += [word for folder in folders for word in ("-I", folder)]
        built("the driver of calls (%s)" % side, words + [in_bench("calls", "driver.c")] + ends + ["-o", driver(side)])


class Program:
    """One side's program for one end, and the cost of its start-up by what it reads then."""

    def __init__(self, path, *arguments):
        self.path, self.arguments = path, list(arguments)
        self.start_up = {}

    def exists(self):
        return os.access(self.path, os.X_OK)

    def count(self, data, output=os.devnull):
        with open(stored("input", data), "rb") as stdin, open(output, "wb") as stdout:
            return icount.count(self.path, self.arguments, stdin, stdout)

    def count_beyond_start_up(self, one, output):
        """Instructions and system calls of a run on an input, less those of its start."""
        if one.start not in self.start_up:
            self.start_up[one.start] = self.count(one.start)
        less, counted = self.start_up[one.start], self.count(one.data, output)
        return counted.instructions - less.instructions, counted.system_calls - less.system_calls

    def words(self):
        return [self.path, *self.arguments]

    def answer(self, data):
        return subprocess.run(self.words(), input=data, capture_output=True, check=True).stdout

    def seconds(self, path):
        with open(path, "rb") as stdin:
            begin = time.perf_counter()
            subprocess.run(self.words(), stdin=stdin, stdout=subprocess.DEVNULL, check=True)
            return time.perf_counter() - begin


def stored(name, data):
    path = os.path.join(BENCH, name)
    with open(path, "wb") as file:
        file.write(data)
    return path


def same_files(one, other):
    with open(one, "rb") as a, open(other, "rb") as b:
        return a.read() == b.read()
