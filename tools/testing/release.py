"""tools/release, over stand-ins for the library and the programs: what it holds, that its sums are right, what is missing."""
import gzip
import hashlib
import io
import os
import shutil
import tarfile

import trial

PROGRAMS = ["c7send", "c7list", "c7read", "c7pack", "c7unpack", "c7index", "c7at"]
PAGES = ["LIBRARY.md", "NOTICES.md", "RECORDS.md", "INDEX.md"]


class Release(trial.Case):
    def setUp(self):
        self.room = self.repository("release")
        for folder in ("include", "examples", "rust"):
            shutil.copytree(os.path.join(trial.ROOT, folder), os.path.join(self.room, folder),
                            ignore=shutil.ignore_patterns("build", "target"))
        for page in PAGES:
            trial.write("# %s\n" % page, self.room, "docs", page)
        trial.write("an archive", self.room, "target", "staticlib", "libjenugathi.a")
        trial.stand_in_programs(self.room, dict.fromkeys(PROGRAMS, "exit 0"))
        self.env = trial.stand_in_kit(self.room, "echo kit-of-tests")
        self.archive = os.path.join(self.room, "release.tar.gz")

    def release(self, *words):
        return trial.run([os.path.join(self.room, "tools", "release"), *words], env=self.env)

    def held(self):
        """Path to (mode, bytes) in the archive."""
        with open(self.archive, "rb") as file, tarfile.open(fileobj=io.BytesIO(gzip.decompress(file.read()))) as tar:
            return {entry.name: (entry.mode, tar.extractfile(entry).read()) for entry in tar}

    def test_what_it_holds(self):
        trial.write("built", self.room, "examples", "build", "listing")
        self.works(self.release(self.archive))
        held = self.held()
        self.assertEqual({name.split("/")[0] for name in held}, {"jenugathi-x86_64"})
        names = {name.split("/", 1)[1] for name in held}
        wanted = {"bin/" + name for name in PROGRAMS} | {"docs/" + name for name in PAGES}
        wanted |= {"lib/libjenugathi.a", "include/jenugathi.h", "include/jenugathi.hpp", "examples/Makefile",
                   "examples/c/listing.c", "examples/c/udp.c", "examples/cpp/listing.cpp", "rust/Cargo.toml",
                   "rust/src/lib.rs", "NOTICE", "SHA256SUMS"}
        self.assertEqual(wanted - names, set())
        self.assertNotIn("examples/build/listing", names)
        self.assertEqual({mode for name, (mode, _) in held.items() if "/bin/" in name}, {0o755})
        self.assertIn(b"kit-of-tests", held["jenugathi-x86_64/NOTICE"][1])

    def test_sums(self):
        self.works(self.release(self.archive))
        held = {name.split("/", 1)[1]: data for name, (_, data) in self.held().items()}
        lines = held.pop("SHA256SUMS").decode().splitlines()
        self.assertEqual(dict(line.split("  ")[::-1] for line in lines),
                         {name: hashlib.sha256(data).hexdigest() for name, data in held.items()})

    def test_the_same_again(self):
        other = self.archive + ".again"
        for path in (self.archive, other):
            self.works(self.release(path))
        with open(self.archive, "rb") as one, open(other, "rb") as two:
            self.assertEqual(one.read(), two.read())

    def test_what_is_missing(self):
        os.remove(os.path.join(self.room, "target", "bin", "c7at"))
        self.fails(self.release(self.archive), 1, "No such file or directory; 'tools/build c7at' makes it")
        os.remove(os.path.join(self.room, "target", "staticlib", "libjenugathi.a"))
        self.fails(self.release(self.archive), 1, "'tools/library' makes it")
        self.assertFalse(os.path.exists(self.archive))

    def test_asked_wrongly(self):
        self.fails(self.release(), 2, "which archive?")
        self.fails(self.release(os.path.join(self.room, "no", "such", "folder")), 1, "cannot write")
