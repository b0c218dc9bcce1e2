"""tools/picture: the picture follows crates.txt, and a bad crates.txt is told."""
import os
import re

import trial


class Picture(trial.Case):
    def setUp(self):
        self.room = self.repository("picture")
        os.mkdir(os.path.join(self.room, "docs"))
        self.crates = trial.text_of(trial.ROOT, "crates.txt")

    def draw(self, crates, *words):
        trial.write(crates, self.room, "crates.txt")
        return trial.tool(os.path.join(self.room, "tools", "picture"), *words)

    def drawn(self):
        return trial.text_of(self.room, "docs", "house.svg")

    def test_every_crate_is_drawn_once(self):
        self.works(self.draw(self.crates))
        names = re.findall(r"^(\w+)(?: staticlib)?:", self.crates, re.MULTILINE)
        for name in names:
            self.assertEqual(self.drawn().count(">%s</text>" % name), 1, name)
        self.assertEqual(self.drawn().count("<rect x="), len(names) + 3)  # and the three that explain the colours

    def test_check(self):
        self.fails(self.draw(self.crates, "--check"), 1, "cannot read")
        self.works(self.draw(self.crates))
        self.works(self.draw(self.crates, "--check"))
        more = self.crates + "attic: c7send\n"
        self.fails(self.draw(more, "--check"), 1, "docs/house.svg is not what crates.txt gives")
        self.works(self.draw(more))
        self.works(self.draw(more, "--check"))
        self.assertIn(">attic</text>", self.drawn())

    def test_rows(self):
        """What stands on another is drawn above it."""
        self.works(self.draw(self.crates))
        height = {name: int(y) for y, name in re.findall(r'y="(\d+)" font-size="14" [^>]*>(\w+)</text>', self.drawn())}
        for name, direct in re.findall(r"^(\w+)(?: staticlib)?:(.*)", self.crates, re.MULTILINE):
            for one in direct.split():
                self.assertTrue(one not in height or height[name] < height[one], (name, one))

    def test_bad_crates(self):
        self.fails(self.draw("# nothing\n"), 1, "crates.txt: it names no crate")
        self.fails(self.draw(self.crates + "golay:\n"), 1, "crates.txt: line %d: not a new crate" % (self.crates.count("\n") + 1))
        self.fails(self.draw("golay wire\n"), 1, "crates.txt: line 1: not a new crate")
        self.fails(self.draw(self.crates.replace("golay:", "golay: wire")), 1, "crates.txt: a crate stands on itself")
        without = re.sub(r"\bqueue\b", "ring", self.crates)
        self.fails(self.draw(without), 1, "c7send doesn't stand on queue: the way of a byte in tools/picture is wrong")
