"""tools/cited and tools/corrections, each in a repository of its own."""
import os

import trial


class Cited(trial.Case):
    def cited(self, page):
        room = self.repository("cited")
        trial.write("  pub word : Bytes\n  word = 0\n", room, "crates", "golay", "specs", "Golay.antt")
        trial.write("pub fn encode(n: u16) -> u32 {\n", room, "crates", "golay", "src", "lib.rt")
        trial.write("", room, "crates", "golay", "wrong", "row.edit")
        trial.write(page, room, "docs", "PAGE.md")
        return trial.tool(os.path.join(room, "tools", "cited"))

    def test_all_there(self):
        done = self.cited("`golay.Golay.word`, `golay::encode`, `golay/row`; `other.Golay.no`, `other::no`, `docs/no`, `a b`")
        self.assertEqual(done, (0, b"cited: 3 citations, 0 not found\n", ""))

    def test_missing(self):
        for cite in ("golay.Golay.words", "golay.Other.word", "golay::enc", "golay/column"):
            done = self.cited("`golay::encode` and `%s`" % cite)
            told = "cited: not found: PAGE.md: %s\ncited: 2 citations, 1 not found\n" % cite
            self.assertEqual(done, (1, told.encode(), ""))


class Corrections(trial.Case):
    def test_the_crate_has_what_the_tool_makes(self):
        room = self.repository("corrections")
        golay = os.path.join(room, "crates", "golay")
        for folder, _, _ in os.walk(os.path.join(trial.ROOT, "crates", "golay")):
            os.makedirs(os.path.join(golay, os.path.relpath(folder, os.path.join(trial.ROOT, "crates", "golay"))))
        self.works(trial.tool(os.path.join(room, "tools", "corrections")))
        made = [os.path.relpath(os.path.join(folder, name), room) for folder, _, names in os.walk(golay) for name in names]
        self.assertTrue(made)
        for name in made:
            self.assertEqual(trial.text_of(room, name), trial.text_of(trial.ROOT, name), name)

    def test_no_place_for_it(self):
        room = self.repository("corrections")
        self.fails(trial.tool(os.path.join(room, "tools", "corrections")), 1, "cannot write")
