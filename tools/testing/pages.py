"""docs/RECORDS.md: its example's bytes are what the tools make of its lines, and what document 01 has."""
import re

import programs
import trial


class Pages(trial.Case):
    def setUp(self):
        self.blocks = dict(re.findall(r"```([a-z ]+)\n(.*?)```", trial.text_of(trial.ROOT, "docs", "RECORDS.md"), re.DOTALL))

    def test_lines_and_bytes(self):
        self.assertEqual(trial.records(self.blocks["lines"]), bytes.fromhex(self.blocks["bytes"]))

    def test_what_goes_out(self):
        """Example 6, which the test of the programs spells by itself."""
        self.assertEqual(programs.RECORDING[13:], bytes.fromhex(self.blocks["bytes of tp"]))
        self.assertEqual(programs.OUTPUT["c7list"].decode(), self.blocks["listing"])
