"""demo/run with stand-ins for the kit and the programs' crates: it shows the proving, stops where it fails, and shows what was lost."""
import os
import shutil

import trial

# one packet for each transport packet: the byte behind its header
ONE_EACH = "tools/records -d | sed 's/^tp ........ \\(..\\).*/low 1 \\1/; /^gap/d' | tools/records"
PROGRAMS = {"c7send": "cat >/dev/null; tools/records tps", "c7list": "echo tp what content bytes", "c7read": ONE_EACH}
MADE = "target/bin/%s: proved and made"


class Demo(trial.Case):
    def demo(self, programs):
        room = self.repository("build", "records", "run", "wrap", "damage", "pcap")
        shutil.copytree(os.path.join(trial.ROOT, "demo"), os.path.join(room, "demo"))
        trial.write("setup 64 3 40\n" + "".join("tp 30000000 %02x*60\n" % number for number in range(1, 9)), room, "tps")
        trial.stand_in_crates(room, programs)
        return room, trial.run([os.path.join(room, "demo", "run")], env=trial.stand_in_kit(room))

    def test_flight(self):
        room, done = self.demo({**PROGRAMS, "c7pack": "exit 1 # not to be proved"})
        lines = self.works(done).decode().splitlines()
        self.assertEqual(lines[1:4], [MADE % name for name in PROGRAMS])
        self.assertIn("tools/damage: 8 transport packets, 3 bits flipped in each header word, 3 lost, 7 garbled", lines)
        title = next(line for line in lines if "came out" in line)
        beside = [line.split() for line in lines[lines.index(title) + 1:-1]]
        wanted = [["low", "1", "%02x" % number] for number in range(1, 9)]
        self.assertEqual(beside, [one + (["<"] if one[2] == "03" else one) for one in wanted])
        self.assertEqual(len(trial.tool("records", "-d", os.path.join(room, "target/demo/received.packets")).out.splitlines()), 8)

    def test_not_proved(self):
        room, done = self.demo({**PROGRAMS, "c7list": "exit 1 # not to be proved"})
        self.fails(done, 1, "demo/run: not proved; target/demo/proving.log tells why")
        self.assertEqual(done.out.decode().splitlines()[1:], [MADE % "c7send", MADE % "c7read"])
        self.assertEqual(trial.text_of(room, "target/demo/proving.log"), "rt: lines on c7list\ntools/build: c7list is not proved\n")
