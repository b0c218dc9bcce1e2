"""tools/pcap: read back by this test, block by block, and by Wireshark's own reader where it is installed."""
import os
import shutil
import struct
import tempfile
import unittest
import zlib

import trial

ARP = bytes.fromhex("ffffffffffff 020000000001 0806 0001 0800 06 04 0001 020000000001 c0a80001 000000000000 c0a80002") + bytes(18)
FRAME = ARP + zlib.crc32(ARP).to_bytes(4, "little")
SPOILT = FRAME[:20] + b"\xff" + FRAME[21:]
IPV4 = bytes.fromhex("4500001c 00010000 4011f9d0 c0a80001 c0a80002 1234 5678 0008 0000")
IPV6 = bytes.fromhex("60000000 0008 11 40 20010db8000000000000000000000001 20010db8000000000000000000000002 1234 5678 0008 0000")
PACKETS = [("ordinary", 4, FRAME), ("low", 5, IPV4), ("ordinary", 5, IPV6), ("low", 4, SPOILT), ("ordinary", 1, b"\1\2\3"),
           ("ordinary", 2, b"\1"), ("low", 3, bytes(30)), ("low", 6, b"")]
RECORDS = trial.records("setup 64 0 100\n" + "".join("%s %d %s\n" % (sort, content, data.hex()) for sort, content, data in PACKETS))
LINKS = {4: 1, 5: 101, 1: 156, 2: 157, 3: 158, 6: 161}  # of the pcapng registry: Ethernet, raw IP, USER9, 10, 11 and 14


def options_in(data):
    found = {}
    while True:
        code, length = struct.unpack("<HH", data[:4])
        if code == 0:
            return found
        found[code] = data[4:4 + length]
        data = data[4 + (length + 3) // 4 * 4:]


def blocks_in(data):
    while data:
        kind, length = struct.unpack("<II", data[:8])
        assert length % 4 == 0 and struct.unpack("<I", data[length - 4:length])[0] == length
        yield kind, data[8:length - 4]
        data = data[length:]


class Pcap(trial.Case):
    def test_blocks(self):
        done = trial.tool("pcap", data=RECORDS)
        section, *blocks = blocks_in(self.works(done))
        self.assertEqual((section[0], section[1][:8]), (0x0A0D0D0A, struct.pack("<IHH", 0x1A2B3C4D, 1, 0)))
        self.assertEqual(options_in(section[1][16:])[1], b"Chapter 7 carries no time: packet n has the time n seconds.")
        interfaces = [(struct.unpack("<H", body[:2])[0], options_in(body[8:])) for kind, body in blocks if kind == 1]
        packets = [body for kind, body in blocks if kind == 6]
        self.assertEqual(len(packets), len(PACKETS))
        for number, (body, (sort, content, data)) in enumerate(zip(packets, PACKETS), 1):
            interface, high, low, held, size = struct.unpack("<5I", body[:20])
            link, options = interfaces[interface]
            self.assertEqual((high, low, held, size, body[20:20 + size]), (0, number, len(data), len(data), data))
            self.assertEqual((link, options[2].decode()), (LINKS[content], "%s %d" % (sort, content)))
            self.assertEqual((options[9], options.get(13)), (b"\0", b"\4" if content == 4 else None))
        self.assertEqual(done.said, "tools/pcap: 8 packets. Chapter 7 carries no time: packet n has the time n seconds.\n")

    def test_what_is_no_input(self):
        for text, said in (("", "no setup record"), ("setup 64 0 100\ntp 00", "record at byte 13: a kind that has no place here"),
                           ("setup 64 0 100\nlow 7 00", "record at byte 13: content 7 is never handed out"),
                           ("setup 64 0 100\nraw c70701", "record at byte 13: cut short")):
            with self.subTest(text):
                self.fails(trial.tool("pcap", data=trial.records(text)), 1, said)

    def test_live(self):
        whole = self.works(trial.tool("pcap", data=RECORDS))
        start = self.works(trial.tool("pcap", data=RECORDS[:13]))
        self.passes_on(trial.words_of("pcap"), [(RECORDS[:13], start), (RECORDS[13:40], b""), (RECORDS[40:], whole[len(start):])])

    @unittest.skipUnless(shutil.which("tshark"), "there is no tshark here")
    def test_with_wireshark(self):
        wanted = [["ordinary 4", "64", "02:00:00:00:00:01", "ff:ff:ff:ff:ff:ff", "1", "", "", ""],
                  ["low 5", "28", "", "", "", "192.168.0.1", "192.168.0.2", ""],
                  ["ordinary 5", "48", "", "", "", "", "", "2001:db8::1"],
                  ["low 4", "64", "02:00:00:00:00:01", "ff:ff:ff:ff:ff:ff", "0", "", "", ""],
                  ["ordinary 1", "3"] + [""] * 6, ["ordinary 2", "1"] + [""] * 6, ["low 3", "30"] + [""] * 6,
                  ["low 6", "0"] + [""] * 6]
        protocols = ["eth:ethertype:arp", "raw:ip:udp", "raw:ipv6:udp", "eth:ethertype:arp"] + ["user_dlt:data"] * 3 + [""]
        fields = ["frame.interface_name", "frame.len", "eth.src", "eth.dst", "eth.fcs.status", "ip.src", "ip.dst", "ipv6.src",
                  "frame.protocols", "frame.time_epoch"]
        with tempfile.NamedTemporaryFile(suffix=".pcapng") as file:
            file.write(self.works(trial.tool("pcap", data=RECORDS)))
            file.flush()
            words = ["tshark", "-r", file.name, "-o", "eth.check_fcs:TRUE", "-T", "fields"]
            for field in fields:
                words += ["-e", field]
            lines = self.works(trial.run(words, env=dict(os.environ, LC_ALL="C"))).decode().splitlines()
        told = [line.split("\t") for line in lines]
        self.assertEqual([one[:8] for one in told], wanted)
        self.assertEqual([one[8] for one in told], protocols)
        self.assertEqual([float(one[9]) for one in told], [float(number) for number in range(1, 9)])
