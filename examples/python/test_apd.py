"""Tests of apd.py: the policies over captures, each beside policy_capture of examples/c, and each call once.

POLICY_CAPTURE names the built policy_capture, and LIBAPD the library: tools/c-trial gives both.
"""
import os
import pathlib
import re
import struct
import subprocess
import tempfile
import tomllib
import unittest

import apd

TOP = pathlib.Path(__file__).resolve().parents[2]
POLICY_CAPTURE = os.environ.get("POLICY_CAPTURE", str(TOP / "examples/c/out/policy_capture"))
HOOKS = {"assoc": apd.ASSOCIATION, "addba": apd.ADDBA, "data": apd.DATA}
AP, STATION = bytes.fromhex("020000000001"), bytes.fromhex("02000000000a")
AUTHENTICATION = bytes.fromhex("b000000002000000000102000000000a0200000000011000000001000000")
ASSOCIATION = bytes.fromhex("0000000002000000000102000000000a020000000001200001000a0000036c6162010482848b96")
ADDBA = bytes.fromhex("d000000002000000000102000000000a020000000001400003000702010a004006")
VOICE = bytes.fromhex("8801000002000000000102000000000a0200000000ff30000000aaaa03000000080045b800140000")
ARP = bytes.fromhex("8801000002000000000102000000000a0200000000ff60000000aaaa030000000806")
# mov r0, 7; exit
SEVEN = bytes.fromhex("b7000000070000009500000000000000")


def policies():
    """Each policy: its name, its hook, its code and the shapes of its maps."""
    for source in sorted((TOP / "policies").glob("*.c")):
        hook = re.search(r"^ \* Hook: ([a-z]*)\.", source.read_text(), re.M)[1]
        config = source.with_suffix(".toml")
        maps = tomllib.loads(config.read_text()).get("map", []) if config.exists() else []
        shapes = [apd.Shape(it["entries"], it["words"], it["width"]) for it in maps]
        yield source.stem, hook, bytes.fromhex(source.with_suffix(".hex").read_text()), shapes


def capture_of(packets, link):
    """A capture file of these packets."""
    head = struct.pack("<IHHiIII", 0xA1B2C3D4, 2, 4, 0, 0, 65535, link)
    return head + b"".join(struct.pack("<IIII", 0, 0, len(it), len(it)) + it for it in packets)


def frames_in(capture):
    """The numbers and frames of a capture file, without radiotap headers (each here has flags alone) and check sequences, and without those received damaged."""
    link, at, number = struct.unpack_from("<I", capture, 20)[0], 24, 0
    while at < len(capture):
        (length,) = struct.unpack_from("<I", capture, at + 8)
        packet, at, number = capture[at + 16 : at + 16 + length], at + 16 + length, number + 1
        if link == 127:
            flags = packet[8]
            if flags & 64:
                continue
            packet = packet[packet[2] : -4 if flags & 16 else None]
        yield number, packet


def hook_for(frame):
    kind = frame[0] & 0xFC
    if kind & 0x0C == 0x08:
        return "data"
    if kind in (0x00, 0x20):
        return "assoc"
    return "addba" if kind == 0xD0 and frame[24:26] == b"\3\0" else None


def context_of(hook, frame):
    """What policy_capture tells of a frame."""
    station, tid, state = frame[10:16], apd.NO_TID, 3
    if hook == "assoc":
        numbers, state = (*struct.unpack_from("<HH", frame, 24), frame[0] & 0xFC == 0x20), 2
    elif hook == "addba":
        asked, timeout, start = struct.unpack_from("<HHH", frame, 27)
        numbers, tid = (asked >> 6, timeout, start >> 4), asked >> 2 & 7
    else:
        tid = frame[24] & 7 if frame[0] & 0x80 else tid
        numbers = (struct.unpack_from("<H", frame, 22)[0] >> 4, 0, 0)
    return apd.context(HOOKS[hook], station, state, tid=tid, numbers=numbers)


def judged(hook, code, shapes, capture):
    """What policy_capture prints."""
    program, maps, longer = apd.verify(HOOKS[hook], code, shapes), apd.Maps(shapes, draw=1), 0
    lines = [f"accepted budget {program.budget}"]
    for number, frame in frames_in(capture):
        longer += len(frame) > 2400
        if len(frame) <= 2400 and hook_for(frame) == hook:
            report = apd.run(program, maps, frame, context_of(hook, frame))
            notes = "".join(f" note {note}" for note in report.notes)
            lines.append(f"frame {number} r0 {report.r0} steps {report.steps}{notes}")
    lines += [f"skipped {longer} frames of more than 2400 bytes"] * (longer > 0)
    for word in range(shapes[0].entries * shapes[0].words if shapes else 0):
        value = maps.load(0, word)
        lines += [f"word {word} {value}"] * (value > 0)
    return lines


class Policies(unittest.TestCase):
    def beside(self, path):
        count = 0
        for name, hook, code, shapes in policies():
            words = [hook, str(TOP / f"policies/{name}.hex"), path, *map(str, shapes[0] if shapes else ())]
            wanted = subprocess.run([POLICY_CAPTURE, *words], check=True, capture_output=True, text=True).stdout
            with self.subTest(name):
                self.assertEqual(judged(hook, code, shapes, pathlib.Path(path).read_bytes()), wanted.splitlines())
            count += 1
        self.assertEqual(count, 13)

    def test_capture(self):
        self.beside(str(TOP / "examples/voice.pcap"))

    def test_radiotap(self):
        """Frames behind radiotap headers: some with a check sequence, one received damaged, and one that is too long."""
        plain, checked = bytes.fromhex("000009000200000000"), bytes.fromhex("000009000200000010")
        damaged = bytes.fromhex("000009000200000050")
        packets = [plain + ASSOCIATION, checked + ADDBA + b"\1\2\3\4", checked + VOICE + b"\1\2\3\4", plain + ARP,
                   damaged + VOICE + b"\1\2\3\4", plain + VOICE + bytes(2400)]
        with tempfile.NamedTemporaryFile(suffix=".pcap") as file:
            file.write(capture_of(packets, 127))
            file.flush()
            self.beside(file.name)


class Calls(unittest.TestCase):
    def refused(self, number, call, *arguments, **named):
        with self.assertRaises(apd.Refused) as caught:
            call(*arguments, **named)
        self.assertEqual(caught.exception.number, number)

    def test_programs(self):
        program = apd.verify(apd.DATA, SEVEN)
        again = apd.check(apd.DATA, SEVEN, program.certificate())
        self.assertEqual((program.budget, again.budget), (2, 2))
        self.refused(30, apd.verify, apd.DATA, SEVEN[8:])
        self.refused(36, apd.verify, apd.DATA, SEVEN, states=1)
        self.refused(36, apd.verify, apd.DATA, SEVEN, work=159)
        self.assertEqual(apd.verify(apd.DATA, SEVEN, work=160).budget, 2)
        self.refused(36, apd.check, apd.DATA, SEVEN, program.certificate(), work=159)
        self.assertEqual(apd.check(apd.DATA, SEVEN, program.certificate(), work=160).budget, 2)
        self.refused(71, apd.check, apd.ADDBA, SEVEN, program.certificate())
        self.refused(90, apd.verify, 4, SEVEN)
        self.refused(90, apd.verify, apd.DATA, SEVEN, [apd.Shape(1, 1, 5)])

    def test_runs(self):
        program, maps = apd.verify(apd.DATA, SEVEN), apd.Maps()
        self.assertEqual(apd.run(program, maps, b"", apd.context(apd.DATA)), apd.Report(7, 2, []))
        self.refused(95, apd.run, program, maps, b"", apd.context(apd.ADDBA))
        self.refused(90, apd.run, program, maps, bytes(2401), apd.context(apd.DATA))
        self.refused(93, apd.run, program, apd.Maps([apd.Shape(1, 1, 8)]), b"", apd.context(apd.DATA))
        program.free()
        self.refused(91, apd.run, program, maps, b"", apd.context(apd.DATA))

    def test_maps(self):
        with apd.Maps([apd.Shape(2, 1, 4)]) as maps:
            maps.store(0, 1, 2**32 + 5)
            self.assertEqual((maps.fetch_add(0, 1, 3), maps.load(0, 1), maps.load(0, 0)), (5, 8, 0))
            self.refused(90, maps.load, 0, 2)

    def test_explain(self):
        self.assertEqual(apd.explain(32), "an access may leave its region")
        self.assertEqual(apd.explain(95), "the program is for another hook")
        self.assertEqual(apd.explain(4), "")
        self.assertRegex(str(apd.Refused(32, 5)), "^32 at 5: an access")

    def test_why(self):
        """What `apd verify --explain` says, as recorded."""
        sessions, count = TOP / "crates/uses_apd", 0
        recorded = (sessions / "stdout").read_text()
        asked = re.findall(r"^\$ apd verify (\w+) (\S+\.hex) --explain\n(.*\n)((?:! .*\n)*)", recorded, re.M)
        for hook, name, answer, told in asked:
            try:
                code = bytes.fromhex((sessions / "data" / name).read_text())
            except (FileNotFoundError, ValueError):
                continue
            wanted = [line[2:] for line in told.splitlines() if not line.startswith(("! apd: slot", "! apd: no "))]
            with self.subTest(name):
                self.assertEqual(apd.why(HOOKS[hook], code).splitlines(), wanted)
            count += 1
        self.assertGreater(count, 20)
        self.assertEqual(apd.why(4, SEVEN[8:]), "")
        self.assertEqual(apd.why(apd.DATA, SEVEN[8:], [apd.Shape(1, 1, 5)]), "")
        self.assertIn("36", str(apd.Refused(36)))
        self.assertNotEqual(apd.why(apd.DATA, SEVEN, states=1), apd.why(apd.DATA, SEVEN))

    def test_lists(self):
        with apd.Link(AP, b"lab", bytes.fromhex("82848b96")) as link:
            self.assertEqual((link.stations(), link.agreements()), ([], []))
            link.frame(AUTHENTICATION)
            self.assertEqual(link.stations(), [apd.Station(STATION, 2, 0)])
            link.frame(ASSOCIATION)
            (known,) = link.stations()
            self.assertEqual((known.station, known.state), (STATION, 3))
            self.assertTrue(1 <= known.aid <= 2007)
            link.frame(ADDBA)
            (agreement,) = link.agreements()
            self.assertEqual((agreement.station, agreement.held), (STATION, 0))
            self.assertTrue(1 <= agreement.size <= 64)
            link.close_agreement(STATION, agreement.tid)
            self.assertEqual(link.agreements(), [])
            link.kick(STATION, 1)
            self.assertEqual(link.stations(), [])

    def test_link(self):
        with apd.Link(AP, b"lab", bytes.fromhex("82848b96")) as link:
            link.load(apd.verify(apd.DATA, SEVEN))
            self.assertEqual([out.kind for out in link.frame(AUTHENTICATION)], [apd.SEND])
            self.assertEqual([out.kind for out in link.frame(ASSOCIATION)], [apd.SEND])
            # (the low two bits of 7 drop data)
            self.assertEqual(link.frame(VOICE), [])
            link.unload(apd.DATA)
            (up,) = link.frame(VOICE, user=2**64 - 1)
            self.assertEqual((up.kind, up.source, up.tid, up.body), (apd.UP, STATION, 0, VOICE[26:]))
            self.assertEqual(up.user, 2**64 - 1)
            self.assertEqual([(out.kind, out.user) for out in link.kick(STATION, 1, user=5)], [(apd.SEND, 5)])
            self.assertEqual([out.note for out in link.kick(STATION, 1)], [63])
            self.assertEqual(link.tick(1), [])
            self.refused(90, link.close_agreement, STATION, 8)
            self.refused(90, link.unload, 4)


if __name__ == "__main__":
    unittest.main()
