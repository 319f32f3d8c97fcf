#!/usr/bin/env python3
"""Tests of tools/show_pack and of the rules in tools/run_pack.py: there and back, and what is said of broken packs."""

import pathlib
import random
import subprocess
import sys
import tempfile
import unittest

sys.dont_write_bytecode = True

# pylint: disable=wrong-import-position
import run_pack
from programs import ROOT, TOOLS, load

PROGRAM = TOOLS / "show_pack"
MAKE = load("make_pack")
SHOW = load("show_pack")
SAMPLES = ROOT / "samples"

# The pack of document 01's example, byte by byte.
EXAMPLE = bytes([3, 13, 0, 10, 0, 23, 0, 9, 0, 32, 0, 7, 0])
EXAMPLE += bytes([1, 10, 0, 100, 0, 10, 0, 2, 0xF9, 0x06]) + bytes(range(1, 10)) + bytes([3, 6, 1, 3, 1, 3, 6])
SHOWN = """\
gap 1
sender timeout 10
sending time 100
receiver timeout 10
window 2
capacity 1785
message 9 counting

forward hear, back hear                 # events 1 to 2
2 times: sender tick, forward hear      # events 3 to 6
back hear                               # event 7
"""


def word(value):
    return value.to_bytes(2, "little")


def packed(settings, message, events):
    """A pack of these bodies, laid out apart from make_pack."""
    places = [13, 13 + len(settings), 13 + len(settings) + len(message)]
    table = b"".join(word(at) + word(len(body)) for at, body in zip(places, (settings, message, events)))
    return b"\x03" + table + settings + message + events


def no_hint(text):
    raise AssertionError(f"a hint: {text}")


def back(text):
    return MAKE.make_pack(text.splitlines(), "shown", no_hint)


class ThereAndBack(unittest.TestCase):
    def test_example(self):
        self.assertEqual(SHOW.description(EXAMPLE), SHOWN)
        self.assertEqual(back(SHOWN), EXAMPLE)

    def test_samples(self):
        shown = 0
        for path in sorted(SAMPLES.glob("*.pack")):
            pack = path.read_bytes()
            if not run_pack.broken(pack):
                self.assertEqual(back(SHOW.description(pack)), pack, path.name)
                shown += 1
        self.assertGreater(shown, 40)

    def test_random_packs(self):
        draw = random.Random(12)
        for _ in range(400):
            self.there_and_back(packed(draw.randbytes(10), self.message(draw), self.events(draw)))

    def test_largest(self):
        draw = random.Random(13)
        events = bytes(draw.randint(1, 8) for _ in range(65535 - 13 - 10 - 1))
        self.there_and_back(packed(draw.randbytes(10), b"\x5a", events))
        self.there_and_back(packed(draw.randbytes(10), draw.randbytes(65535 - 13 - 10), b""))

    def there_and_back(self, pack):
        text = SHOW.description(pack)
        self.assertEqual(back(text), pack, text)

    def message(self, draw):
        length = draw.choice([0, 1, 2, 7, 8, 9, 31, 32, 33, 64, 65, 1785, 1786, 3000])
        counting = bytes((place + 1) % 256 for place in range(length))
        return draw.choice([draw.randbytes(length), draw.randbytes(1) * length, counting, counting[:-1] + b"\0"])

    def events(self, draw):
        """Events with runs and with stretches that come again."""
        events = b""
        for _ in range(draw.randint(0, 6)):
            stretch = b"".join(bytes([draw.randint(1, 8)]) * draw.choice([1, 1, 2, 30]) for _ in range(draw.randint(1, 14)))
            events += stretch * draw.choice([1, 1, 2, 3, 50])
        return events


class Shown(unittest.TestCase):
    """How single things are shown."""

    def lines(self, settings=EXAMPLE[13:23], message=b"\x01\x02", events=b""):
        return SHOW.description(packed(settings, message, events)).splitlines()

    def test_messages(self):
        for message, expected in {
            b"": ["empty # refused 2: the message has 0 bytes, and its limits are 1 to 1785"],
            b"\x20": ["1 of 20"],
            b"\xab" * 9: ["9 of AB"],
            b"\x01\x02\x03": ["3 counting"],
            b"\x02\x01\x0f": ["02 01 0F"],
            bytes(1786): ["1786 of 00 # refused 2: the message has 1786 bytes, and its limits are 1 to 1785"],
            bytes(range(34)): [bytes(range(32)).hex(" ").upper(), "20 21"],
        }.items():
            lines = [" ".join(line.split()) for line in self.lines(message=message)[6:]]
            first, *more = expected
            self.assertEqual(lines, [f"message {first}"] + [f"more {form}" for form in more])

    def test_settings_outside_their_limits(self):
        settings = bytes([11]) + word(10001) + word(0) + word(10000) + bytes([0]) + word(8)
        marks = [line.partition("# ")[2] for line in self.lines(settings=settings)[:6]]
        expected = [
            "refused 1: the gap is 11, and its limits are 1 to 10",
            "refused 1: the sender timeout is 10001, and its limits are 1 to 10000",
            "refused 1: the sending time is 0, and its limits are 1 to 60000",
            "",
            "refused 1: the window is 0, and its limits are 1 to 255",
            "refused 1: the capacity is 8, and its limits are 9 to 1785",
        ]
        self.assertEqual(marks, expected)

    def test_events(self):
        for events, expected in {
            b"": [],
            b"\x01\x01\x01": ["sender tick x 3 # events 1 to 3"],
            b"\x01\x02\x03\x04\x05\x06\x07\x08": [
                "sender tick, receiver tick, forward hear, forward lose, forward repeat # events 1 to 5",  # 70 characters
                "back hear, back lose, back repeat # events 6 to 8",
            ],
            b"\x05" + b"\x01\x03\x03" * 4 + b"\x06": [
                "forward repeat # event 1",
                "4 times: sender tick, forward hear x 2 # events 2 to 13",
                "back hear # event 14",
            ],
        }.items():
            lines = [" ".join(line.split()) for line in self.lines(events=events)[8:]]
            self.assertEqual(lines, expected)


class Broken(unittest.TestCase):
    # The offset and what is said of every sample that is refused 12.
    SAMPLES = {
        "refused-12-before-1": (39, "event 8 is 9, and events are 1 to 8"),
        "refused-12-before-2": (30, "event 8 is 0, and events are 1 to 8"),
        "refused-count": (0, "the count byte is 4, not 3"),
        "refused-cut": (11, "the table has the end of the events at 39, and the pack ends at 38"),
        "refused-cut-in-table": (12, "the pack ends within the contents table, which goes to offset 13"),
        "refused-event-0": (39, "event 8 is 0, and events are 1 to 8"),
        "refused-event-9": (39, "event 8 is 9, and events are 1 to 8"),
        "refused-gap-between": (9, "the table has the events at 32, and the message before ends at 31"),
        "refused-offset": (1, "the table has the settings at 14, and the contents table before ends at 13"),
        "refused-order": (1, "the table has the settings at 22, and the contents table before ends at 13"),
        "refused-overlap": (9, "the table has the events at 31, and the message before ends at 32"),
        "refused-past-end": (11, "the table has the end of the events at 40, and the pack ends at 39"),
        "refused-settings-long": (3, "the table gives the settings 11 bytes, not 10"),
        "refused-settings-short": (3, "the table gives the settings 9 bytes, not 10"),
        "refused-trailing": (39, "the events end here by the table, and the pack at 40"),
    }

    def test_samples(self):
        """Each sample is refused as its stored output says, and for the rule that it shows."""
        broken = {}
        for path in sorted(SAMPLES.glob("*.pack")):
            pack = path.read_bytes()
            out = path.with_suffix(".out").read_text()
            fault = run_pack.refused(pack)
            self.assertEqual(out if out.startswith("refused") else None, fault and f"refused {fault.refusal}\n", path.name)
            if run_pack.broken(pack):
                broken[path.stem] = tuple(run_pack.broken(pack)[1:])
        self.assertEqual(broken, self.SAMPLES)

    def test_sizes(self):
        largest = packed(bytes(10), b"", b"\x01" * (65535 - 13 - 10))
        self.assertIsNone(run_pack.broken(largest))
        over = run_pack.Fault(12, 65535, "the pack goes on after 65535 bytes, the most that one has")
        self.assertEqual(run_pack.broken(largest + b"\x01"), over)
        self.assertEqual(run_pack.broken(b""), (12, 0, "the pack is empty"))
        within = "the pack ends within the contents table, which goes to offset 13"
        self.assertEqual(run_pack.broken(EXAMPLE[:1]), (12, 1, within))
        after = "the table has the end of the settings at 23, and the pack ends at 13"
        self.assertEqual(run_pack.broken(EXAMPLE[:13]), (12, 3, after))

    def test_places(self):
        """A setting and a message that are refused are found at their offsets."""
        for name, offset in {
            "refused-gap-0": 13,
            "refused-sender-timeout-0": 14,
            "refused-sending-time-60001": 16,
            "refused-receiver-timeout-10001": 18,
            "refused-window-0": 20,
            "refused-capacity-8": 21,
            "refused-1-before-2": 21,
            "refused-message-empty": 23,
        }.items():
            self.assertEqual(run_pack.refused((SAMPLES / f"{name}.pack").read_bytes()).offset, offset, name)


class Program(unittest.TestCase):
    def run_program(self, *arguments, data=b"", **more):
        done = subprocess.run([PROGRAM, *arguments], input=data, stderr=subprocess.PIPE, check=False, **more)
        return done.returncode, done.stdout, done.stderr.decode()

    def test_shown(self):
        example = SAMPLES / "document-01.pack"
        for arguments, data in (((example,), b""), ((), EXAMPLE), (("-",), EXAMPLE)):
            answer = self.run_program(*arguments, data=data, stdout=subprocess.PIPE)
            self.assertEqual(answer, (0, SHOWN.encode(), ""))
        out = self.run_program(SAMPLES / "refused-gap-0.pack", stdout=subprocess.PIPE)[1]
        self.assertIn(b"gap 0                                   # refused 1: the gap is 0", out)

    def test_broken(self):
        with tempfile.TemporaryDirectory() as folder:
            path = pathlib.Path(folder) / "mine.pack"
            path.write_bytes(EXAMPLE[:38])
            said = f"{path}: offset 11: the table has the end of the events at 39, and the pack ends at 38\n"
            self.assertEqual(self.run_program(path, stdout=subprocess.PIPE), (1, b"", said))
        said = "standard input: offset 0: the pack is empty\n"
        self.assertEqual(self.run_program(stdout=subprocess.PIPE), (1, b"", said))
        said = "/dev/zero: offset 65535: the pack goes on after 65535 bytes, the most that one has\n"
        self.assertEqual(self.run_program("/dev/zero", stdout=subprocess.PIPE), (1, b"", said))

    def test_usage_and_failures(self):
        status, out, _ = self.run_program("--help", stdout=subprocess.PIPE)
        self.assertEqual((status, out), (0, SHOW.__doc__.encode()))
        for arguments in (("a", "b"), ("-x",), ("--other", "a")):
            status, out, said = self.run_program(*arguments, stdout=subprocess.PIPE)
            self.assertEqual((status, out), (2, b""))
            self.assertIn("\nusage: tools/show_pack [FILE]", said)
        said = "show_pack: no-such-file: No such file or directory\n"
        self.assertEqual(self.run_program("no-such-file", stdout=subprocess.PIPE), (2, b"", said))
        self.assertEqual(self.run_program(TOOLS, stdout=subprocess.PIPE), (2, b"", f"show_pack: {TOOLS}: Is a directory\n"))
        with open("/dev/full", "wb") as full:
            said = "show_pack: standard output: No space left on device\n"
            self.assertEqual(self.run_program("-", data=EXAMPLE, stdout=full), (2, None, said))


if __name__ == "__main__":
    unittest.main()
