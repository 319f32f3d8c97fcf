#!/usr/bin/env python3
"""Tests of tools/make_pack, and of the samples as far as they come from it."""

import os
import pathlib
import pty
import stat
import subprocess
import sys
import tempfile
import unittest

sys.dont_write_bytecode = True

# pylint: disable=wrong-import-position
from programs import ROOT, TOOLS, load

PROGRAM = TOOLS / "make_pack"
MAKE = load("make_pack")

SETTINGS = """\
gap 1
sender timeout 10
sending time 100
receiver timeout 10
window 2
capacity 1785
"""
NINE = "message 01 02 03 04 05 06 07 08 09\n"

# The pack of document 01's example, byte by byte.
HEAD = bytes([3, 13, 0, 10, 0, 23, 0, 9, 0, 32, 0, 7, 0])
BODIES = bytes([1, 10, 0, 100, 0, 10, 0, 2, 0xF9, 0x06]) + bytes(range(1, 10)) + bytes([3, 6, 1, 3, 1, 3, 6])
EVENTS = "forward hear\nback hear\nsender tick\nforward hear\nsender tick\nforward hear\nback hear\n"


def no_hint(text):
    raise AssertionError(f"a hint: {text}")


def pack(text, warn=no_hint):
    return MAKE.make_pack(text.splitlines(), "t", warn)


def body(text, name):
    """A body of the pack that the text describes, found by its table."""
    made = pack(text)
    row = 1 + 4 * MAKE.BODIES.index(name)
    offset, length = (int.from_bytes(made[at : at + 2], "little") for at in (row, row + 2))
    return made[offset : offset + length]


def events(text):
    return list(body(SETTINGS + NINE + text, "events"))


class Packs(unittest.TestCase):
    def test_example_of_document_01(self):
        self.assertEqual(pack(SETTINGS + NINE + EVENTS), HEAD + BODIES)

    def test_any_order_comments_and_blank_lines(self):
        lines = ("# head\n\n" + EVENTS + NINE + SETTINGS).replace("gap 1", "  gap   1   # one byte")
        self.assertEqual(pack(lines), HEAD + BODIES)

    def test_words_go_low_byte_first(self):
        text = "gap 255\nsender timeout 258\nsending time 65535\nreceiver timeout 1027\nwindow 0\ncapacity 513\n" + NINE
        expected = bytes([255, 2, 1, 255, 255, 3, 4, 0, 1, 2])
        self.assertEqual(body(text, "settings"), expected)

    def test_messages(self):
        for words, expected in {
            "5A": b"\x5a",
            "ff 0A": b"\xff\x0a",
            "02": b"\x02",
            "20 21": b"\x20\x21",
            "1 of 20": b"\x20",
            "3 counting": b"\x01\x02\x03",
            "0 counting": b"",
            "4 of 5A": b"\x5a" * 4,
            "empty": b"",
            "257 counting": bytes(range(1, 256)) + b"\x00\x01",
            "1786 of 00": bytes(1786),
        }.items():
            self.assertEqual(body(SETTINGS + f"message {words}\n", "message"), expected, words)

    def test_more(self):
        text = SETTINGS + "message 01 02\nmore 3 of 5A\nsender tick\nmore 20\nmore 2 counting\nmore empty\n"
        self.assertEqual(body(text, "message"), bytes([1, 2, 0x5A, 0x5A, 0x5A, 0x20, 1, 2]))
        self.assertEqual(body(text, "events"), b"\x01")

    def test_every_event(self):
        lines = "\n".join(MAKE.EVENTS)
        self.assertEqual(events(lines), [1, 2, 3, 4, 5, 6, 7, 8])
        self.assertEqual(
            list(MAKE.EVENTS),
            ["sender tick", "receiver tick"]
            + [f"{way} {deed}" for way in ("forward", "back") for deed in ("hear", "lose", "repeat")],
        )

    def test_repeated_events(self):
        self.assertEqual(events("sender tick x 3\nback hear, forward lose x 2"), [1, 1, 1, 6, 4, 4])
        self.assertEqual(events("2 times: sender tick, back repeat x 2\nreceiver tick"), [1, 8, 8, 1, 8, 8, 2])
        self.assertEqual(events("event 9 x 2, event 0"), [9, 9, 0])
        self.assertEqual(events(""), [])

    def test_damage(self):
        whole = HEAD + BODIES
        text = SETTINGS + NINE + EVENTS
        self.assertEqual(pack(text + "count 4"), b"\x04" + whole[1:])
        self.assertEqual(pack(text + "trailing 00 FF"), whole + b"\x00\xff")
        self.assertEqual(pack(text + "cut after 12"), whole[:12])
        self.assertEqual(pack(text + "cut after 0"), b"")
        for place, row in enumerate(MAKE.TABLE):
            at = 1 + 2 * place
            self.assertEqual(pack(text + f"{row} 772"), whole[:at] + b"\x04\x03" + whole[at + 2 :], row)

    def test_settings_body(self):
        made = pack("settings body 01 02\n" + NINE)
        self.assertEqual(made, bytes([3, 13, 0, 2, 0, 15, 0, 9, 0, 24, 0, 0, 0, 1, 2]) + bytes(range(1, 10)))

    def test_order(self):
        made = pack(SETTINGS + NINE + EVENTS + "order message settings events")
        head = bytes([3, 22, 0, 10, 0, 13, 0, 9, 0, 32, 0, 7, 0])
        self.assertEqual(made, head + BODIES[10:19] + BODIES[:10] + BODIES[19:])

    def test_largest(self):
        room = 65535 - 13 - 10 - 9
        self.assertEqual(len(pack(SETTINGS + NINE + f"back lose x {room}")), 65535)


class Refused(unittest.TestCase):
    def refused(self, text, expected):
        with self.assertRaises(MAKE.BadDescription) as caught:
            pack(text)
        self.assertEqual(str(caught.exception), expected)

    def test_lines(self):
        for line, expected in {
            "speed 5": "'speed 5' is no setting, message or event",
            "gap": "gap: one number is needed",
            "gap 1 2": "gap: one number is needed",
            "gap 256": "gap: 256 is over 255",
            "gap -1": "gap: '-1' is not a decimal number",
            "gap 1_0": "gap: '1_0' is not a decimal number",
            "capacity 65536": "capacity: 65536 is over 65535",
            "capacity " + "9" * 5000: "capacity: " + "9" * 5000 + " is over 65535",
            "count 256": "count: 256 is over 255",
            "event 256": "event: 256 is over 255",
            "event": "event: one number is needed",
            "events offset 70000": "events offset: 70000 is over 65535",
            "message": "message: bytes are needed, as in 01 5A FF",
            "message 0G": "message: '0G' is not a hexadecimal pair",
            "message x counting": "message length: 'x' is not a decimal number",
            "more 01": "more: a message has to stand before it",
            "trailing": "trailing: bytes are needed, as in 01 5A FF",
            "order message events": "order: settings, message and events are needed, each once",
            "order message events events settings": "order: settings, message and events are needed, each once",
            "sender tick x 0": "event count: 0 times",
            "sender tick x many": "event count: 'many' is not a decimal number",
            "sender tick,": "an event is missing",
            "0 times: sender tick": "times: 0 times",
            "thrice: sender tick": "'thrice:': only 'N times:' may stand before the events",
            "2 times:": "an event is missing",
            "60000 times: sender tick x 60000": "3600000000 events are more than a pack can hold",
        }.items():
            self.refused("# first\n" + line + "\n" + SETTINGS, "t:2: " + expected)

    def test_hints(self):
        nothing = "is no setting, message or event; did you mean"
        for line, expected in {
            "sender tick x2": f"'sender tick x2' {nothing} 'sender tick x 2'?",
            "sender tick X 2": f"'sender tick X 2' {nothing} 'sender tick x 2'?",
            "back hear, sender tick 12": f"'sender tick 12' {nothing} 'sender tick x 12'?",
            "forward hear 3 times": f"'forward hear 3 times' {nothing} 'forward hear x 3'?",
            "3 times sender tick, back hear": f"'3 times sender tick' {nothing} '3 times: sender tick'?",
            "3 sender tick": f"'3 sender tick' {nothing} '3 times: sender tick'?",
            "Sender tick": f"'Sender tick' {nothing} 'sender tick'?",
            "sendr tick": f"'sendr tick' {nothing} 'sender tick'?",
            "sender ticks x 4": f"'sender ticks' {nothing} 'sender tick'?",
            "hear forward": f"'hear forward' {nothing} 'forward hear'?",
            "foward lose x 2": f"'foward lose' {nothing} 'forward lose'?",
            "capcity 9": f"'capcity 9' {nothing} 'capacity'?",
            "timeout 9": f"'timeout 9' {nothing} 'sender timeout' or 'receiver timeout'?",
            "mesage 5 counting": f"'mesage 5 counting' {nothing} 'message'?",
            "gap: 1": "'gap:': only 'N times:' may stand before the events; did you mean 'gap 1'?",
            "gap 0x0A": "gap: '0x0A' is not a decimal number; did you mean '10'?",
            "message 0x01 02": "message: '0x01' is not a hexadecimal pair; did you mean '01'?",
            "message 01, 02": "message: '01,' is not a hexadecimal pair; did you mean '01'?",
            "message 5": "message: '5' is not a hexadecimal pair; did you mean '05' or 'message 5 counting'?",
            "message 5 of 5": "message: '5' is not a hexadecimal pair; did you mean '05'?",
            "message 1785": "message: '1785' is not a hexadecimal pair; did you mean 'message 1785 counting'?",
            "message 20 counted": "message: 'counted' is no word of it; did you mean 'message 20 counting'?",
        }.items():
            self.refused("# first\n" + line + "\n" + SETTINGS, "t:2: " + expected)

    def test_a_byte_that_may_be_a_length(self):
        hints = []
        made = pack(SETTINGS + "message 20\n", hints.append)
        self.assertEqual(made[-1:], b"\x20")
        hint = "t:7: message 20 is one byte, as 'message 1 of 20' is; did you mean 'message 20 counting'?"
        self.assertEqual(hints, [hint])

    def test_given_twice(self):
        for line in (SETTINGS + NINE + "count 3\ntrailing 00\nmessage length 9\ncut after 9").splitlines():
            name = line.rstrip("0123456789 ")
            self.refused(f"{line}\n\n{line}\n", f"t:3: {name} is given twice")

    def test_missing(self):
        for line in SETTINGS.splitlines():
            name = line.rstrip("0123456789 ")
            self.refused(NINE + SETTINGS.replace(line, ""), f"t: missing: {name}")
        self.refused(SETTINGS, "t: missing: message")
        self.refused("settings body 01\n", "t: missing: message")
        self.refused("window 1\n", "t: missing: gap, sender timeout, sending time, receiver timeout, capacity, message")
        self.refused("", "t: missing: gap, sender timeout, sending time, receiver timeout, window, capacity, message")

    def test_whole_pack(self):
        room = 65535 - 13 - 10 - 9
        over = SETTINGS + NINE + f"back lose x {room}\nsender tick"
        self.refused(over, "t: the pack has 65536 bytes, more than 65535")
        self.refused(SETTINGS + NINE + "back lose x 65535\nsender tick", "t:9: more than 65535 events")
        self.refused(SETTINGS + NINE + "cut after 33", "t: cut after 33: the pack has 32 bytes")
        self.refused(SETTINGS + NINE + "settings body 01", "t: settings body stands in place of gap; give one of them")


class Program(unittest.TestCase):
    def run_program(self, *arguments, text=""):
        done = subprocess.run([PROGRAM, *arguments], input=text.encode(), capture_output=True, check=False)
        return done.returncode, done.stdout, done.stderr.decode()

    def test_file_and_standard_input(self):
        text = SETTINGS + NINE + EVENTS
        self.assertEqual(self.run_program("-", text=text), (0, HEAD + BODIES, ""))
        self.assertEqual(self.run_program(text=text), (0, HEAD + BODIES, ""))
        with tempfile.NamedTemporaryFile("w", suffix=".txt") as file:
            file.write(text)
            file.flush()
            self.assertEqual(self.run_program(file.name), (0, HEAD + BODIES, ""))

    def test_bad_description(self):
        self.assertEqual(self.run_program("-", text="gap 300\n"), (2, b"", "standard input:1: gap: 300 is over 255\n"))
        with tempfile.NamedTemporaryFile("wb") as file:
            file.write(b"gap 1\n\xff\xff\n")
            file.flush()
            self.assertEqual(self.run_program(file.name), (2, b"", f"make_pack: {file.name}: not a text\n"))

    def test_usage(self):
        status, out, _ = self.run_program("--help")
        self.assertEqual(status, 0)
        self.assertIn(b"sender timeout 10", out)
        for arguments in (("a", "b"), ("--other",), ("-o",), ("-x", "a")):
            status, out, problem = self.run_program(*arguments)
            self.assertEqual((status, out), (2, b""))
            self.assertIn("\nusage: tools/make_pack [-o PACK] [FILE]", problem)
        problem = "make_pack: no-such-file: No such file or directory\n"
        self.assertEqual(self.run_program("no-such-file"), (2, b"", problem))


class Output(unittest.TestCase):
    """A pack goes to standard output or a file, and a failed write is told."""

    def setUp(self):
        folder = tempfile.TemporaryDirectory()
        self.addCleanup(folder.cleanup)
        self.folder = pathlib.Path(folder.name)
        self.good = self.folder / "good.txt"
        self.good.write_text(SETTINGS + NINE + EVENTS)
        self.pack = self.folder / "made.pack"

    def make(self, *arguments, **more):
        return subprocess.run([PROGRAM, *arguments], stderr=subprocess.PIPE, text=True, check=False, **more)

    def names(self):
        return sorted(path.name for path in self.folder.iterdir())

    def test_a_new_file(self):
        for arguments in (("-o", self.pack, self.good), (self.good, f"-o{self.pack}")):
            done = self.make(*arguments, umask=0o022)
            self.assertEqual((done.returncode, done.stderr), (0, ""))
            self.assertEqual(self.pack.read_bytes(), HEAD + BODIES)
            self.assertEqual(stat.S_IMODE(self.pack.stat().st_mode), 0o644)
            self.assertEqual(self.names(), ["good.txt", "made.pack"])
            self.pack.unlink()

    def test_an_error_leaves_what_was_there(self):
        bad = self.folder / "bad.txt"
        bad.write_text("gap 1\n")
        self.assertEqual(self.make("-o", self.pack, bad).returncode, 2)
        self.assertEqual(self.names(), ["bad.txt", "good.txt"])
        self.pack.write_bytes(b"before")
        self.assertEqual(self.make("-o", self.pack, bad).returncode, 2)
        self.assertEqual(self.pack.read_bytes(), b"before")
        self.assertEqual(self.make("-o", self.pack, self.good).returncode, 0)
        self.assertEqual(self.pack.read_bytes(), HEAD + BODIES)

    def test_a_write_that_fails_half_way(self):
        """No file may grow: the pack's bytes are refused after its file was opened."""
        self.pack.write_bytes(b"before")
        limit = ["sh", "-c", 'ulimit -f 0; trap "" XFSZ; exec "$@"', "sh", PROGRAM, "-o", self.pack, self.good]
        done = subprocess.run(limit, stderr=subprocess.PIPE, text=True, check=False)
        self.assertEqual((done.returncode, done.stderr), (2, f"make_pack: {self.pack}: File too large\n"))
        self.assertEqual(self.pack.read_bytes(), b"before")
        self.assertEqual(self.names(), ["good.txt", "made.pack"])

    def test_a_link_stays_one(self):
        link = self.folder / "link"
        link.symlink_to(self.pack)
        self.assertEqual(self.make("-o", link, self.good).returncode, 0)
        self.assertTrue(link.is_symlink())
        self.assertEqual(self.pack.read_bytes(), HEAD + BODIES)

    def test_a_failed_write_is_told(self):
        full = "No space left on device"
        self.assertEqual(self.failed("-o", "/dev/full"), f"make_pack: /dev/full: {full}\n")
        self.assertTrue(stat.S_ISCHR(os.stat("/dev/full").st_mode))
        self.assertEqual(self.failed("-o", self.folder), f"make_pack: {self.folder}: Is a directory\n")
        nowhere = self.folder / "no" / "pack"
        self.assertEqual(self.failed("-o", nowhere), f"make_pack: {nowhere}: No such file or directory\n")
        with open("/dev/full", "wb") as out:
            self.assertEqual(self.failed(stdout=out), f"make_pack: standard output: {full}\n")
        closed = subprocess.run(["sh", "-c", 'exec "$@" >&-', "sh", PROGRAM, self.good], capture_output=True, check=False)
        self.assertEqual((closed.returncode, closed.stderr), (2, b"make_pack: standard output is closed\n"))
        self.assertEqual(self.names(), ["good.txt"])

    def test_a_terminal_takes_no_pack(self):
        ours, theirs = pty.openpty()
        self.addCleanup(os.close, ours)
        self.addCleanup(os.close, theirs)
        self.assertIn("a pack is nothing for a terminal: -o PACK names its file\nusage:", self.failed(stdout=theirs))
        self.assertEqual(self.make("-o", self.pack, self.good, stdout=theirs).returncode, 0)

    def failed(self, *arguments, **more):
        done = self.make(*arguments, self.good, **more)
        self.assertEqual(done.returncode, 2)
        return done.stderr


class Samples(unittest.TestCase):
    """Every sample has its three files and a row in the table, and its pack is made from its description."""

    def test_samples(self):
        folder = ROOT / "samples"
        names = sorted(path.stem for path in folder.glob("*.txt"))
        self.assertIn("document-01", names)
        for ending in ("pack", "out"):
            self.assertEqual(sorted(path.stem for path in folder.glob(f"*.{ending}")), names)
        rows = [line.split("`")[1] for line in (folder / "README.md").read_text().splitlines() if line.startswith("| `")]
        self.assertEqual(sorted(rows), names)
        for name in names:
            lines = (folder / f"{name}.txt").read_text().splitlines()
            self.assertEqual(MAKE.make_pack(lines, name, no_hint), (folder / f"{name}.pack").read_bytes(), name)


if __name__ == "__main__":
    unittest.main()
