#!/usr/bin/env python3
"""Tests of tools/frame_counts and of tools/session_output.py: tables worked by hand, every sample against the program of the
implementation made apart, and what is said of outputs that are no session's."""

import os
import pathlib
import pty
import random
import re
import subprocess
import sys
import tempfile
import unittest

sys.dont_write_bytecode = True

# pylint: disable=wrong-import-position
import play
import session_output
from programs import ROOT, TOOLS, load

PROGRAM = TOOLS / "frame_counts"
COUNTS = load("frame_counts")
SAMPLES = ROOT / "samples"
SUMMARY = ROOT / "compare" / "target" / "release" / "reference_summary"

# The tables of these samples, worked from their descriptions.
TABLES = {
    # 17 bytes are frames of 7, 7 and 3. All three go out at the first three ticks; frame 1 is lost, and the LM_ACK 1, 3 of the
    # timeout brings them again.
    "lost-frame": """\
frame  what it is                            times sent
-----  ------------------------------------  ----------
    0  announcement of 17 bytes in 3 frames           1
    1  message bytes 1 to 7                           2  <- most often
    2  message bytes 8 to 14                          2
    3  message bytes 15 to 17                         2
total                                                 7

information frames: 7 of 7 frames in the sender's report (event 19: sent 6 7)
""",
    # Each frame once: of equals the lowest.
    "document-01": """\
frame  what it is                           times sent
-----  -----------------------------------  ----------
    0  announcement of 9 bytes in 2 frames           1  <- most often
    1  message bytes 1 to 7                          1
    2  message bytes 8 to 9                          1
total                                                3

information frames: 3 of 3 frames in the sender's report (event 7: sent 2 3)
""",
    # Silence: the announcement at the begin and at ticks 3 and 6; the fourth frame is NACK 2 at tick 9.
    "three-timeouts-sender": """\
frame  what it is                           times sent
-----  -----------------------------------  ----------
    0  announcement of 9 bytes in 2 frames           3  <- most often
total                                                3

never sent: 1 to 2
information frames: 3 of 4 frames in the sender's report (event 9: failed 2 9 4)
""",
    # 16 bytes in a window of 2: frame 2 goes again at the first two timeouts in Waiting, the third has NACK 2.
    "nack-at-receiver": """\
frame  what it is                            times sent
-----  ------------------------------------  ----------
    0  announcement of 16 bytes in 3 frames           1
    1  message bytes 1 to 7                           1
    2  message bytes 8 to 14                          3  <- most often
total                                                 5

never sent: 3
information frames: 5 of 6 frames in the sender's report (event 7: failed 2 5 6)
""",
    # A clean session of 15 bytes: the third frame has one of them.
    "clean-15-gap-1": """\
frame  what it is                            times sent
-----  ------------------------------------  ----------
    0  announcement of 15 bytes in 3 frames           1  <- most often
    1  message bytes 1 to 7                           1
    2  message bytes 8 to 14                          1
    3  message byte 15                                1
total                                                 4

information frames: 4 of 4 frames in the sender's report (event 17: sent 3 4)
""",
    # The begin alone, and so no report.
    "no-events": """\
frame  what it is                            times sent
-----  ------------------------------------  ----------
    0  announcement of 15 bytes in 3 frames           1  <- most often
total                                                 1

never sent: 1 to 3
information frames: 1; the sender has not reported
""",
    # A short message: SM_RM at the begin and at the timeout are no information frames.
    "short-lost": """\
frame  what it is                     times sent
-----  -----------------------------  ----------
    0  no information frame went out           0  <- most often
total                                          0

information frames: 0 of 2 frames in the sender's report (event 7: sent 4 2)
""",
    # The same, acknowledged at once.
    "short-acknowledged": """\
frame  what it is                     times sent
-----  -----------------------------  ----------
    0  no information frame went out           0  <- most often
total                                          0

information frames: 0 of 1 frame in the sender's report (event 4: sent 2 1)
""",
    "refused-gap-0": "refused 1: a setting is outside its limits\n",
}


def out_of(name):
    return (SAMPLES / f"{name}.out").read_bytes()


def played_samples():
    """Name and session of each sample that is not refused."""
    for path in sorted(SAMPLES.glob("*.out")):
        session = session_output.read(path.read_bytes())
        if not session.refused:
            yield path.stem, session


def table(session):
    return "".join(f"{line}\n" for line in COUNTS.table_lines(session))


def printed(length, numbers, end="sent"):
    """The output of a session in which the sender sends the announcement, these numbers and for 'failed' NACK 2."""
    count = -(-length // 7)
    low, high = length % 256, length // 256
    lines = [f"0 S 1 00 {count:02X} {low:02X} {high:02X} FF FF FF FF"]
    for event, number in enumerate(numbers, 1):
        data = f"{count:02X} {low:02X} {high:02X} FF FF FF FF" if number == 0 else "5A 5A 5A 5A 5A 5A 5A"
        lines.append(f"{event} S 1 {number:02X} {data}")
    last = len(numbers) + 1
    if end == "failed":
        lines += [f"{last} S 3 02 FF FF FF FF FF FF FF", f"{last} S failed 2 9 {last + 1}"]
    elif end == "sent":
        lines.append(f"{last} S sent 9 {last}")
    return "".join(f"{line}\n" for line in lines).encode()


class Tables(unittest.TestCase):
    def test_by_hand(self):
        for name, expected in TABLES.items():
            session = session_output.read(out_of(name))
            text = COUNTS.refusal(session) + "\n" if session.refused else table(session)
            self.assertEqual(text, expected, name)

    def test_every_sample(self):
        """The rows rise and add up to the total, one is marked, and the last line has the total and the report's frames."""
        for name, session in played_samples():
            text = table(session)
            rows = re.findall(r"^ {0,4}(\d+)  .*?  +(\d+)(  <- most often)?$", text, re.M)
            total = int(re.search(r"^total +(\d+)$", text, re.M)[1])
            self.assertEqual(sum(int(count) for _, count, _ in rows), total, name)
            self.assertEqual(sum(bool(mark) for *_, mark in rows), 1, name)
            self.assertEqual([int(number) for number, *_ in rows], sorted({int(number) for number, *_ in rows}), name)
            out = out_of(name).decode()
            self.assertEqual(total, len(re.findall("^[0-9]+ S 1 ", out, re.M)), name)
            report = re.search(r"^[0-9]+ S (?:sent|failed [0-9]) [0-9]+ ([0-9]+)$", out, re.M)
            told = f"{total} of {report[1]} frame" if report else f"{total}; the sender has not reported"
            self.assertIn(f"\ninformation frames: {told}", text, name)

    def test_numbers_in_decimal(self):
        """The longest message: 255 frames, the last of which has bytes 1779 to 1785."""
        text = table(session_output.read(out_of("longest")))
        self.assertIn("\n    0  announcement of 1785 bytes in 255 frames           1  <- most often\n", text)
        self.assertIn("\n   16  message bytes 106 to 112                           1\n", text)
        self.assertIn("\n  255  message bytes 1779 to 1785                         1\ntotal ", text)
        self.assertNotIn("never sent", text)

    def test_never_sent(self):
        for numbers, expected in {
            (1, 2, 3, 4, 5, 6): None,
            (): "1 to 6",
            (6,): "1 to 5",
            (1,): "2 to 6",
            (2, 5): "1, 3 to 4, 6",
            (1, 3, 5): "2, 4, 6",
        }.items():
            found = re.search("^never sent: (.*)$", table(session_output.read(printed(40, numbers))), re.M)
            self.assertEqual(found and found[1], expected, numbers)

    def test_reports(self):
        for end, words in {
            "sent": "3 of 3 frames in the sender's report (event 3: sent 9 3)",
            "failed": "3 of 4 frames in the sender's report (event 3: failed 2 9 4)",
            "": "3; the sender has not reported",
        }.items():
            lines = table(session_output.read(printed(9, (1, 1), end))).splitlines()
            self.assertEqual(lines[-1], f"information frames: {words}")


class Most(unittest.TestCase):
    """The number that is named, document 02, E6."""

    def test_which_of_two(self):
        for counts, expected in (((3, 2), 4), ((2, 3), 9), ((2, 2), 4)):
            self.assertEqual(COUNTS.named_of({4: counts[0], 9: counts[1]}, 4, 9), expected)

    def test_of_all(self):
        for numbers, expected in (
            ((), 0),
            ((1, 2, 3), 0),
            ((1, 2, 2, 3), 2),
            ((1, 2, 2, 3, 3), 2),
            ((3, 3, 2, 2), 2),
            ((1, 0, 1), 0),
            ((5, 6, 6), 6),
        ):
            counts = COUNTS.counts_of(session_output.read(printed(40, numbers)))
            self.assertEqual(COUNTS.most_sent(counts), expected, numbers)

    def test_samples(self):
        """Worked from the descriptions: window's last frame again, frames 1 and 2 three times each, announcement again."""
        for name, expected in {
            "last-frame-again": {0: 1, 1: 1, 2: 2, "most": 2},
            "misses-sender": {0: 1, 1: 3, 2: 3, "most": 1},
            "repeated-announcement": {0: 2, 1: 2, 2: 1, "most": 0},
            "sending-time-long": {0: 1, 1: 1, "most": 0},
            "sixty-thousand-ticks": {"most": 0},
        }.items():
            counts = COUNTS.counts_of(session_output.read(out_of(name)))
            self.assertEqual({**counts, "most": COUNTS.most_sent(counts)}, expected, name)

    def test_random_sessions(self):
        draw = random.Random(6)
        for _ in range(300):
            length = draw.randint(9, draw.choice([9, 40, 1785]))
            last = -(-length // 7)
            numbers = [draw.randint(draw.choice([0, last]), last) for _ in range(draw.choice([0, 1, 5, 60, 600]))]
            out = printed(length, numbers, draw.choice(["sent", "failed", ""]))
            history = [0, *numbers]
            most = max(range(256), key=history.count)  # the first of the largest
            rows = [f"{number},{history.count(number)},{int(number == most)}" for number in range(last + 1)]
            self.assertEqual(list(COUNTS.csv_lines(session_output.read(out))), ["frame,count,most", *rows])


class MadeApart(unittest.TestCase):
    """Every sample by the program of the implementation made apart, which plays the pack itself."""

    def summary(self, session):
        """The counts in the form of that program."""
        if session.refused:
            return f"refused {session.refused}\n"
        counts = COUNTS.counts_of(session)
        most = COUNTS.most_sent(counts)
        return "".join(f"{number} {counts[number]}\n" for number in sorted(counts)) + f"most {most} {counts[most]}\n"

    def test_samples_against_reference_summary(self):
        self.assertTrue(os.access(SUMMARY, os.X_OK), f"{SUMMARY} is not built: cargo build --release --bins in compare/")
        packs = sorted(SAMPLES.glob("*.pack"))
        self.assertGreater(len(packs), 80)
        self.assertEqual({path.stem for path in packs}, {path.stem for path in SAMPLES.glob("*.out")})
        for path in packs:
            done = subprocess.run([SUMMARY], input=path.read_bytes(), stdout=subprocess.PIPE, check=True)
            session = session_output.read(path.with_suffix(".out").read_bytes())
            self.assertEqual(self.summary(session), done.stdout.decode(), path.stem)


class Lines(unittest.TestCase):
    """Single lines."""

    NONE = (
        "",
        " ",
        "0",
        "0 S",
        "0 S ",
        "S 1 00 03 11 00 FF FF FF FF",
        "00 S 1 00 03 11 00 FF FF FF FF",
        "-1 S 1 00 03 11 00 FF FF FF FF",
        "65536 S 1 00 03 11 00 FF FF FF FF",
        "123456 S 1 00 03 11 00 FF FF FF FF",
        "\u0663 S 1 00 03 11 00 FF FF FF FF",
        "0 T 1 00 03 11 00 FF FF FF FF",
        "0 s 1 00 03 11 00 FF FF FF FF",
        "0 S 0 00 03 11 00 FF FF FF FF",
        "0 S 2 00 03 11 00 FF FF FF FF",
        "0 S 7 00 03 11 00 FF FF FF FF",
        "0 S 01 00 03 11 00 FF FF FF FF",
        "3 R 1 00 03 11 00 FF FF FF FF",
        "3 R 5 00 03 11 00 FF FF FF FF",
        "0 S 1 00 03 11 00 FF FF FF",
        "0 S 1 00 03 11 00 FF FF FF FF FF",
        "0 S 1 00 03 11 00 FF FF FF F",
        "0 S 1 00 03 11 00 ff ff ff ff",
        "0 S 3 0a FF FF FF FF FF FF FF",
        "0 S 1 00 03 11 00 FF FF FF FG",
        "0 S 1 00 03 11 00 FF FF FF FF ",
        "0 S 1 00 03 11 00 FF FF FF FF\r",
        "0 S  1 00 03 11 00 FF FF FF FF",
        " 0 S 1 00 03 11 00 FF FF FF FF",
        "19 S sent 6",
        "19 S sent 6 7 8",
        "19 S sent 6  7",
        "19 S sent 6 07",
        "19 S sent 6 65536",
        "19 S sent",
        "19 S Sent 6 7",
        "19 R sent 6 7",
        "9 S failed 2 9",
        "9 R failed 2 9 4",
        "9 S delivered 9",
        "9 S short 00 03 11 00 FF FF FF FF",
        "9 R short 00 03 11 00 FF FF FF",
        "9 R short",
        "refused 1",
    )

    def test_forms(self):
        eight = bytes([0, 3, 0x11, 0, 255, 255, 255, 255])
        frame, report = session_output.Frame, session_output.Report
        for text, expected in {
            "0 S 1 00 03 11 00 FF FF FF FF": (0, "S", frame(1, eight), None),
            "9 S 3 00 03 11 00 FF FF FF FF": (9, "S", frame(3, eight), None),
            "65535 R 6 00 03 11 00 FF FF FF FF": (65535, "R", frame(6, eight), None),
            "19 S sent 6 7": (19, "S", None, report("sent", {"ticks": 6, "frames": 7})),
            "6 S failed 3 4 30": (6, "S", None, report("failed", {"cause": 3, "ticks": 4, "frames": 30})),
            "8 R failed 1": (8, "R", None, report("failed", {"cause": 1})),
            "18 R delivered 1785": (18, "R", None, report("delivered", {"length": 1785})),
            "2 R short 00 03 11 00 FF FF FF FF": (2, "R", None, report("short", {"bytes": eight})),
        }.items():
            self.assertEqual(session_output.line_of(text), expected)

    def test_none(self):
        for text in self.NONE:
            self.assertIsNone(session_output.line_of(text), text)

    def test_every_line_of_the_samples(self):
        """Each is a line, and the same words can be made of it again."""
        seen = set()
        for name, session in played_samples():
            texts = out_of(name).decode().splitlines()
            self.assertEqual(len(texts), len(session.lines), name)
            for text, line in zip(texts, session.lines):
                if line.frame:
                    word, values = line.frame.kind, [line.frame.data]
                else:
                    word, values = line.report.word, line.report.values.values()
                words = [value.hex(" ").upper() if isinstance(value, bytes) else str(value) for value in values]
                self.assertEqual(" ".join([str(line.event), line.end, str(word), *words]), text, name)
                seen.add((line.end, word))
        expected = {(end, kind) for end, kinds in session_output.KINDS.items() for kind in kinds} | {("R", "short")}
        self.assertEqual(seen, expected | {(end, word) for end, words in session_output.REPORTS.items() for word in words})


class NoSession(unittest.TestCase):
    """Outputs that are no session's: the line, and what is said of it."""

    # The output of lost-frame, 12 lines: which line is changed, what stands there then, and the line and words of the fault.
    FIRST = "a session begins with the sender's frame of event 0"
    BEGIN = "the begin's frame is the announcement (1 00 ..) or a short message (5 ..)"
    ANNOUNCED = "the announcement's N and L are none of a long message"
    AGAIN = "again, and an event has no more than a frame and then a report, of one end"
    LINES = out_of("lost-frame").decode().splitlines()
    CHANGED = (
        (1, [], 1, FIRST),
        (1, ["1 S 1 00 03 11 00 FF FF FF FF"], 1, FIRST),
        (1, ["0 R 2 01 03 FF FF FF FF FF FF"], 1, FIRST),
        (1, ["0 S sent 0 0"], 1, FIRST),
        (1, ["0 S 1 01 03 11 00 FF FF FF FF"], 1, BEGIN),
        (1, ["0 S 3 00 FF FF FF FF FF FF FF"], 1, BEGIN),
        (1, ["0 S 1 00 04 11 00 FF FF FF FF"], 1, ANNOUNCED),
        (1, ["0 S 1 00 02 08 00 FF FF FF FF"], 1, ANNOUNCED),
        (1, ["0 S 1 00 00 FA 06 FF FF FF FF"], 1, ANNOUNCED),
        (1, ["0 S 1 00 03 11 00 FF FF FF FE"], 1, ANNOUNCED),
        (1, ["0 S 5 01 02 FF FF FF FF FF FF"], 3, "an information frame, and the message is short"),
        (1, [LINES[0], LINES[0]], 2, "event 0 again, and a session has one begin"),
        (1, [LINES[0], "0 S sent 0 1"], 2, "event 0 again, and a session has one begin"),
        (3, ["3 S 1 04 01 02 03 04 05 06 07"], 3, "frame number 4, and the announcement has N 3"),
        (3, ["3 S 1 00 02 09 00 FF FF FF FF"], 3, "another announcement than the begin's"),
        (3, [LINES[2], LINES[2]], 4, f"event 3 {AGAIN}"),
        (4, ["2 S 1 02 08 09 0A 0B 0C 0D 0E"], 4, "event 2 after event 3"),
        (4, ["4 S 1 02 08 09 0A 0B 0C 0D"], 4, "'4 S 1 02 08 09 0A 0B 0C 0D' is no line of a session"),
        (4, ["4 S 1 02\u00e9"], 4, "'4 S 1 02\\xc3\\xa9' is no line of a session"),
        (4, [""], 4, "'' is no line of a session"),
        (4, ["x" * 39], 4, f"'{'x' * 38}' .. is no line of a session"),
        (5, ["refused 1"], 5, "'refused 1' is no line of a session"),
        (7, [], 11, "7 frames reported, and 6 printed before"),
        (11, [LINES[10], LINES[10]], 12, f"event 18 {AGAIN}"),
        (11, ["18 S sent 6 7"], 11, f"event 18 {AGAIN}"),
        (11, [LINES[10], LINES[9]], 12, f"event 18 {AGAIN}"),
        (12, ["19 S sent 6 8"], 12, "8 frames reported, and 7 printed before"),
        (12, [LINES[11], "20 S failed 3 9 7"], 13, "the sender goes on after its report"),
        (12, [LINES[11], "20 S 1 03 0F 10 11 FF FF FF FF"], 13, "the sender goes on after its report"),
        (12, LINES[11:] + LINES, 13, "event 0 again, and a session has one begin"),
    )

    def said(self, out):
        with self.assertRaises(session_output.BadOutput) as raised:
            session_output.read(out)
        return raised.exception.of("it")

    def changed(self, place, new):
        return "".join(f"{line}\n" for line in self.LINES[: place - 1] + new + self.LINES[place:]).encode()

    def test_changed_lines(self):
        for place, new, wrong, words in self.CHANGED:
            self.assertEqual(self.said(self.changed(place, new)), f"it:{wrong}: {words}", (place, new))

    def test_sessions_all_the_same(self):
        """A line of the receiver less, one after the sender's report, and the announcement again are sessions."""
        for place, new in ((6, []), (12, [self.LINES[11], "20 R failed 1"]), (3, ["3 S 1 00 03 11 00 FF FF FF FF"])):
            session = session_output.read(self.changed(place, new))
            self.assertEqual(len(session.lines), 11 + len(new))

    def test_cut_off(self):
        """A number may be cut within: sent 6 70, and the 0 is missing."""
        out = out_of("lost-frame")
        said = "it:12: '19 S sent 6 7' has no newline, as if the output were cut off here"
        self.assertEqual(self.said(out[:-1]), said)
        self.assertEqual(self.said(b"refused 1"), "it:1: 'refused 1' has no newline, as if the output were cut off here")

    def test_sizes(self):
        self.assertEqual(self.said(b""), "it: it is empty, and the player prints a line at least")
        over = "it: it goes on after 4980660 bytes, more than any session prints"
        self.assertEqual(self.said(bytes(4980661)), over)
        self.assertNotEqual(self.said(bytes(4980660)), over)

    def test_refused(self):
        for number in (1, 2, 12):
            session = session_output.read(f"refused {number}\n".encode())
            self.assertEqual((session.refused, session.lines), (number, []))
        for out in (b"refused 3\n", b"refused 1\nrefused 1\n", b"refused 1\n\n", b"refused\n", b"refused 1 \n"):
            self.assertTrue(self.said(out).startswith("it:1: 'refused"), out)

    def test_refusals_in_words(self):
        for path in SAMPLES.glob("*.out"):
            session = session_output.read(path.read_bytes())
            self.assertEqual(bool(session.refused), path.stem.startswith("refused"), path.stem)
            if session.refused:
                words = f"refused {session.refused}: {play.MEANINGS[session.refused]}"
                self.assertEqual(COUNTS.refusal(session), words, path.stem)


class Program(unittest.TestCase):
    def run_program(self, *arguments, data=b"", **more):
        more = {"stdout": subprocess.PIPE, **more}
        done = subprocess.run([PROGRAM, *arguments], input=data, stderr=subprocess.PIPE, check=False, timeout=60, **more)
        return done.returncode, None if done.stdout is None else done.stdout.decode(), done.stderr.decode()

    def test_a_file_and_standard_input(self):
        for name in ("lost-frame", "short-lost"):
            path, data = SAMPLES / f"{name}.out", out_of(name)
            for arguments, given in (((path,), b""), ((), data), (("-",), data)):
                self.assertEqual(self.run_program(*arguments, data=given), (0, TABLES[name], ""))

    def test_several_files(self):
        names = ["samples/lost-frame.out", "-", "samples/short-lost.out"]
        expected = (
            f"samples/lost-frame.out\n\n{TABLES['lost-frame']}\n"
            f"standard input\n\n{TABLES['no-events']}\n"
            f"samples/short-lost.out\n\n{TABLES['short-lost']}"
        )
        self.assertEqual(self.run_program(*names, data=out_of("no-events"), cwd=ROOT), (0, expected, ""))

    def test_a_refused_session(self):
        said = "refused 1: a setting is outside its limits\n"
        path = SAMPLES / "refused-gap-0.out"
        self.assertEqual(self.run_program(path), (1, said, f"frame_counts: {path}: {said}"))
        unread = "refused 12: this is no run pack\n"
        self.assertEqual(self.run_program(data=b"refused 12\n"), (1, unread, f"frame_counts: standard input: {unread}"))
        self.assertEqual(self.run_program("--csv", path), (1, "", f"frame_counts: {path}: {said}"))
        names = ["samples/refused-gap-0.out", "samples/document-01.out"]
        expected = f"{names[0]}\n\n{said}\n{names[1]}\n\n{TABLES['document-01']}"
        self.assertEqual(self.run_program(*names, cwd=ROOT), (1, expected, f"frame_counts: {names[0]}: {said}"))

    def test_csv(self):
        for name, expected in {
            "lost-frame": "0,1,0\n1,2,1\n2,2,0\n3,2,0\n",
            "nack-at-receiver": "0,1,0\n1,1,0\n2,3,1\n3,0,0\n",
            "three-timeouts-sender": "0,3,1\n1,0,0\n2,0,0\n",
            "short-lost": "0,0,1\n",
        }.items():
            for arguments in (("--csv", SAMPLES / f"{name}.out"), (SAMPLES / f"{name}.out", "--csv")):
                self.assertEqual(self.run_program(*arguments), (0, f"frame,count,most\n{expected}", ""))
        data = out_of("document-01")
        self.assertEqual(self.run_program("--csv", data=data), (0, "frame,count,most\n0,1,1\n1,1,0\n2,1,0\n", ""))

    def test_bad_output(self):
        """The file and the line are named, and no table is printed, not even that of a good file before it."""
        with tempfile.TemporaryDirectory() as folder:
            path = pathlib.Path(folder) / "mine.out"
            path.write_bytes(out_of("document-01") + b"8 S gone\n")
            said = f"{path}:8: '8 S gone' is no line of a session\n"
            for arguments in ((path,), ("--csv", path), (SAMPLES / "lost-frame.out", path)):
                self.assertEqual(self.run_program(*arguments), (2, "", said))
            path.write_bytes(b"")
            said = "it is empty, and the player prints a line at least\n"
            self.assertEqual(self.run_program(path), (2, "", f"{path}: {said}"))
            self.assertEqual(self.run_program(), (2, "", f"standard input: {said}"))
        said = "standard input:1: 'refused 1' is no line of a session\n"
        self.assertEqual(self.run_program(data=b"refused 1\nrefused 1\n"), (2, "", said))
        said = "/dev/zero: it goes on after 4980660 bytes, more than any session prints\n"
        self.assertEqual(self.run_program("/dev/zero"), (2, "", said))

    def test_the_name_of_a_file(self):
        """A name that is no text is printed as it is."""
        with tempfile.TemporaryDirectory() as folder:
            name = os.fsencode(folder) + b"/\xff.out"
            pathlib.Path(os.fsdecode(name)).write_bytes(out_of("no-events"))
            done = subprocess.run([PROGRAM, name, name], stdout=subprocess.PIPE, check=True)
            once = name + b"\n\n" + TABLES["no-events"].encode()
            self.assertEqual(done.stdout, once + b"\n" + once)

    def test_help(self):
        status, out, said = self.run_program("--help")
        self.assertEqual((status, out, said), (0, COUNTS.__doc__, ""))
        usage = "usage: tools/frame_counts [--csv] [FILE ..]\n"
        for words in (usage, "of equals\nthe lowest", "never sent", "\n    --csv ", "frame,count,most", "\n    2 "):
            self.assertIn(words, out)

    def test_a_terminal(self):
        """Nobody types an output."""
        ours, theirs = pty.openpty()
        try:
            done = subprocess.run([PROGRAM], stdin=theirs, capture_output=True, check=False, timeout=10)
        finally:
            os.close(ours)
            os.close(theirs)
        self.assertEqual((done.returncode, done.stdout), (2, b""))
        self.assertTrue(done.stderr.startswith(b"frame_counts: a file is needed\nusage: "), done.stderr)

    def test_usage_and_failures(self):
        for arguments in (("-x",), ("--other", "a"), ("--csv", "a", "b"), ("--csv=1", "a")):
            status, out, said = self.run_program(*arguments)
            self.assertEqual((status, out), (2, ""))
            self.assertIn("\nusage: tools/frame_counts [--csv] [FILE ..]   (--help says more)\n", said)
        said = "frame_counts: --csv takes one session, not 2\n"
        self.assertTrue(self.run_program("--csv", "a", "b")[2].startswith(said))
        said = "frame_counts: no-such-file: No such file or directory\n"
        self.assertEqual(self.run_program("no-such-file"), (2, "", said))
        self.assertEqual(self.run_program(SAMPLES / "lost-frame.out", "no-such-file"), (2, "", said))
        self.assertEqual(self.run_program(TOOLS), (2, "", f"frame_counts: {TOOLS}: Is a directory\n"))
        with open("/dev/full", "wb") as full:
            said = "frame_counts: standard output: No space left on device\n"
            self.assertEqual(self.run_program("-", data=out_of("no-events"), stdout=full), (2, None, said))


if __name__ == "__main__":
    unittest.main()
