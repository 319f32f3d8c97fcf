#!/usr/bin/env python3
"""Tests of the samples clean-*: each pack meets the conditions of document 02, E1, and its stored output has the figures that
E1 promises. What is on the line is counted along the stored output: a printed frame joins, a hearing takes one away."""

import collections
import re
import sys
import unittest

sys.dont_write_bytecode = True

# pylint: disable=wrong-import-position
import run_pack
from programs import ROOT

SAMPLES = ROOT / "samples"
NAMES = [f"clean-{length}-gap-{gap}" for length in (9, 14, 15, 1785) for gap in (1, 2, 10)]

TICKS = {run_pack.EVENTS["sender tick"]: "S", run_pack.EVENTS["receiver tick"]: "R"}
# A hearing, and the end whose frame it takes off the line.
HEARINGS = {run_pack.EVENTS["forward hear"]: "S", run_pack.EVENTS["back hear"]: "R"}
# A loss or a repeat, and the end whose frame it is; on an empty list there is none.
LOSSES_AND_REPEATS = {
    run_pack.EVENTS["forward lose"]: "S",
    run_pack.EVENTS["forward repeat"]: "S",
    run_pack.EVENTS["back lose"]: "R",
    run_pack.EVENTS["back repeat"]: "R",
}


class Session:
    """A pack that the player takes, and what is printed for it."""

    def __init__(self, pack, out):
        bodies = run_pack.bodies(pack)
        self.settings = {name: value for name, value, _ in run_pack.settings(bodies["settings"])}
        self.length, self.events = len(bodies["message"]), bodies["events"]
        self.frames = collections.Counter()  # of (event number, end)
        self.reports = []  # (event number, end, words)
        for line in out.splitlines():
            number, end, words = line.split(" ", 2)
            if words[0].isdigit():
                self.frames[int(number), end] += 1
            else:
                self.reports.append((int(number), end, words))
        self.count = -(-self.length // 7)
        self.ticks = self.count * self.settings["gap"]

    def first(self):
        """The end that ticks first."""
        return next(TICKS[event] for event in self.events if event in TICKS)

    def edges(self):
        """The conditions that are met with nothing to spare, as samples/README.md writes them."""
        timeouts = {self.settings["sender timeout"], self.settings["receiver timeout"]}
        edges = {
            "T": timeouts == {self.settings["gap"] + 1},
            "M": self.settings["sending time"] == self.ticks + 1,
            "K": self.settings["capacity"] == self.length,
        }
        return [edge for edge, holds in edges.items() if holds]

    def fault(self):
        """What E1 asks or promises and this is not, or None."""
        return self.fault_of_settings() or self.fault_of_events() or self.fault_of_figures()

    def fault_of_settings(self):
        conditions = {
            "the message is short": self.length > 8,
            "a timeout is not above the gap": self.settings["gap"]
            < min(self.settings["sender timeout"], self.settings["receiver timeout"]),
            "the sending time is not above N x G": self.ticks < self.settings["sending time"],
            "the message is over the capacity": self.length <= self.settings["capacity"],
        }
        return next((words for words, holds in conditions.items() if not holds), None)

    def fault_of_events(self):
        line = {end: self.frames[0, end] for end in "SR"}
        last = None
        for number, event in enumerate(self.events, 1):
            if event in TICKS:
                if any(line.values()):
                    return f"event {number}: a tick, and a frame is on the line"
                if TICKS[event] == last:
                    return f"event {number}: {last} ticks twice"
                last = TICKS[event]
            elif event in HEARINGS:
                line[HEARINGS[event]] = max(line[HEARINGS[event]] - 1, 0)
            elif line[LOSSES_AND_REPEATS[event]]:
                return f"event {number}: a frame is lost or repeated"
            for end in line:
                line[end] += self.frames[number, end]
        return None

    def fault_of_figures(self):
        promised = [("R", f"delivered {self.length}"), ("S", f"sent {self.ticks} {self.count + 1}")]
        if [report[1:] for report in self.reports] != promised:
            return f"reports {self.reports}"
        sent = self.reports[-1][0]
        if self.events[:sent].count(run_pack.EVENTS["sender tick"]) != self.ticks:
            return f"event {sent}: sent, and this is not after {self.ticks} ticks"
        frames = sum(count for (_, end), count in self.frames.items() if end == "S")
        if frames != self.count + 1:
            return f"{frames} frames of the sender"
        return f"event {max(self.frames)[0]}: a frame after the report" if max(self.frames)[0] > sent else None


def read(name):
    return (SAMPLES / f"{name}.pack").read_bytes(), (SAMPLES / f"{name}.out").read_text()


class Clean(unittest.TestCase):
    def test_each_is_clean(self):
        self.assertEqual(sorted(path.stem for path in SAMPLES.glob("clean-*.pack")), sorted(NAMES))
        for name in NAMES:
            session = Session(*read(name))
            self.assertIsNone(session.fault(), name)
            self.assertEqual(f"clean-{session.length}-gap-{session.settings['gap']}", name)

    def test_what_is_written_of_them(self):
        """The rows of samples/README.md, and the event that each description names."""
        rows = re.findall(r"^\| `(clean-.*)` \| (.*) \|$", (SAMPLES / "README.md").read_text(), re.M)
        self.assertEqual([name for name, _ in rows], NAMES)
        for name, cells in rows:
            session = Session(*read(name))
            first = {"S": "sender", "R": "receiver"}[session.first()]
            expected = (session.count, session.ticks, session.count + 1, first, session.settings["window"])
            expected = [*map(str, expected), ", ".join(session.edges())]
            self.assertEqual([cell.strip() for cell in cells.split("|")][:6], expected, name)
            said = re.search(r"At event (\d+):", (SAMPLES / f"{name}.txt").read_text())
            self.assertEqual(int(said[1]), session.reports[-1][0], name)

    def test_every_event(self):
        """Every event comes in these samples, losses and repeats on empty lists among them."""
        played = {event for name in NAMES for event in Session(*read(name)).events}
        self.assertEqual(played, set(run_pack.EVENTS.values()))

    def test_edges(self):
        """Each edge is met by two samples and more, the longest message among them; that of T with the receiver first."""
        sessions = [Session(*read(name)) for name in NAMES]
        for edge in "TMK":
            there = [session for session in sessions if edge in session.edges() and (edge != "T" or session.first() == "R")]
            self.assertGreaterEqual(len(there), 2, edge)
            self.assertIn(1785, [session.length for session in there], edge)


class Unclean(unittest.TestCase):
    """The tests above can fail."""

    def test_other_samples(self):
        faults = {
            "document-01": "event 5: S ticks twice",
            "lost-frame": "event 4: a tick, and a frame is on the line",
            "repeated-frame": "event 1: a frame is lost or repeated",
            "nack-at-receiver": "a timeout is not above the gap",
            "no-space": "the message is over the capacity",
            "sending-time-long": "the sending time is not above N x G",
            "short-acknowledged": "the message is short",
            "no-events": "reports []",
        }
        for path in SAMPLES.glob("*.pack"):
            pack, out = read(path.stem)
            if path.stem not in NAMES and not run_pack.refused(pack):
                fault = Session(pack, out).fault()
                self.assertIsNotNone(fault, path.stem)
                self.assertEqual(fault, faults.pop(path.stem, fault))
        self.assertEqual(faults, {})

    def test_broken(self):
        """The nine bytes of clean-9-gap-1, whose events begin at offset 32, with a thing or two changed."""
        pack, out = read("clean-9-gap-1")
        self.assertEqual(pack[32:], bytes([3, 6, 1, 3, 2, 1, 3, 6]))
        for events, fault in {
            (3, 6, 1, 2, 3, 1, 3, 6): "event 4: a tick, and a frame is on the line",
            (3, 6, 1, 3, 1, 2, 3, 6): "event 5: S ticks twice",
            (3, 6, 1, 4, 2, 1, 3, 6): "event 4: a frame is lost or repeated",
            (3, 6, 1, 3, 2, 1, 3, 8): "event 8: a frame is lost or repeated",
        }.items():
            self.assertEqual(Session(pack[:32] + bytes(events), out).fault(), fault)
        for old, new, fault in (
            ("sent 2 3", "sent 1 3", "reports [(7, 'R', 'delivered 9'), (8, 'S', 'sent 1 3')]"),
            ("sent 2 3", "sent 2 2", "reports [(7, 'R', 'delivered 9'), (8, 'S', 'sent 2 2')]"),
            ("8 S sent 2 3\n", "", "reports [(7, 'R', 'delivered 9')]"),
            ("8 S sent", "5 S sent", "event 5: sent, and this is not after 2 ticks"),
            ("3 S 1 01 01 02 03 04 05 06 07\n", "", "2 frames of the sender"),
            ("7 R 4 02", "9 R 4 02", "event 9: a frame after the report"),
        ):
            self.assertIn(old, out)
            self.assertEqual(Session(pack, out.replace(old, new)).fault(), fault)

    def test_the_other_list(self):
        """The losses and repeats of clean-14-gap-10, whose events begin at offset 37, on the list that is not empty."""
        pack, out = read("clean-14-gap-10")
        for number, old, new in ((1, 8, 5), (3, 4, 7), (25, 7, 4), (27, 5, 8)):
            place = 36 + number
            self.assertEqual(pack[place], old)
            session = Session(pack[:place] + bytes([new]) + pack[place + 1 :], out)
            self.assertEqual(session.fault(), f"event {number}: a frame is lost or repeated")


if __name__ == "__main__":
    unittest.main()
