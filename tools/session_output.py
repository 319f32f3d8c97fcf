"""What the player prints for a session, document 01, "The player": its lines taken apart, and held to what one session
prints."""

import re
from typing import NamedTuple, Optional

from run_pack import MESSAGE_MOST, PACK_MOST

INFORMATION, SHORT_MESSAGE = 1, 5  # kinds of frames
BYTES_TO_A_FRAME = 7  # of a long message

# The kinds of frames that each end sends, and what stands after the word of each report, numbers all of it. A report of the
# receiver is short too, with eight bytes.
KINDS = {"S": (1, 3, 5), "R": (2, 3, 4, 6)}
REPORTS = {
    "S": {"sent": ("ticks", "frames"), "failed": ("cause", "ticks", "frames")},
    "R": {"delivered": ("length",), "failed": ("cause",)},
}

DECIMAL = "(?:0|[1-9][0-9]{0,4})"
EIGHT_BYTES = "[0-9A-F]{2}(?: [0-9A-F]{2}){7}"
LINE_MOST = len("65535 R short 00 11 22 33 44 55 66 77\n")
OUTPUT_MOST = 2 * LINE_MOST * PACK_MOST  # bytes; an event has a frame and a report at most


class BadOutput(Exception):
    """What is wrong with an output, and in which line; line 0 means all of it."""

    def __init__(self, words, place=0):
        super().__init__(words)
        self.place = place

    def of(self, name):
        """The words with the file's name and the line's number."""
        return f"{name}:{self.place}: {self}" if self.place else f"{name}: {self}"


class Frame(NamedTuple):
    kind: int
    data: bytes

    def is_information(self):
        return self.kind == INFORMATION

    def number(self):
        """The frame number of an information frame."""
        return self.data[0]


class Report(NamedTuple):
    word: str
    values: dict  # by their names in REPORTS; that of a short delivery is "bytes"


class Line(NamedTuple):
    """A frame that goes out, or a report; the other is None."""

    event: int
    end: str
    frame: Optional[Frame]
    report: Optional[Report]


class Announcement(NamedTuple):
    frames: int  # N
    length: int  # L

    def bytes_of(self, number):
        """The first and the last message byte in a frame from 1 to N, counted from 1."""
        return BYTES_TO_A_FRAME * (number - 1) + 1, min(BYTES_TO_A_FRAME * number, self.length)


def decimal(text):
    """The number, or None where it is none of the player's."""
    return int(text) if re.fullmatch(DECIMAL, text) and int(text) <= PACK_MOST else None


def frame_of(end, text):
    """The frame that these words of an end are, or None."""
    parts = re.fullmatch(f"([0-9]) ({EIGHT_BYTES})", text)
    if not parts or int(parts[1]) not in KINDS[end]:
        return None
    return Frame(int(parts[1]), bytes.fromhex(parts[2]))


def report_of(end, text):
    """The report that these words of an end are, or None."""
    word, _, rest = text.partition(" ")
    if (end, word) == ("R", "short") and re.fullmatch(EIGHT_BYTES, rest):
        return Report(word, {"bytes": bytes.fromhex(rest)})
    names, numbers = REPORTS[end].get(word), [decimal(part) for part in rest.split(" ")]
    if names is None or len(names) != len(numbers) or None in numbers:
        return None
    return Report(word, dict(zip(names, numbers)))


def line_of(text):
    """A line, without its newline, taken apart; None where it is none of the player's."""
    number, _, rest = text.partition(" ")
    end, _, rest = rest.partition(" ")
    event = decimal(number)
    if event is None or end not in KINDS:
        return None
    frame, report = frame_of(end, rest), report_of(end, rest)
    return Line(event, end, frame, report) if frame or report else None


def announcement_of(frame):
    """What an information frame of number 0 announces; None where document 01's sender announces nothing like it."""
    count, length = frame.data[1], int.from_bytes(frame.data[2:4], "little")
    fits = 8 < length <= MESSAGE_MOST and count == -(-length // BYTES_TO_A_FRAME) and frame.data[4:] == b"\xff" * 4
    return Announcement(count, length) if fits else None


class Session:
    """The lines of a session, or the number with which its pack was refused."""

    def __init__(self, refused=None):
        self.refused = refused
        self.lines = []
        self.announcement = None  # of a long message
        self.sender_frames = 0
        self.sender_report = None  # its line

    def take(self, line):
        """Takes up the next line. What it answers is why no session has this line here, or None."""
        fault = self.fault_of_begin(line) if not self.lines else self.fault_of_order(line)
        if line.end == "S" and not fault:
            fault = self.fault_of_sender(line)
        self.lines.append(line)
        return fault

    def fault_of_begin(self, line):
        """The first line is the begin's frame: the announcement, or a short message."""
        if line.event or line.end != "S" or not line.frame:
            return "a session begins with the sender's frame of event 0"
        if line.frame.kind == SHORT_MESSAGE:
            return None
        if not line.frame.is_information() or line.frame.number():
            return "the begin's frame is the announcement (1 00 ..) or a short message (5 ..)"
        self.announcement = announcement_of(line.frame)
        return None if self.announcement else "the announcement's N and L are none of a long message"

    def fault_of_order(self, line):
        """Events rise. One has a frame, a report, or a frame and then a report of the same end; the begin has its frame."""
        before = self.lines[-1]
        if line.event > before.event:
            return None
        if not line.event:
            return "event 0 again, and a session has one begin"
        if line.event < before.event:
            return f"event {line.event} after event {before.event}"
        if before.frame and line.report and before.end == line.end:
            return None
        return f"event {line.event} again, and an event has no more than a frame and then a report, of one end"

    def fault_of_sender(self, line):
        """The sender is silent after its report, which has the number of the frames printed before it."""
        if self.sender_report:
            return "the sender goes on after its report"
        if line.report:
            self.sender_report = line
            told = line.report.values["frames"]
            return None if told == self.sender_frames else f"{told} frames reported, and {self.sender_frames} printed before"
        self.sender_frames += 1
        return self.fault_of_information(line.frame) if line.frame.is_information() else None

    def fault_of_information(self, frame):
        """The numbers are 0 to N, and every announcement is the begin's."""
        if not self.announcement:
            return "an information frame, and the message is short"
        if frame.number() > self.announcement.frames:
            return f"frame number {frame.number()}, and the announcement has N {self.announcement.frames}"
        if not frame.number() and announcement_of(frame) != self.announcement:
            return "another announcement than the begin's"
        return None


def shown(text):
    """The beginning of a line, as it can stand in a message."""
    return ascii(text[:LINE_MOST]) + (" .." if len(text) > LINE_MOST else "")


def read(data):
    """The session whose output this is."""
    if not data:
        raise BadOutput("it is empty, and the player prints a line at least")
    if len(data) > OUTPUT_MOST:
        raise BadOutput(f"it goes on after {OUTPUT_MOST} bytes, more than any session prints")
    text = data.decode("latin-1")
    refusal = re.fullmatch("refused (1|2|12)\n", text)
    if refusal:
        return Session(int(refusal[1]))
    session = Session()
    *texts, cut = text.split("\n")
    for place, text in enumerate(texts, 1):
        line = line_of(text)
        if not line:
            raise BadOutput(f"{shown(text)} is no line of a session", place)
        fault = session.take(line)
        if fault:
            raise BadOutput(fault, place)
    if cut:
        raise BadOutput(f"{shown(cut)} has no newline, as if the output were cut off here", len(texts) + 1)
    return session
