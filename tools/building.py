"""The proved player: whether it is built, and building it with rt, saying meanwhile how far that is."""

import itertools
import os
import pathlib
import re
import select
import shutil
import subprocess
import time

import console

ROOT = pathlib.Path(__file__).resolve().parent.parent
CRATE = "play"
PLACE = pathlib.Path("crates", CRATE, "out", CRATE)  # of the program, in a checkout; `rt run` and `rt ci` leave it there
PROGRAM = ROOT / PLACE
PARTS = ("src", "specs", "proofs")  # what a check reads of a crate
SLOW = 0.5  # seconds; what is proved sooner is not worth a line


def crates():
    """The crates that the player stands on, and itself, in the order in which rt proves them."""
    needs = {}
    for line in (ROOT / "crates.txt").read_text(encoding="utf-8").splitlines():
        head, colon, rest = line.partition("#")[0].partition(":")
        if colon:
            needs[head.split()[0]] = rest.split()
    order = []

    def visit(crate):
        if crate in needs and crate not in order:
            for need in needs[crate]:
                visit(need)
            order.append(crate)

    visit(CRATE)
    return order


def up_to_date():
    """The player is there, and no file or folder that it is built from is newer."""
    if not os.access(PROGRAM, os.X_OK):
        return False
    built = PROGRAM.stat().st_mtime_ns
    folders = [ROOT / "crates" / crate / part for crate in crates() for part in PARTS]
    folders = [folder for folder in folders if folder.exists()]
    paths = [ROOT / "crates.txt", *folders, *itertools.chain(*(folder.rglob("*") for folder in folders))]
    return all(path.exists() and path.stat().st_mtime_ns <= built for path in paths)


def minutes(seconds):
    whole = int(seconds)
    return f"{whole // 60} min {whole % 60} s" if whole >= 60 else f"{whole} s"


class Progress:
    """Says what is being proved: on a terminal in one line, written again and again, elsewhere in a line for each crate."""

    def __init__(self):
        self.crates = crates()
        self.terminal = os.isatty(2)
        self.began = self.moved = time.monotonic()
        self.crate = None  # that is being proved
        self.shown = None  # that was shown last

    def proving(self, crate):
        """This crate is being proved now."""
        if crate in self.crates and crate != self.crate:
            self.crate, self.moved = crate, time.monotonic()

    def show(self):
        if not self.crate or time.monotonic() - self.moved < SLOW:
            return
        if not self.shown:
            console.say("play: the player is proved and built first, which takes some minutes")
        line = f"play: proving {self.crate} ({self.crates.index(self.crate) + 1} of {len(self.crates)}), {self.so_far()} so far"
        if self.terminal:
            columns = os.get_terminal_size(2).columns or 80
            console.say("\r" + line[: columns - 1] + "\x1b[K", end="")
        elif self.crate != self.shown:
            console.say(line)
        self.shown = self.crate

    def so_far(self):
        return minutes(time.monotonic() - self.began)

    def finish(self, words):
        if self.shown:
            clear = "\r\x1b[K" if self.terminal else ""
            console.say(f"{clear}play: {words} after {self.so_far()}")


def run_rt(words, progress):
    """The status of rt and all that it said; it runs the player too, on no input."""
    said = b""
    with subprocess.Popen(
        words,
        cwd=PROGRAM.parent.parent,
        stdin=subprocess.DEVNULL,
        stdout=subprocess.PIPE,
        stderr=subprocess.STDOUT,
    ) as rt:
        while True:
            if select.select([rt.stdout], [], [], 0.2)[0]:
                piece = os.read(rt.stdout.fileno(), 65536)
                if not piece:
                    break
                said += piece
                begun = re.findall(rb"^rt: chose --jobs \d+ for (\w+)\n", said, re.M)
                progress.proving(begun[-1].decode() if begun else None)
            progress.show()
    return rt.returncode, said


def build():
    if not shutil.which("rt"):
        raise console.Failure("the player has to be built, and rt, the command of the Rattle kit, is not on the PATH")
    progress = Progress()
    words = ["rt", "run"]
    status, said = run_rt(words, progress)
    progress.finish("rt stopped" if status else "the player is built")
    if status:
        console.say(said.decode(errors="replace"), end="")
        raise console.Failure(f"the player could not be built: {' '.join(words)} in crates/{CRATE} ended with status {status}")
    if not PROGRAM.exists():
        raise console.Failure(f"rt left no {PLACE}; remove {PLACE}.stamp and try again")
    os.utime(PROGRAM)  # a change that leaves the program as it is counts as looked at
