#!/usr/bin/env python3
"""Tests of ./play: with the built player, whose statuses and words they hold to the samples, and with a build played by a
script in the place of rt."""

import os
import pathlib
import pty
import random
import re
import shutil
import subprocess
import sys
import tempfile
import time
import unittest

sys.dont_write_bytecode = True

# pylint: disable=wrong-import-position
import building
import run_pack
from programs import ROOT, TOOLS

PLAY = ROOT / "play"
PLAYER = building.PROGRAM
SAMPLES = ROOT / "samples"
EXAMPLE = SAMPLES / "document-01.pack"
USAGE = "usage: ./play [FILE]   (--help says more)\n"


def run(words, **more):
    """Status, standard output and standard error."""
    more = {"input": b"", "stdout": subprocess.PIPE, "stderr": subprocess.PIPE, "timeout": 60, **more}
    if "stdin" in more:
        del more["input"]
    done = subprocess.run(words, check=False, **more)
    return done.returncode, done.stdout, (done.stderr or b"").decode()


def shell(text, *words, **more):
    """A line of sh, with "$@" for these words."""
    return run(["sh", "-c", text, "sh", *words], **more)


def longest():
    """A pack of 65535 bytes, and what it prints: the announcement is heard again and again, and draws LM_ACK each time."""
    events = 65535 - 13 - 10 - 9
    pack = bytes([3, 13, 0, 10, 0, 23, 0, 9, 0, 32, 0]) + events.to_bytes(2, "little")
    pack += bytes([1, 10, 0, 100, 0, 10, 0, 2, 0xF9, 0x06]) + bytes(range(1, 10)) + b"\x05" * events
    answers = "".join(f"{number} R 2 01 02 FF FF FF FF FF FF\n" for number in range(1, events + 1))
    return pack, ("0 S 1 00 02 09 00 FF FF FF FF\n" + answers).encode()


class Played(unittest.TestCase):
    """The built player."""

    @classmethod
    def setUpClass(cls):
        if not os.access(PLAYER, os.X_OK):
            raise AssertionError(f"{PLAYER} is not built: rt run in crates/play")

    def test_a_file_and_standard_input(self):
        out = EXAMPLE.with_suffix(".out").read_bytes()
        pack = EXAMPLE.read_bytes()
        self.assertEqual(run([PLAY, EXAMPLE]), (0, out, ""))
        self.assertEqual(run([PLAY], input=pack), (0, out, ""))
        self.assertEqual(run([PLAY, "-"], input=pack), (0, out, ""))
        self.assertEqual(shell('(head -c 20 "$1"; sleep 0.2; tail -c +21 "$1") | "$2"', EXAMPLE, PLAY), (0, out, ""))

    def test_from_another_folder_and_by_a_link(self):
        out = EXAMPLE.with_suffix(".out").read_bytes()
        with tempfile.TemporaryDirectory() as folder:
            os.symlink(PLAY, pathlib.Path(folder) / "player")
            shutil.copy(EXAMPLE, pathlib.Path(folder) / "-x.pack")
            self.assertEqual(run(["./player", "--", "-x.pack"], cwd=folder), (0, out, ""))

    def test_refused(self):
        """'refused n' alone is printed, status 1, and the meaning stands on standard error."""
        for name, number, words in (
            ("refused-gap-11", 1, "a setting is outside its limits (offset 13: the gap is 11, and its limits are 1 to 10)"),
            ("refused-message-empty", 2, "the message is empty or too long "
             "(offset 23: the message has 0 bytes, and its limits are 1 to 1785)"),
            ("refused-event-9", 12, "this is no run pack (offset 39: event 8 is 9, and events are 1 to 8)"),
        ):
            pack = SAMPLES / f"{name}.pack"
            printed = f"refused {number}\n".encode()
            self.assertEqual(run([PLAY, pack]), (1, printed, f"play: {pack}: refused {number}: {words}\n"))
        said = "play: standard input: refused 12: this is no run pack (offset 0: the pack is empty)\n"
        self.assertEqual(run([PLAY]), (1, b"refused 12\n", said))

    def test_sizes(self):
        """65535 bytes are played, with nothing cut; one more is refused, and so is input without end."""
        pack, out = longest()
        self.assertEqual(run([PLAY], input=pack), (0, out, ""))
        words = "this is no run pack (offset 65535: the pack goes on after 65535 bytes, the most that one has)\n"
        said = "play: standard input: refused 12: " + words
        self.assertEqual(run([PLAY], input=pack + b"\x05"), (1, b"refused 12\n", said))
        self.assertEqual(run([PLAY, "/dev/zero"]), (1, b"refused 12\n", said.replace("standard input", "/dev/zero")))

    def test_usage(self):
        status, out, said = run([PLAY, "--help"])
        self.assertEqual((status, said), (0, ""))
        self.assertTrue(out.startswith(b"usage: ./play [FILE]\n"))
        self.assertEqual(run([PLAY, EXAMPLE, "-h"]), (0, out, ""))
        self.assertEqual(run([PLAY, "a", "b"]), (2, b"", "play: one file is taken, not 2\n" + USAGE))
        self.assertEqual(run([PLAY, "-x"]), (2, b"", "play: option -x not recognized\n" + USAGE))
        self.assertEqual(run([PLAY, "--quick"]), (2, b"", "play: option --quick not recognized\n" + USAGE))

    def test_nobody_types_a_pack(self):
        """Without a file, a terminal as standard input is a mistake and no wait."""
        ours, theirs = pty.openpty()
        self.addCleanup(os.close, ours)
        self.addCleanup(os.close, theirs)
        self.assertEqual(run([PLAY], stdin=theirs), (2, b"", "play: a file is needed\n" + USAGE))

    def test_a_failed_read_is_told(self):
        self.assertEqual(run([PLAY, "no-such-file"]), (2, b"", "play: no-such-file: No such file or directory\n"))
        self.assertEqual(run([PLAY, TOOLS]), (2, b"", f"play: {TOOLS}: Is a directory\n"))
        self.assertEqual(shell('"$1" <"$2"', PLAY, TOOLS), (2, b"", "play: standard input: Is a directory\n"))
        self.assertEqual(shell('"$1" <&-', PLAY), (2, b"", "play: standard input is closed\n"))
        self.assertEqual(run([PLAY, "/proc/self/mem"]), (2, b"", "play: /proc/self/mem: Input/output error\n"))
        with tempfile.TemporaryDirectory() as folder:
            loop = pathlib.Path(folder) / "loop.pack"
            loop.symlink_to(loop)
            self.assertEqual(run([PLAY, loop]), (2, b"", f"play: {loop}: Too many levels of symbolic links\n"))

    def test_a_failed_write_is_told(self):
        full = "play: standard output: No space left on device\n"
        for words in ([PLAY, EXAMPLE], [PLAY, SAMPLES / "refused-event-9.pack"], [PLAY, "--help"]):
            with open("/dev/full", "wb") as out:
                self.assertEqual(run(words, stdout=out), (2, None, full))
            self.assertEqual(shell('exec "$@" >&-', *words), (2, b"", "play: standard output is closed\n"))

    def test_a_reader_that_goes_away_is_told(self):
        """What is printed is more than a pipe holds, so that a write meets the closed pipe whenever its reader ends."""
        pack, out = longest()
        self.assertGreater(len(out), 1 << 21)
        for reader in ("true", "head -c 1 >/dev/null", "sleep 0.3"):
            told = shell(f'("$1"; echo $? >&2) | {reader}', PLAY, input=pack)
            self.assertEqual(told, (0, b"", "play: standard output: Broken pipe\n2\n"))

    def test_standard_error_may_be_gone(self):
        pack = SAMPLES / "refused-event-9.pack"
        self.assertEqual(shell('exec "$@" 2>&-', PLAY, pack), (1, b"refused 12\n", ""))
        self.assertEqual(shell('exec "$@" 2>/dev/full', PLAY, pack), (1, b"refused 12\n", ""))
        self.assertEqual(shell('exec "$@" 2>&-', PLAY, "no-such-file"), (2, b"", ""))

    def test_nothing_is_left_behind(self):
        with tempfile.TemporaryDirectory() as folder:
            for name in ("document-01", "refused-event-9"):
                run([PLAY, SAMPLES / f"{name}.pack"], env={**os.environ, "TMPDIR": folder})
            self.assertEqual(os.listdir(folder), [])

    def test_the_words_are_of_the_rule(self):
        """The number that the proved player prints is the one whose rule is said, on packs with a byte or two changed."""
        draw = random.Random(11)
        seen = set()
        for _ in range(300):
            pack = bytearray(EXAMPLE.read_bytes())
            for _ in range(draw.randint(1, 2)):
                place = draw.randrange(len(pack) if draw.random() < 0.7 else 23)
                pack[place] = draw.choice([0, 1, 3, 8, 9, 10, 11, 13, 255])
            if draw.random() < 0.1:
                del pack[draw.randrange(len(pack)) :]
            fault = run_pack.refused(bytes(pack))
            status, out, _ = run([PLAYER], input=bytes(pack))
            self.assertEqual(status, 0)
            printed = re.fullmatch(rb"refused (\d+)\n", out)
            self.assertEqual(printed and int(printed[1]), fault and fault.refusal, pack.hex(" "))
            seen.add(fault and fault.refusal)
        self.assertEqual(seen, {None, 1, 12})


# A script in the place of rt: says that the crates in FAKE_SAYS are proved in their turn, with pauses, leaves a player where there
# is none, and ends with FAKE_STATUS.
FAKE_RT = """#!/bin/sh
echo "$@" "in $(basename "$PWD")" >>../../ran
for word in $FAKE_SAYS; do
    case $word in
    sleep) sleep 1.1 ;;
    *) echo "rt: chose --jobs 2 for $word" >&2 ;;
    esac
done
[ "${FAKE_STATUS:-0}" -ne 0 ] || [ -x out/play ] || {
    mkdir -p out
    printf '#!/bin/sh\\ncat >/dev/null\\necho 0 S played\\n' >out/play
    chmod +x out/play
}
exit "${FAKE_STATUS:-0}"
"""
CRATES = """# a comment
low:
left: low        # and another
right: low
other: low
face staticlib: low
play: left right low
"""


class Built(unittest.TestCase):
    """A small repository of its own, with a script for rt."""

    def setUp(self):
        folder = tempfile.TemporaryDirectory()
        self.addCleanup(folder.cleanup)
        self.root = pathlib.Path(folder.name) / "checkout"
        (self.root / "tools").mkdir(parents=True)
        shutil.copy(PLAY, self.root)
        for name in ("play.py", "building.py", "console.py", "run_pack.py"):
            shutil.copy(TOOLS / name, self.root / "tools")
        (self.root / "crates.txt").write_text(CRATES)
        for crate in ("low", "left", "right", "other", "face", "play"):
            (self.root / "crates" / crate / "src").mkdir(parents=True)
            (self.root / "crates" / crate / "src" / "lib.rt").write_text("code\n")
        self.hour_ago = time.time() - 3600
        self.age()
        self.bin = pathlib.Path(folder.name) / "bin"
        self.bin.mkdir()
        (self.bin / "rt").write_text(FAKE_RT)
        (self.bin / "rt").chmod(0o755)
        # A PATH with what ./play needs, and no rt.
        self.bare = pathlib.Path(folder.name) / "bare"
        self.bare.mkdir()
        (self.bare / "python3").symlink_to(sys.executable)
        for name in ("dirname", "readlink", "cat"):
            (self.bare / name).symlink_to(shutil.which(name))

    def age(self):
        """As if all was last changed an hour ago."""
        for path in self.root.rglob("*"):
            os.utime(path, (self.hour_ago, self.hour_ago))

    def play(self, says="", status=0, path=None, **more):
        environment = {**os.environ, "FAKE_SAYS": says, "FAKE_STATUS": str(status)}
        environment["PATH"] = path or f"{self.bin}:{os.environ['PATH']}"
        return run([self.root / "play"], env=environment, **more)

    def runs(self):
        ran = self.root / "ran"
        return ran.read_text().splitlines() if ran.exists() else []

    def test_built_once(self):
        """Quietly where it is quick, and again only where something that the player is built from changes."""
        self.assertEqual(self.play("low left right play"), (0, b"0 S played\n", ""))
        self.assertEqual(self.runs(), ["run in play"])
        changes = [
            ("crates/other/src/lib.rt", 1),
            ("crates/low/out/kept", 1),
            ("crates/low/src/lib.rt", 2),
            ("crates/play/src/new.rt", 3),
            ("crates.txt", 4),
        ]
        for name, times in changes:
            self.age()
            self.assertEqual(self.play(), (0, b"0 S played\n", ""))
            (self.root / name).parent.mkdir(exist_ok=True)
            with (self.root / name).open("a") as file:
                file.write("\n")
            for _ in "once", "again":
                self.assertEqual(self.play(), (0, b"0 S played\n", ""))
                self.assertEqual(len(self.runs()), times, name)

    def test_a_removed_file_is_a_change(self):
        self.play()
        (self.root / "crates/low/src/lib.rt").unlink()
        self.play()
        self.assertEqual(len(self.runs()), 2)

    def test_progress_in_lines(self):
        status, out, said = self.play("low sleep left sleep right sleep play sleep")
        self.assertEqual((status, out), (0, b"0 S played\n"))
        expected = """\
play: the player is proved and built first, which takes some minutes
play: proving low (1 of 4), N s so far
play: proving left (2 of 4), N s so far
play: proving right (3 of 4), N s so far
play: proving play (4 of 4), N s so far
play: the player is built after N s
"""
        self.assertEqual(re.sub(r"\d+ s\b", "N s", said), expected)
        seconds = list(map(int, re.findall(r"(\d+) s\b", said)))
        self.assertEqual(seconds, sorted(seconds))
        self.assertGreaterEqual(seconds[-1], 3)

    def test_one_at_a_time(self):
        """A crate that takes no time has no line; nor has what no crate of the player is."""
        _, _, said = self.play("low sleep left right sleep other sleep play")
        proving = re.findall(r"proving (.*),", said)
        self.assertEqual(proving, ["low (1 of 4)", "right (3 of 4)"])

    def test_progress_on_a_terminal(self):
        """One line, which is written again and cleared, no longer than the terminal is wide."""
        ours, theirs = pty.openpty()
        self.addCleanup(os.close, ours)
        status, out, _ = self.play("low left sleep right play sleep", stderr=theirs)
        os.close(theirs)
        self.assertEqual((status, out), (0, b"0 S played\n"))
        said = b""
        with open(os.dup(ours), "rb", buffering=0) as terminal:
            try:
                while piece := terminal.read(1024):
                    said += piece
            except OSError:  # the other side is closed
                pass
        first, rest = said.decode().split("\r\n", 1)
        self.assertEqual(first, "play: the player is proved and built first, which takes some minutes")
        lines = rest.split("\r")
        self.assertEqual(lines[0], "")
        self.assertRegex(lines[1], r"^play: proving left \(2 of 4\), \d s so far\x1b\[K$")
        self.assertTrue(any(re.match(r"play: proving play \(4 of 4\), \d s so far\x1b\[K$", line) for line in lines))
        self.assertRegex("\r".join(lines[-2:]), r"^\x1b\[Kplay: the player is built after \d s\r\n$")

    def test_no_rt(self):
        said = "play: the player has to be built, and rt, the command of the Rattle kit, is not on the PATH\n"
        self.assertEqual(self.play(path=str(self.bare)), (2, b"", said))

    def test_no_python(self):
        (self.bare / "python3").unlink()
        self.assertEqual(self.play(path=str(self.bare)), (2, b"", "play: python3 is not on the PATH\n"))

    def test_no_rt_is_needed_for_a_built_player(self):
        self.play()
        self.assertEqual(self.play(path=str(self.bare)), (0, b"0 S played\n", ""))

    def test_a_build_that_fails(self):
        _, _, said = self.play("low sleep left", status=1)
        after = r"\nplay: rt stopped after \d s\nrt: chose --jobs 2 for low\nrt: chose --jobs 2 for left\nplay: the player could not"
        self.assertRegex(said, after)
        said = "rt: chose --jobs 2 for low\nplay: the player could not be built: rt run in crates/play ended with status 1\n"
        self.assertEqual(self.play("low", status=1), (2, b"", said))

    def test_a_player_that_breaks_off(self):
        self.play()
        (self.root / "crates/play/out/play").write_text("#!/bin/sh\necho 0 S played\nexit 3\n")
        self.assertEqual(self.play(), (2, b"", "play: the player broke off with status 3\n"))
        (self.root / "crates/play/out/play").write_text("#!/bin/sh\nprintf '0 S pla'\n")
        self.assertEqual(self.play(), (2, b"", "play: the player broke off with status 0\n"))

    def test_an_unreadable_pack_is_told_before_the_build(self):
        self.assertEqual(run([self.root / "play", "no-such-file"])[0], 2)
        self.assertEqual(self.runs(), [])


if __name__ == "__main__":
    unittest.main()
