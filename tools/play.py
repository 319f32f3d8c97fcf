"""usage: ./play [FILE]

Plays a run pack and prints what both ends do, a line for each frame and each report. Without FILE, or where it is -, the
pack is standard input.

    ./play samples/document-01.pack
    ./play < samples/document-01.pack

The player is proved and built first where it is missing or older than what it is built from, which takes some minutes.

Exit status:
    0   the pack was played
    1   it was refused: 'refused n' is all that is printed, and standard error says why
    2   bad usage, something that could not be read or written, or a player that could not be built

tools/make_pack makes a pack from a description, and tools/show_pack shows a pack as one.
"""

import re
import subprocess

import building
import console
import run_pack

MEANINGS = {
    1: "a setting is outside its limits",
    2: "the message is empty or too long",
    12: "this is no run pack",
}


def played(pack):
    """What the proved player prints."""
    try:
        done = subprocess.run([building.PROGRAM], input=pack, stdout=subprocess.PIPE, check=False)
    except OSError as problem:
        raise console.Failure(f"{building.PROGRAM}: {problem.strerror}") from None
    if done.returncode or not done.stdout.endswith(b"\n"):
        raise console.Failure(f"the player broke off with status {done.returncode}")
    return done.stdout


def meaning(number, pack):
    """A refusal's number in words, with the place in the pack."""
    words = f"refused {number}: {MEANINGS[number]}"
    fault = run_pack.refused(pack)
    if fault and fault.refusal == number:
        words += f" (offset {fault.offset}: {fault.words})"
    return words


def main(arguments):
    _, name = console.file_argument(arguments)
    pack = console.read(name, run_pack.PACK_MOST + 1)
    if not building.up_to_date():
        building.build()
    printed = played(pack)
    console.write(printed)
    refusal = re.fullmatch(rb"refused ([0-9]+)\n", printed)
    if refusal:
        console.say(f"play: {console.shown_name(name)}: {meaning(int(refusal[1]), pack)}")
    return 1 if refusal else 0


if __name__ == "__main__":
    console.run("play", main, __doc__)
