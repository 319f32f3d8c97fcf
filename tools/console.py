"""What ./play, make_pack and show_pack share: reading, writing, and words and status 2 where either fails."""

import contextlib
import getopt
import itertools
import os
import sys
import traceback


class Failure(Exception):
    """What could not be done, in words. The program ends with status 2."""


class Usage(Failure):
    """A command line that means nothing."""


def opened_standards():
    """Which of descriptors 0, 1 and 2 were closed. They are opened, so that no file takes their numbers."""
    closed = set()
    for descriptor in (0, 1, 2):
        try:
            os.fstat(descriptor)
        except OSError:
            os.open(os.devnull, os.O_RDWR)
            closed.add(descriptor)
    return closed


CLOSED = opened_standards()


def write_all(descriptor, data):
    left = memoryview(data)
    while left:
        left = left[os.write(descriptor, left) :]


def say(text, end="\n"):
    """Words on standard error; where that fails too, the exit status is all there is."""
    with contextlib.suppress(OSError):
        write_all(2, os.fsencode(text + end))


def write(data):
    """All of it to standard output, past every buffer."""
    if 1 in CLOSED:
        raise Failure("standard output is closed")
    try:
        write_all(1, data)
    except OSError as problem:
        raise Failure(f"standard output: {problem.strerror}") from None


def write_file(name, data):
    """The file has all of it, or is left as it was. What is no plain file, as a pipe, is written to directly."""
    place = os.path.realpath(name)
    plain = os.path.isfile(place) or not os.path.exists(place)
    written = f"{place}.{os.getpid()}.part" if plain else place
    try:
        with open(written, "xb" if plain else "wb", buffering=0) as file:
            try:
                write_all(file.fileno(), data)
                if plain:
                    os.replace(written, place)
            except BaseException:
                if plain:
                    os.unlink(written)
                raise
    except OSError as problem:
        raise Failure(f"{name}: {problem.strerror}") from None


def shown_name(name):
    return "standard input" if name == "-" else name


def read(name, most=-1):
    """The bytes of this file, or of standard input for '-'; no more than the most."""
    if name == "-" and 0 in CLOSED:
        raise Failure("standard input is closed")
    try:
        with open(0 if name == "-" else name, "rb", closefd=name != "-") as file:
            return file.read(most)
    except OSError as problem:
        raise Failure(f"{shown_name(name)}: {problem.strerror}") from None
    except ValueError:  # a NUL in a name
        raise Failure(f"{name!r}: no name of a file") from None


def file_argument(arguments, letters=""):
    """The options, and the file named: '-' for standard input, which nobody types into a terminal without asking for it."""
    try:
        options, names = getopt.gnu_getopt(arguments, letters)
    except getopt.GetoptError as problem:
        raise Usage(str(problem)) from None
    if len(names) > 1:
        raise Usage(f"one file is taken, not {len(names)}")
    if not names and 0 not in CLOSED and os.isatty(0):
        raise Usage("a file is needed")
    return dict(options), names[0] if names else "-"


def run(program, main, text):
    """Ends with main's status. The text begins with the usage; all of it is shown for --help."""
    usage = text.partition("\n")[0]
    try:
        if {"-h", "--help"}.intersection(itertools.takewhile("--".__ne__, sys.argv[1:])):
            write(text.encode())
            status = 0
        else:
            status = main(sys.argv[1:])
    except Usage as problem:
        say(f"{program}: {problem}\n{usage}   (--help says more)")
        status = 2
    except Failure as problem:
        say(f"{program}: {problem}")
        status = 2
    except KeyboardInterrupt:
        status = 130
    except Exception:  # a mistake of ours; status 1 means something else
        say(f"{program}: {traceback.format_exc()}", end="")
        status = 2
    sys.exit(status)
