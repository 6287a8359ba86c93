"""Runs a program over logs and compares all that it writes, for the tests of the programs beside this file.

A command is a list of words: the program and its arguments.
"""
import contextlib
import itertools
import os
import pathlib
import pty
import subprocess
import sys
import tempfile
import time
import tty

WINDOW = 65536  # the programs' buffer
TIMEOUT = 60  # seconds, after which a program counts as hanging
counts = {"logs": 0, "bytes": 0, "others": 0}


# ---- running and comparing ----

def fail(name, text):
    sys.exit(f"{pathlib.Path(sys.argv[0]).stem}: {name}: {text}")


def shortened(text, most=160):
    return text if len(text) <= most else f"{text[:most // 2]}..{text[-most // 2:]} ({len(text)} characters)"


def first_difference(expected, actual):
    """The first line in which two outputs differ, of both."""
    lines, others = expected.splitlines(keepends=True), actual.splitlines(keepends=True)
    at = next((k for k, pair in enumerate(zip(lines, others)) if pair[0] != pair[1]), min(len(lines), len(others)))
    ours, theirs = (repr(side[at].decode("latin-1")) if at < len(side) else "nothing" for side in (lines, others))
    return f"line {at + 1}: expected {shortened(ours)}, got {shortened(theirs)}"


def compare(name, log, expected, actual):
    if actual != expected:
        fail(name, f"log {shortened(log.hex()) or 'empty'}, {first_difference(expected, actual)}")
    counts["logs"] += 1
    counts["bytes"] += len(expected)


def finished(name, process):
    """Waits for a program that has all its input. A timeout, too, names the case."""
    try:
        return process.wait(TIMEOUT)
    except subprocess.TimeoutExpired:
        process.kill()
        process.wait()
        fail(name, "the program does not end")


def output_of(command, name, stdin, **options):
    """What the program writes on standard output and standard error with an open file as its input."""
    with tempfile.TemporaryFile() as output, tempfile.TemporaryFile() as errors:
        finished(name, subprocess.Popen(command, stdin=stdin, stdout=output, stderr=errors, **options))
        output.seek(0)
        errors.seek(0)
        return output.read(), errors.read()


@contextlib.contextmanager
def as_file(log):
    """An open file with a log, at its start: a read gives as many bytes as it asks for."""
    with tempfile.TemporaryFile() as file:
        file.write(log)
        file.seek(0)
        yield file


def from_file(command, name, log, expected):
    """One log on standard input, in a file."""
    with as_file(log) as file:
        output, _ = output_of(command, name, file)
    compare(name, log, expected, output)


# ---- input in pieces ----

# the sizes of a log's pieces, again and again, and the seconds between two, by the log's name
PIECES = {
    "a byte at a time": ([1], 0.001),
    "a byte at a time, with a stop": ([1], 0.001),
    "a byte at a time, cut": ([1], 0.001),
    "odd pieces": ([1, 4999, 37, 3, 1021, 7], 0),
    "large pieces": ([WINDOW - 1, 1, WINDOW + 1, 2, 3 * WINDOW], 0),
    "a piece that ends inside a record": ([WINDOW - 10, 5, 1], 0.001),
}


def in_pieces(command, name, log, expected):
    """The log through a pipe, in the pieces of its name."""
    sizes, pause = PIECES[name]
    with tempfile.TemporaryFile() as output:
        process = subprocess.Popen(command, stdin=subprocess.PIPE, stdout=output, bufsize=0)
        with contextlib.suppress(BrokenPipeError), process.stdin as pipe:
            place = 0
            for size in itertools.cycle(sizes):
                place += pipe.write(log[place:place + size])
                if place == len(log):
                    break
                time.sleep(pause)
        finished(name, process)
        output.seek(0)
        compare(name, log, expected, output.read())


def hand_over(command, name, log, expected):
    """A log of host/expected, in the way that its name says."""
    (in_pieces if name in PIECES else from_file)(command, name, log, expected)


def none_missing(names):
    """Each log that comes in pieces is among those of host/expected."""
    if not PIECES.keys() <= names:
        fail("host/expected", f"no log for {PIECES.keys() - names}")


# ---- input that cannot be read ----

# Linux tells of the error only when all that was written has been read, however late that is. What is written before the
# program reads has to be shorter than 4,096 bytes, which a terminal holds: more could wait for ever.
@contextlib.contextmanager
def terminal():
    """Two ends: the near one gives what was written to the far one and then, once that is closed, an error."""
    near, far = pty.openpty()
    with open(near, "rb", buffering=0) as near, open(far, "wb", buffering=0) as far:
        tty.setraw(far)
        yield near, far


def stands(name, lines, output, errors):
    """What was written before the error, and a message."""
    if output != lines:
        fail(name, first_difference(lines, output))
    if not errors:
        fail(name, "no message on standard error")
    counts["others"] += 1


def unreadable_at_once(command):
    """Errors at the first read."""
    folder = os.open("/", os.O_RDONLY)
    stands("a folder as input", b"", *output_of(command, "a folder as input", folder))
    os.close(folder)
    closed = ["sh", "-c", 'exec "$0" "$@" <&-', *command]
    stands("closed input", b"", *output_of(closed, "closed input", None))


def unreadable_behind(command, log, lines):
    """All that comes before the error is there when the program begins to read."""
    name = f"a read error at place {len(log)}"
    with terminal() as (near, far):
        far.write(log)
        far.close()
        stands(name, lines, *output_of(command, name, near))


# ---- output that nobody takes ----

def untaken(command, name, file, first, signals):
    """The reader takes these bytes and goes. The write after that gives an error: a program ignores the signal, whether or not it was ignored before."""
    file.seek(0)
    process = subprocess.Popen(command, stdin=file, stdout=subprocess.PIPE, stderr=subprocess.DEVNULL,
                               restore_signals=signals)
    taken = process.stdout.read(len(first))
    process.stdout.close()
    finished(name, process)
    if taken != first:
        fail(name, f"{taken!r} at first")
    counts["others"] += 1


def untaken_outputs(command, log, first):
    """Of a log whose output begins with these bytes."""
    with as_file(log) as file, open("/dev/full", "wb") as full:
        untaken(command, "closed output", file, first, True)
        untaken(command, "closed output, the signal ignored", file, first, False)
        file.seek(0)
        finished("full output", subprocess.Popen(command, stdin=file, stdout=full, stderr=subprocess.DEVNULL))
        counts["others"] += 1


# ---- arguments that ask for no log on standard input ----

def has_usage(program, name, text):
    """A usage names its program and ends its line."""
    if os.path.basename(program).encode() not in text or not text.endswith(b"\n"):
        fail(name, f"{text!r} as a usage")


def input_left(command, name, **options):
    """What the program writes on standard output and standard error; of a log on standard input it reads nothing."""
    with as_file(bytes.fromhex("9c4601012c")) as file:
        output, errors = output_of(command, name, file, **options)
        if read := os.lseek(file.fileno(), 0, os.SEEK_CUR):
            fail(name, f"{read} bytes of standard input were read")
    return output, errors


def helps(program, **options):
    """--help alone: a usage on standard output."""
    output, _ = input_left([program, "--help"], "--help", **options)
    has_usage(program, "--help", output)
    counts["others"] += 1
