#!/usr/bin/env python3
"""Runs the replay program on many logs and compares all that it writes with the listings of the independent model.

    python3 tests/program_test.py target/bin/emc2305_replay

The logs are those of host/expected/src/program.rs. Also tried: input that comes in pieces, a log that is still being
written, input that cannot be read, output that nobody takes, a file as argument, and other arguments.
"""
import contextlib
import os
import pathlib
import select
import subprocess
import sys
import tempfile
import time

import host
import programs
from programs import TIMEOUT, WINDOW, counts, fail, first_difference, finished, stands, terminal

LINE_TIMEOUT = 10  # seconds, after which a line that is due counts as missing
GLANCE = 0.05  # seconds, in which a line that is not due would show; one that comes later is found with the next line
LONGEST_NAME = 4095  # bytes of a file's name
# names of logs
EXAMPLE = "document 01's example"
SHORT = "a byte at a time"
STOPPED = "a byte at a time, with a stop"
LONG = "a long log"


# ---- a log that is still being written ----

@contextlib.contextmanager
def at_work(command, stdin):
    """The program, to be given input and asked for lines in turn. It is ended where a check fails."""
    with subprocess.Popen(command, stdin=stdin, stdout=subprocess.PIPE, stderr=subprocess.PIPE, bufsize=0) as process:
        try:
            yield process
        finally:
            process.kill()


def written(process, seconds):
    """What the program writes next; nothing where the time is over or the output ends."""
    ready, _, _ = select.select([process.stdout], [], [], max(seconds, 0))
    return os.read(process.stdout.fileno(), WINDOW) if ready else b""


def expect(name, process, lines):
    """Waits for lines that are due, while the input is open: these, and no others with them."""
    until, actual = time.monotonic() + LINE_TIMEOUT, b""
    while len(actual) < len(lines) and (piece := written(process, until - time.monotonic())):
        actual += piece
    if actual != lines:
        fail(name, f"while the input is open, {first_difference(lines, actual)}")


def rest_of(name, process):
    """What the program still writes, on standard output and standard error, once its input is closed."""
    try:
        return process.communicate(timeout=TIMEOUT)
    except subprocess.TimeoutExpired:
        fail(name, "the program does not end")


def due(log, listing):
    """The records of a log, each with the lines that are due when it is whole; and what is due at the input's end."""
    *lines, last = listing.splitlines(keepends=True)
    places = [int(line.split()[0]) for line in lines] + [len(log)]
    if last.startswith(b"stop"):
        lines[-1], last = lines[-1] + last, b""
    return [(log[place:after], line) for place, after, line in zip(places, places[1:], lines)], last


def give(name, process, record, at):
    """Writes a record, in two parts where `at` is not 0; the first gives no line. That the program has gone shows later."""
    with contextlib.suppress(BrokenPipeError):
        process.stdin.write(record[:at])
        if at and (early := written(process, GLANCE)):
            fail(name, f"{early!r} behind {at} of its {len(record)} bytes")
        process.stdin.write(record[at:])


def as_it_comes(command, name, log, listing, turn):
    """Each record is written only when the line before it has come; every other one in two parts."""
    records, last = due(log, listing)
    with at_work(command, subprocess.PIPE) as process:
        for number, (record, lines) in enumerate(records):
            at = 1 + number % (len(record) - 1) if number % 2 == turn else 0
            give(f"{name}, record {number}", process, record, at)
            expect(f"{name}, record {number}", process, lines)
        if not last:
            finished(f"{name}, its input open", process)
        output, _ = rest_of(name, process)
    if output != last:
        fail(name, f"at its end, {first_difference(last, output)}")
    counts["others"] += 1


def logs_as_they_come(command, logs):
    """One ends with its input, one stops before. A record comes whole in one of them, and in two parts in the other."""
    as_it_comes(command, "a log as it comes", *logs[SHORT], 0)
    as_it_comes(command, "a log as it comes, with a stop", *logs[STOPPED], 1)


# ---- input that cannot be read ----

def whole_records(listing):
    """The lines of a log without the last one, and without that of a record in which the log ends."""
    lines = listing.splitlines(keepends=True)
    cut = lines[-1].startswith(b"stop")
    return b"".join(lines[:-2] if cut else lines[:-1])


def unreadable_later(command, first, its_listing, log, listing):
    """The rest of the log is written when the program has listed what came first."""
    name, early = "a read error behind two reads", whole_records(its_listing)
    with terminal() as (near, far), at_work(command, near) as process:
        far.write(first)
        expect(name, process, early)
        far.write(log[len(first):])
        far.close()
        output, errors = rest_of(name, process)
    stands(name, whole_records(listing), early + output, errors)


def unreadable_inputs(command, logs):
    """Errors at the first read, and behind every part of a log; the two of the last case end inside a record."""
    programs.unreadable_at_once(command)
    parts = [logs[f"short, cut at {length}"] for length in range(len(logs[SHORT][0]) + 1)]
    for log, listing in parts:
        programs.unreadable_behind(command, log, whole_records(listing))
    unreadable_later(command, *parts[len(parts) // 2], *parts[-2])


# ---- a file as argument ----

def title(word):
    return f"the file {programs.shortened(repr(word))}"


def listed(program, folder, word, log, listing):
    """The file of this name, in this folder, is listed."""
    name = title(word)
    output, _ = programs.input_left([program, word], name, cwd=folder)
    programs.compare(name, log, listing, output)


def named_files(program, folder, logs):
    """Logs of every size by their names, and one by names that look like something else or are as long as may be."""
    for name in (EXAMPLE, "no bytes", SHORT, STOPPED, LONG):
        log, listing = logs[name]
        (folder / "a.log").write_bytes(log)
        listed(program, folder, "a.log", log, listing)
    log, listing = logs[SHORT]
    path = os.fsencode(folder / "a.log")
    (folder / "a.log").write_bytes(log)
    for word in (path, path.rjust(LONGEST_NAME, b"/"), path.rjust(1000, b"/")):
        listed(program, folder, word, log, listing)
    for word in (b"-", b"-h", b"--", b"--help ", b"--helps", b"help", b"two words", "\u00e9\u4e2d".encode()):
        (folder / os.fsdecode(word)).write_bytes(log)
        listed(program, folder, word, log, listing)


def unopened_files(program, folder):
    """No listing, and a message: what is not there, is a folder or has too long a name, of which a part may be there.

    Nor is a file listed whose name is no UTF-8: the program opens files by Rattle's std, which takes a name as text.
    """
    path = os.fsencode(folder / "a.log")
    (folder / os.fsdecode(b"\xff\xfe")).write_bytes((folder / "a.log").read_bytes())
    words = [b"", b" ", b"none", b"a.log/", b"a.log/a.log", b"a.log ", b".", b"/", os.fsencode(folder), b"x" * 256, b"\xff\xfe"]
    words += [path.rjust(LONGEST_NAME + more, b"/") for more in (1, 2, LONGEST_NAME, 90_000)]
    words += [path.rjust(LONGEST_NAME, b"/") + b"x" * more for more in (1, 2, 4096)]
    for word in words:
        name = title(word)
        stands(name, b"", *programs.input_left([program, word], name, cwd=folder))


def too_many(program, folder):
    """No listing, and a usage on standard error; the files would be there."""
    for words in (["a.log", "a.log"], ["a.log", ""], ["", ""], ["--help", "--help"], ["--help", "a.log"],
                  ["a.log", "--help"], ["a.log"] * 3, ["a.log"] * 300):
        name = f"{len(words)} arguments, {words[:3]}"
        output, errors = programs.input_left([program, *words], name, cwd=folder)
        stands(name, b"", output, errors)
        programs.has_usage(program, name, errors)


def arguments(program, logs):
    with tempfile.TemporaryDirectory() as path:
        folder = pathlib.Path(path)
        (folder / "--help").write_bytes(logs[SHORT][0])
        programs.helps(program, cwd=folder)
        named_files(program, folder, logs)
        unopened_files(program, folder)
        too_many(program, folder)


def expected_listings():
    """The name, the log and the listing of each case."""
    for case, listing in host.expected("program"):
        name, log = case.split("\t")
        yield name, bytes.fromhex(log), bytes.fromhex(listing)


def main():
    if len(sys.argv) != 2:
        sys.exit(__doc__)
    program = os.path.abspath(sys.argv[1])
    logs = {}
    for name, log, listing in expected_listings():
        programs.hand_over([program], name, log, listing)
        logs[name] = log, listing
    programs.none_missing(logs.keys())
    logs_as_they_come([program], logs)
    unreadable_inputs([program], logs)
    # the long log, behind a record that is taken
    programs.untaken_outputs([program], logs[EXAMPLE][0] + logs[LONG][0], b"0 0\n")
    arguments(program, logs)
    print(f"program_test: {counts['logs']} logs, {counts['bytes']} bytes as expected; {counts['others']} cases of logs "
          f"as they come, unreadable input, untaken output and arguments")


if __name__ == "__main__":
    main()
