#!/usr/bin/env python3
"""Runs the program emc2305_speeds on many logs and compares all that it writes with the reports of the independent model.

    python3 tests/speeds_test.py target/bin/emc2305_speeds

The logs are those of host/expected/src/speeds.rs. Also tried: input that comes in pieces, input that stays open where
the report has ended, input that cannot be read, output that nobody takes, and arguments that are no number of poles.
"""
import contextlib
import os
import subprocess
import sys
import tempfile

import host
import programs
from programs import WINDOW, counts

# names of cases
WRONG = "poles 0"
FEW = "a few samples"
LONG = "a long log"


def unpacked(words):
    """The log of a case: records in hex, and how often each stands there where that is more than once."""
    pieces = (word.partition("*") for word in words.split())
    return b"".join(bytes.fromhex(piece) * int(times or 1) for piece, _, times in pieces)


def expected_reports():
    """The name, the argument, the log and the report of each case."""
    for case, report in host.expected("speeds"):
        name, argument, words = case.split("\t")
        yield name, argument, unpacked(words), report.replace("; ", "\n").encode() + b"\n"


def ends_before_input(report):
    """The report stops, and more input could not change it."""
    word, *numbers = report.splitlines()[-1].split()
    return word == b"stop" and numbers[-1] != b"1"


def input_open(command, name, log, report):
    """The program writes the report and ends while its input is open behind the log."""
    name = f"{name}, its input open"
    with tempfile.TemporaryFile() as output:
        process = subprocess.Popen(command, stdin=subprocess.PIPE, stdout=output, stderr=subprocess.DEVNULL, bufsize=0)
        with contextlib.suppress(BrokenPipeError):
            process.stdin.write(log)
        programs.finished(name, process)
        process.stdin.close()
        output.seek(0)
        programs.compare(name, log, report, output.read())


def wrong_arguments(program, report):
    """Each has this report and a usage on standard error, and no log is read."""
    for words in ([], [""], ["5"], ["01"], [" 1"], ["1\n"], [b"1\xff"], ["x" * 100_000], ["1" * WINDOW], ["--help "], ["-h"],
                  ["1", "1"], ["1", ""], ["", "1"], ["1", "--help"], ["--help", "1"], ["--help", "--help"], ["1"] * 300):
        name = programs.shortened(f"the arguments {words}")
        output, errors = programs.input_left([program, *words], name)
        programs.stands(name, report, output, errors)
        programs.has_usage(program, name, errors)


def unreadable_inputs(command, logs):
    """Errors at the first read, and behind every part of a log: no report, whatever came before."""
    programs.unreadable_at_once(command)
    for log in logs:
        programs.unreadable_behind(command, log, b"")


def main():
    if len(sys.argv) != 2:
        sys.exit(__doc__)
    program = os.path.abspath(sys.argv[1])
    cases = {}
    for name, argument, log, report in expected_reports():
        programs.hand_over([program, argument], name, log, report)
        if ends_before_input(report):
            input_open([program, argument], name, log, report)
        cases[name] = log, report
    programs.none_missing(cases.keys())
    few, long = cases[FEW][0], cases[LONG][0]
    unreadable_inputs([program, "2"], [few[:length] for length in range(len(few) + 1)])
    for log in (few, long):
        programs.untaken_outputs([program, "2"], log, b"")
    wrong_arguments(program, cases[WRONG][1])
    programs.helps(program)
    print(f"speeds_test: {counts['logs']} logs, {counts['bytes']} bytes as expected; {counts['others']} cases of "
          f"unreadable input, untaken output and arguments")


if __name__ == "__main__":
    main()
