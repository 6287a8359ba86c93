#!/usr/bin/env python3
"""Runs the commands of README.md as they stand there, and compares what they write with the text behind them.

    python3 tests/readme_test.py

A block of `sh` is run as one script, from the root of the repository; where a block of `text` comes next, the script's
output ends with it. The gate's own command is not run: it is what runs this test. The logs that README.md and docs/LOG.md
show in hex are held to the samples that they are said to be, and the lines behind that of docs/LOG.md to its listing.
"""
import pathlib
import re
import subprocess
import sys

ROOT = pathlib.Path(__file__).resolve().parent.parent
GATE = "bash .ci/run"
TIMEOUT = 1200  # seconds, after which a command counts as hanging
SAMPLES = ROOT / "samples"
COMMANDS, OUTPUTS = 13, 9  # what README.md has besides the gate's command
HEX = re.compile(r"^((?:[0-9A-F]{2} )+) ", re.MULTILINE)
FENCED = re.compile(r"^ *```(\w*)\n(.*?)^ *```$", re.MULTILINE | re.DOTALL)


def blocks(text):
    """The language and the lines of each fenced block, without the indent of a list."""
    return [(language, re.sub(r"^ {3}", "", body, flags=re.MULTILINE)) for language, body in FENCED.findall(text)]


def logs_in_hex(fenced):
    """The bytes of the blocks that have no language."""
    return [bytes.fromhex("".join(HEX.findall(body))) for language, body in fenced if language == ""]


def hold_log_page():
    """docs/LOG.md shows one log, and its lines."""
    fenced = blocks((ROOT / "docs" / "LOG.md").read_text(encoding="utf-8"))
    lines = [body for language, body in fenced if language == "text"]
    if logs_in_hex(fenced) != [(SAMPLES / "no-kick.log").read_bytes()] or lines != [(SAMPLES / "no-kick.lines").read_text(encoding="ascii")]:
        sys.exit("readme_test: docs/LOG.md does not show no-kick.log and its lines")


def main():
    hold_log_page()
    fenced = blocks((ROOT / "README.md").read_text(encoding="utf-8"))
    ran = compared = 0
    for (language, script), (after, lines) in zip(fenced, fenced[1:] + [("", "")]):
        if language != "sh" or script.strip() == GATE:
            continue
        result = subprocess.run(["bash", "-euo", "pipefail", "-c", script], cwd=ROOT, capture_output=True, text=True, timeout=TIMEOUT)
        if result.returncode != 0:
            sys.exit(f"readme_test: this fails:\n{script}{result.stdout}{result.stderr}")
        ran += 1
        if after == "text":
            if not result.stdout.endswith(lines):
                sys.exit(f"readme_test: this writes something else than the README says:\n{script}{result.stdout}")
            compared += 1
    if GATE + "\n" not in [script for _, script in fenced] or (ran, compared) != (COMMANDS, OUTPUTS):
        sys.exit(f"readme_test: {ran} commands found and {compared} outputs, not {COMMANDS} and {OUTPUTS}")
    if logs_in_hex(fenced) != [(SAMPLES / "spin-up.log").read_bytes()]:
        sys.exit("readme_test: the log in hex of README.md is not spin-up.log")
    print(f"readme_test: {ran} commands, {compared} outputs")


main()
