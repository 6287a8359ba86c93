#!/usr/bin/env python3
"""Holds the logs of samples/ to their listings: by the independent model, and by the program.

    python3 tests/samples_test.py target/bin/emc2305_replay

It also holds samples/ramp.log and samples/held-rotor.log to the logs of which crates/emc2305_promises/specs proves a ramp, in Busy.antt, and what
reads of a held rotor's status show, in Held.antt.
"""
import pathlib
import re
import subprocess
import sys

import host

ROOT = pathlib.Path(__file__).resolve().parent.parent
MARK = b"\x9c\x46"
RECORD = re.compile(r"laid_out (\d+) \(([^()]*)\)")


def fail(text):
    sys.exit(f"samples_test: {text}")


def proved_trace(file, name):
    """The bytes of a definition."""
    definition = (ROOT / "crates/emc2305_promises/specs" / file).read_text(encoding="utf-8").split(f"\n{name} =")[1].split("\n\n")[0]
    payloads = [(int(kind), [int(x, 0) for x in row.split(" ∷ ")[:-1]]) for kind, row in RECORD.findall(definition)]
    return b"".join(bytes([*MARK, kind, len(payload), *payload]) for kind, payload in payloads)


if len(sys.argv) != 2:
    sys.exit(__doc__)
logs = sorted((ROOT / "samples").glob("*.log"))
for file in logs:
    log, lines = file.read_bytes(), file.with_suffix(".lines").read_bytes()
    if host.output("list", stdin=log) != lines:
        fail(f"{file.name}: the independent model lists other lines")
    if subprocess.run([sys.argv[1]], input=log, capture_output=True, timeout=60).stdout != lines:
        fail(f"{file.name}: the program lists other lines")
if (ROOT / "samples/ramp.log").read_bytes() != proved_trace("Busy.antt", "trace"):
    fail("ramp.log is not the log that the ramp is proved of")
if (ROOT / "samples/held-rotor.log").read_bytes() != proved_trace("Held.antt", "held_trace"):
    fail("held-rotor.log is not the log that the reads are proved of")
if len(logs) < 2:
    fail("a sample is missing")
print(f"samples_test: {len(logs)} samples")
