#!/usr/bin/env python3
"""Shows that tools/edits.py finds each edit that does not fit, and takes those that do."""
import trials

CODE = "one\ntwo\nthree two\n"

# A name, the edit, the exit status, and what must be printed.
CASES = [
    ("one place", "# Why.\nfile: src/lib.rt\nold: three\nnew: four\n", 0, "1 tried apart, 0 that do not fit"),
    ("a place that the replacement before it left", "file: src/lib.rt\nold: three two\nnew: 3\nold: two\nnew: 2\n", 0, "0 that do not fit"),
    ("nothing in its stead", "file: src/lib.rt\nold: one\nnew:\n", 0, "0 that do not fit"),
    ("no place", "file: src/lib.rt\nold: four\nnew: 4\n", 1, "has 0 places for: four"),
    ("two places", "file: src/lib.rt\nold: two\nnew: 2\n", 1, "has 2 places for: two"),
    ("no place any more", "file: src/lib.rt\nold: one\nnew: 1\nold: one\nnew: I\n", 1, "has 0 places for: one"),
    ("a file that is gone", "file: src/gone.rt\nold: one\nnew: 1\n", 1, "gone.rt is not there"),
    ("no file", "old: one\nnew: 1\n", 1, "is not there"),
    ("no old text", "file: src/lib.rt\nnew: 1\n", 1, "has no places"),
    ("no new text", "file: src/lib.rt\nold: one\n", 1, "it replaces nothing"),
    ("the same text", "file: src/lib.rt\nold: one\nnew: one\n", 1, "it changes nothing"),
    ("no edit at all", None, 1, "0 tried apart"),
]

GOOD = "file: src/lib.rt\nold: one\nnew: 1\n"

trials.compare(
    "edits.py",
    [
        (name, {"crates/a/src/lib.rt": CODE, **({"tried/a/wrong.edit": edit} if edit else {})}, ["crates", "tried"], status, [line])
        for name, edit, status, line in CASES
    ]
    + [
        (f"{name}, of the gate", {"crates/a/src/lib.rt": CODE, "crates/a/must-fail/wrong.edit": edit, "tried/a/good.edit": GOOD}, ["crates", "tried"], status, [line])
        for name, edit, status, line in CASES
        if edit and status
    ]
    + [
        ("one of each", {"crates/a/src/lib.rt": CODE, "crates/a/must-fail/good.edit": GOOD, "tried/a/good.edit": GOOD}, ["crates", "tried"], 0, ["1 of the gate, 1 tried apart, 0 that do not fit"]),
    ],
)
