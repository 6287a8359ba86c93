#!/usr/bin/env python3
"""Checks that every edit still fits, of must-fail/ and of tests/tried: each old text stands in its file exactly once when its turn comes, and the new
one is another.

    tools/edits.py CRATES_FOLDER TRIED_FOLDER

Nothing is proved here: the gate and `tools/tried` have the prover refuse them. It is here so that one that does not fit is found in a second.
Prints each edit that does not fit, then a count; exits 1 where there is one, or no edit of tests/tried at all.
"""
import pathlib
import sys


def replacements(edit):
    """The file, old and new text of each replacement, in turn. A `file:` line holds for those after it."""
    file = old = None
    for line in edit.read_text(encoding="utf-8").splitlines():
        if line.startswith("file: "):
            file = line.removeprefix("file: ")
        elif line.startswith("old: "):
            old = line.removeprefix("old: ")
        elif line.startswith("new:"):
            yield file, old, line.removeprefix("new:").removeprefix(" ")
            old = None


def misfit(crate, edit):
    """What is wrong with an edit of a crate, or nothing. A replacement sees what those before it made of the file."""
    texts = {}
    for file, old, new in replacements(edit):
        path = crate / (file or "")
        if not path.is_file():
            return f"{path} is not there"
        text = texts.get(file) or path.read_text(encoding="utf-8")
        if not old or text.count(old) != 1:
            return f"{path} has {text.count(old) if old else 'no'} places for: {old}"
        if new == old:
            return f"it changes nothing: {old}"
        texts[file] = text.replace(old, new)
    return None if texts else "it replaces nothing"


def main():
    if len(sys.argv) != 3:
        sys.exit(__doc__)
    crates, tried = map(pathlib.Path, sys.argv[1:])
    gate = [(edit.parent.parent, edit) for edit in sorted(crates.glob("*/must-fail/*.edit"))]
    apart = [(crates / edit.parent.name, edit) for edit in sorted(tried.glob("*/*.edit"))]
    wrong = [(edit, fault) for crate, edit in gate + apart if (fault := misfit(crate, edit))]
    for edit, fault in wrong:
        print(f"{edit}: {fault}")
    print(f"edits: {len(gate)} of the gate, {len(apart)} tried apart, {len(wrong)} that do not fit")
    sys.exit(1 if wrong or not apart else 0)


if __name__ == "__main__":
    main()
