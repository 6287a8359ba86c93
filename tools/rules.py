#!/usr/bin/env python3
"""Holds a page of rules to the definitions that it names.

    tools/rules.py PAGE..

A section of such a page has a paragraph `Definitions: FILE, FILE ..`, where a file without a folder is in that of the one before it, and tables whose last
column is headed `said by`. Each row of these names a definition at least, and each name is one of the section's files defines.
Prints what is not so, then a count; exits 1 where there is such a row, or no rule at all. Paths are those from the root of the repository.
"""
import pathlib
import re
import sys

SECTION = re.compile(r"^## ", re.MULTILINE)
FILES = re.compile(r"^Definitions: (.*?)\n\n", re.MULTILINE | re.DOTALL)
DEFINED = re.compile(r"^ *(?:abbrev |unfoldable )?pub (?:data |record )?(\w+)(?: :| \()", re.MULTILINE)
ROW = re.compile(r"^\|.*\|$")


def definitions(section):
    """The names that the files of a section define, and the files that are not there."""
    names, gone, folder = set(), [], pathlib.Path()
    listed = FILES.search(section)
    for file in re.split(r",\s+", listed.group(1)) if listed else []:
        path = pathlib.Path(file)
        folder = path.parent if path.parent.name else folder
        path = folder / path.name
        if path.is_file():
            names |= set(DEFINED.findall(path.read_text(encoding="utf-8")))
        else:
            gone.append(f"{path} is not there")
    return names, gone


def rules(section):
    """The last cell of each row of a section's tables of rules."""
    head = None
    for line in section.splitlines():
        if not ROW.match(line):
            head = None
            continue
        last = line.split("|")[-2].strip()
        if head is None:
            head = last
        elif head == "said by" and not set(last) <= set("-"):
            yield line, last


def faults(page):
    """How many rules a page has, and what is wrong with it."""
    count, found = 0, []
    for section in SECTION.split(page.read_text(encoding="utf-8"))[1:]:
        names, gone = definitions(section)
        found += gone
        for line, last in rules(section):
            count += 1
            named = re.findall(r"`(\w+)`", last)
            found += [f"no definition is named: {line}"] if not named else []
            found += [f"{name} is not defined in the files of its section: {line}" for name in named if name not in names]
    return count, found


def main():
    if len(sys.argv) < 2:
        sys.exit(__doc__)
    bad = 0
    for page in map(pathlib.Path, sys.argv[1:]):
        count, found = faults(page)
        for fault in found:
            print(f"{page}: {fault}")
        print(f"rules: {page}: {count} rules, {len(found)} that name no definition of theirs")
        bad += bool(found) or count == 0
    sys.exit(1 if bad else 0)


if __name__ == "__main__":
    main()
