#!/usr/bin/env python3
"""Shows that tools/rules.py finds a rule that names no definition of its section's files, and takes those that do."""
import trials

FILES = {
    "crates/a/specs/One.antt": "abbrev pub first : ℕ\nfirst = 1\n\nmodule _ (n : ℕ) where\n  unfoldable pub inner : ℕ\n  inner = n\n",
    "crates/a/specs/Two.antt": "pub data Said : Type 0 where\n\npub record Held (n : ℕ) : Type 0 where\n",
    "crates/b/specs/One.antt": "abbrev pub other : ℕ\nother = 2\n",
}
PAGE = """# A page

## A section

Definitions: crates/a/specs/One.antt, Two.antt,
crates/b/specs/One.antt

| rule | said by |
|---|---|
| `one` is first | `first`, `inner` |
| it is said | `Said`, `Held`, `other` |

| name | value |
|---|---|
| `gone` | `gone` |
"""

# A name, the page, the exit status, and what must be printed.
CASES = [
    ("a page as it should be", PAGE, 0, "2 rules, 0 that name no"),
    ("a name that is not there", PAGE.replace("`inner`", "`gone`"), 1, "gone is not defined in the files of its section"),
    ("a name of another file", PAGE.replace(", Two.antt", ""), 1, "Said is not defined"),
    ("a name of another section", PAGE + "\n## Next\n\n| rule | said by |\n|---|---|\n| again | `first` |\n", 1, "first is not defined"),
    ("a rule without a name", PAGE.replace("`first`, `inner`", "nobody"), 1, "no definition is named: | `one` is first"),
    ("a file that is gone", PAGE.replace("Two", "Three"), 1, "crates/a/specs/Three.antt is not there"),
    ("no rule at all", PAGE.replace("said by", "by"), 1, "0 rules"),
]

trials.compare("rules.py", [(name, {**FILES, "page.md": page}, ["page.md"], status, [line]) for name, page, status, line in CASES])
