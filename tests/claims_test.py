#!/usr/bin/env python3
"""Shows that tools/claims.py finds what it is there to find, and nothing else."""
import trials

WHOLE = """
// A comment may say requires { or pub fn gone().
pub fn whole(x: u8) -> u8
    ensures { λ r. ⌜ r ≡ x ⌝ }
{
    if x == 0 { 0 } else { x }
}

fn private(x: u8) -> u8
    requires { ⌜ x < 9 ⌝ }
{
    x
}
"""
BARE = "pub fn bare(x: u8) -> u8 {\n    x\n}\n"
ASKING = "pub fn asking(x: u8) -> u8\n    requires { ⌜ x < 9 ⌝ }\n    ensures { λ r. ⌜ r ≡ x ⌝ }\n{\n    x\n}\n"
EXPORTED = '#[no_mangle]\npub extern "C" fn exported(x: u8) -> u8 {\n    x\n}\n'
METHOD = "impl S {\n    pub fn method(self) -> u8 {\n        0\n    }\n}\n"

# Functions of traits: a public trait of these crates, what a type has of it, and of a trait of std's by a law.
TRAIT = "pub trait Tells {\n    fn first(&self) -> [u8; 2]\n        ensures { λ r. Asked r };\n\n    fn tell(&self) -> u8\n        ensures told { λ r. ⌜ r ≡ 0 ⌝ };\n}\n"
TELLS = "impl<'a> deep::Tells for S<'a> {\n    fn tell(&self) -> u8 {\n        fn inner() {}\n        0\n    }\n}\n"
SHOWN = "impl fmt::Display for S<'_> {\n    ghost output = { λ s. Some (text s) };\n\n    fn fmt<W: fmt::Write>(&self, f: &mut fmt::Formatter<W>) -> fmt::Result {\n        f.go()\n    }\n}\n"
TRAITS = WHOLE + TRAIT + TELLS + SHOWN
FIRST, TOLD = "\n        ensures { λ r. Asked r }", "\n        ensures told { λ r. ⌜ r ≡ 0 ⌝ }"
OUTPUT = "ghost output = { λ s. Some (text s) };"

# A statement and one over any device, each with its proof; what is asked of a device has none.
STATED = "abbrev pub Kept : Type 0\nKept = Unit\n\nabbrev pub part : ℕ → Type 0\npart n = Unit\n"
OVER = """abbrev pub Asked : Device → Type 0
Asked d = Unit

pub record Lawful (d : Device) : Type 0 where
  pub asked : Asked d

abbrev pub InTurn : Device → Type 0
InTurn d = Unit
"""
PROVED = "pub kept : Kept\nkept = unit\n\nmodule _ (d : Device) (lawful : Lawful d) where\n  pub in-turn : InTurn d\n  in-turn = unit\n"
HOUSE = {
    "crates/a/src/lib.rt": WHOLE,
    "crates/a/specs/Promises.antt": STATED,
    "crates/a/specs/Over.antt": OVER,
    "crates/a/proofs/Lib.antt": "pub mod Proved\n",
    "crates/a/proofs/Proved.antt": PROVED,
}
COUNTS = "1 public functions, 0 without a full claim; 2 promises, 0 without a proof"


def house(**texts):
    """The house with some of its files in another text: `specs__Promises` stands for specs/Promises.antt."""
    return {**HOUSE, **{f"crates/a/{name.replace('__', '/')}.antt": text for name, text in texts.items()}}


def library(text):
    """The house with another library."""
    return {**HOUSE, "crates/a/src/lib.rt": text}


# A name, the files, the exit status, and what must be printed. Functions:
FUNCTIONS = [
    ("a whole claim passes", HOUSE, 0, [COUNTS]),
    ("no ensures", {**HOUSE, "crates/a/src/lib.rt": WHOLE + BARE}, 1, ["lib.rt:14: bare has no ensures"]),
    ("a requires", {**HOUSE, "crates/a/src/lib.rt": WHOLE + ASKING}, 1, ["lib.rt:14: asking has a requires", "2 public functions, 1 without"]),
    ("an exported function", {**HOUSE, "crates/a/src/lib.rt": EXPORTED}, 1, ["exported has no ensures"]),
    ("a method", {**HOUSE, "crates/a/src/lib.rt": METHOD}, 1, ["method has no ensures"]),
    ("a file below a module", {**HOUSE, "crates/a/src/deep/in.rt": BARE}, 1, ["in.rt:1: bare has no ensures"]),
    ("a later function's claim does not count", {**HOUSE, "crates/a/src/lib.rt": BARE + WHOLE}, 1, ["lib.rt:1: bare has no ensures"]),
    ("a program is passed over", {**HOUSE, "crates/b/src/main.rt": BARE}, 0, ["1 public functions"]),
    ("functions of traits", library(TRAITS), 0, ["5 public functions, 0 without"]),
    ("a trait's function with a requires", library(TRAITS.replace(TOLD, "\n        requires { Asked }" + TOLD)), 1, ["lib.rt:18: tell has a requires"]),
    ("a trait's function without an ensures", library(TRAITS.replace(FIRST, "")), 1, ["first has no ensures", ", 1 without"]),
    ("a trait that promises nothing, and an impl of it", library(TRAITS.replace(TOLD, "")), 1, ["lib.rt:18: tell has no", "lib.rt:21: tell has no"]),
    ("an impl's function with a requires", library(WHOLE + TRAIT + TELLS.replace("u8 {", "u8\n    requires { Asked }\n{")), 1, ["tell has a requires"]),
    ("an impl of another crate's trait", {**library(WHOLE + TELLS), "crates/b/src/lib.rt": TRAIT}, 0, ["4 public functions, 0 without"]),
    ("a Display without a law", library(TRAITS.replace(OUTPUT, "")), 1, ["fmt has no ensures"]),
    ("a Display whose law says nothing", library(TRAITS.replace("Some (text s)", "None")), 1, ["fmt has no ensures"]),
    ("another function's law", library(TRAITS.replace("ghost output", "ghost next_gives")), 1, ["fmt has no ensures"]),
    ("a trait that is not public", library(WHOLE + TRAIT.replace("pub trait", "trait")), 0, [COUNTS]),
    ("nothing to hold to a claim", {"crates/b/src/main.rt": BARE}, 1, ["0 public functions"]),
]

# Promises:
PROMISES = [
    ("a proof that is gone", house(proofs__Proved=PROVED.split("\n", 3)[3]), 1, ["Promises.antt: Kept has no proof", "2 promises, 1 without"]),
    ("a proof over any device that is gone", house(proofs__Proved=PROVED.split("\n  pub")[0]), 1, ["Over.antt: InTurn has no proof"]),
    ("a proof of something else", house(proofs__Proved=PROVED.replace(": Kept", ": Kept → Kept")), 1, ["Kept has no proof"]),
    ("a proof of less", house(proofs__Proved=PROVED.replace(": Kept", ": Kept 0")), 1, ["Kept has no proof"]),
    ("a comment is no proof", house(proofs__Proved=PROVED.replace("pub kept", "-- pub kept")), 1, ["Kept has no proof"]),
    ("a proof that others may not cite", house(proofs__Proved=PROVED.replace("pub kept", "kept")), 1, ["Kept has no proof"]),
    ("a proof in a section", house(proofs__Proved="module _ (h : Kept) where\n  " + PROVED), 1, ["Kept has no proof"]),
    ("a section that takes what it proves", house(proofs__Proved=PROVED.replace("Lawful d", "InTurn d")), 1, ["InTurn has no proof"]),
    ("what is asked before it", house(proofs__Proved=PROVED.replace(": InTurn", ": Lawful d → InTurn")), 0, [COUNTS]),
    ("a field of a record that asks nothing", house(specs__Over=OVER.replace("Lawful", "Other")), 1, ["Asked has no proof"]),
    ("a file that is not checked", house(proofs__Lib=""), 1, ["Kept has no proof", "InTurn has no proof"]),
    ("another crate's proof", {**house(proofs__Lib=""), "crates/b/proofs/Lib.antt": "pub mod P\n", "crates/b/proofs/P.antt": PROVED}, 1, ["Kept has no proof in a"]),
    ("no promise at all", {"crates/a/src/lib.rt": WHOLE}, 1, ["0 promises"]),
]

# A page, an edit in the gate and one tried apart:
PAGE = "`Kept`, `InTurn`, `Asked` hold; tried: `wrong`, `odd`†.\n\n## Where each theorem is\n\n`Kept`: Proved.antt\n\n## Then\n"
EDITS = {**HOUSE, "crates/a/must-fail/wrong.edit": "", "tried/a/odd.edit": ""}
PAGES = [
    ("a page that names all", {**EDITS, "page": PAGE}, 0, [COUNTS]),
    ("a statement that is not named", {**EDITS, "page": PAGE.replace("`Kept`", "Kept")}, 1, ["Kept is not named"]),
    ("a statement over any device that is not named", {**EDITS, "page": PAGE.replace("`InTurn`", "it")}, 1, ["InTurn is not named"]),
    ("a theorem that is gone", {**EDITS, "page": PAGE.replace("`Kept`: ", "`Kept`, `Gone`: ")}, 1, ["Gone is no statement"]),
    ("a function of a trait that is not named", {**EDITS, "crates/a/src/lib.rt": TRAITS, "page": PAGE + "`s.tell()`, `s.first()`"}, 1, ["fmt is not named"]),
    ("functions of traits that are named", {**EDITS, "crates/a/src/lib.rt": TRAITS, "page": PAGE + "`s.tell()`, `s.first()`, `s.fmt(f)`"}, 0, ["5 public"]),
    ("an edit that is not named", {**EDITS, "page": PAGE.replace("`wrong`", "wrong")}, 1, ["wrong.edit is not named"]),
    ("an edit that is tried apart", {**EDITS, "page": PAGE.replace("†", "")}, 1, ["odd is in tried, and has no dagger"]),
    ("an edit that is not there", {**EDITS, "page": PAGE + "`gone`†"}, 1, ["gone is not in"]),
]


trials.compare(
    "claims.py",
    [(name, files, ["crates"], status, lines) for name, files, status, lines in FUNCTIONS + PROMISES]
    + [(name, files, ["crates", "page", "tried"], status, lines) for name, files, status, lines in PAGES],
)
