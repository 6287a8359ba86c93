#!/usr/bin/env python3
"""Holds every public function of every library crate to a claim, an `ensures` and no `requires`, and every promise to a proof.

    tools/claims.py CRATES_FOLDER [CLAIMS_PAGE TRIED_FOLDER]

A public trait's functions are public, and so are those by which a type has a trait, derives aside: of these the impl's law, as `ghost output` of `fmt`,
stands for an `ensures`, and so does that of the function in a public trait of these crates.
A promise is a statement of specs/, of itself or over any device or teller. Its proof is a line `pub NAME : STATEMENT` of a file that proofs/Lib.antt names:
under no section, or, of a statement over any device or teller, in a section that takes that and what is asked of one. What is asked is a
statement that such a record, `Lawful`, has as a field: it is proved of each device, as that record.
Prints each offender with file and line, then counts; exits 1 where there is an offender, no public function at all, or no promise.
With a page it also holds the page to what is there: each statement of specs/, each must-fail edit and each function of a trait is named on it; each
statement in its section on theorems is there; and a name on it has a dagger where the edit is in the folder of those tried apart, and nowhere else.
Names go by themselves, without their crate.
"""
import pathlib
import re
import sys

PUBLIC = re.compile(r'\bpub\s+(?:extern\s+"C"\s+)?fn\s+(\w+)')
# a public trait, and what gives a type a trait
TRAIT = re.compile(r"^\s*pub\s+(?:unsafe\s+)?trait\s+(\w+)[^{]*\{", re.MULTILINE)
GIVEN = re.compile(r"^\s*(?:unsafe\s+)?impl(?:<[^{]*?>)?\s+(?:\w+::)*(\w+)(?:<[^{]*>)?\s+for\s+[^{]*\{", re.MULTILINE)
FUNCTION = re.compile(r"\bfn\s+(\w+)")
# a law of an impl, unless it says nothing; and of std's traits, that of each function
LAW = re.compile(r"\bghost\s+(\w+)\s*=\s*\{(?!\s*λ\s*\w+\.\s*None\s*\})")
LAWS = {"fmt": "output", "from": "from_gives", "try_from": "try_from_gives", "next": "next_gives"}
# a statement, of itself or over any device or teller
STATEMENT = re.compile(r"^abbrev pub (\w+) : ((?:Device|Teller) → (?:ℕ → )?)?Type 0$", re.MULTILINE)
# what is asked of a device or teller: records, and the statements that are fields of one
REQUIRED = r"(?:Lawful|Steady|Short)"
REQUIREMENT = re.compile(rf"^pub record {REQUIRED} .* where\n((?:  .*\n)+)", re.MULTILINE)
ASKED = re.compile(r"^  pub [\w-]+ : (\w+) \w+$", re.MULTILINE)
# what may stand before a statement, and the sections that a proof over any device or teller may stand in
BEFORE = rf"(?:{REQUIRED} \w+(?: \w+)? → )*"
SECTION = re.compile(rf"^module _((?: \(\w+ : (?:Device|Teller|ℕ|{REQUIRED} \w+(?: \w+)?)\))+) where$")
MODULE = re.compile(r"^pub mod (\w+)$", re.MULTILINE)
# the page's section on theorems
THEOREMS = re.compile(r"^## Where each theorem is$(.*?)^## ", re.MULTILINE | re.DOTALL)
DAGGER = re.compile(r"`(\w+)`†")
PLAIN = re.compile(r"`(\w+)`(?!†)")
CLAUSE = re.compile(r"\b(requires|ensures|ghost|decreases)\b(?:\s+\w+)?\s*\{")


def without_comments(text):
    """The text with each comment blanked out, so that places stay."""
    return re.sub(r"//[^\n]*", lambda comment: " " * len(comment.group()), text)


def closing_brace(text, at):
    """The place after the brace that closes the one at `at`."""
    depth = 0
    for place in range(at, len(text)):
        if text[place] == "{":
            depth += 1
        elif text[place] == "}":
            depth -= 1
            if depth == 0:
                return place + 1
    return len(text)


def clauses(text, at):
    """The kinds of the clauses between a function's name, which ends at `at`, and its body."""
    kinds = []
    while True:
        brace = text.find("{", at)
        clause = CLAUSE.search(text, at)
        if clause is None or brace < 0 or clause.end() - 1 != brace:
            return kinds
        kinds.append(clause.group(1))
        at = closing_brace(text, brace)


def library_files(crates):
    """The files of the library crates, with their texts."""
    files = [file for root in sorted(pathlib.Path(crates).glob("*/src/lib.rt")) for file in sorted(root.parent.rglob("*.rt"))]
    return {file: without_comments(file.read_text(encoding="utf-8")) for file in files}


def directly_in(text, block, pattern):
    """What the pattern finds in a trait or an impl, and not in a body there."""
    at, end = block.end(), closing_brace(text, block.end() - 1)
    return [found for found in pattern.finditer(text, at, end) if text.count("{", at, found.start()) == text.count("}", at, found.start())]


def functions(text, block):
    """The functions of a trait or an impl, each with the kinds of its clauses."""
    found = directly_in(text, block, FUNCTION)
    ends = [function.start() for function in found[1:]] + [closing_brace(text, block.end() - 1)]
    return [(function, clauses(text[:end], function.end())) for function, end in zip(found, ends)]


def of_traits(texts):
    """Each function of a public trait, and each by which a type has a trait, with its file and the kinds of its clauses or of what stands for them."""
    traits = [(file, text, trait) for file, text in texts.items() for trait in TRAIT.finditer(text)]
    own = [(file, trait.group(1), function, kinds) for file, text, trait in traits for function, kinds in functions(text, trait)]
    promised = {(trait, function.group(1)) for _, trait, function, kinds in own if "ensures" in kinds}
    found = [(file, function, kinds) for file, _, function, kinds in own]
    for file, text in texts.items():
        for impl in GIVEN.finditer(text):
            laws = {law.group(1) for law in directly_in(text, impl, LAW)}
            for function, kinds in functions(text, impl):
                name = function.group(1)
                stands = (impl.group(1), name) in promised or LAWS.get(name) in laws
                found.append((file, function, kinds + ["ensures"] * stands))
    return found


def offences(crates):
    """How many public functions the library crates have, and what is wrong with which."""
    texts, found = library_files(crates), []
    plain = [(file, function, clauses(text, function.end())) for file, text in texts.items() for function in PUBLIC.finditer(text)]
    public = plain + of_traits(texts)
    for file, function, kinds in public:
        where = f"{file}:{texts[file].count(chr(10), 0, function.start()) + 1}: {function.group(1)}"
        if "ensures" not in kinds:
            found.append(f"{where} has no ensures")
        if "requires" in kinds:
            found.append(f"{where} has a requires")
    return len(public), found


def statements(crate):
    """Each statement of a crate's specs/, with its file, and whether it is over any device or teller; those that are asked of one are left out."""
    files = sorted(crate.glob("specs/*.antt"))
    texts = {file: file.read_text(encoding="utf-8") for file in files}
    asked = {name for text in texts.values() for fields in REQUIREMENT.findall(text) for name in ASKED.findall(fields)}
    return [(file, name, bool(over)) for file in files for name, over in STATEMENT.findall(texts[file]) if name not in asked]


def proof_lines(crate):
    """The lines of the proofs that proofs/Lib.antt names: those under no section, and those in a section over any device or teller."""
    root = crate / "proofs" / "Lib.antt"
    bare, over = [], []
    for module in MODULE.findall(root.read_text(encoding="utf-8")) if root.exists() else []:
        section = None
        for line in (crate / "proofs" / f"{module}.antt").read_text(encoding="utf-8").splitlines():
            if line[:1] not in ("", " "):
                section = SECTION.match(line)
                bare.append(line)
            elif section:
                over.append(line)
    return bare, over


def unproved(crates):
    """How many promises there are, and those that have no proof."""
    count, found = 0, []
    for crate in sorted(pathlib.Path(crates).iterdir()):
        bare, over = proof_lines(crate)
        for file, name, any_device in statements(crate):
            count += 1
            proof = re.compile(rf"  pub [\w-]+ : {BEFORE}{name} \w+(?: \w+)?" if any_device else rf"pub [\w-]+ : {name}")
            if not any(proof.fullmatch(line) for line in (over if any_device else bare)):
                found.append(f"{file}: {name} has no proof in {crate.name}")
    return count, found


def unnamed(crates, page, tried):
    """The statements, edits and functions of traits that a page does not name, and the edits that it marks as tried apart and that are not."""
    text = pathlib.Path(page).read_text(encoding="utf-8")
    named, found = set(re.findall(r"`(\w+)`", text)), []
    stated = set()
    for file in sorted(pathlib.Path(crates).glob("*/specs/*.antt")):
        for statement, _ in STATEMENT.findall(file.read_text(encoding="utf-8")):
            stated.add(statement)
            if statement not in named:
                found.append(f"{file}: {statement} is not named in {page}")
    for theorems in THEOREMS.findall(text):
        for name in sorted(set(re.findall(r"`([A-Z]\w+)`", theorems)) - stated):
            found.append(f"{page}: {name} is no statement")
    for file in sorted(pathlib.Path(crates).glob("*/must-fail/*.edit")):
        if file.stem not in named:
            found.append(f"{file} is not named in {page}")
    for file, function, _ in of_traits(library_files(crates)):
        if not re.search(rf"\b{function.group(1)}\(", text):
            found.append(f"{file}: {function.group(1)} is not named in {page}")
    kept = {file.stem for file in pathlib.Path(tried).glob("*/*.edit")}
    gate = {file.stem for file in pathlib.Path(crates).glob("*/must-fail/*.edit")}
    for name in sorted(set(DAGGER.findall(text)) - kept):
        found.append(f"{page}: {name} is not in {tried}")
    for name in sorted(set(PLAIN.findall(text)) & kept - gate):
        found.append(f"{page}: {name} is in {tried}, and has no dagger")
    return found


def main():
    if len(sys.argv) not in (2, 4):
        sys.exit(__doc__)
    count, found = offences(sys.argv[1])
    promises, missing = unproved(sys.argv[1])
    astray = unnamed(*sys.argv[1:]) if len(sys.argv) == 4 else []
    for offence in found + missing + astray:
        print(offence)
    print(f"claims: {count} public functions, {len(found)} without a full claim; {promises} promises, {len(missing)} without a proof")
    sys.exit(1 if found or missing or astray or count == 0 or promises == 0 else 0)


if __name__ == "__main__":
    main()
