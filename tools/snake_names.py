#!/usr/bin/env python3
"""Brings the names of this repository's own definitions, lemmas and fields to snake case; run once, right after the port's script, at the top.

A name that is declared in crates/*/specs/ or in a lemma file of crates/*/proofs/ and begins with a small letter is a word: `laidOver` and `laid-over`
become `laid_over`. Types, modules and what Rattle makes (`loop-i-preserved`) keep their spelling. Files are rewritten in place: the crates, the edits and
the pages that name them. A new name that something else has already is not taken: INSTEAD says which stands for it.
"""

import os
import re
import sys

TOP = sys.argv[1] if len(sys.argv) > 1 else "."
# Lemmas that have their snake case already, and beside which a definition comes to stand: the file, the lemma.
LEMMAS = {
    "cut_off": ("crates/eventlog/proofs/Numbered.antt",),
    "last_line": ("crates/emc2305_listing/proofs/Promises.antt", "crates/listings/proofs/Lines.antt"),
    "past_head": ("crates/eventlog/proofs/Decided.antt", "crates/eventlog/proofs/reader/layout_number/Proof.antt"),
    "read_at": ("crates/emc2305_chip/proofs/Statuses.antt",),
}
# What the port's script had renamed by then, in the crates' files alone: the edits and the pages follow.
PORTED = (
    "modeOf rangeOf "
    "add-at add-done add-left add-row add-wide added-is address-same adds-none afterCall all-fit all-laid all-moved all-right all-shown "
    "and-left and-right and-then askedOf at-rest back-is before-last bit-below bit-kept bits-at bits-fit bits-small bitsOf both-bits "
    "by-answer by-bit by-field by-kind by-number by-over by-read by-register by-way byteAt bytes-back bytesAt bytesOf called-is clear- "
    "next clear-none count-same count-small cut-at cut-off cut-short cut-spec decimal-digit each-all each-read each-spec edges-most "
    "either-way end-fits end-same end-whole endWord ends-so ends-there enum-told fan-bare first-fits first-of first-rest flag-small "
    "found-at full-is gives-size goes-by goes-none goes-on goes-so headOf held-on held-same in-row inTurn is-right isTaken kindOf laid- "
    "cons laid-next laid-on laid-one last-line last-step layout-stays least-more left-is left-less left-over len-is length-back length- "
    "moved length-some lengthOf lent-is line-on lineOf linesOf lowFirst moveOf moved-all moved-at moved-keeps moved-none moved-then "
    "moved-twice no-more no-number no-place no-power no-record no-room no-store none-after none-came none-of none-passed none-read "
    "none-within none-yet not-end not-stuck nothing-read number-is numberOf of-end of-one ofByte ofBytes off-part once-more one-byte "
    "one-more one-of one-on or-left or-right out-of-range own-back own-bare own-read own-same partOf past-end past-head past-is past- "
    "more past-next past-same pieceOf range-back range-same read-at read-back read-behind read-keeps read-kept read-only read-same "
    "read-small read-spec read-stays read-taken records-is rest-some roomLeft round-trip row-written rowOf run-spec runOf same-answer "
    "same-byte same-bytes same-length same-next same-number same-place same-reads same-step same-store same-taken same-then same-turn "
    "same-up same-way same-write second-is set-before set-keeps shifted-none some-byte some-edges some-number stands-here start-spec "
    "step-spec stuck-there sub-at sub-read sub-row sum-fits sum-more taken-is taken-next taken-own taken-step takenOf takes-all takes- "
    "write tells-none textOf three-ways tick-goes to-last to-some told-is told-none too-short turn-is turns-same upFrom wants-is "
    "weight-is whole-of whole-run within-count write-kept write-same write-spec writes-nothing written-bare written-keeps wrong-byte "
    "wrong-stays "
).split()
PAGES = (".antt", ".rt", ".edit", ".md")
PLACES = ("crates", "docs", "tests", "README.md")
APART = r"[\s(){}\[\].,;\"`⌜⌝:@|/\\]"


def files():
    for place in PLACES:
        path = os.path.join(TOP, place)
        if os.path.isfile(path):
            yield path
        for folder, dirs, names in os.walk(path):
            dirs[:] = sorted(d for d in dirs if d not in ("out", "target", ".git", "changes"))
            for name in sorted(names):
                if name.endswith(PAGES):
                    yield os.path.join(folder, name)


def declared():
    """The words that a definition, a lemma or a field of this repository is called."""
    words = set()
    crates = os.path.join(TOP, "crates")
    for crate in sorted(os.listdir(crates)):
        for part in ("specs", "proofs"):
            folder = os.path.join(crates, crate, part)
            if not os.path.isdir(folder):
                continue
            for name in sorted(os.listdir(folder)):
                if name.endswith(".antt"):
                    with open(os.path.join(folder, name), encoding="utf-8") as f:
                        for line in f:
                            m = re.match(r"\s*(?:(?:abbrev|unfoldable|ruleset|pub|data|axiom) )*([a-z][^\s(){}:=]*)(?: \{ℓ\})?\s+[:=] ", line)
                            if m and not line.lstrip().startswith(("--", "use ", "let ")):
                                words.add(m.group(1))
    return words


def snake(word):
    return re.sub(r"(?<=[a-z0-9])([A-Z])", r"_\1", word).replace("-", "_").lower()


def renamed(words, texts):
    """Each word's new name: a lemma whose snake case is taken, by a definition or by anything in a file of antt, is told apart by its ending."""
    taken = {snake(w) for w in words if "-" not in w}
    for path, text in texts.items():
        if path.endswith(".antt"):
            taken.update(re.split(APART + "+", text))
    return {w: snake(w) + ("_lem" if "-" in w and snake(w) in taken else "") for w in words}


def main():
    words = {w for w in declared() if re.search(r"[A-Z]", w) or "-" in w}
    pattern = re.compile(r"(?:(?<=" + APART + r")|^)(" + "|".join(sorted(map(re.escape, words), key=len, reverse=True)) + r")(?=" + APART + r"|$)", re.M)
    texts = {}
    for path in files():
        try:
            with open(path, encoding="utf-8") as f:
                texts[path] = f.read()
        except UnicodeDecodeError:
            pass
    to = renamed(words, texts)
    ported = {w: snake(w) for w in PORTED}
    behind = re.compile(r"(?:(?<=" + APART + r")|^)(" + "|".join(sorted(map(re.escape, ported), key=len, reverse=True)) + r")(?=" + APART + r"|$)")

    def name(m):
        return to[m.group(1)]

    def camel(m):
        return m.group(1) if "-" in m.group(1) else to[m.group(1)]

    def prose(text):
        return re.sub(r"`[^`\n/]*`", lambda m: pattern.sub(name, behind.sub(lambda n: ported[n.group(1)], m.group(0))), text)

    def line(path, text):
        """A line of code with its comment; of a page and of a comment only what stands between backquotes."""
        if path.endswith(".md"):
            return prose(text)
        mark = "//" if path.endswith(".rt") else "#" if path.endswith(".edit") else "--"
        code, sign, comment = (text, "", "") if mark not in text else text.partition(mark)
        if path.endswith(".edit") and not text.startswith("#"):
            code, sign, comment = behind.sub(lambda m: ported[m.group(1)], text), "", ""
        return pattern.sub(camel if path.endswith(".rt") else name, code) + sign + prose(comment)

    for path, text in texts.items():
        new = text
        for lemma, places in LEMMAS.items():
            if os.path.relpath(path, TOP) in places:
                new = re.sub(r"(?<=" + APART + ")" + lemma + r"(?=" + APART + ")", lemma + "_lem", new)
        new = "\n".join(line(path, l) for l in new.split("\n"))
        if new != text:
            with open(path, "w", encoding="utf-8") as f:
                f.write(new)
    for word in sorted(words):
        if to[word].endswith("_lem"):
            print(word, "is now", to[word])


main()
