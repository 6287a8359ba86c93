#!/usr/bin/env python3
"""Builds the C programs of host/c with the libraries, and compares their answers with those of the independent model.

    python3 tests/library_test.py target/staticlib/libcobblehard.a target/staticlib/libcobblehard_speeds.a

The cases are those of host/expected/src/library.rs, those of kind 6 below, and the header's words. Each program is built twice,
the second time with gcc's address and undefined behaviour sanitizers. The header is compiled by itself too, as C and, where there
is g++, as C++. And the libraries ask a program for no function but those of OUTSIDE.
"""
import pathlib
import shutil
import subprocess
import sys
import tempfile

import host

ROOT = pathlib.Path(__file__).resolve().parent.parent
HOST = ROOT / "host" / "c"
WARNINGS = ["-Wall", "-Wextra", "-Werror", "-I", ROOT / "include"]
STRICT = ["-std=c11", *WARNINGS]
ALONE = {"gcc": ["-x", "c", *STRICT, "-pedantic"], "g++": ["-x", "c++", "-std=c++17", *WARNINGS]}
BUILDS = {"plain": [], "sanitized": ["-g", "-fsanitize=address,undefined", "-fno-sanitize-recover=all"]}
# what a library may ask the program for that it is linked into; anything more would be one thing more for a firmware to bring along
OUTSIDE = {"libcobblehard.a": {"memcpy", "memmove"}, "libcobblehard_speeds.a": {"memcpy"}}
TIMEOUT = 120  # seconds, after which a program counts as hanging


def fail(name, text):
    sys.exit(f"library_test: {name}: {text}")


def build(libraries, folder, name, flags):
    program = folder / name
    command = ["gcc", *STRICT, *flags, HOST / f"{name}.c", *libraries, "-o", program]
    done = subprocess.run(command, capture_output=True, text=True)
    if done.returncode:
        fail(f"building {name}.c", done.stderr)
    return program


def check_header(folder):
    """The header by itself, twice, with nothing of it used."""
    for compiler, flags in ALONE.items():
        if compiler != "gcc" and shutil.which(compiler) is None:
            print(f"library_test: there is no {compiler}, and the header is not compiled with it")
            continue
        command = [compiler, *flags, "-c", "-", "-o", folder / "header.o"]
        done = subprocess.run(command, input='#include "cobblehard.h"\n' * 2, capture_output=True, text=True)
        if done.returncode:
            fail(f"compiling cobblehard.h with {compiler}", done.stderr)


def check_outside(library):
    """The names that a library leaves open."""
    done = subprocess.run(["nm", "--undefined-only", "--format=just-symbols", library], capture_output=True, text=True)
    names = {line for line in done.stdout.splitlines() if line and not line.endswith(":")}
    if done.returncode or not names <= OUTSIDE[library.name]:
        fail(library.name, f"needs {', '.join(sorted(names - OUTSIDE[library.name]))} from outside{done.stderr}")


# ---- the cases ----

CALLS = ["run", "read", "write", "speeds", "rpm", "rpm_by_high_byte"]
WORDS = ["taken", "the log ends inside a record", "a mark byte is wrong", "unknown kind", "length not allowed for the kind",
         "no such fan", "event before any power-on", "transfer to another address", "buffer too short", "count out of range",
         "address out of range", "length or clocked number of a transfer out of range", "no such number", "poles out of range",
         "too many samples of a fan", "number of fans out of range", *["no such number"] * 5, "the part has no such fan",
         "no such number"]
WORDS_CASES = [(f"words {number}", words) for number, words in enumerate(WORDS)]

# ---- the cases of kind 6, with answers by hand ----

NO_FAULT = 2**64 - 1
KEPT = int.from_bytes(b"\xA5" * 8, "big")  # what check.c lays in a number before a call
UNREAD = f"165 165 42405 {KEPT} {KEPT} {KEPT}"  # the six numbers of a record that is refused
PARTS = bytes.fromhex("9C 46 03 03 05 00 08"  # a sample before power-on: 6
                      "9C 46 06 02 2C 02"     # a part with two fans
                      "9C 46 03 03 03 FF 1F 9C 46 04 02 04 FF"  # a sample of fan 3, a wish for fan 4: 21 twice
                      "9C 46 03 03 02 00 08 9C 46 05 02 58 4E 9C 46 05 02 59 04")  # fan 2, and its reading with what follows
FOUR_FANS = bytes.fromhex("9C 46 06 02 2C 04")
PARTS_FIGURES = "0 0 0 0 0 1 3840 3840 3840 0" + 3 * " 0 0 0 0 0"


def written(number, record, room=6):
    return f"0 6 {record}" if number == 0 else f"{number} {KEPT} {'ee' * room or '.'}"


def part_cases():
    """Every number of fans with addresses at both ends, read and written; a run and a report that walk on after 21 and stop at 15."""
    for address in (0, 44, 127, 128, 255):
        for fans in range(256):
            record = bytes([0x9C, 0x46, 6, 2, address, fans]).hex()
            number, fault = (10, 4) if address > 127 else (15, 5) if fans not in (1, 2, 3) else (0, NO_FAULT)
            numbers = UNREAD if number else f"6 {address} {fans} 0 0 6"
            yield f"read 0 {record}", f"{number} {numbers} {fault}"
            yield f"write 6 {address} {fans} 6 .", written(number, record)
        for fans in (256, 257, 258, 259, 513, 65535):  # above a byte, some with a low byte in range
            yield f"write 6 {address} {fans} 6 .", written(10 if address > 127 else 15, "")
    yield "write 6 44 2 5 .", written(8, "", 5)
    yield "write 6 44 4 5 .", written(15, "", 5)
    yield "write 6 128 0 0 .", written(10, "", 0)
    yield f"write 6 44 2 6 {'00' * 33}", written(0, "9c4606022c02")  # bytes are not looked at
    for log, number in ((PARTS, 0), (PARTS + FOUR_FANS, 15)):
        yield f"run 6 {log.hex()}", f"{number} 45 7 4 40000000eeee"
        yield f"speeds 2 25 {log.hex()}", f"{number} 45 7 {PARTS_FIGURES}"


def wrong(expected, answer):
    """Both answers, cut where they are long, and both from the first difference on."""
    at = next((k for k, (a, b) in enumerate(zip(expected, answer)) if a != b), min(len(expected), len(answer)))
    return (f"expected {expected:.200}\ngot      {answer:.200}\n"
            f"from character {at + 1} on {expected[at:]!r:.80} and {answer[at:]!r:.80}")


def check_cases(build_name, program, cases):
    """All cases in one process; where it ends early, the case that it ended in is named."""
    lines = "".join(line + "\n" for line, _ in cases)
    done = subprocess.run([program], input=lines, capture_output=True, text=True, timeout=TIMEOUT)
    ended = f"status {done.returncode}\n{done.stderr}"
    answers = done.stdout.splitlines()
    for number, (line, expected) in enumerate(cases):
        title = f"{build_name} build, case {number + 1}: {line:.300}"
        if number == len(answers):
            fail(title, f"\nno answer, {ended}")
        if answers[number] != expected:
            fail(title, f"\n{wrong(expected, answers[number])}")
    if done.returncode or done.stderr or len(answers) != len(cases):
        fail(f"{build_name} build", f"{len(answers)} answers, {ended}")


# ---- the example ----

EXAMPLE = bytes.fromhex("9C 46 01 01 2C 9C 46 05 03 58 30 80 9C 46 05 02 59 01 9C 46 03 03 01 00 08 9C 46 03 03 01 DC 05")
DAMAGED = bytes.fromhex("9C 46 02 02 01 00 9C 46 01 01 2C 9C 46 05 04 58 30 80 02 9C 46 05 02 58 30 9C 46 05 02 59 04"
                        "9C 46 03 03 05 FF 1F 9C 46 04 02 02 FF 9C 46 05 02 5B 02 9C 46 05 01 58 9C 47")
DAMAGED_OUTPUT = """\
0: 1 ticks
6: power-on, address 2C
11: write to address 2C: 30 80 02
19: write to address 2C: 30
25: read from address 2C, count 4
31: tach sample of fan 5, count 8191
38: loop wish for fan 2, drive 255
44: read from address 2D, count 2
50: write to address 2C:
55: refused with 2, a mark byte is wrong, at byte 56
number 2: a mark byte is wrong
place 55
records walked 9
reply bytes 4: FF 02 2B 28
faulty byte 56
fan 5: samples 1, RPM lowest 960, highest 960, total 960, zero counts 0
"""
EMPTY_OUTPUT = "0: end of the log\nnumber 0: taken\nplace 0\nrecords walked 0\nreply bytes 0:\n"
PARTS_OUTPUT = """\
0: tach sample of fan 5, count 2048
7: power-on of a part, address 2C, fans 2
13: tach sample of fan 3, count 8191
20: loop wish for fan 4, drive 255
26: tach sample of fan 2, count 2048
33: write to address 2C: 4E
39: read from address 2C, count 4
45: refused with 15, number of fans out of range, at byte 50
number 15: number of fans out of range
place 45
records walked 7
reply bytes 4: 40 00 00 00
faulty byte 50
fan 2: samples 1, RPM lowest 3840, highest 3840, total 3840, zero counts 0
"""
SAMPLES = 65_536  # one more than a report takes
CROWDED = bytes.fromhex("9C 46 01 01 2C" + "9C 46 03 03 02 00 00" * SAMPLES)
CROWDED_OUTPUT = "".join(["0: power-on, address 2C\n",
                          *(f"{5 + 7 * k}: tach sample of fan 2, count 0\n" for k in range(SAMPLES)),
                          "458757: end of the log\nnumber 0: taken\nplace 458757\nrecords walked 65537\nreply bytes 0:\n",
                          "speeds end at place 458750: too many samples of a fan\n",
                          "fan 2: samples 0, RPM lowest 0, highest 0, total 0, zero counts 65535\n"])


def check_example(name, program, folder):
    """The built-in log, five files, and a file that is not there."""
    expected = (HOST / "example.expected").read_text()
    files = [(None, expected, 0), (EXAMPLE, expected, 0), (DAMAGED, DAMAGED_OUTPUT, 1), (b"", EMPTY_OUTPUT, 0),
             (PARTS + FOUR_FANS, PARTS_OUTPUT, 1), (CROWDED, CROWDED_OUTPUT, 0)]
    for log, output, status in files:
        file = folder / "log"
        file.write_bytes(log or b"")
        done = subprocess.run([program] if log is None else [program, file], capture_output=True, text=True,
                              timeout=TIMEOUT)
        if (done.stdout, done.stderr, done.returncode) != (output, "", status):
            fail(f"{name} build of example.c", f"status {done.returncode}, it ends with\n{done.stdout[-1000:]}{done.stderr}")
    done = subprocess.run([program, folder / "none"], capture_output=True, text=True, timeout=TIMEOUT)
    if done.stdout or not done.stderr or done.returncode != 1:
        fail(f"{name} build of example.c, no file", f"status {done.returncode}, it writes\n{done.stdout}{done.stderr}")


def main():
    if len(sys.argv) != 3:
        sys.exit(__doc__)
    libraries = [pathlib.Path(name).resolve() for name in sys.argv[1:]]
    cases, parts = host.expected("library"), list(part_cases())
    counts = {word: sum(line.startswith(word + " ") for line, _ in cases) for word in CALLS}
    counted = ", ".join(f"{count} of {word}" for word, count in counts.items())
    if not all(counts.values()):
        fail("host/expected", counted)
    for library in libraries:
        check_outside(library)
    with tempfile.TemporaryDirectory() as path:
        check_header(pathlib.Path(path))
    for name, flags in BUILDS.items():
        with tempfile.TemporaryDirectory() as path:
            folder = pathlib.Path(path)
            check_example(name, build(libraries, folder, "example", flags), folder)
            check_cases(name, build(libraries, folder, "check", flags), cases + parts + WORDS_CASES)
    print(f"library_test: {counted} as expected in {len(BUILDS)} builds; {len(parts)} of kind 6, the words and the example too")


if __name__ == "__main__":
    main()
