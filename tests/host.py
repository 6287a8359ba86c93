"""Runs the programs of host/ for the tests beside this file."""
import pathlib
import subprocess

ROOT = pathlib.Path(__file__).resolve().parent.parent
CARGO = ["cargo", "run", "--release", "--locked", "--offline", "--quiet", "--manifest-path", ROOT / "host" / "Cargo.toml"]


def output(program, *words, stdin=b""):
    """What a program writes on standard output; it is built first where it has changed."""
    command = [*CARGO, "--bin", program, "--", *words]
    return subprocess.run(command, input=stdin, stdout=subprocess.PIPE, check=True).stdout


def expected(test):
    """The cases of a test and the lines that must come of them, a line each, by the independent model."""
    cases, lines = (output("expected", test, what).decode().splitlines() for what in ("cases", "lines"))
    return list(zip(cases, lines, strict=True))
