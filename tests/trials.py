"""Runs a tool of tools/ over small folders made for it, and compares what it says of each."""
import pathlib
import subprocess
import sys
import tempfile

TOOLS = pathlib.Path(__file__).resolve().parent.parent / "tools"


def run(tool, files, arguments):
    with tempfile.TemporaryDirectory() as folder:
        for name, text in files.items():
            file = pathlib.Path(folder, name)
            file.parent.mkdir(parents=True, exist_ok=True)
            file.write_text(text, encoding="utf-8")
        return subprocess.run([sys.executable, TOOLS / tool, *arguments], cwd=folder, capture_output=True, text=True)


def compare(tool, trials):
    """Each trial is a name, the files of a folder, the tool's arguments, the exit status, and what must be printed."""
    failed = 0
    for name, files, arguments, status, lines in trials:
        done = run(tool, files, arguments)
        if done.returncode != status or any(line not in done.stdout for line in lines):
            failed += 1
            print(f"{tool}: {name}: status {done.returncode}, printed:\n{done.stdout}{done.stderr}")
    print(f"{tool}: {len(trials) - failed} of {len(trials)} trials as expected")
    sys.exit(1 if failed else 0)
