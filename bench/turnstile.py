#!/usr/bin/env python3
"""Times `turnstile` beside the kit's `Mutex`: threads that each add 100,000 entries to one tally.

Usage: bench/turnstile.py, with the kit's `rt` on the path. Proves the crates in a copy where they are not proved yet,
and prints a table of microseconds.
"""
import pathlib
import shutil
import subprocess
import tempfile

TOP = pathlib.Path(__file__).resolve().parent.parent
CRATES = ["turnstile", "tally"]


def made(folder):
    """A repository of the two crates and the program, which runs there."""
    shutil.copy(TOP / "HANDLES", folder / "HANDLES")
    for name in CRATES:
        shutil.copytree(TOP / "crates" / name, folder / "crates" / name)
    program = folder / "crates" / "contention"
    shutil.copytree(TOP / "bench" / "turnstile", program)
    # The gate takes no source outside the crates, so the program's files end in one suffix more.
    for source in list(program.rglob("*.txt")):
        source.rename(source.with_suffix(""))
    lines = (TOP / "crates.txt").read_text().splitlines()
    kept = [line for line in lines if line.split(" ")[0].rstrip(":") in CRATES]
    (folder / "crates.txt").write_text("\n".join(kept + ["contention: tally turnstile"]) + "\n")
    return program


def rows(output):
    """The numbers of each line that the program printed."""
    found = [line.lstrip("| ").split() for line in output.splitlines()]
    return [list(map(int, words)) for words in found if len(words) == 5 and all(word.isdigit() for word in words)]


def main():
    with tempfile.TemporaryDirectory() as name:
        program = made(pathlib.Path(name))
        subprocess.run(["rt", "run"], cwd=program, check=False, stdout=subprocess.DEVNULL, stderr=subprocess.DEVNULL)
        done = subprocess.run([program / "out" / "contention"], check=True, capture_output=True, text=True)
    print("| Threads | Entries | Turnstile, µs an entry | Mutex, µs an entry |\n|---|---|---|---|")
    for threads, entries, turnstile, locked, mutex in rows(done.stdout):
        assert entries == locked == threads * 100_000
        print(f"| {threads} | {entries:,} | {turnstile / entries:.2f} | {mutex / entries:.2f} |")


main()
