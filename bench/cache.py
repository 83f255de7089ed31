#!/usr/bin/env python3
"""Times a million touches, and a million drops with an insert each, of a full cache, and cleaning all its pages.

Usage: bench/cache.py. It proves and builds bench/cache.txt, a program over `page_cache`, in a folder of its own, which
takes some minutes, and prints a table. A row has the seconds of one run less those of filling the cache alone. (The
program's text is in no .rt file, since the gate wants each of those in a crate.)
"""
import pathlib
import shutil
import subprocess
import tempfile
import time

TOP = pathlib.Path(__file__).resolve().parent.parent
CRATES = """outside: thiserror
page_words: outside
page_cache: page_words outside lru
cache_bench: page_cache page_words outside lru anyhow
"""
# What the program does, how often a run does it, and how the table tells it.
WORK = [
    ("touch", 1_000_000, lambda pages: "1,000,000 touches"),
    ("exchange", 1_000_000, lambda pages: "1,000,000 drops of the victim, with an insert each"),
    ("clean", 16, lambda pages: f"marking all {pages:,} pages, then cleaning them by number"),
]


def built(top):
    """The program, proved and built below this folder."""
    for name in ("outside", "page_words", "page_cache"):
        shutil.copytree(TOP / "crates" / name, top / "crates" / name, ignore=shutil.ignore_patterns("must-fail"))
    crate = top / "crates" / "cache_bench"
    (crate / "src").mkdir(parents=True)
    shutil.copy(TOP / "bench" / "cache.txt", crate / "src" / "main.rt")
    (top / "crates.txt").write_text(CRATES)
    shutil.copy(TOP / "HANDLES", top / "HANDLES")
    subprocess.run(["rt", "run"], cwd=crate, check=True, stdout=subprocess.DEVNULL)
    return crate / "out" / "cache_bench"


def seconds(program, command, pages):
    began = time.monotonic()
    subprocess.run([program, command, str(pages)], check=True, stdout=subprocess.DEVNULL)
    return time.monotonic() - began


with tempfile.TemporaryDirectory() as folder:
    program = built(pathlib.Path(folder))
    print("| Work | Pages | Seconds |\n|---|---|---|")
    for pages in (64, 16_384, 65_536):
        filling = seconds(program, "fill", pages)
        for command, times, told in WORK:
            took = seconds(program, command, pages) - filling
            once = took if command != "clean" else took / times
            print(f"| {told(pages)} | {pages:,} | {f'{once:.4f}' if once >= 0.0001 else 'under 0.0001'} |")
