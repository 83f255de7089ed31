#!/usr/bin/env python3
"""Runs `backer serial` on each program of `examples/`, compares what it prints with the file beside it, and the source with its copy in
the crate `example_rows`, where there is one.

Usage: bench/examples.py, from a checkout where `rt ci` has built the program, or with the program's path as the only word.
"""
import json
import pathlib
import subprocess
import sys

TOP = pathlib.Path(__file__).resolve().parent.parent
COPIES = (TOP / "crates" / "example_rows" / "src" / "tests" / "sources.rt").read_text()
PROGRAM = pathlib.Path(sys.argv[1]) if len(sys.argv) > 1 else TOP / "crates" / "backer" / "out" / "backer"


def main():
    wrong = 0
    for source in sorted((TOP / "examples").glob("*.cilk")):
        literal = json.dumps(source.read_text())
        if f"const {source.stem.upper()}:" in COPIES and literal not in COPIES:
            print(f"{source}: example_rows has another text")
            wrong += 1
        done = subprocess.run([PROGRAM, "serial", source], capture_output=True, check=False)
        for suffix, got in ((".out", done.stdout), (".err", done.stderr)):
            beside = source.with_suffix(suffix)
            expected = beside.read_bytes() if beside.exists() else b""
            if got != expected:
                print(f"{beside}: {got!r} in place of {expected!r}")
                wrong += 1
    sys.exit(wrong > 0)


if __name__ == "__main__":
    main()
