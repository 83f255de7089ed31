#!/usr/bin/env python3
"""Times `backer serial` and `backer race` on six programs, beside their elisions in C (gcc -O2) and in python3.

Usage: bench/serial.py, from a checkout where `rt ci` has built the program, or with the program's path as the only word.
Prints a table: ticks, seconds of each, and the most memory of `serial`. The outputs are compared.
"""
import os
import pathlib
import subprocess
import sys
import tempfile
import time

from elisions import PROGRAMS, c_of, cilk_of, python_of

TOP = pathlib.Path(__file__).resolve().parent.parent
PROGRAM = pathlib.Path(sys.argv[1]) if len(sys.argv) > 1 else TOP / "crates" / "backer" / "out" / "backer"
MOST_TICKS = 2_000_000


def timed(command):
    """Seconds and output of the command, and the most memory that it had, in KiB."""
    began = time.monotonic()
    with subprocess.Popen(command, stdout=subprocess.PIPE) as process:
        output = process.stdout.read()
        _, status, usage = os.wait4(process.pid, 0)
        process.returncode = os.waitstatus_to_exitcode(status)
    return time.monotonic() - began, output, usage.ru_maxrss, process.returncode


def best(command, count=3):
    """The fastest of some runs."""
    return min((timed(command) for _ in range(count)), key=lambda run: run[0])


def ticks_of(file):
    """The least budget with which the elision finishes."""
    low, high = 1, MOST_TICKS
    while low < high:
        middle = (low + high) // 2
        status = subprocess.run([PROGRAM, "serial", file, f"--budget={middle}"], capture_output=True, check=False).returncode
        low, high = (low, middle) if status == 0 else (middle + 1, high)
    return low


def row_of(program, size, folder):
    name, source, python_source = program
    cilk, c, python = folder / "p.cilk", folder / "p.c", folder / "p.py"
    cilk.write_text(cilk_of(source, size))
    c.write_text(c_of(cilk.read_text()))
    python.write_text(python_of(python_source, size))
    subprocess.run(["gcc", "-O2", "-w", "-o", folder / "p", c], check=True)
    ours, output, memory, status = best([PROGRAM, "serial", cilk])
    assert status == 0, f"{name}: status {status}"
    race, answer, _, _ = best([PROGRAM, "race", cilk])
    theirs, expected, _, _ = best(["python3", python])
    native, native_output, _, _ = best([folder / "p"])
    assert output == expected == native_output, f"{name}: the outputs differ"
    assert answer == b"no race\n", f"{name}: {answer}"
    cells = [name.replace("N", str(size), 1), f"{ticks_of(cilk):,}", f"{ours:.3f}", f"{race:.3f}", f"{theirs:.3f}", f"{native:.4f}", f"{theirs / ours:.1f}", f"{race / ours:.1f}", f"{memory / 1024:.0f}"]
    print("| " + " | ".join(cells) + " |", flush=True)


def main():
    print("| Program | Ticks | serial | race | python3 | gcc -O2 | python3 / serial | race / serial | MiB |\n|---|---|---|---|---|---|---|---|---|")
    with tempfile.TemporaryDirectory() as name:
        for program, size in PROGRAMS:
            row_of(program, size, pathlib.Path(name))


if __name__ == "__main__":
    main()
