#!/usr/bin/env python3
"""Times `backer serial` on sources of 64, 256 and 1,024 KiB, beside python3 and gcc -O0 on the same sums.

Usage: bench/statements.py, from a checkout where `rt ci` has built the program. Prints a table of seconds.
"""
import pathlib
import subprocess
import tempfile
import time

TOP = pathlib.Path(__file__).resolve().parent.parent
PROGRAM = TOP / "crates" / "backer" / "out" / "backer"
SIZES = [64, 256, 1024]
LOCALS = 200


def statements(limit):
    """Statements of many locals' sums and prints, of at most `limit` bytes in all."""
    lines, size = [], 0
    for number in range(10**9):
        a, b, c = number % LOCALS, number * 7 % LOCALS, number * 13 % LOCALS
        if number % 4 == 0:
            line = f"x{a} = {number % 1000} * {number % 89} - ({number % 7} + 5);"
        elif number % 4 == 1:
            line = f"x0 = x0 + x{b} - {number % 97};"
        elif number % 4 == 2:
            line = f"x{c} = (x{b} - 3) - {number % 50} * 2;"
        else:
            line = f"print(x{a} + x{b} * 3 - (x{c} - 1));"
        size += len(line) + 1
        if size > limit:
            return lines
        lines.append(line)


def seconds(command):
    began = time.monotonic()
    done = subprocess.run(command, stdout=subprocess.PIPE, check=True)
    return time.monotonic() - began, done.stdout


def measure(kib, folder):
    declarations = [f"int x{number};" for number in range(LOCALS)]
    head, tail = "int main() {\n" + "\n".join(declarations) + "\n", "}\n"
    body = statements(kib * 1024 - len(head) - len(tail))
    cilk = folder / "sums.cilk"
    cilk.write_text(head + "\n".join(body) + "\n" + tail)
    assert cilk.stat().st_size <= kib * 1024

    python = folder / "sums.py"
    python.write_text("\n".join([f"x{n} = 0" for n in range(LOCALS)] + [line.rstrip(";") for line in body]) + "\n")

    c = folder / "sums.c"
    zeroed = "\n".join(f"long x{n} = 0;" for n in range(LOCALS))
    c.write_text(
        "#include <stdio.h>\n#define print(e) printf(\"%ld\\n\", (long)(e))\nint main(void) {\n"
        + zeroed + "\n" + "\n".join(body) + "\nreturn 0;\n}\n"
    )

    ours, output = seconds([PROGRAM, "serial", cilk])
    theirs, expected = seconds(["python3", python])
    began = time.monotonic()
    subprocess.run(["gcc", "-O0", "-o", folder / "sums", c], check=True)
    compiled = time.monotonic() - began
    ran, c_output = seconds([folder / "sums"])
    assert output == expected == c_output, "the outputs differ"
    return ours, theirs, compiled + ran


def main():
    print(f"{'KiB':>6} {'backer':>8} {'python3':>8} {'gcc -O0':>8}")
    with tempfile.TemporaryDirectory() as name:
        for kib in SIZES:
            row = measure(kib, pathlib.Path(name))
            print(f"{kib:>6} " + " ".join(f"{value:>8.3f}" for value in row))


if __name__ == "__main__":
    main()
