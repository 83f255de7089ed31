#!/usr/bin/env python3
"""Times `backer serial` on sources of one shape that the reader refuses or accepts, 1 MiB where the limit allows it.

Usage: bench/read.py, from a checkout where `rt ci` has built the program. Prints a table of seconds and answers.
"""
import random

from timing import LIMIT, print_table

HEAD = b"int main() { "


def filled(part, before=HEAD, after=b" }"):
    """As many parts as fit between these ends."""
    return before + part * ((LIMIT - len(before) - len(after)) // len(part)) + after


random.seed(1)
SOURCES = {
    "1,048,576 blanks": b" " * LIMIT,
    "`print(` and a million `(`": b"int main() { print(" + b"(" * 1_000_000,
    "`print(` and a million `!`": b"int main() { print(" + b"!" * 1_000_000,
    "`print(` and a million `-`": b"int main() { print(" + b"-" * 1_000_000,
    "one name of a million letters": filled(b"x"),
    "a million `;`": filled(b";"),
    "one number of a million digits": filled(b"1", HEAD + b"print(", b"); }"),
    "a sum of half a million operands": filled(b"1+", HEAD + b"print(", b"1); }"),
    "a million `{`": filled(b"{"),
    "an open comment of a million `*`": filled(b"*", HEAD + b"/*", b""),
    "80,000 times `int x = f(1);`": filled(b"int x=f(1);"),
    "80,000 times `for (;;) x++;`": filled(b"for(;;)x++;"),
    "100,000 times `print(1);`": filled(b"print(1);"),
    "1,048,576 random bytes": random.randbytes(LIMIT),
}


print_table(["serial"], SOURCES)
