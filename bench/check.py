#!/usr/bin/env python3
"""Times `backer check` on lawful sources of one shape, as long as 1 MiB and the counts allow.

Usage: bench/check.py, from a checkout where `rt ci` has built the program. Prints a table of bytes, seconds and answers.
`bench/check.py --compile` times `backer serial --budget=1` on them: reading, checking, compiling, and one tick.
`bench/check.py --write FOLDER` only writes the sources.
"""
import itertools
import pathlib
import string
import sys

from timing import LIMIT, print_table

LETTERS = string.ascii_letters + "_"
SIGNS = LETTERS + string.digits
RESERVED = ("if", "for", "int")
# Short names for locals, the shortest first. None begins with F or A, as the functions and arrays do.
SHORT = [n for k in (1, 2) for n in map("".join, itertools.product(LETTERS, *[SIGNS] * (k - 1))) if n not in RESERVED and n[0] not in "FA"]


def numbered(first, count):
    """As many names of three bytes with this first letter."""
    return [first + a + b for a, b in itertools.islice(itertools.product(SIGNS, repeat=2), count)]


FUNCTIONS = ["main"] + numbered("F", 1023)
EACH = LIMIT // 1024


def fitting(parts, room):
    """The first of these parts that fit in this room, one after another."""
    found = []
    for part in parts:
        room -= len(part)
        if room < 0:
            break
        found.append(part)
    return found


def filled(head, parts, tail):
    """Parts over and over, as many as fit between these ends."""
    return head + "".join(fitting(itertools.cycle(parts), LIMIT - len(head) - len(tail))) + tail


def locals_declared(count):
    """(a) Each function declares this many locals and has as many uses of them as fit."""
    def one(name):
        head, names = f"int {name}(){{int ", SHORT[:count]
        text = head + ",".join(names) + ";"
        room = EACH - len(text) - 1
        turns = itertools.cycle(names)
        statements = []
        while True:
            # One statement sets a local to a sum of others, with at most 256 operators.
            statement = f"{next(turns)}={next(turns)}" + "".join(fitting((f"+{n}" for n in itertools.islice(turns, 200)), room - 8))
            if len(statement) + 1 > room or "+" not in statement:
                break
            statements.append(statement + ";")
            room -= len(statement) + 1
        return text + "".join(statements) + "}"

    return "".join(map(one, FUNCTIONS))


def locals_spawned():
    """(b) Each local is declared with a spawn, in a loop that ends with a sync. All spawn the function f."""
    def one(name):
        head, tail = f"cilk int {name}(){{while(1){{int ", ";sync;}}"
        parts = [f"{local}=spawn f()," for local in SHORT if local != "f"]
        return head + "".join(fitting(parts, EACH - len(head) - len(tail) + 1))[:-1] + tail

    return "cilk int f(){}" + "".join(map(one, FUNCTIONS[:-1]))


NEST = "".join(f"while(1){{{target}=spawn F();" for target in SHORT[:63])
NESTED = "cilk int F(){}cilk int main(){int " + ",".join(SHORT[:256]) + ";"


def deep_spawns():
    """(c) 63 loops, each with a spawn into a local of its own before the next one and a sync behind it. In the innermost
    one stand spawns into the other 193 locals, over and over, with a sync after each round of them."""
    parts = [f"{target}=spawn F();" for target in SHORT[63:256]] + ["sync;"]
    return filled(NESTED + NEST, parts, "sync;" + "}sync;" * 63 + "}")


def deep_nests():
    """(c) As many such nests of 63 loops as fit, one behind the other."""
    return filled(NESTED, [NEST + "sync;" + "}sync;" * 63], "}")


def branches(before, parts):
    """(d) 62 loops, and in the innermost one ifs in a row."""
    return filled(NESTED + before + "while(1){" * 62, parts, "sync;" + "}" * 62 + "}")


def calls():
    """(f) 1,024 arrays, and 1,024 functions with calls of one another and words of the arrays."""
    arrays = numbered("A", 1024)
    head = "int " + ",".join(f"{name}[1]" for name in arrays) + ";"
    each, parts, turn = (LIMIT - len(head)) // 1024, [], itertools.count()
    for name in FUNCTIONS:
        front = f"void {name}(){{"
        # 389 and 613 have no divisor in common with 1,024, so each name comes as often as another.
        uses = (text for k in turn for text in (f"{FUNCTIONS[k * 389 % 1024]}();", f"{arrays[k * 613 % 1024]}[0]=1;"))
        parts.append(front + "".join(fitting(uses, each - len(front) - 1)) + "}")
    return head + "".join(parts)


def long_names():
    """(g) Names of 63 bytes that differ in their last three: 1,024 arrays, 1,023 functions and main, 256 locals."""
    def long(name):
        return "x" * 60 + name

    arrays, functions = [long(n) for n in numbered("A", 1024)], [long(n) for n in numbered("F", 1023)]
    names = [long(n) for n in numbered("L", 256)]
    head = "int " + ",".join(f"{name}[1]" for name in arrays) + ";" + "".join(f"void {name}(){{}}" for name in functions)
    head += "void main(){int " + ",".join(names) + ";"
    parts = [text for k in range(1024) for text in
             (f"{functions[k * 389 % 1023]}();", f"{names[k % 256]}={names[k * 89 % 256]};", f"{arrays[k * 613 % 1024]}[0]=1;")]
    return filled(head, parts, "}")


PENDING = "".join(f"{local}=spawn F();" for local in SHORT[:256])
BRANCHES = [f"if(1){local}=spawn F();" for local in SHORT[:256]] + ["sync;"]
SPAWNED = locals_spawned()
SOURCES = {
    "1,024 functions of 256 locals": locals_declared(256),
    "1,024 functions of 180 locals, each of them used": locals_declared(180),
    f"1,023 functions of {SPAWNED.count('=spawn') // 1023} locals, each a spawn's target in a loop": SPAWNED,
    "63 loops, then spawns into 193 locals and `sync;`": deep_spawns(),
    "nests of 63 loops, a spawn in each loop": deep_nests(),
    "256 pending locals, 62 loops, then `if(1);`": branches(PENDING, ["if(1);"]),
    "256 pending locals, 62 loops, then `if(1)sync;else;`": branches(PENDING, ["if(1)sync;else;"]),
    "62 loops, then `if(1)` and a spawn, into 256 locals": branches("", BRANCHES),
    "one function of `x=y;`": filled("void main(){int x,y;", ["x=y;"], "}"),
    "1,024 arrays and 1,024 functions that call one another": calls(),
    "names of 63 bytes that begin alike": long_names(),
}


def main():
    for shape, source in SOURCES.items():
        assert len(source) <= LIMIT, shape
    if sys.argv[1:2] == ["--write"]:
        folder = pathlib.Path(sys.argv[2])
        folder.mkdir(parents=True, exist_ok=True)
        for number, (shape, source) in enumerate(SOURCES.items()):
            (folder / f"{number}.cilk").write_text(source)
            print(f"{number}.cilk: {len(source):,} bytes, {shape}")
        return
    words = ["serial", "--budget=1"] if sys.argv[1:2] == ["--compile"] else ["check"]
    print_table(words, {shape: source.encode() for shape, source in SOURCES.items()})


main()
