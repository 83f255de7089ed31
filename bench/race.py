#!/usr/bin/env python3
"""Times `backer race` beside `backer serial` on three programs without a race, each near a limit of the walk along a history.

Usage: bench/race.py, from a checkout where `rt ci` has built the program, or with the program's path as the only word.
"""
import pathlib
import tempfile

from serial import PROGRAM, best, ticks_of

PROGRAMS = {
    "200,000 reads of one word": "int a[1]; int main() { int i, x; for (i = 0; i < 200000; i++) x = a[0]; }",
    "285,000 blocks of two readers and then a writer": """
int a[1];
cilk void get() { int x; x = a[0]; }
cilk int main() {
  int i, y;
  for (i = 0; i < 285000; i++) {
    spawn get();
    y = a[0];
    sync;
    a[0] = 1;
  }
}
""",
    "65,536 words, each touched by a child of its own": """
int a[65536];
cilk void put(int i) { a[i] = i; }
cilk int main() {
  int i;
  for (i = 0; i < 65536; i++) spawn put(i);
  sync;
}
""",
}


def main():
    print("| Program | Ticks | serial | race | race / serial | MiB |\n|---|---|---|---|---|---|")
    with tempfile.TemporaryDirectory() as name:
        file = pathlib.Path(name) / "p.cilk"
        for shape, source in PROGRAMS.items():
            file.write_text(source)
            ours, _, _, status = best([PROGRAM, "serial", file])
            race, answer, memory, _ = best([PROGRAM, "race", file])
            assert status == 0 and answer == b"no race\n", shape
            print(f"| {shape} | {ticks_of(file):,} | {ours:.3f} | {race:.3f} | {race / ours:.1f} | {memory / 1024:.0f} |", flush=True)


if __name__ == "__main__":
    main()
