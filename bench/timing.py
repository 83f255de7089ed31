"""Times a command of `backer` on sources, and prints a table."""
import pathlib
import subprocess
import tempfile
import time

TOP = pathlib.Path(__file__).resolve().parent.parent
PROGRAM = TOP / "crates" / "backer" / "out" / "backer"
# How many bytes a source may have.
LIMIT = 1_048_576


def print_table(words, sources):
    """A row for each source, by its description: its bytes, the seconds of one run with these words, and the answer."""
    print("| Source | Bytes | Seconds | Answer |\n|---|---|---|---|")
    with tempfile.TemporaryDirectory() as name:
        file = pathlib.Path(name) / "source.cilk"
        for shape, source in sources.items():
            file.write_bytes(source)
            began = time.monotonic()
            done = subprocess.run([PROGRAM, *words, file], capture_output=True, check=False)
            seconds = time.monotonic() - began
            answer = done.stderr.decode().removeprefix("backer: ").strip() or f"{len(done.stdout):,} bytes"
            print(f"| {shape} | {len(source):,} | {seconds:.3f} | {answer} |")
