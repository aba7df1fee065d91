#!/usr/bin/env python3
"""Times how the second text of configurations is read and printed: `import` and `export` of the program.

usage: bench/second_text.py [PROGRAM]      from the top of the repository; without a program, that which ./ciravogu would run

A data group of 16,384, 32,768 and 65,536 records, one quoted value of 1 MiB, and 1 MiB of remarks: each is imported, and the document that was
printed is exported.
"""
import os
import subprocess
import sys
import tempfile
import time

TIMES = 5


def records(count):
    """A group of so many records."""
    rows = "".join(f"        /images/{i * 7919 % 1000003:07}.png {{ data {i} }}\n" for i in range(count))
    return f"ltm data-group internal g {{\n    type string\n    records {{\n{rows}    }}\n}}\n"


def quoted(size):
    """A group whose one value has so many bytes, each of which stands for itself or behind a backslash."""
    return f'ltm data-group internal g {{ type string records {{ k {{ data "{"ab" * (size // 4)}{chr(92) * 2 * (size // 4)}" }} }} }}\n'


def remarks(size):
    """So many bytes of lines that are skipped."""
    return ("#" + "x" * 62 + "\n") * (size // 64)


def seconds(words, folder):
    """The least time that a command takes, and what it printed."""
    least, printed = None, b""
    for _ in range(TIMES):
        start = time.perf_counter()
        ran = subprocess.run(words, cwd=folder, stdout=subprocess.PIPE, check=True)
        took = time.perf_counter() - start
        least, printed = took if least is None else min(least, took), ran.stdout
    return least, printed


def main():
    found = sys.argv[1] if len(sys.argv) > 1 else subprocess.run(["./ciravogu", "program"], stdout=subprocess.PIPE, text=True, check=True).stdout.rstrip("\n")
    program = os.path.abspath(found)
    texts = {f"{n:,} records": records(n) for n in (16384, 32768, 65536)} | {"a value of 1 MiB": quoted(1 << 20), "1 MiB of remarks": remarks(1 << 20)}
    print("| text | bytes | import, s | export, s |\n|---|---:|---:|---:|")
    with tempfile.TemporaryDirectory(prefix="ciravogu-bench-") as room:
        for name, text in texts.items():
            with open(f"{room}/site.tmsh", "w", encoding="utf-8") as file:
                file.write(text)
            read, document = seconds([program, "import", "site.tmsh"], room)
            with open(f"{room}/config.toml", "wb") as file:
                file.write(document)
            printed, _ = seconds([program, "export", "config.toml"], room)
            print(f"| {name} | {len(text.encode()):,} | {read:.2f} | {printed:.2f} |")


if __name__ == "__main__":
    main()
