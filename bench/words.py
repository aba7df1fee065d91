#!/usr/bin/env python3
"""Times `parse` and `compile` on texts that double up to 1 MiB, through `ask_language`, which `rt run`
builds.

A linear reader's times double with the text. Run it from the top of the repository.
"""

import subprocess
import sys
import time

PROGRAM = "crates/ask_language/out/ask_language"
SIZES = [1 << 17, 1 << 18, 1 << 19, 1 << 20]


def repeated(unit, size):
    """As many whole units as the size has room for."""
    return unit * (size // len(unit))


TEXTS = {
    "flat": lambda n: repeated(b"set x abc\n", n),
    "nested": lambda n: repeated(b"[" * 100 + b"a" + b"]" * 100 + b"\n", n),
    "quotes": lambda n: b'"' * n,
    "quoted words": lambda n: repeated(b'"a$b(c)" ', n),
    "open brackets": lambda n: b"[" * n,
    "closed brackets": lambda n: b"[" * (n // 2) + b"]" * (n // 2),
    "braces": lambda n: b"{" * (n // 2) + b"}" * (n // 2),
    "indexes": lambda n: repeated(b"$a(", n),
    "names in braces": lambda n: repeated(b"${", n),
    "blanks": lambda n: b" " * n,
    "digits": lambda n: b"\\x" + b"4" * n,
    "loops": lambda n: repeated(b"while {$x < 9} {incr x}\n", n),
    "conditions": lambda n: repeated(b"if {$a == 1} {b} elseif {$c} {d} else {e}\n", n),
    "cases": lambda n: repeated(b"switch $x {a {b} c - default {d}}\n", n),
    "one switch": lambda n: b"switch $x {" + repeated(b"a {b}\n", n) + b"}",
    "one expression": lambda n: b"expr {" + repeated(b"[f $x] + ", n) + b"1}",
}


def seconds(call, text):
    """How long the program takes for one call on the text."""
    question = call + b" " + text.hex().encode() + b"\n"
    start = time.perf_counter()
    subprocess.run([PROGRAM], input=question, stdout=subprocess.DEVNULL, check=True)
    return time.perf_counter() - start


def main():
    for call in (b"parse", b"compile"):
        print(call.decode().ljust(16), *(f"{size:>9}" for size in SIZES))
        for name, text in TEXTS.items():
            times = [min(seconds(call, text(size)) for _ in range(3)) for size in SIZES]
            print(name.ljust(16), *(f"{took:9.3f}" for took in times))


if __name__ == "__main__":
    sys.exit(main())
