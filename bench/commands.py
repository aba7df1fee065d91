#!/usr/bin/env python3
"""Times commands, expressions and a growing variable on inputs that double, through `ask_language`,
which `rt run` builds.

Linear work doubles with its input. Run it from the top of the repository.
"""

import subprocess
import sys
import time

PROGRAM = "crates/ask_language/out/ask_language"
SIZES = [1 << 16, 1 << 17, 1 << 18, 1 << 19]


def repeated(unit, size):
    """As many whole units as the size has room for."""
    return unit * (size // len(unit))


def shuffled(size):
    """Different whole numbers of seven digits with a blank behind each, in no order."""
    return b" ".join(b"%07d" % (i * 7919 % 1000003) for i in range(size // 8))


QUESTIONS = {
    "append": lambda n: [b"append", *[b"12345678"] * (n // 8)],
    "string map": lambda n: [b"pure", b"string", b"map", b"a b b a", repeated(b"ab", n)],
    "string map keys": lambda n: [b"pure", b"string", b"map", b"a" * n + b"b c", b"a" * n],
    "string first": lambda n: [b"pure", b"string", b"first", b"aab", repeated(b"a", n)],
    "string range": lambda n: [b"pure", b"string", b"range", repeated(b"a", n), b"1", b"end-1"],
    "lsort": lambda n: [b"pure", b"lsort", shuffled(n)],
    "lsort -integer": lambda n: [b"pure", b"lsort", b"-integer", shuffled(n)],
    "lsearch": lambda n: [b"pure", b"lsearch", repeated(b"abc ", n), b"z*"],
    "lrange": lambda n: [b"pure", b"lrange", repeated(b"{a b} ", n), b"1", b"end-1"],
    "split": lambda n: [b"pure", b"split", repeated(b"abc,", n), b","],
    "join": lambda n: [b"pure", b"join", repeated(b"abc ", n), b","],
    "format": lambda n: [b"pure", b"format", repeated(b"%s;", n), *[b"a"] * (n // 3)],
    "b64encode": lambda n: [b"pure", b"b64encode", repeated(b"abc", n)],
    "URI::encode": lambda n: [b"pure", b"URI::encode", repeated(b"a b", n)],
    "signs": lambda n: [b"expr", repeated(b"!", n) + b"1"],
    "sums": lambda n: [b"expr", repeated(b"1+", n) + b"1"],
    "conditions": lambda n: [b"expr", repeated(b"1?1:", n) + b"1"],
    "parentheses": lambda n: [b"expr", repeated(b"(" * 90 + b"1" + b")" * 90 + b"+", n) + b"1"],
}


def seconds(words):
    """How long the program takes for one question."""
    texts = [word.hex().encode() or b"-" for word in words[1:]]
    question = b" ".join([words[0], *texts]) + b"\n"
    start = time.perf_counter()
    subprocess.run([PROGRAM], input=question, stdout=subprocess.DEVNULL, check=True)
    return time.perf_counter() - start


def main():
    print("bytes".ljust(16), *(f"{size:>9}" for size in SIZES))
    for name, words in QUESTIONS.items():
        times = [min(seconds(words(size)) for _ in range(3)) for size in SIZES]
        print(name.ljust(16), *(f"{took:9.3f}" for took in times))


if __name__ == "__main__":
    sys.exit(main())
