#!/usr/bin/env python3
"""Times `load_rule` on rules that double up to 1 MiB, through `ask_language`, which `rt run` builds.

A linear loader's times double with the text. Run it from the top of the repository.
"""

import itertools
import subprocess
import sys
import time

PROGRAM = "crates/ask_language/out/ask_language"
SIZES = [1 << 17, 1 << 18, 1 << 19, 1 << 20]


def repeated(unit, size):
    """As many whole units as the size has room for."""
    return unit * (size // len(unit))


def numbered(unit, size):
    """Units with numbers from 0 on, as many as the size has room for."""
    text = b""
    for number in itertools.count():
        more = unit % number
        if len(text) + len(more) > size:
            return text
        text += more


TEXTS = {
    "handlers": lambda n: repeated(b"when CLIENT_ACCEPTED {}\n", n),
    "priorities": lambda n: repeated(b"when HTTP_REQUEST priority 9 timing on {log a}\n", n),
    "procedures": lambda n: numbered(b"proc p%d {} {}\n", n),
    "parameters": lambda n: b"proc f {" + repeated(b"{a 1} ", n) + b"} {}",
    "one procedure again": lambda n: repeated(b"proc f {} {}\n", n),
    "commands": lambda n: b"when CLIENT_DATA {" + repeated(b"log a\n", n) + b"}",
    "brackets": lambda n: b"when CLIENT_DATA {" + repeated(b"log [IP::client_addr]\n", n) + b"}",
    "unknown commands": lambda n: b"when CLIENT_DATA {" + repeated(b"a\n", n) + b"}",
    "commands not here": lambda n: b"when CLIENT_DATA {" + repeated(b"HTTP::uri\n", n) + b"}",
    "bodies": lambda n: b"when CLIENT_DATA {" + repeated(b"if {$a} {log b} else {log c}\n", n) + b"}",
    "no rule": lambda n: repeated(b"a\n", n),
    "open brace": lambda n: b"when CLIENT_DATA {" + repeated(b"log a\n", n),
}


def seconds(text):
    """How long the program takes to load the text."""
    question = b"load " + text.hex().encode() + b"\n"
    start = time.perf_counter()
    subprocess.run([PROGRAM], input=question, stdout=subprocess.DEVNULL, check=True)
    return time.perf_counter() - start


def main():
    print("".ljust(20), *(f"{size:>9}" for size in SIZES))
    for name, text in TEXTS.items():
        times = [min(seconds(text(size)) for _ in range(3)) for size in SIZES]
        print(name.ljust(20), *(f"{took:9.3f}" for took in times))


if __name__ == "__main__":
    sys.exit(main())
