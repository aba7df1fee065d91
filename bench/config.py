#!/usr/bin/env python3
"""Times `ciravogu check` on large configurations: the rows of a group, the members of a pool, rules.

The program must be built (`./ciravogu build`). Run it from the top of the repository.
"""

import os
import subprocess
import tempfile
import time

PROGRAM = "./ciravogu"
TOP = "version = 1\n"


def rows(count):
    """A data group of so many rows."""
    keys = "".join(f'["host{n}.example", "{n}"],\n' for n in range(count))
    return f'{TOP}[[group]]\nname = "g"\ntype = "string"\nrows = [\n{keys}]\n'


def members(count):
    """A pool of so many members."""
    addrs = "".join(f'{{ addr = "10.0.{n >> 8}.{n & 255}:80" }},\n' for n in range(count))
    return f'{TOP}[[pool]]\nname = "p"\nmembers = [\n{addrs}]\n'


def rules(count):
    """So many rules, each with a body of some commands."""
    body = 'when CLIENT_ACCEPTED { set x 7; if {$x > 3} { TCP::respond \\"hi $x\\" } }'
    return TOP + "".join(f'[[rule]]\nname = "r{n}"\ntext = "{body}"\n' for n in range(count))


def both(count):
    """So many rows, and 1,000 members."""
    return rows(count) + members(1000).removeprefix(TOP)


DOCUMENTS = {
    "rows": (rows, [4096, 16384, 65536]),
    "members": (members, [250, 500, 1000]),
    "rules": (rules, [256, 512, 1024]),
    "65,536 rows and 1,000 members": (both, [65536]),
}


def seconds(text):
    """How long the program takes to say that the configuration loads."""
    with tempfile.TemporaryDirectory() as folder:
        path = os.path.join(folder, "config.toml")
        with open(path, "w", encoding="utf-8") as out:
            out.write(text)
        start = time.perf_counter()
        said = subprocess.run([PROGRAM, "check", path], capture_output=True, check=True)
        took = time.perf_counter() - start
    assert said.stdout == b"ok\n", said.stdout
    return took


def main():
    for name, (make, counts) in DOCUMENTS.items():
        for count in counts:
            text = make(count)
            took = min(seconds(text) for _ in range(3))
            print(f"{name:30} {count:>7} {len(text):>9} bytes {took:9.3f} s")


if __name__ == "__main__":
    main()
