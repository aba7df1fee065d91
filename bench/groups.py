#!/usr/bin/env python3
"""Times look-ups in data groups of 65,536 rows and fewer, through `ask_leaves`, which `rt run` builds.

By `equals` a look-up goes down a tree, by `ends_with` it goes through all rows. Run it from the top of
the repository.
"""

import subprocess
import time

PROGRAM = "crates/ask_leaves/out/ask_leaves"
SIZES = [16, 256, 4096, 65536]


def keys(kind, size):
    """So many keys, all different."""
    if kind == "ip":
        return [f"10.{i >> 8 & 255}.{i & 255}.0/{24 if i % 2 else 32}" for i in range(size)]
    if kind == "integer":
        return [str(i * 7919) for i in range(size)]
    return [f"/images/{i * 7919 % 1000003:07}.png" for i in range(size)]


def seconds(times, kind, op, item, rows):
    """How long the program takes to ask a group so many times."""
    words = ["many", str(times), kind, op, item.encode().hex(), *rows]
    question = (" ".join(words) + "\n").encode()
    start = time.perf_counter()
    subprocess.run([PROGRAM], input=question, stdout=subprocess.DEVNULL, check=True)
    return time.perf_counter() - start


def look_up(kind, op, item, size, times):
    """Nanoseconds of one look-up: what more of them take, without the group's making."""
    rows = [word for key in keys(kind, size) for word in (key.encode().hex(), "-")]
    once = min(seconds(1, kind, op, item, rows) for _ in range(5))
    many = min(seconds(times, kind, op, item, rows) for _ in range(5))
    return (many - once) / (times - 1) * 1e9


def main():
    """Prints a line for each kind, and what a scan of the texts takes."""
    print("ns a look-up".ljust(20), *(f"{size:>10}" for size in SIZES))
    for kind, item in [("string", "/images/none.png"), ("integer", "5"), ("ip", "11.0.0.1")]:
        times = [look_up(kind, "equals", item, size, 300_001) for size in SIZES]
        print((kind + " equals").ljust(20), *(f"{ns:10.0f}" for ns in times))
    counts = [3_200_000 // size + 2 for size in SIZES]
    scans = [look_up("string", "ends_with", "/none.gif", s, n) for s, n in zip(SIZES, counts)]
    print("string ends_with".ljust(20), *(f"{ns:10.0f}" for ns in scans))


if __name__ == "__main__":
    main()
