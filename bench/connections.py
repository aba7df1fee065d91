#!/usr/bin/env python3
"""How the work of an event grows with the number of live connections.

    bench/connections.py PROXY          PROXY is a built crates/ciravogu/out/ciravogu; valgrind is needed

Replays of 2,048 and of 4,096 connections: all are accepted, each runs, each client takes one byte, then each takes
the rest, by which its connection ends, the oldest first. Each stage is a replay of its own, and its events are what it
has more than the one before, so the instructions of an event are the difference, by `valgrind --tool=callgrind`, and so
exact. An accept, a Run or a took-count that went through all connections would cost twice as much among twice as
many: the status is 1 where it costs more than 1.15 times as much. An end moves the entries of all later connections,
here all, and may cost twice as much at the most. The times are processor time, the least of 15 runs.
"""
import os
import re
import resource
import subprocess
import sys
import tempfile

NUMBERS = (2048, 4096)
STAGES = ("accept", "run", "took-count", "end")
LIMITS = {"accept": 1.15, "run": 1.15, "took-count": 1.15, "end": 2.0}
CONFIG = """version = 1
connections = {0}

[[virtual]]
name = "v"
listen = "127.0.0.1:9000"
rules = ["r"]

[[rule]]
name = "r"
text = "when CLIENT_ACCEPTED {{ set x 7; TCP::respond \\"hi $x\\" }}"
"""


def schedule(number, stages):
    """The lines of the first so many stages."""
    conns = range(1, number + 1)
    lines = [
        [f"accept {c} v 10.0.0.9 4000\n" for c in conns],
        ["run\n" for c in conns],
        [f"client-took {c} 1\n" for c in conns],
        [f"client-took {c} 3\n" for c in conns],
    ]
    return "".join("".join(part) for part in lines[:stages])


def wanted(number, stages):
    """The last line of the report, and how many connections it says are over."""
    return f"> end {number * stages}\n".encode(), number if stages == len(STAGES) else 0


def replay(program, folder, number, stages, counted):
    """The instructions of a replay, or its seconds."""
    config, text = os.path.join(folder, "config.toml"), os.path.join(folder, "schedule.txt")
    with open(config, "w") as file:
        file.write(CONFIG.format(number))
    with open(text, "w") as file:
        file.write(schedule(number, stages))
    out = os.path.join(folder, "callgrind.out")
    before = ["valgrind", "--tool=callgrind", f"--callgrind-out-file={out}"] if counted else []
    began = resource.getrusage(resource.RUSAGE_CHILDREN)
    ended = subprocess.run([*before, program, "replay", config, text], capture_output=True)
    done = resource.getrusage(resource.RUSAGE_CHILDREN)
    last, over = wanted(number, stages)
    if ended.returncode or not ended.stdout.endswith(last) or len(re.findall(rb"(?m)^> ended ", ended.stdout)) != over:
        sys.exit(f"{number} connections, {stages} stages: status {ended.returncode}, {ended.stdout[-80:]!r}")
    if not counted:
        return done.ru_utime + done.ru_stime - began.ru_utime - began.ru_stime
    with open(out) as file:
        return int(re.search(r"(?m)^(?:summary|totals): (\d+)", file.read()).group(1))


def main():
    if len(sys.argv) != 2:
        sys.exit(__doc__)
    program = os.path.abspath(sys.argv[1])
    costs, seconds = {}, {}
    with tempfile.TemporaryDirectory() as folder:
        for number in NUMBERS:
            counts = [replay(program, folder, number, stages, True) for stages in range(len(STAGES) + 1)]
            costs[number] = [(more - less) / number for less, more in zip(counts, counts[1:])]
            seconds[number] = min(replay(program, folder, number, len(STAGES), False) for _ in range(15))
    few, many = NUMBERS
    print(f"{'instructions of':>16} {f'of {few:,}':>12} {f'of {many:,}':>12} {'ratio':>8}")
    bad = False
    for at, stage in enumerate(STAGES):
        ratio = costs[many][at] / costs[few][at]
        bad = bad or ratio > LIMITS[stage]
        print(f"{stage:>16} {costs[few][at]:>12,.0f} {costs[many][at]:>12,.0f} {ratio:>8.3f}")
    print(f"{'the whole, ms':>16} {seconds[few] * 1000:>12.1f} {seconds[many] * 1000:>12.1f} {seconds[many] / seconds[few]:>8.3f}")
    return 1 if bad else 0


if __name__ == "__main__":
    sys.exit(main())
