#!/usr/bin/env python3
"""How much processor time bodies take through `replay`, beside the evaluators by themselves, tclsh and jimsh.

    bench/replay.py PROXY VECTORS ..     PROXY is a built crates/ciravogu/out/ciravogu, each VECTORS a built program
                                         that answers the question `body`: ask_language (the plain evaluator) or
                                         ask_machine (by steps)

The bodies are those of bench/language.py at half of their size, since a body of a configuration may spend
1,000,000 units at most. In a replay each answers its client, which takes the bytes; all answers are compared. Times
are processor time, the least of 25 runs that take turns, less that of a body that answers 0, in milliseconds: first
of PROXY, then of each other program, tclsh and jimsh, with PROXY's ratio to it; then its ratio to the body of half
the size.
"""
import os
import re
import shutil
import sys
import tempfile

from language import bodies, tcl
from machine import question, spent

RUNS = 25
SLICES = 1000


def replayed(program, body, wanted, top):
    """The command that replays a connection whose rule has this body, which sends its value."""
    folder = tempfile.mkdtemp(dir=top)
    sends = re.sub(r"return (\S+|\[.*\])$", r"TCP::respond \1", body)
    config, schedule = os.path.join(folder, "config.toml"), os.path.join(folder, "schedule.txt")
    with open(config, "w") as file:
        file.write("version = 1\nbudget = 1000000\n\n[[virtual]]\nname = \"v\"\nlisten = \"127.0.0.1:9000\"\n"
                   f"rules = [\"r\"]\n\n[[rule]]\nname = \"r\"\ntext = '''when CLIENT_ACCEPTED {{{sends}}}'''\n")
    with open(schedule, "w") as file:
        file.write("accept 1 v 10.0.0.9 4000\n" + "run\n" * SLICES + f"client-took 1 {len(wanted)}\n")
    return [program, "replay", config, schedule], None


def answer(command, given, out):
    """The body's value, of what a command writes."""
    if given:
        return bytes.fromhex(out.split()[-1].decode().replace("-", ""))
    if command[1] == "replay":
        return bytes.fromhex(re.search(rb"^> client 1 (\S+)$", out, re.M).group(1).decode().replace("-", ""))
    return out


def least(runs, wanted):
    """The least time of each command, all taking turns; each gives what is wanted."""
    best = [None] * len(runs)
    for _ in range(RUNS):
        for at, (command, given) in enumerate(runs):
            time, out = spent(command, given)
            if answer(command, given, out) != wanted:
                sys.exit(f"{command}: {out[:80]!r} where {wanted[:80]!r} is due")
            best[at] = time if best[at] is None else min(best[at], time)
    return best


def main():
    programs = [os.path.abspath(program) for program in sys.argv[1:]]
    shells = [shell for shell in ("tclsh", "jimsh") if shutil.which(shell)]
    if not programs or "tclsh" not in shells:
        sys.exit(__doc__)
    top = tempfile.mkdtemp()

    def in_shell(shell, body):
        return tcl(shell, body, tempfile.mkdtemp(dir=top)), None

    def all_of(body, others):
        wanted = spent(*in_shell("tclsh", body))[1]
        runs = [replayed(programs[0], body, wanted, top)]
        if others:
            runs += [([program], question(body)) for program in programs[1:]]
            runs += [in_shell(shell, body) for shell in shells]
        return least(runs, wanted)

    empty = all_of("return 0", True)
    names = [os.path.basename(program) for program in programs] + shells
    half = list(bodies(25).values())
    for at, (name, body) in enumerate(bodies(50).items()):
        times = [max(a - b, 0.1) for a, b in zip(all_of(body, True), empty)]
        line = f"{name:30} {times[0]:7.1f}"
        for other, time in zip(names[1:], times[1:]):
            line += f"   {other} {time:6.1f} ({times[0] / time:4.1f})"
        less = all_of(half[at], False)[0] - empty[0]
        print(f"{line}   to half the size {times[0] / less:4.1f}", flush=True)
    shutil.rmtree(top)


if __name__ == "__main__":
    main()
