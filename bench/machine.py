#!/usr/bin/env python3
"""How much processor time bodies take by steps beside tclsh and jimsh, and what they allocate.

    bench/machine.py PROGRAM             PROGRAM is a built crates/ask_machine/out/ask_machine

The bodies are those of bench/language.py, run by the question `body` and by tclsh and jimsh in a procedure,
where they are installed. Times are processor time, the least of five runs that take turns, less that of an
empty body, in milliseconds; then the ratios, the ratio of the body of twice the size to it, and how often a turn
of each loop allocates (`echo/allocations.c`, built with cc), from 1,000 turns and 2,000.
"""
import os
import resource
import shutil
import subprocess
import sys
import tempfile

from language import bodies, tcl

RUNS = 5
TURNS = ("set n 0; while {$n < N} {incr n}; return $n",
         "set i 0; while {$i < N} {incr i; set x [expr {($i * 7 + 3) % 1000}]}; return $x",
         "set i 0; while {$i < N} {incr i; append s abcde}; return [string length $s]",
         "set i 0; while {$i < N} {incr i; lappend l abcde}; return [llength $l]")


def spent(command, given):
    """The processor time of a run, in milliseconds, and what it writes."""
    before = resource.getrusage(resource.RUSAGE_CHILDREN)
    out = subprocess.run(command, input=given, capture_output=True, check=True).stdout.strip()
    after = resource.getrusage(resource.RUSAGE_CHILDREN)
    return 1000 * (after.ru_utime - before.ru_utime + after.ru_stime - before.ru_stime), out


def question(body):
    return f"body {body.encode().hex()}\n".encode()


def least(commands, wanted):
    """The least time of each command, all taking turns; each writes what is wanted."""
    best = [None] * len(commands)
    for _ in range(RUNS):
        for at, (command, given) in enumerate(commands):
            time, out = spent(command, given)
            text = bytes.fromhex(out.split()[-1].decode().replace("-", "")) if given else out
            if wanted is not None and text != wanted:
                sys.exit(f"{command}: {out[:80]!r} where {wanted[:80]!r} is due")
            best[at] = time if best[at] is None else min(best[at], time)
    return best


def allocations(program, library, body, turns):
    given = question(body.replace("N", str(turns)))
    ran = subprocess.run([program], input=given, capture_output=True, env={"LD_PRELOAD": library})
    return int(ran.stderr.split()[-1])


def main():
    program = os.path.abspath(sys.argv[1])
    shells = [shell for shell in ("tclsh", "jimsh") if shutil.which(shell)]
    folder = tempfile.mkdtemp()
    places = {shell: os.path.join(folder, shell) for shell in shells}
    for place in places.values():
        os.mkdir(place)
    plain = [([program], question("return 0"))]
    plain += [(tcl(shell, "return 0", places[shell]), b"") for shell in shells]
    empty = least(plain, b"0")
    twice = list(bodies(200).values())
    for at, (name, body) in enumerate(bodies(100).items()):
        runs = [([program], question(body))]
        runs += [(tcl(shell, body, places[shell]), b"") for shell in shells]
        wanted = spent(*runs[1])[1] if shells else None
        times = [max(a - b, 0.1) for a, b in zip(least(runs, wanted), empty)]
        line = f"{name:32} {times[0]:8.1f}"
        for shell, time in zip(shells, times[1:]):
            line += f"   {shell} {time:8.1f} ({times[0] / time:4.1f})"
        grown = least([([program], question(twice[at]))], None)[0] - empty[0]
        print(f"{line}   twice the size {grown / times[0]:4.1f}", flush=True)
    library = os.path.join(folder, "allocations.so")
    source = os.path.join(os.path.dirname(os.path.abspath(__file__)), "echo", "allocations.c")
    subprocess.run(["cc", "-O2", "-shared", "-fPIC", "-o", library, source, "-ldl"], check=True)
    for body in TURNS:
        more = allocations(program, library, body, 2000) - allocations(program, library, body, 1000)
        print(f"{more / 1000:5.2f} allocations a turn: {body}")
    shutil.rmtree(folder)


if __name__ == "__main__":
    main()
