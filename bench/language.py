#!/usr/bin/env python3
"""How long bodies take beside tclsh and jimsh, and that they grow linearly.

    bench/language.py PROGRAM [BEFORE]   PROGRAM is a built crates/ask_language/out/ask_language

Each line is one body, run by `eval_plain` with a raised budget (the question `body`), by tclsh and by
jimsh in a procedure, where they are installed. Times are the least of five runs less the time of an
empty body, in milliseconds; then the ratios, and the ratio of the body of twice the size to it. With BEFORE,
the same program of another tree, each body is run by both in turns, and the ratio of PROGRAM to it is printed.
"""
import os
import shutil
import subprocess
import sys
import tempfile
import time

RUNS = 5


def bodies(n):
    """The bodies, for n times a hundredth of the full size."""
    text = "the quick brown fox jumps over the lazy dog "
    return {
        f"{4000 * n} incr": f"set i 0; while {{$i < {4000 * n}}} {{incr i}}; return $i",
        f"{1000 * n} expr": f"for {{set i 0}} {{$i < {1000 * n}}} {{incr i}} "
        "{set x [expr {($i * 7 + 3) % 1000}]}; return $x",
        f"{1000 * n} append": f"for {{set i 0}} {{$i < {1000 * n}}} {{incr i}} "
        "{append s abcde}; return [string length $s]",
        f"{1000 * n} lappend": f"for {{set i 0}} {{$i < {1000 * n}}} {{incr i}} "
        "{lappend l abcde}; return [llength $l]",
        f"string map of {4400 * n} bytes": f"set t [string repeat {{{text}}} {100 * n}]; "
        "return [string length [string map {quick slow fox cat lazy busy the a dog cow} $t]]",
        f"lsort of {200 * n} numbers": f"set x 1; for {{set i 0}} {{$i < {200 * n}}} {{incr i}} "
        "{set x [expr {($x * 1103515245 + 12345) % 2147483648}]; lappend l $x}; "
        "return [lindex [lsort -integer $l] 0]",
        f"{200 * n} routed by switch -glob": f"set k 0; for {{set i 0}} {{$i < {200 * n}}} {{incr i}} "
        "{switch -glob -- /img/$i.png {/api/* {incr k} *.css {incr k 2} *.js {incr k 3} "
        "/login - /logout {incr k 4} /img/*9.png {incr k 5} /img/* {incr k 6} default {incr k 7}}}; "
        "return $k",
    }


def least(command, given, wanted):
    """The least time of the runs, in milliseconds."""
    best = None
    for _ in range(RUNS):
        start = time.perf_counter()
        out = subprocess.run(command, input=given, capture_output=True, check=True).stdout
        spent = 1000 * (time.perf_counter() - start)
        if wanted is not None and out.strip() != wanted:
            sys.exit(f"{command}: {out[:80]!r} where {wanted[:80]!r} is due")
        best = spent if best is None else min(best, spent)
    return best


def in_turns(programs, given, wanted):
    """The least time of each program, of three times as many runs, in turns."""
    best = [None] * len(programs)
    for _ in range(3):
        for at, program in enumerate(programs):
            spent = least([program], given, wanted)
            best[at] = spent if best[at] is None else min(best[at], spent)
    return best


def question(body):
    return f"body {body.encode().hex()}\n".encode()


def tcl(shell, body, folder):
    path = os.path.join(folder, "body.tcl")
    with open(path, "w") as file:
        file.write(f"proc run {{}} {{\n{body}\n}}\nputs [run]\n")
    return [shell, path]


def main():
    program = os.path.abspath(sys.argv[1])
    shells = [shell for shell in ("tclsh", "jimsh") if shutil.which(shell)]
    folder = tempfile.mkdtemp()
    empty = least([program], question("return 0"), None)
    none = {shell: least(tcl(shell, "return 0", folder), b"", b"0") for shell in shells}
    if len(sys.argv) > 2:
        programs = [program, os.path.abspath(sys.argv[2])]
        nothing = in_turns(programs, question("return 0"), None)
        for name, body in bodies(100).items():
            now, before = (t - n for t, n in zip(in_turns(programs, question(body), None), nothing))
            print(f"{name:32} {now:8.1f}   before {before:8.1f} ({now / before:4.2f})", flush=True)
        return
    twice = list(bodies(200).values())
    for at, (name, body) in enumerate(bodies(100).items()):
        wanted = subprocess.run(
            tcl("tclsh", body, folder), capture_output=True, check=True
        ).stdout.strip() if "tclsh" in shells else None
        answer = f"ok {wanted.hex()}".encode() if wanted is not None else None
        own = least([program], question(body), answer) - empty
        line = f"{name:32} {own:8.1f}"
        for shell in shells:
            other = max(least(tcl(shell, body, folder), b"", wanted) - none[shell], 0.1)
            line += f"   {shell} {other:8.1f} ({own / other:4.1f})"
        grown = least([program], question(twice[at]), None) - empty
        print(f"{line}   twice the size {grown / own:4.1f}", flush=True)
    shutil.rmtree(folder)


if __name__ == "__main__":
    main()
