#!/usr/bin/env python3
"""Rules whose RULE_INIT nests as deep as a rule may: no run may end by a fault of the stack.

    bench/deep_rules.py PROGRAM          PROGRAM is a built crates/ciravogu/out/ciravogu

A procedure calls itself inside so many constructs. The program logs `too many nested calls`, or ends with status 7 where
more stand inside one another than the stack has room for. It runs with a stack of 8 MB.
"""
import pathlib
import resource
import subprocess
import sys
import tempfile

CONSTRUCTS = {
    "brackets": ("set x [", "]"),
    "bodies": ("if {1} {", "}"),
    "loops": ("while {1} {", "}"),
    "lists": ("foreach x 1 {", "}"),
    "words of lists": ("foreach x [", "] {}"),
    "indexes with brackets": ("set x $a([", "])"),
    "choices": ("switch [", "] {}"),
    "catches": ("catch {", "}"),
}
CONFIG = """version = 1

[[virtual]]
name = "v"
listen = "127.0.0.1:9000"
rules = ["r"]

[[rule]]
name = "r"
text = '''
proc p {} { %s }
when RULE_INIT { set a(0) 0; call p }
'''
"""


def run(program, folder, text):
    config = folder / "deep.toml"
    config.write_text(CONFIG % text)
    schedule = folder / "deep.txt"
    schedule.write_text("run\n")
    limit = lambda: resource.setrlimit(resource.RLIMIT_STACK, (8 << 20, 8 << 20))
    return subprocess.run(
        [program, "replay", config, schedule], stdout=subprocess.PIPE, stderr=subprocess.DEVNULL, preexec_fn=limit
    )


def main():
    program = pathlib.Path(sys.argv[1]).resolve()
    runs = lost = 0
    with tempfile.TemporaryDirectory() as folder:
        for name, (before, behind) in CONSTRUCTS.items():
            for times in (1, 10, 24, 30, 36, 48, 60, 80, 95, 98):
                ran = run(program, pathlib.Path(folder), before * times + "call p" + behind * times)
                runs += 1
                if ran.returncode < 0:
                    lost += 1
                    print(f"{name}, {times}: ended by signal {-ran.returncode}")
    print(f"{lost} of {runs} runs ended by a signal")
    return lost > 0


sys.exit(main())
