#!/usr/bin/env python3
"""Refuses each allocation of four replays in turn, and says what the program then wrote.

usage: bench/refused_growth.py [PROXY]    without PROXY after `./ciravogu` has built the program once

The replays are the first example, that of two services with a RULE_INIT, and one of two virtual servers, each with a
rule and a connection: one spends its whole budget, the other answers its client; and a relay between a client and a
server of a pool, which a rule of its own answers too. A small shim, compiled into a temporary folder, counts the C library's
allocations and fails one of them. A run must end with status 7 and a prefix of the report, or note `> finish C memory`
of one connection and go on: then the notes of that one are a front of its own in the whole report up to there, its
client took a front of the same bytes, and whatever the report says of the other is untouched. Where it stops at a line
that the connection can't take any more, the whole report is that of the lines before. Any other end but the whole
report is printed, and the status is then 1.
"""

import collections
import functools
import os
import pathlib
import re
import subprocess
import sys
import tempfile

TOP = pathlib.Path(__file__).resolve().parent.parent
PROGRAM = pathlib.Path(sys.argv[1] if len(sys.argv) > 1 else TOP / "crates/ciravogu/out/ciravogu").resolve()
TWO_RULES = """version = 1
budget = 1000

[[virtual]]
name = "a"
listen = "127.0.0.1:9000"
rules = ["a"]

[[virtual]]
name = "b"
listen = "127.0.0.1:9001"
rules = ["b"]

[[rule]]
name = "a"
text = "when CLIENT_ACCEPTED { while {1} {} }"

[[rule]]
name = "b"
text = "when CLIENT_ACCEPTED { TCP::respond ok }"
"""
TWO_CONNECTIONS = "accept 1 a 10.0.0.9 1\naccept 2 b 10.0.0.9 2\n" + 16 * "run\n" + "client-took 2 2\n"
RELAY = """version = 1

[[virtual]]
name = "v"
listen = "127.0.0.1:9000"
pool = "p"
rules = ["r"]

[[pool]]
name = "p"
members = [{ addr = "10.0.0.1:80" }]

[[rule]]
name = "r"
text = '''
when CLIENT_ACCEPTED { TCP::respond "[active_members p] up\\n" }
when SERVER_CONNECTED { TCP::respond "from [IP::client_addr]\\n" }
when SERVER_CLOSED { log "over" }
'''
"""
RELAYED = """accept 1 v 10.0.0.9 4000
client 1 61736b
run
turn
run
turn
run
connected 1
run
server 1 746f6c64
run
client-took 1 9
server-took 1 17
client-end 1
run
server-end 1
run
"""
# for each replay its configuration, its schedule, and the last lines of its whole report
REPLAYS = {
    "the first example": (
        (TOP / "examples/hi.toml").read_text(),
        (TOP / "examples/hi.txt").read_text(),
        b"> client 1 68692037\n> end 3\n",
    ),
    "two services": (
        (TOP / "examples/services.toml").read_text(),
        (TOP / "examples/services.txt").read_text(),
        b"> end 6\n",
    ),
    "a relay": (RELAY, RELAYED, b"> client 1 312075700a746f6c64\n> server 1 1 66726f6d2031302e302e302e390a61736b\n> end 17\n"),
    "two rules": (TWO_RULES, TWO_CONNECTIONS, b"> client 1 -\n> client 2 6f6b\n> end 19\n"),
}
SHIM = r"""
#define _GNU_SOURCE
#include <dlfcn.h>
#include <errno.h>
#include <stdlib.h>
static long calls, refused = -1;
static int ready;
static void *(*next_malloc)(size_t), *(*next_calloc)(size_t, size_t), *(*next_realloc)(void *, size_t);
static char early[4096];
static size_t used;
static void begin(void) {
    if (ready) return;
    ready = 1;
    char *at = getenv("REFUSED_ALLOCATION");
    if (at) refused = atol(at);
    next_calloc = dlsym(RTLD_NEXT, "calloc");
    next_malloc = dlsym(RTLD_NEXT, "malloc");
    next_realloc = dlsym(RTLD_NEXT, "realloc");
}
static int refuses(void) { begin(); if (++calls != refused) return 0; errno = ENOMEM; return 1; }
void *malloc(size_t n) { return refuses() ? 0 : next_malloc(n); }
void *realloc(void *p, size_t n) { return refuses() ? 0 : next_realloc(p, n); }
void *calloc(size_t a, size_t b) {
    if (ready && !next_calloc) { void *p = early + used; used += (a * b + 15) & ~15UL; return p; }
    return refuses() ? 0 : next_calloc(a, b);
}
__attribute__((destructor)) static void end(void) {
    char *path = getenv("ALLOCATIONS_FILE");
    if (path) { extern int dprintf(int, const char *, ...); extern int open(const char *, int, ...);
        dprintf(open(path, 01 | 0100 | 01000, 0600), "%ld", calls); }
}
"""


def run(shim, folder, **more):
    environment = {**os.environ, "LD_PRELOAD": str(shim), **more}
    words = [PROGRAM, "replay", "config.toml", "schedule.txt"]
    return subprocess.run(words, cwd=folder, env=environment, capture_output=True, timeout=60)


def parts(report):
    """The lines of each connection, by its number, and the last line."""
    lines = report.splitlines()
    of = collections.defaultdict(list)
    for line in lines[:-1]:
        of[re.fullmatch(rb"> \S+ (\d+)(?: .*)?", line).group(1)].append(line)
    return of, lines[-1] if lines else b""


def lacked_memory(whole, report):
    """Whether the report is that of a run in which one connection found no memory."""
    wanted, _ = parts(whole)
    found, last = parts(report)
    lacking = [conn for conn, lines in found.items() if b"> finish %s memory" % conn in lines]
    if len(lacking) != 1 or not re.fullmatch(rb"> (?:end \d+|fault line \d+ event \d+)", last):
        return False
    (conn,) = lacking
    if {c: lines for c, lines in found.items() if c != conn} != {c: lines for c, lines in wanted.items() if c != conn}:
        return False
    lines = found[conn]
    front = lines[: lines.index(b"> finish %s memory" % conn)]
    took = [line for line in lines if line.startswith(b"> client ")]
    all_took = [line for line in wanted[conn] if line.startswith(b"> client ")]
    none = b"> client %s -" % conn
    return wanted[conn][: len(front)] == front and len(took) == 1 and (took[0] == none or all_took[0].startswith(took[0]))


def kind(whole, ended, report_before):
    """What a run came to, or None where that is a bug."""
    if ended.returncode == 0 and ended.stdout == whole:
        return "the whole report"
    if ended.returncode == 7 and whole.startswith(ended.stdout):
        return "status 7 and a prefix of the report"
    stops = re.search(rb"\n> fault line (\d+) event \d+\n\Z", ended.stdout)
    there = report_before(int(stops.group(1))) if stops else whole
    if ended.returncode == (4 if stops else 0) and lacked_memory(there, ended.stdout):
        return "`memory` of one connection, the other untouched"
    return None


def tried(name, shim, folder):
    """Refuses each allocation of a replay, and says how many ends are bugs."""
    config, schedule, last = REPLAYS[name]
    pathlib.Path(folder, "config.toml").write_text(config)
    pathlib.Path(folder, "schedule.txt").write_text(schedule)
    counted = pathlib.Path(folder, "allocations")
    first = run(shim, folder, ALLOCATIONS_FILE=str(counted))
    if first.returncode or not first.stdout.endswith(last):
        sys.exit(f"{name}: status {first.returncode}, {first.stdout!r}")
    allocations = int(counted.read_text())

    @functools.cache
    def report_before(line):
        pathlib.Path(folder, "schedule.txt").write_text("".join(schedule.splitlines(True)[: line - 1]))
        report = run(shim, folder).stdout
        pathlib.Path(folder, "schedule.txt").write_text(schedule)
        return report

    ends, bugs = collections.Counter(), []
    for at in range(1, allocations + 1):
        ended = run(shim, folder, REFUSED_ALLOCATION=str(at))
        came_to = kind(first.stdout, ended, report_before)
        ends[came_to] += 1
        if came_to is None:
            bugs.append((at, ended.returncode, ended.stdout))
    print(f"{name}: {allocations} allocations, each refused in turn:")
    for end, number in ends.most_common():
        print(f"{number:5} {end or 'a bug'}")
    for bug in bugs:
        print("bug:", *bug)
    return len(bugs)


def main():
    with tempfile.TemporaryDirectory() as folder:
        source, shim = pathlib.Path(folder, "shim.c"), pathlib.Path(folder, "shim.so")
        source.write_text(SHIM)
        subprocess.run(["gcc", "-O1", "-w", "-shared", "-fPIC", "-o", shim, source], check=True)
        return 1 if sum(tried(name, shim, folder) for name in REPLAYS) else 0


if __name__ == "__main__":
    sys.exit(main())
