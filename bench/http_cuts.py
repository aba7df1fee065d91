#!/usr/bin/env python3
"""Runs the cases of HTTP with what comes cut anew, and a Run behind each piece.

    bench/http_cuts.py PROGRAM [SEED [FOLDER ..]]      PROGRAM is a built crates/ciravogu/out/ciravogu

Of each case of tests/cases/http and tests/cases/smuggling (or FOLDERs beside them) that replays without a faulty line the bytes of each
client and of each server are cut byte by byte, and then three times at random places, with a `run` behind each piece; and all is run to
its rest. What each client and each server connection took, what rules logged and why each connection finished must be as of the case
itself, run to its rest; in what order is left open. Left out is a cutting in which a line comes too late, as bytes for a
connection that has ended by then.
Prints what differs and the counts; the status is 1 where anything differs.
"""
import collections
import os
import random
import subprocess
import sys
import tempfile
from concurrent.futures import ThreadPoolExecutor

CASES = f"{os.path.dirname(os.path.realpath(__file__))}/../tests/cases"
TOLD = ("client", "server", "log", "finish")


def parts(path):
    """A case's files by their names, as tests/run has them; its words and its status."""
    lines = open(path, encoding="utf-8", errors="surrogateescape").read().split("\n")[:-1]
    found, name = collections.defaultdict(list), None
    for line in lines[2:]:
        if line.startswith("-- ") and line.endswith(" --"):
            name = line[3:-3].split(" ")[0]
        else:
            found[name].append(line)
    return lines[0].split(), lines[1], found


def cut(dice, text, by_byte):
    """Hexadecimal text in pieces of whole bytes."""
    size = len(text) // 2
    places = range(1, size) if by_byte else sorted(dice.sample(range(1, size), min(size - 1, dice.randint(1, 6)))) if size > 1 else []
    bounds = [0, *places, size]
    return [text[2 * a : 2 * b] for a, b in zip(bounds, bounds[1:])]


def cut_schedule(dice, lines, by_byte):
    for line in lines:
        words = line.split(" ")
        if words[0] in ("client", "server") and len(words) == 3 and words[2] != "-":
            for piece in cut(dice, words[2], by_byte):
                yield f"{words[0]} {words[1]} {piece}"
                yield "run"
        else:
            yield line


def told(report):
    """What a report tells of each connection: bytes and causes as they are, lines logged in their order."""
    found = collections.defaultdict(list)
    for line in report:
        words = line.split(" ")
        if words[0] == ">" and words[1] in TOLD:
            found[" ".join(words[1:3])].append(line)
    return found


def replayed(words, files, lines):
    """What is told of a schedule that is run to its rest, or none where a line of it is faulty."""
    with tempfile.TemporaryDirectory() as folder:
        for name, text in (("config.toml", files["config.toml"]), ("schedule.txt", [*lines, *["run", "turn"] * 40])):
            with open(f"{folder}/{name}", "w", encoding="utf-8", errors="surrogateescape") as out:
                out.write("\n".join(text) + "\n")
        run = subprocess.run([sys.argv[1], *words], cwd=folder, capture_output=True, timeout=120)
    return None if run.returncode else told(run.stdout.decode(errors="surrogateescape").split("\n"))


def try_case(path, seed):
    words, status, files = parts(path)
    if words != ["replay", "config.toml", "schedule.txt"] or status != "status 0":
        return path, 0, []
    due, tried, differ = replayed(words, files, files["schedule.txt"]), 0, []
    for number in range(4):
        dice = random.Random(f"{seed} {os.path.basename(path)} {number}")
        given = replayed(words, files, [*cut_schedule(dice, files["schedule.txt"], number == 0)])
        if given is not None and due is not None:
            tried += 1
            if given != due:
                differ.append((number, [(key, due[key], given[key]) for key in sorted({*due, *given}) if due[key] != given[key]][:2]))
    return path, tried, differ


def main():
    seed = sys.argv[2] if len(sys.argv) > 2 else "1"
    folders = sys.argv[3:] or ["http", "smuggling"]
    sys.argv[1] = os.path.realpath(sys.argv[1])
    paths = [f"{CASES}/{folder}/{name}" for folder in folders for name in sorted(os.listdir(f"{CASES}/{folder}"))]
    counts, wrong = collections.Counter(), 0
    with ThreadPoolExecutor(2) as pool:
        for path, tried, differ in pool.map(lambda it: try_case(it, seed), paths):
            counts["tried"] += tried
            counts["left out"] += 4 - tried
            for number, what in differ:
                wrong += 1
                print(f"{os.path.relpath(path, CASES)}, cut {number}:", *[str(it)[:300] for it in what], sep="\n    ")
    print(f"{counts['tried']} cuttings of {len(paths)} cases, {counts['left out']} left out, {wrong} differ")
    sys.exit(wrong > 0)


if __name__ == "__main__":
    main()
