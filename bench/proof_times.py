#!/usr/bin/env python3
"""Tells which functions of a crate take the time of its check.

usage: bench/proof_times.py FOLDER [N]

FOLDER is what a check from nothing left: remove crates/NAME/out/incremental, run `rt check --jobs 1` in crates/NAME, and name
that folder. The check saves each module as it ends with it, so the time between two files is what the second one took. Its
modules belong to functions: `Lts` is the lowering of a body (it grows with the exits at which owned values are dropped, one by
one and field by field), `Proof` and `Answers` are its proof, `Tie` joins both. Printed are the N functions that took longest, in
seconds of a check that nothing else slowed down.
"""
import collections
import os
import re
import sys

KINDS = "Lts|Proof|Tie|Answers|Code|Statement|Goals|Met|Given|Invariants|Reads|Kinds|Carried"


def by_function(files):
    """What each function took, and each of its parts, by the moments at which modules were saved, which are in order."""
    whole, parts, last = collections.Counter(), collections.defaultdict(collections.Counter), None
    for moment, name in files:
        found = re.match(rf"Rattle-\w+?-proofs\.(.*?)\.({KINDS})[.\w+-]*\.oantt$", name)
        function, kind = (found[1], found[2]) if found else ("all else", "")
        took, last = moment - (moment if last is None else last), moment
        whole[function] += took
        parts[function][kind] += took
    return whole, parts


def main(folder, most=30):
    files = [(os.stat(f"{at}/{name}").st_mtime_ns / 1e9, name) for at, _, names in os.walk(folder) for name in names]
    whole, parts = by_function(sorted(files))
    print(f"{sum(whole.values()):8.1f} s in all")
    for function, took in whole.most_common(most):
        largest = ", ".join(f"{kind} {part:.1f}" for kind, part in parts[function].most_common(3) if kind)
        print(f"{took:8.1f} {function}  {largest}")


if __name__ == "__main__":
    if len(sys.argv) not in (2, 3):
        sys.exit(__doc__)
    main(sys.argv[1], int(sys.argv[2]) if len(sys.argv) == 3 else 30)
