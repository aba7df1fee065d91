#!/usr/bin/env python3
"""Asks tclsh 8.6 the `pure` questions of crates/ask_language, and prints the answers that differ
where docs/DIFFERENCES.md names no reason.

    bench/pure_vectors.py

Each question has a tclsh of its own and a limit of time, since some of them ask for texts that fill
the memory. Faults are compared as faults, without their texts. The iRules commands (`getfield`,
`b64encode`, `IP::addr` ..) aren't asked, for Tcl has none of them. Ends with 1 where something
differs without a reason.
"""
import collections
import pathlib
import re
import subprocess
import sys

VECTORS = pathlib.Path(__file__).parent.parent / "crates/ask_language"
TCL = "string concat join lindex list llength lrange lsearch lsort split format".split()
JUDGE = r"""
set words [lmap digits $argv {binary decode hex [string trimleft $digits -]}]
if {[catch {{*}$words} value]} {puts fault; exit}
if {$value eq {}} {puts {ok -}; exit}
puts "ok [join [lmap byte [split $value {}] {format %02x [scan $byte %c]}] {}]"
"""
# The words of a question, a blank between them, and what docs/DIFFERENCES.md says of it.
NAMED = [
    (r"string (trim\w*) \x00", "white space has six bytes"),
    (r"string to(lower|upper) .*[\x80-\xff]", "case is that of ASCII letters"),
    (r"string to(lower|upper) \S+ \S+ ", "case of the whole text"),
    (r"string \w+ -nocase ", "no -nocase"),
    (r"string (is|reverse) ", "fifteen forms of string"),
    (r"string first \S+ \S+ \S", "no index to begin a search"),
    (r"string match \[a ", "a set without its end"),
    (r"string index \S+ en$", "end can't be abbreviated"),
    (r"string (index|range) \S+ .*\d{10}", "a place has 64 bits"),
    (r"string repeat \S+ \d{6}", "a text has a limit"),
    (r"lindex ([^ ]+|\$,,- |\"x y\" z)( 0 0)?$", "lindex takes one place"),
    (r"lsearch -regexp ", "lsearch has -exact and -glob"),
    (r"lsort -dictionary ", "lsort has no -dictionary"),
    (r"(lsort -integer|format %d) \d{19}$", "a whole number has 64 bits"),
    (r"(list|split) .*[#\"\\]", "how a list is written"),
    (r"split [^#\"]*\x0b", "split splits at white space"),
    (r"format %5%", "%% with a width"),
    (r"format %05s", "0 pads numbers alone"),
    (r"format %(0-|-0)", "- beats 0"),
    (r"format %-?\d*[xXo] -", "a negative number under %x"),
    (r"format %c (-1|256)$", "%c takes 0 to 255"),
    (r"format %\d{4,}s", "a width up to 1,000"),
    (r"format %([iuf+ #*.lh]|\d(\.|\$))", "the conversions of format"),
]


def questions():
    """The words and the answer of each question that Tcl can be asked."""
    asked = (VECTORS / "stdin").read_text().splitlines()
    told = (VECTORS / "stdout").read_text().splitlines()
    for question, answer in zip(asked, told):
        call, *digits = question.split(" ")
        if call != "pure":
            continue
        words = [bytes.fromhex(each.strip("-")).decode("latin-1") for each in digits]
        if words[0] in TCL:
            yield digits, words, answer if answer.startswith("ok") else "fault"


def judged(digits):
    """What tclsh answers."""
    command = ["tclsh8.6", "/dev/stdin", *digits]
    try:
        done = subprocess.run(command, input=JUDGE, capture_output=True, text=True, timeout=10)
    except subprocess.TimeoutExpired:
        return "no answer in time"
    return done.stdout.strip()


def main():
    counts, unnamed = collections.Counter(), 0
    for digits, words, answer in questions():
        other = judged(digits)
        text = " ".join(words)
        reasons = [reason for pattern, reason in NAMED if re.match(pattern, text, re.DOTALL)]
        if answer == other:
            counts["alike"] += 1
        elif reasons:
            counts[reasons[0]] += 1
        else:
            unnamed += 1
            print(repr(text), answer[:80], "and in tclsh", other[:80])
    for reason, count in counts.most_common():
        print(count, reason)
    sys.exit(unnamed > 0)


main()
