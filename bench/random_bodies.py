#!/usr/bin/env python3
"""Runs random bodies by `eval_plain` and by tclsh, and prints those that end otherwise.

    bench/random_bodies.py PROGRAM [SEED [COUNT]]

PROGRAM is a built crates/ask_language/out/ask_language. A body nests control commands, words, brackets
and expressions; most of its commands are caught, and the codes go into its result, with all its
variables. Texts of faults aren't compared, and what docs/DIFFERENCES.md names isn't made.
"""
import random
import subprocess
import sys
import tempfile

NUMBERS = "abc"
TEXTS = "st"
VALUES = ["0", "7", "-3", "{}", "{pq}", "{x y}", "r", "{zz q}", "p*", "{p;q}", "xyz", "{p {q r} z}"]
BRACES_GO = r"{\{ {} \} {}}"
OPERATORS = "+ - * / % & | ^ < > <= >= == != eq ne && || && ||".split()
JUDGE = r"""
while {[gets stdin line] >= 0} {
    set inner [interp create]
    $inner eval [list proc run {} [binary format H* $line]]
    set code [catch {$inner eval run} value]
    puts [expr {$code ? "fault" : "ok [binary encode hex $value]"}]
    interp delete $inner
}
"""


class Body:
    """One body, with names for its loops' variables that no other loop has."""

    def __init__(self, seed):
        self.random = random.Random(seed)
        self.loops = 0

    def one(self, *choices):
        """One of these; a function is called."""
        choice = self.random.choice(choices)
        return choice() if callable(choice) else choice

    def number(self):
        return self.one("0", "1", "2", "5", "-4", "100", "$" + self.one(*NUMBERS))

    def index(self):
        return self.one("k", "m", "$a", "k$s")

    def word(self, depth=1):
        bracket = (lambda: f"[{self.command(depth - 1)}]") if depth else self.number
        piece = lambda: self.one("p", " ", "$a", "$s", "${t}", "\\t", "\\x41", "$x(k)", bracket)
        quoted = lambda: '"' + "".join(piece() for _ in range(self.random.randrange(4))) + '"'
        return self.one("$a", "$s", "$t", f"$x({self.index()})", bracket, quoted, *VALUES)

    def expression(self, depth=2):
        if depth == 0:
            return self.one(*[self.number] * 12, "[llength $l]", '"$s"', "{q r}", "$t")
        left, right = self.expression(depth - 1), self.expression(depth - 1)
        return self.one(
            f"({left} {self.one(*OPERATORS)} {right})",
            f"({left} {self.one(*OPERATORS)} {right})",
            f"({left} {self.one('<<', '>>')} {self.random.randrange(6)})",
            f"({left} ? {right} : {self.expression(depth - 1)})",
            f"{self.one(*'-!~+')}({left})",
        )

    def command(self, depth=1):
        """A command of values, which changes numbers at most."""
        word = lambda: self.word(depth)
        return self.one(
            lambda: f"set {self.one(*NUMBERS, *TEXTS, 'x(k)')}",
            lambda: f"expr {{{self.expression()}}}",
            lambda: f"incr {self.one(*NUMBERS)} {self.number()}",
            lambda: f"string range {word()} {self.one('0', '1', 'end-1')} {self.one('1', '3', 'end')}",
            lambda: f"string index {word()} {self.one('0', '1', 'end', '9')}",
            lambda: f"string {self.one('length', 'toupper', 'trim', 'tolower')} {word()}",
            lambda: f"string {self.one('compare', 'equal', 'first', 'last')} {word()} {word()}",
            lambda: f"string map {{p q q pp x {{}}}} {word()}",
            lambda: f"string match {self.one('p*', '*q', '?', '{[p-r]*}')} {word()}",
            lambda: f"list {word()} {word()}",
            lambda: f"concat {word()} {word()}",
            lambda: f"lindex $l {self.one('0', '1', 'end', '7')}",
            lambda: f"lrange $l {self.one('0', '1')} {self.one('1', 'end-1')}",
            lambda: f"lsearch $l {self.one('p*', 'q', '*z*')}",
            lambda: f"lsort {self.one('', '-decreasing', '-unique')} $l",
            lambda: f"split [join {word()}] {self.one('p', '{ }', 'pq')}",
            lambda: f"join $l {self.one('', '-', '{, }')}",
            lambda: f"format {{%s-%4s|%-3s.}} {word()} {word()} {word()}",
            lambda: f"info exists {self.one('a', 'none', 'x(k)', 'x(q)')}",
            lambda: "lsort [array names x]",
        )

    def step(self, in_loop):
        """A command that changes something, or leaves the body."""
        short = lambda: f"[string range [string map {BRACES_GO} {self.word()}] 0 5]"
        leaves = ["break", "continue"] if in_loop else []
        return self.one(
            lambda: f"set {self.one(*NUMBERS)} [expr {{{self.expression()} % 1000}}]",
            lambda: f"set {self.one(*TEXTS)} {short()}",
            lambda: f"set x({self.index()}) {short()}",
            lambda: f"unset x({self.index()})",
            lambda: f"append {self.one(*TEXTS, 'out')} u {short()}",
            lambda: f"lappend l {short()}",
            lambda: f"append out [{self.command()}]",
            lambda: self.one("return zz", "error boom", *leaves) if self.one(0, 0, 1) else "incr a",
        )

    def loop(self, depth):
        self.loops += 1
        name, times = f"i{self.loops}", self.random.randrange(4)
        body = self.statements(depth, True)
        row = lambda: self.one("$l", "{p q r}", "{}", "{1 {2 3} 4 5}", "[split p-q-r -]")
        return self.one(
            f"set {name} 0; while {{${name} < {times} && {self.expression()}}} {{incr {name}; {body}}}",
            f"for {{set {name} 0}} {{${name} < {times}}} {{incr {name}}} {{{body}}}",
            f"foreach {name} {row()} {{append out ${name}.; {body}}}",
            f"foreach {{{name} other}} {row()} third {row()} {{append out $other$third.; {body}}}",
        )

    def statement(self, depth, in_loop):
        if depth == 0:
            return self.step(in_loop)
        body = lambda: self.statements(depth - 1, in_loop)
        pattern = lambda: self.one("p*", "q", "{x y}", "5", "{[p-z]*}")
        case = lambda: f"{pattern()} {self.one('-', lambda: f'{{{body()}}}')}"
        cases = lambda: f"{{{case()} {case()} default {{{body()}}}}}"
        return self.one(
            lambda: self.step(in_loop),
            lambda: f"if {{{self.expression()}}} {{{body()}}} else {{{body()}}}",
            lambda: f"if 0 {{}} elseif {{{self.expression()}}} then {{{body()}}}",
            lambda: self.loop(depth - 1),
            lambda: f"switch -{self.one('glob', 'exact')} -- {self.word()} {cases()}",
            lambda: f"append out [catch {{{body()}}} caught]",
        )

    def statements(self, depth, in_loop):
        made = (self.statement(depth, in_loop) for _ in range(self.random.randint(1, 3)))
        return "; ".join(f"append out [catch {{{x}}}]" if self.one(1, 1, 0) else x for x in made)

    def text(self):
        start = "set a 2; set b -1; set c 7; set s p; set t {}; set l {p q}; set x(k) K; set out {}"
        caught = (f"append out [catch {{{self.statement(2, False)}}}]" for _ in range(8))
        return f"{start}; {'; '.join(caught)}; return \"$out|$a|$b|$c|$s|$t|$l\""


def answers(command, lines):
    given = "".join(f"{line}\n" for line in lines).encode()
    done = subprocess.run(command, input=given, capture_output=True, check=True)
    return done.stdout.decode().splitlines()


def main():
    program, seed, count = sys.argv[1:] + ["1", "1000"][len(sys.argv) - 2 :]
    bodies = [Body(f"{seed} {number}").text() for number in range(int(count))]
    texts = [body.encode().hex() for body in bodies]
    own = answers([program], [f"body {text}" for text in texts])
    with tempfile.NamedTemporaryFile("w", suffix=".tcl") as judge:
        judge.write(JUDGE)
        judge.flush()
        others = answers(["tclsh", judge.name], texts)
    differ = 0
    for body, answer, other in zip(bodies, own, others, strict=True):
        if (answer.split()[0] if other == "fault" else answer) != other:
            differ += 1
            print(f"{body}\n  here  {answer}\n  tclsh {other}")
    print(f"{count} bodies, {differ} end otherwise")


if __name__ == "__main__":
    main()
