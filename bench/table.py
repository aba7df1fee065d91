#!/usr/bin/env python3
"""Runs random calls of `table` beside a model of their own, and times calls on a full table.

    bench/table.py PROGRAM [SEED [COUNT]]

PROGRAM is a built crates/ask_leaves/out/ask_leaves. COUNT sequences of calls, at moments about the
deadlines of their rows, are answered by the program and by the model below, a dictionary; those that
differ are printed. Then a table of 65,536 rows: what a `lookup` and an `incr` take more than in an empty
one.
"""
import random
import subprocess
import sys
import time

TEXT = {3: 'wrong # args: "table"', 5: "integer out of range", 7: "text too long",
        12: "syntax error in table", 14: "session table full"}
OPTIONS = {
    "set": {"-notouch", "-excl", "-mustexist"}, "add": {"-notouch"}, "replace": {"-notouch"},
    "lookup": {"-notouch"}, "incr": {"-notouch", "-mustexist"}, "append": {"-notouch", "-mustexist"},
    "delete": {"-all"}, "timeout": {"-remaining"}, "lifetime": {"-remaining"},
    "keys": {"-count", "-notouch"},
}


class Fault(Exception):
    def __init__(self, kind, text=None):
        super().__init__(kind)
        self.kind, self.text = kind, text or TEXT[kind]


def whole(text):
    """The whole number that a text is: decimal, octal behind 0, hexadecimal behind 0x."""
    digits = text.strip(" \t\n\v\f\r")
    minus = digits.startswith("-")
    if digits[:1] in ("-", "+"):
        digits = digits[1:]
    try:
        if not digits or not digits.isascii() or "_" in digits or digits[0] in "+- ":
            raise ValueError
        if digits.startswith("0x"):
            number = int(digits[2:], 16) if digits[2:].isalnum() else None
        elif digits[0] == "0" and len(digits) > 1:
            number = int(digits[1:], 8) if digits[1:].isdigit() else None
        else:
            number = int(digits) if digits.isdigit() else None
    except ValueError:
        number = None
    if number is not None:
        number = -number if minus else number
        if -(1 << 63) <= number < 1 << 63:
            return number
    raise Fault(4, f'expected integer but got "{text}"')


class Table:
    """Rows by subtable and key: [text, timeout, lifetime, created, touched]."""

    def __init__(self, limit):
        self.limit, self.rows = limit, {}

    def expire(self, now):
        self.rows = {k: r for k, r in self.rows.items() if self.live(r, now)}

    @staticmethod
    def live(row, now):
        _, timeout, lifetime, created, touched = row
        return (timeout is None or now < touched + 1000 * timeout) and (
            lifetime is None or now < created + 1000 * lifetime)

    def call(self, words, now):
        self.expire(now)
        try:
            reply = self.asked(words, now)
        except Fault as fault:
            return f"fault={fault.kind},{fault.text.encode('latin-1').hex()}"
        finally:
            self.expire(now)
        return "ok=" + (reply.encode("latin-1").hex() or "-")

    def asked(self, words, now):
        if not words:
            raise Fault(3)
        form, rest = words[0], list(words[1:])
        if form not in OPTIONS:
            raise Fault(12)
        given, subtable = [], ""
        while rest and rest[0].startswith("-"):
            option = rest.pop(0)
            given.append(option)
            if option == "-subtable":
                if not rest:
                    raise Fault(3)
                subtable = rest.pop(0)
        count = len(rest)
        right = {"set": 2 <= count <= 4, "add": 2 <= count <= 4, "replace": 2 <= count <= 4,
                 "lookup": count == 1, "incr": count in (1, 2), "append": count == 2,
                 "delete": count == (0 if "-all" in given else 1), "keys": count == 0}.get(
                     form, count == 1 or count == 2 and "-remaining" not in given)
        if not right:
            raise Fault(3)
        if len(set(given)) < len(given) or set(given) - OPTIONS[form] - {"-subtable"}:
            raise Fault(12)
        if "-excl" in given and "-mustexist" in given:
            raise Fault(12)
        seconds = []
        if form in ("set", "add", "replace"):
            seconds = rest[2:]
        elif form in ("timeout", "lifetime"):
            seconds = rest[1:]
        seconds = [None if s in ("indefinite", "indef") else whole(s) for s in seconds]
        delta = 1
        if form == "incr" and count == 2:
            delta = whole(rest[1])
        if any(s is not None and not 1 <= s <= 2147483647 for s in seconds):
            raise Fault(5)
        if len(subtable) > 256 or (rest and len(rest[0]) > 1024):
            raise Fault(7)
        if form in ("set", "add", "replace", "append") and len(rest[1]) > 16384:
            raise Fault(7)
        return self.done(form, subtable, rest, set(given), seconds, delta, now)

    def done(self, form, subtable, rest, given, seconds, delta, now):
        inside = sorted(k[1] for k in self.rows if k[0] == subtable)
        if form == "keys":
            return str(len(inside)) if "-count" in given else " ".join(k or "{}" for k in inside)
        if form == "delete" and "-all" in given:
            self.rows = {k: r for k, r in self.rows.items() if k[0] != subtable}
            return ""
        key = (subtable, rest[0])
        row = self.rows.get(key)
        touches = "-notouch" not in given
        if form == "delete":
            self.rows.pop(key, None)
            return ""
        if form in ("timeout", "lifetime"):
            return self.times(form, row, given, seconds, now)
        if form == "lookup":
            if row is None:
                return ""
            return self.touch(row, touches, now)
        if form in ("set", "add", "replace"):
            if row is not None and (form == "add" or "-excl" in given):
                return self.touch(row, touches, now)
            if row is None and (form == "replace" or "-mustexist" in given):
                return ""
            timeout = seconds[0] if seconds else 180
            lifetime = seconds[1] if len(seconds) > 1 else None
            if row is None:
                self.room()
            touched = now if row is None or touches else row[4]
            self.rows[key] = [rest[1], timeout, lifetime, now, touched]
            return rest[1]
        if row is None:
            if "-mustexist" in given:
                return ""
            self.room()
            text = str(delta) if form == "incr" else rest[1]
            self.rows[key] = [text, 180, None, now, now]
            return text
        if form == "incr":
            number = whole(row[0]) + delta
            if not -(1 << 63) <= number < 1 << 63:
                raise Fault(5)
            row[0] = str(number)
        else:
            if len(row[0]) + len(rest[1]) > 16384:
                raise Fault(7)
            row[0] += rest[1]
        return self.touch(row, touches, now)

    def room(self):
        if len(self.rows) >= self.limit:
            raise Fault(14)

    @staticmethod
    def touch(row, touches, now):
        if touches:
            row[4] = now
        return row[0]

    @staticmethod
    def times(form, row, given, seconds, now):
        if row is None:
            return ""
        at, since = (1, 4) if form == "timeout" else (2, 3)
        if seconds:
            row[at] = seconds[0]
            return "indefinite" if seconds[0] is None else str(seconds[0])
        if row[at] is None:
            return "indefinite"
        if "-remaining" in given:
            return str(-(-(row[since] + 1000 * row[at] - now) // 1000))
        return str(row[at])


def words_of(dice):
    """The words of a random call, most of them right."""
    form = dice.choice(list(OPTIONS))
    words = [form]
    options = list(OPTIONS[form]) + ["-subtable"] + (["-bad"] if dice.random() < 0.03 else [])
    for option in dice.sample(options, dice.choice([0, 0, 0, 1, 1, 2])):
        words.append(option)
        if option == "-subtable":
            words.append(dice.choice(["s", "t", ""]))
    key = [dice.choice(["a", "b", "c", "d"])]
    times = [dice.choice(["1", "2", "3", "10", "indef", "indefinite", "0", "x"]) for _ in range(2)]
    if form in ("set", "add", "replace"):
        words += key + [dice.choice(["1", "7", "p", "0x10", ""])] + times[:dice.choice([0, 1, 1, 2, 2])]
    elif form == "incr":
        words += key + dice.choice([[], ["5"], ["-3"], ["q"], ["9223372036854775807"]])
    elif form == "append":
        words += key + [dice.choice(["1", "z"])]
    elif form in ("timeout", "lifetime"):
        words += key + dice.choice([[], [], times[:1]])
    elif form in ("lookup", "delete") and not (form == "delete" and "-all" in words):
        words += key
    if dice.random() < 0.03:
        words.append("x")
    return words


def hexadecimal(text):
    return text.encode("latin-1").hex() or "-"


def sequence(dice):
    """A question, and its answer by the model."""
    limit, now = dice.choice([1, 2, 3, 100]), 0
    table, question, answers = Table(limit), ["table", str(limit)], []
    for _ in range(dice.randrange(5, 40)):
        now += dice.choice([0, 0, 0, 1, 499, 999, 1000, 1001, 2000, 3000, 10000])
        words = words_of(dice)
        question += [str(now), str(len(words))] + [hexadecimal(w) for w in words]
        answers.append(table.call(words, now))
    return " ".join(question), " ".join(answers + [f"live={len(table.rows)}"])


def run(program, lines):
    start = time.perf_counter()
    given = ("\n".join(lines) + "\n").encode()
    out = subprocess.run([program], input=given, capture_output=True, check=True).stdout
    return out.decode().split("\n")[:-1], time.perf_counter() - start


def full(program, rows, call):
    """The time of a call in microseconds, on a table of so many rows."""
    fill = " ".join(f"0 3 {hexadecimal('set')} {hexadecimal(str(k))} 31" for k in range(rows))
    times = 4000
    calls = " ".join([f"0 2 {hexadecimal(call)} {hexadecimal(str(rows // 2))}"] * times)
    best = []
    for line in (f"table 65536 {fill}", f"table 65536 {fill} {calls}"):
        best.append(run(program, [line])[1])
    return 1e6 * (best[1] - best[0]) / times


def main():
    program = sys.argv[1]
    dice = random.Random(int(sys.argv[2]) if len(sys.argv) > 2 else 1)
    count = int(sys.argv[3]) if len(sys.argv) > 3 else 5000
    asked = [sequence(dice) for _ in range(count)]
    given, _ = run(program, [question for question, _ in asked])
    wrong = [(q, a, g) for (q, a), g in zip(asked, given) if a != g]
    for question, answer, got in wrong[:5]:
        print(question, "model:  " + answer, "program: " + got, sep="\n")
    print(f"{count} sequences, {len(wrong)} answered otherwise")
    for call in ("lookup", "incr"):
        few, many = full(program, 1, call), full(program, 65_536, call)
        print(f"{call}: {few:.1f} us in a table of one row, {many:.1f} us of 65,536")
    sys.exit(1 if wrong else 0)


if __name__ == "__main__":
    main()
