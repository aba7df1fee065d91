#!/usr/bin/env python3
"""Calls of three connections on one session table and its records, beside a model of their own.

    bench/shared_calls.py PROGRAM [SEED [COUNT]]         PROGRAM is a built crates/ciravogu/out/ciravogu

COUNT schedules (5,000) of three connections, each of which makes some random calls of `table`, `clock` and `after` and then asks
for a member by its client's address, with Runs, Turns and Ticks in between at moments about the deadlines of rows, records and
sleeps. The model is the table of bench/table.py, records by address, a ring, a queue and those that sleep, which wake in the order
in which they fell asleep; the whole report is compared.
"""
import random
import subprocess
import sys
import tempfile

from table import Fault, Table, words_of

MEMBERS = ["10.0.1.1:80", "10.0.1.2:80", "10.0.1.3:80"]
CONFIG = """version = 1

[[virtual]]
name = "v"
listen = "127.0.0.1:9000"
pool = "p"
persist = "source_addr"
persist_timeout = %d
rules = ["r"]

[[pool]]
name = "p"
members = [%s]

[[rule]]
name = "r"
text = '''
when CLIENT_ACCEPTED {
    switch [TCP::client_port] {
%s
    }
}
'''
"""


def written(words):
    return " ".join(word or "{}" for word in words)


def milliseconds(word):
    """A whole number as Tcl 8.4 has it: decimal, `0x1f` or octal `017`."""
    return int(word, 16 if word.startswith("0x") else 8 if word.startswith("0") else 10)


class Checks(Table):
    """A table that tells the faults of words alone."""

    def done(self, *given):
        return ""


class Store:
    """The session table, and the member of each client's address with the moment of its last use."""

    def __init__(self, seconds):
        self.table, self.seconds, self.records, self.turn = Table(65536), seconds, {}, 0

    def tick(self, now):
        self.table.expire(now)
        self.records = {k: r for k, r in self.records.items() if now < r[1] + 1000 * self.seconds}

    def answer(self, words, now):
        """What stands behind the call in its line of the history, and its text."""
        if words[0] == "table":
            reply = self.table.call(words[1:], now)
            kind, _, text = reply.partition("=")
            if kind == "ok":
                return f"ok {text}", "" if text == "-" else bytes.fromhex(text).decode()
            number, _, text = text.partition(",")
            return f"fault {number} {text}", bytes.fromhex(text).decode()
        if words[0] == "clock":
            text = str(now // 1000)
        elif words[0] == "after":
            return "ok -", ""
        else:
            address = words[3]
            if address in self.records:
                text = self.records[address][0]
            else:
                text, self.turn = MEMBERS[self.turn % len(MEMBERS)], self.turn + 1
            self.records[address] = (text, now)
        return f"ok {text.encode().hex()}", text


class Connection:
    def __init__(self, number, address, calls):
        self.number, self.address, self.calls = number, address, list(calls)
        self.asks, self.reply, self.phase, self.sent, self.took = None, None, "body", "", ""

    def run(self):
        """Its notes up to the next call, or to where it waits."""
        if self.phase == "body":
            if self.reply is not None:
                self.sent += self.reply + ";"
            while self.calls:
                words = self.calls.pop(0)
                try:
                    if words[0] == "table":
                        Checks(1).asked(words[1:], 0)
                except Fault as fault:
                    self.sent += fault.text + ";"
                    continue
                self.asks = words
                return []
            self.phase, self.asks = "selects", ["select", "v", "p", self.address, "any"]
            return []
        if self.phase == "selects":
            self.phase = "connects"
            return [f"> connect {self.number} {self.reply}"]
        if self.phase == "refused":
            self.phase = "drains"
            return [f"> finish {self.number} unselected", *self.closing()]
        return []

    def closing(self):
        if len(self.took) < len(self.sent):
            return []
        self.phase = "over"
        return [f"> close-client {self.number}", f"> ended {self.number} 0"]


class Run:
    """A schedule as it is made, with its report."""

    def __init__(self, dice):
        self.dice, self.now, self.ring, self.queue, self.asleep = dice, 0, [], [], []
        self.lines, self.report, self.store = [], [], Store(dice.choice([1, 2, 5]))
        addresses = ["10.0.0.8", "10.0.0.9"]
        self.given = [[self.call() for _ in range(dice.randrange(1, 6))] for _ in range(3)]
        self.made = [Connection(at + 1, dice.choice(addresses), it) for at, it in enumerate(self.given)]
        self.accepted = []

    def call(self):
        choice = self.dice.random()
        if choice < 0.05:
            return ["clock", "seconds"]
        if choice < 0.25:
            time = self.dice.choice([0, 1, 2, 499, 500, 1000, 3000])
            return ["after", self.dice.choice([str(time), hex(time), f"0{time:o}"])]
        return ["table", *words_of(self.dice)]

    def config(self):
        cases = []
        for at, calls in enumerate(self.given):
            body = "\n".join(f"            catch {{ {written(call)} }} r; TCP::respond $r\\;" for call in calls)
            cases.append(f"        {at + 1} {{\n{body}\n        }}")
        members = ", ".join(f'{{ addr = "{it}" }}' for it in MEMBERS)
        return CONFIG % (self.store.seconds, members, "\n".join(cases))

    def accept(self):
        it = self.made[len(self.accepted)]
        self.accepted.append(it)
        self.ring.append(it)
        self.lines.append(f"accept {it.number} v {it.address} {it.number}")

    def run(self):
        self.lines.append("run")
        if self.ring:
            it = self.ring.pop(0)
            self.report += it.run()
            if it.asks and it.asks[0] == "after" and milliseconds(it.asks[1]):
                until = self.now + milliseconds(it.asks[1])
                self.asleep.append((until, it))
                self.report.append(f"> sleep {it.number} {until}")
            elif it.asks:
                self.queue.append(it)

    def turn(self):
        self.lines.append("turn")
        if self.queue:
            it = self.queue.pop(0)
            told, it.reply = self.store.answer(it.asks, self.now)
            call = written(it.asks).encode().hex()
            self.report.append(f"> history {it.number} {self.now} {call} {told}")
            it.asks = None
            self.ring.append(it)

    def ends(self):
        """The moments at which rows, records and sleeps end."""
        found = []
        for _, timeout, lifetime, created, touched in self.store.table.rows.values():
            found += [] if timeout is None else [touched + 1000 * timeout]
            found += [] if lifetime is None else [created + 1000 * lifetime]
        found += [touched + 1000 * self.store.seconds for _, touched in self.store.records.values()]
        return found + [until for until, _ in self.asleep]

    def tick(self):
        near = [end + by for end in self.ends() for by in (-1, 0, 1)] or [self.now]
        self.tick_to(self.dice.choice([self.dice.choice(near), self.now, self.now + 1, self.now + 500]))

    def tick_to(self, moment):
        self.now = max(self.now, moment)
        self.store.tick(self.now)
        self.queue += [it for until, it in self.asleep if until <= self.now]
        self.asleep = [(until, it) for until, it in self.asleep if until > self.now]
        self.lines.append(f"tick {self.now}")

    def refuse(self):
        for it in self.accepted:
            if it.phase == "connects":
                it.phase = "refused"
                self.ring.append(it)
                self.lines.append(f"refused {it.number}")

    def take(self):
        for it in self.accepted:
            if it.phase == "drains":
                self.lines.append(f"client-took {it.number} {len(it.sent)}")
                it.took = it.sent
                self.report += it.closing()

    def all(self):
        for _ in range(self.dice.randrange(10, 50)):
            choice = self.dice.random()
            if choice < 0.15 and len(self.accepted) < 3:
                self.accept()
            elif choice < 0.3:
                self.tick()
            elif choice < 0.35:
                self.refuse()
            elif choice < 0.7:
                self.run()
            else:
                self.turn()
        while self.ring or self.queue or self.asleep or any(it.phase == "connects" for it in self.accepted):
            if self.dice.random() < 0.1:
                self.tick()
            if self.ring:
                self.run()
            elif self.queue:
                self.turn()
            elif self.asleep:
                self.tick_to(min(until for until, _ in self.asleep))
            else:
                self.refuse()
        self.take()
        for it in self.accepted:
            self.report.append(f"> client {it.number} {it.took.encode().hex() or '-'}")
        self.report.append(f"> end {len(self.lines)}")


def main():
    program = sys.argv[1]
    dice = random.Random(int(sys.argv[2]) if len(sys.argv) > 2 else 1)
    count = int(sys.argv[3]) if len(sys.argv) > 3 else 5000
    differ, seen = 0, {}
    with tempfile.TemporaryDirectory() as folder:
        for number in range(count):
            made = Run(dice)
            made.all()
            with open(f"{folder}/c.toml", "w") as file:
                file.write(made.config())
            with open(f"{folder}/s.txt", "w") as file:
                file.write("\n".join(made.lines) + "\n")
            words = [program, "replay", f"{folder}/c.toml", f"{folder}/s.txt"]
            out = subprocess.run(words, capture_output=True).stdout.decode()
            for line in made.report:
                words = line.split()
                word = f"{bytes.fromhex(words[4]).split()[0].decode()} {words[5]}" if words[1] == "history" else words[1]
                seen[word] = seen.get(word, 0) + 1
            if out != "\n".join(made.report) + "\n":
                differ += 1
                if differ <= 3:
                    print(f"schedule {number} differs:", made.config(), *made.lines, sep="\n")
                    print("-- wanted:", *made.report, "-- given:", out, sep="\n")
    print(f"{count} schedules, {differ} differ")
    print(", ".join(f"{k} {v}" for k, v in sorted(seen.items())))
    sys.exit(differ > 0)


if __name__ == "__main__":
    main()
