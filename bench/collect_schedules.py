#!/usr/bin/env python3
"""Schedules of rules that collect bytes, beside a model of them written from the text of what such a rule does.

    bench/collect_schedules.py PROGRAM [SEED [COUNT]]      PROGRAM is a built crates/ciravogu/out/ciravogu
    bench/collect_schedules.py --write FOLDER [SEED [COUNT]]

COUNT schedules (2,000) of one connection, each with a rule of its own: its bodies collect, release, replace and answer in
CLIENT_ACCEPTED, CLIENT_DATA, SERVER_CONNECTED and SERVER_DATA, in any order, beside fragments, ends and resets of both
sides, took-counts, and queues that are full. The model keeps bytes alone, no code of the program; the whole report is
compared. With --write the schedules go into a folder, each with its rule and its report.
"""
import random
import subprocess
import sys
import tempfile
from pathlib import Path

from relay_schedules import LIMIT, Connection, last

CONFIG = """version = 1

[[virtual]]
name = "v"
listen = "127.0.0.1:9000"
pool = "p"
rules = ["r"]

[[pool]]
name = "p"
members = [{ addr = "10.0.0.1:80" }]

[[rule]]
name = "r"
text = '''
%s'''
"""
SIDE = {"CLIENT_ACCEPTED": "client", "CLIENT_DATA": "client", "SERVER_CONNECTED": "server", "SERVER_DATA": "server"}
DATA = {"client": "CLIENT_DATA", "server": "SERVER_DATA"}
OTHER = {"client": "server", "server": "client"}


def text_of(size):
    """A word of a rule with so many bytes."""
    return '""' if size == 0 else "x" * size if size < 50 else f"[string repeat x {size}]"


def script(actions):
    """A body's lines for these actions."""
    words = {
        "collect": lambda n: f"TCP::collect {n}",
        "release": lambda: "TCP::release",
        "whole": lambda n: f"TCP::payload replace 0 [TCP::payload length] {text_of(n)}",
        "first": lambda n: f"TCP::payload replace 0 1 {text_of(n)}",
        "append": lambda n: f"TCP::payload replace [TCP::payload length] 0 {text_of(n)}",
        "respond": lambda n: f"TCP::respond {text_of(n)}",
        "log": lambda: "log [TCP::payload]",
        "close": lambda: "TCP::close",
    }
    return "".join(f"        {words[name](*rest)}\n" for name, *rest in actions)


def rule_text(rule):
    """The text of a rule: each event has actions for its first entries, and others for all later ones."""
    made = ""
    for event, entries in rule.items():
        count = event.lower()
        body = "" if event != "CLIENT_ACCEPTED" else "".join(f"    set {name.lower()} 0\n" for name in rule)
        body += f"    incr {count}\n"
        for at, actions in enumerate(entries, 1):
            test = "==" if at < len(entries) else ">="
            body += f"    if {{${count} {test} {at}}} {{\n{script(actions)}    }}\n"
        made += f"when {event} {{\n{body}}}\n"
    return made


class Collecting(Connection):
    """One connection whose rule collects bytes."""

    def __init__(self, rule):
        super().__init__()
        self.rule, self.entered = rule, dict.fromkeys(rule, 0)
        self.asked, self.held = {"client": None, "server": None}, {"client": b"", "server": b""}
        self.loose, self.linked, self.turn_of = b"", False, "client"
        self.released = self.closes = False
        self.phase = ("gate", "CLIENT_ACCEPTED")

    def refusal(self, word, side, n):
        if word != "bytes" or self.finished():
            return super().refusal(word, side, n)
        why = super().refusal("end", side, 0)
        unread, asked = len(self.sides[side].unread), self.asked[side]
        counts = unread if asked is None else unread - min(asked, unread)
        return why if why is not None else 3 if n > LIMIT - counts else None

    def act(self, side, name, n=0):
        """What one action of a body on this side does, and what it logs."""
        own, text = self.held[side], b"x" * n
        if name == "collect":
            self.asked[side] = n
        elif name == "release":
            self.held[side], self.asked[side], self.released = b"", None, True
            if side == "client" and not self.linked:
                self.loose += own
            else:
                self.sides[OTHER[side]].queue(own)
        elif name == "respond":
            self.sides[side].queue(text)
        elif name == "close":
            self.closes = True
        elif name == "log":
            return [f"> log 1 {own.decode()}".rstrip("\n")]
        else:
            self.held[side] = {"whole": text, "first": text + own[1:], "append": own + text}[name]
        return []

    def enter(self, event):
        self.released = self.closes = False
        self.phase = ("gate", event) if event in self.rule else self.behind(event)

    def behind(self, event):
        """Where it goes once the bodies of an event have ended."""
        if self.closes:
            return "closes"
        if event == "CLIENT_ACCEPTED":
            return "choose" if self.asked["client"] is None else "collect"
        if event == "SERVER_CONNECTED":
            self.turn_of = "client"
            return "release" if self.loose else "relay"
        self.turn_of = "server" if event == "CLIENT_DATA" else "client"
        if self.linked:
            return "relay"
        return "choose" if self.released else "collect"

    def body(self, event):
        self.entered[event] += 1
        entries = self.rule[event]
        actions = entries[min(self.entered[event], len(entries)) - 1]
        notes = [line for action in actions for line in self.act(SIDE[event], *action)]
        self.phase = self.behind(event)
        return notes

    def fire(self, side):
        end, n = self.sides[side], self.asked[side]
        self.held[side] += end.unread[:n]
        end.unread, self.asked[side] = end.unread[n:], None
        self.enter(DATA[side])
        return [f"> fired 1 {side}"]

    def met(self, side):
        return self.asked[side] is not None and len(self.sides[side].unread) >= self.asked[side]

    def room(self, side):
        return self.sides[side].pending() < LIMIT

    def all_done(self, side):
        end = self.sides[side]
        return end.done() if self.asked[side] is None else end.ended and not self.met(side)

    def rest(self):
        """At a rest a reset cuts; where bytes are passed on, a half is closed behind the last of its bytes."""
        cut = self.cut()
        if cut is not None:
            return cut
        relays = self.linked and (self.phase == "relay" or self.phase[1] in DATA.values())
        notes = []
        for side in ("client", "server"):
            from_, to = OTHER[side], self.sides[side]
            spent = self.sides[from_].done() and not self.held[from_] and not self.loose
            if relays and spent and to.pending() == 0 and not to.reset and not to.half:
                to.half = True
                notes.append(f"> half-close 1 {side}")
        return notes

    def pass_on(self):
        """What a relay does next: the bytes of the side whose turn it is go first."""
        if self.all_done("client") and self.all_done("server"):
            return self.finish("closed")
        for side in (self.turn_of, OTHER[self.turn_of]):
            end, to = self.sides[side], self.sides[OTHER[side]]
            if self.met(side):
                return self.fire(side)
            n = 0 if self.asked[side] is not None else min(len(end.unread), LIMIT - to.pending())
            if n > 0:
                to.queue(end.unread[:n])
                end.unread, self.turn_of = end.unread[n:], OTHER[side]
                return [f"> pass 1 {side} {n}"]
        self.turn_of = "client"
        return None

    def run(self):
        if not self.ready:
            return []
        self.ready, notes = False, []
        while not self.finished():
            if self.phase[0] == "gate" and self.room("client") and self.room("server"):
                notes += self.body(self.phase[1])
            elif self.phase == "closes":
                return notes + self.finish("closed")
            elif self.phase == "collect" and self.met("client"):
                notes += self.fire("client")
            elif self.phase == "choose":
                self.phase, self.asks = "asks", True
                return notes
            elif self.phase == "chosen":
                notes.append("> connect 1 10.0.0.1:80")
                self.phase, self.sides["server"].state = "connects", "connecting"
            elif self.phase == "connects" and self.answer == "refused":
                return notes + self.finish("unselected")
            elif self.phase == "connects" and self.answer == "connected":
                self.linked = True
                self.enter("SERVER_CONNECTED")
            elif self.phase == "release" and self.room("server"):
                self.sides["server"].queue(self.loose)
                self.phase, self.loose = "relay", b""
            elif self.phase == "relay":
                more = self.pass_on()
                if more is None:
                    return notes + self.rest()
                notes += more
            else:
                return notes + self.rest()
        return notes


def some_actions(dice, first):
    """The actions of a body, with a collect more often in a first one."""
    made = []
    for _ in range(dice.choice([0, 1, 1, 2, 2, 3])):
        name = dice.choice(["collect"] * 4 + ["release"] * 3 + ["whole", "first", "append", "respond", "log", "log"])
        sizes = [1, 2, 7, 40] + [3000, LIMIT - 1, LIMIT] * (dice.random() < 0.15)
        if name in ("release", "log"):
            made.append((name,))
        elif name == "collect":
            sizes = [1, 2, 3, 10, 100] + [LIMIT - 1, LIMIT, LIMIT + 1, 70000] * (dice.random() < 0.2)
            made.append((name, dice.choice(sizes)))
        else:
            made.append((name, dice.choice(sizes if name == "respond" else [0, *sizes])))
    if first and dice.random() < 0.7:
        made.append(("collect", dice.choice([1, 2, 5, 12])))
    if dice.random() < 0.03:
        made.append(("close",))
    return made


def some_rule(dice):
    rule = {"CLIENT_ACCEPTED": [some_actions(dice, True)]}
    for event, often in (("CLIENT_DATA", 0.9), ("SERVER_CONNECTED", 0.7), ("SERVER_DATA", 0.9)):
        if dice.random() >= often:
            continue
        if event == "SERVER_CONNECTED":
            rule[event] = [some_actions(dice, True)]
        else:
            rule[event] = [some_actions(dice, False) for _ in range(3)] + [[("release",)]]
    return rule


def schedule(dice):
    """A rule, the lines of a schedule, and its report."""
    rule = some_rule(dice)
    made = Collecting(rule)
    lines, report = ["accept 1 v 10.0.0.9 4000"], []
    big, first = 0, dice.choice([["run"], ["run", "bytes", "run", "turn", "run", "connected"], ["bytes"]])
    rare = dice.choice([["connected"], ["end"], ["end", "reset", "refused", "connected"]])
    for at in range(dice.randrange(8, 50)):
        side = dice.choice(["client", "server"]) if made.up else "client"
        due = ["turn"] * 6 if made.asks else ["connected"] * 6 if made.sides["server"].state == "connecting" else []
        word = dice.choice(["run"] * 6 + ["bytes"] * 4 + ["took"] * 2 + rare + due)
        word = first[at] if at < len(first) else word
        if word in ("run", "turn"):
            lines.append(word)
            report += made.run() if word == "run" else made.turn()
            continue
        n, data = 0, b""
        if word == "bytes":
            n = dice.choice([1, 1, 2, 3, 10, 40])
            if dice.random() < 0.15 and big < 5:
                n, big = dice.choice([4096, LIMIT - 1, LIMIT, LIMIT + 1]), big + 1
            data = bytes(dice.choices(b"abcdefgh", k=n))
        elif word == "took":
            waiting = made.sides[side].pending()
            n = max(1, dice.choice([waiting, waiting, waiting // 2, waiting + 1]))
        line = {"bytes": f"{side} 1 {data.hex()}", "end": f"{side}-end 1", "reset": f"{side}-reset 1",
                "took": f"{side}-took 1 {n}", "connected": "connected 1", "refused": "refused 1"}[word]
        why = made.refusal(word, side, n)
        if why is not None and dice.random() < 0.98:
            continue
        lines.append(line)
        if why is not None:
            return rule, lines, report + last(made) + [f"> fault line {len(lines)} event {why}"]
        report += made.comes(word, side, data, n)
        if word == "connected":
            made.up = True
    return rule, lines, report + last(made) + [f"> end {len(lines)}"]


def write(folder, name, rule, lines):
    Path(folder, f"{name}.toml").write_text(CONFIG % rule_text(rule))
    Path(folder, f"{name}.txt").write_text("\n".join(lines) + "\n")


def main():
    dice = random.Random(int(sys.argv[-2]) if len(sys.argv) > 3 else 1)
    count = int(sys.argv[-1]) if len(sys.argv) > 3 else 2000
    if sys.argv[1] == "--write":
        for number in range(count):
            rule, lines, report = schedule(dice)
            write(sys.argv[2], f"s{number}", rule, lines)
            Path(sys.argv[2], f"s{number}.report").write_text("\n".join(report) + "\n")
        return
    differ, seen = 0, {}
    with tempfile.TemporaryDirectory() as folder:
        for number in range(count):
            rule, lines, report = schedule(dice)
            write(folder, "s", rule, lines)
            words = [sys.argv[1], "replay", f"{folder}/s.toml", f"{folder}/s.txt"]
            out = subprocess.run(words, capture_output=True).stdout.decode()
            for line in report:
                word = line.split()[1]
                seen[word] = seen.get(word, 0) + 1
            if out != "\n".join(report) + "\n":
                differ += 1
                if differ <= 3:
                    print(f"schedule {number} differs:", rule_text(rule), sep="\n")
                    print("\n".join(line[:90] for line in lines))
                    print("-- wanted:", *[line[:90] for line in report], sep="\n")
                    print("-- given:", *[line[:90] for line in out.splitlines()], sep="\n")
    print(f"{count} schedules, {differ} differ")
    print(", ".join(f"{k} {v}" for k, v in sorted(seen.items())))
    sys.exit(differ > 0)


if __name__ == "__main__":
    main()
