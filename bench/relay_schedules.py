#!/usr/bin/env python3
"""Schedules of a relay, beside a model of it written from the text of what a TCP proxy does.

    bench/relay_schedules.py PROGRAM [SEED [COUNT]]      PROGRAM is a built crates/ciravogu/out/ciravogu

COUNT schedules (5,000) of one connection between a client and a server of a pool, with fragments of both sides at the
edges (65,535, 65,536 and 65,537 bytes unread or pending, and one byte), took-counts, ends, resets, refused connects and
events that aren't allowed. The model keeps counts of bytes alone, no code of the program; the whole report is compared.
"""
import random
import subprocess
import sys
import tempfile

LIMIT = 65536
CONFIG = """version = 1

[[virtual]]
name = "v"
listen = "127.0.0.1:9000"
pool = "p"

[[pool]]
name = "p"
members = [{ addr = "10.0.0.1:80" }]
"""
CALL = b"select v p 10.0.0.9 any".hex()
REPLY = b"10.0.0.1:80".hex()


class End:
    """A side: its link, what came of it and wasn't read, what is queued to it, what it took."""

    def __init__(self, state):
        self.state, self.unread, self.queued, self.took = state, b"", b"", b""
        self.ended = self.reset = self.half = False
        self.lost = 0

    def there(self):
        return self.state in ("open", "connecting")

    def pending(self):
        return 0 if self.reset else len(self.queued)

    def queue(self, data):
        if self.reset:
            self.lost += len(data)
        else:
            self.queued += data

    def done(self):
        return self.ended and not self.unread


class Connection:
    """One connection, from its accept on."""

    def __init__(self):
        self.sides = {"client": End("open"), "server": End("absent")}
        self.phase, self.ready, self.asks, self.live = "accepted", True, False, True
        self.answer, self.up = None, False

    def finished(self):
        return self.phase == "drain"

    def refusal(self, word, side, n):
        """The least reason to refuse an event."""
        if not self.live:
            return 1
        if word in ("connected", "refused"):
            return None if self.sides["server"].state == "connecting" else 4
        end = self.sides[side]
        if end.state != "open" or end.reset or word in ("bytes", "end") and end.ended:
            return 2
        if word == "bytes" and n > (LIMIT if self.finished() else LIMIT - len(end.unread)):
            return 3
        if word == "took" and n > end.pending():
            return 6
        return None

    def comes(self, word, side, data, n):
        """What an event that comes of a side makes, and its notes."""
        end = self.sides.get(side)
        if word == "bytes" and not self.finished():
            end.unread += data
        elif word == "end":
            end.ended = True
        elif word == "reset":
            end.reset = True
            end.lost += len(end.queued)
            end.queued = b""
        elif word == "took":
            end.took, end.queued = end.took + end.queued[:n], end.queued[n:]
        elif word in ("connected", "refused"):
            self.sides["server"].state = "open" if word == "connected" else "absent"
            if not self.finished():
                self.answer = word
        if not self.asks:
            self.ready = True
        return self.closing() if self.finished() else []

    def closing(self):
        notes = []
        for side in ("server", "client"):
            end = self.sides[side]
            if end.there() and end.pending() == 0:
                end.state = "closed"
                notes.append(f"> close-{side} 1")
        if all(end.pending() == 0 for end in self.sides.values()):
            notes.append(f"> ended 1 {sum(end.lost for end in self.sides.values())}")
            self.live = self.ready = False
        return notes

    def finish(self, cause):
        self.phase = "drain"
        return [f"> finish 1 {cause}", *self.closing()]

    def cut(self):
        for side in ("client", "server"):
            if self.sides[side].reset:
                return self.finish(f"cut {side}-reset")
        return None

    def turn(self):
        if not self.asks:
            return []
        self.asks, self.ready, self.phase = False, True, "chosen"
        return [f"> history 1 0 {CALL} ok {REPLY}"]

    def run(self):
        if not self.ready:
            return []
        self.ready = False
        notes = []
        if self.phase == "accepted":
            self.phase, self.asks = "asks", True
            return notes
        if self.phase == "chosen":
            notes.append("> connect 1 10.0.0.1:80")
            self.phase, self.sides["server"].state = "connects", "connecting"
        if self.phase == "connects":
            if self.answer is None:
                return notes + (self.cut() or [])
            if self.answer == "refused":
                return notes + self.finish("unselected")
            self.phase = "relay"
        if self.phase == "relay":
            notes += self.relay()
        return notes

    def relay(self):
        notes = []
        client, server = self.sides["client"], self.sides["server"]
        while True:
            if client.done() and server.done():
                return notes + self.finish("closed")
            for side, of, to in (("client", client, server), ("server", server, client)):
                n = min(len(of.unread), LIMIT - to.pending())
                if n > 0:
                    to.queue(of.unread[:n])
                    of.unread = of.unread[n:]
                    notes.append(f"> pass 1 {side} {n}")
                    break
            else:
                cut = self.cut()
                if cut is not None:
                    return notes + cut
                for side, of, to in (("client", server, client), ("server", client, server)):
                    if of.done() and to.pending() == 0 and not to.reset and not to.half:
                        to.half = True
                        notes.append(f"> half-close 1 {side}")
                return notes


def size(dice, room):
    """A number of bytes, mostly at an edge."""
    near = [room - 1, room, room + 1, LIMIT - 1, LIMIT, LIMIT + 1]
    return max(1, dice.choice([1, 2, 100, 4096, *near]))


def schedule(dice):
    """The lines of a schedule and its report."""
    made = Connection()
    lines, report = ["accept 1 v 10.0.0.9 4000"], []
    big = 0
    first = dice.choice([["run", "turn", "run", "connected"]] * 6 + [[]])
    rare = dice.choice([["connected"], ["end"], ["end", "reset", "refused", "connected"]])
    for at in range(dice.randrange(6, 50)):
        side = dice.choice(["client", "server"])
        end = made.sides[side]
        word = dice.choice(["run"] * 6 + ["turn"] + ["bytes"] * 3 + ["took"] * 3 + rare)
        if at < len(first):
            word = first[at]
        if word in ("run", "turn"):
            lines.append(word)
            report += made.run() if word == "run" else made.turn()
            continue
        n, data = 0, b""
        if word == "bytes":
            n = size(dice, LIMIT - len(end.unread)) if big < 6 else dice.randrange(1, 50)
            big += n > 1000
            data = dice.randbytes(n)
        elif word == "took":
            waiting = end.pending()
            n = dice.choice([waiting, waiting, waiting // 2, waiting - 1, 1, waiting + 1])
            n = max(1, n)
        line = {"bytes": f"{side} 1 {data.hex()}", "end": f"{side}-end 1", "reset": f"{side}-reset 1",
                "took": f"{side}-took 1 {n}", "connected": "connected 1", "refused": "refused 1"}[word]
        why = made.refusal(word, side, n)
        if why is not None and dice.random() < 0.98:
            continue
        lines.append(line)
        if why is not None:
            return lines, report + last(made) + [f"> fault line {len(lines)} event {why}"]
        report += made.comes(word, side, data, n)
        if word == "connected":
            made.up = True
    return lines, report + last(made) + [f"> end {len(lines)}"]


def last(made):
    client, server = made.sides["client"], made.sides["server"]
    lines = [f"> client 1 {client.took.hex() or '-'}"]
    if made.up:
        lines.append(f"> server 1 1 {server.took.hex() or '-'}")
    if made.live:
        lines.append(f"> open 1 {client.pending()} {server.pending()}")
    return lines


def main():
    program = sys.argv[1]
    dice = random.Random(int(sys.argv[2]) if len(sys.argv) > 2 else 1)
    count = int(sys.argv[3]) if len(sys.argv) > 3 else 5000
    differ, seen = 0, {}
    with tempfile.TemporaryDirectory() as folder:
        with open(f"{folder}/c.toml", "w") as file:
            file.write(CONFIG)
        for number in range(count):
            lines, report = schedule(dice)
            with open(f"{folder}/s.txt", "w") as file:
                file.write("\n".join(lines) + "\n")
            words = [program, "replay", f"{folder}/c.toml", f"{folder}/s.txt"]
            out = subprocess.run(words, capture_output=True).stdout.decode()
            for line in report:
                words = line.split()
                word = " ".join([words[1], *(w for w in words[3:] if w.isalpha() or "-reset" in w)])
                word = words[1] if words[1] in ("client", "server", "history", "connect") else word
                seen[word] = seen.get(word, 0) + 1
            if out != "\n".join(report) + "\n":
                differ += 1
                if differ <= 3:
                    print(f"schedule {number} differs:")
                    print("\n".join(line[:90] for line in lines))
                    print("-- wanted:", *[line[:90] for line in report], sep="\n")
                    print("-- given:", *[line[:90] for line in out.splitlines()], sep="\n")
    print(f"{count} schedules, {differ} differ")
    print(", ".join(f"{k} {v}" for k, v in sorted(seen.items())))
    sys.exit(differ > 0)


if __name__ == "__main__":
    main()
