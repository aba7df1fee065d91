#!/usr/bin/env python3
"""Replays schedules whose last event is refused or just not, beside a model of their own.

    bench/refusals.py PROGRAM [SHOW]

PROGRAM is the built program. A configuration has room for two connections. In each of the standings below each kind
of event comes, with the values about its limits, and in all standings each two reasons that can hold of one event at
once do. The model goes by the table of the reasons alone, in its order; the number of the reason, and the line of the
schedule at which the report says it, must be those of the program. With SHOW each schedule's last event is printed.
"""
import os
import subprocess
import sys
import tempfile

CONFIG = """version = 1
connections = 2

[[virtual]]
name = "v"
listen = "127.0.0.1:9000"
rules = ["r"]

[[rule]]
name = "r"
text = 'when CLIENT_ACCEPTED { TCP::respond "hi 7" }'
"""
QUEUED = 4  # bytes that the rule sends
UNREAD = 65536
NO_CONN, AFTER_END, TOO_MUCH, NOT_CONNECTING, MOMENT_BACK, TOOK_TOO_MUCH, FULL, NO_MEMBER, TWICE, NO_VIRTUAL = range(1, 11)

# what leads to a standing: the moment is 7
STANDINGS = {
    "none was accepted": [],
    "one was accepted and hasn't run": ["accept 3 v 10.0.0.9 4000"],
    "its client has sent, and ended before it ran": ["accept 3 v 10.0.0.9 4000", "client 3 " + "61" * 9, "client-end 3"],
    "one that may hold nothing more": ["accept 3 v 10.0.0.9 4000", "client 3 " + "61" * UNREAD],
    "one has finished, and its client is to take": ["accept 3 v 10.0.0.9 4000", "run"],
    "its client has taken a part and ended": ["accept 3 v 10.0.0.9 4000", "run", "client-took 3 1", "client-end 3"],
    "one has ended": ["accept 3 v 10.0.0.9 4000", "run", "client-took 3 4"],
    "two are live": ["accept 3 v 10.0.0.9 4000", "accept 5 v 10.0.0.9 4001"],
    "one of two has ended": ["accept 3 v 10.0.0.9 4000", "accept 5 v 10.0.0.9 4001", "run", "run", "client-took 5 4"],
}
EVENTS = [
    "accept 0 v 10.0.0.9 4002", "accept 3 v 10.0.0.9 4002", "accept 6 v 10.0.0.9 4002", "accept 3 w 10.0.0.9 4002",
    "accept 6 w 10.0.0.9 4002", "client 3 61", "client 3 " + "61" * (UNREAD - 9), "client 3 " + "61" * UNREAD,
    "client 3 " + "61" * (UNREAD + 1), "client 4 61", "client-end 3", "client-end 9", "connected 3", "connected 4",
    "refused 3", "refused 0", "server 3 61", "server 3 " + "61" * (UNREAD + 1), "server 9 61", "server-end 3", "server-end 4",
    "server-reset 3", "server-reset 7", "client-took 3 0", "client-took 3 3", "client-took 3 4", "client-took 3 5",
    "client-took 8 1", "server-took 3 0", "server-took 3 1", "server-took 8 0", "tick 6", "tick 7", "tick 8", "turn", "run",
    "mark p 10.0.0.1:80 up", "mark p 10.0.0.1:80 down",
]


class Conn:
    def __init__(self):
        self.ran, self.ended, self.unread, self.queued = False, False, 0, 0


class Model:
    """What the table's reasons speak of."""

    def __init__(self):
        self.last, self.moment, self.live, self.ready = 0, 0, {}, []

    def reasons(self, words):
        """All reasons that hold, in the order of the table."""
        kind, found = words[0], []
        if kind == "accept":
            found += [TWICE] if int(words[1]) <= self.last else []
            found += [NO_VIRTUAL] if words[2] != "v" else []
            return found + ([FULL] if len(self.live) >= 2 else [])
        if kind == "tick":
            return [MOMENT_BACK] if int(words[1]) < self.moment else []
        if kind in ("turn", "run"):
            return []
        if kind == "mark":
            return [NO_MEMBER]
        conn = self.live.get(int(words[1]))
        if conn is None:
            return [NO_CONN]
        if kind in ("connected", "refused"):
            return [NOT_CONNECTING]
        size = len(words[-1]) // 2
        if kind in ("server-end", "server-reset"):
            return [AFTER_END]
        if kind == "server":
            return [AFTER_END] + ([TOO_MUCH] if size > UNREAD else [])
        if kind == "server-took":
            return [AFTER_END] + ([TOOK_TOO_MUCH] if int(words[2]) > 0 else [])
        if kind == "client-took":
            return [TOOK_TOO_MUCH] if int(words[2]) > conn.queued else []
        found += [AFTER_END] if conn.ended else []
        if kind == "client":
            found += [TOO_MUCH] if size > (UNREAD if conn.ran else UNREAD - conn.unread) else []
        return found

    def take(self, words):
        kind = words[0]
        if kind == "accept":
            self.last = int(words[1])
            self.live[self.last] = Conn()
            self.ready.append(self.last)
        elif kind == "tick":
            self.moment = int(words[1])
        elif kind == "run" and self.ready:
            conn = self.live[self.ready.pop(0)]
            if not conn.ran:
                conn.ran, conn.queued = True, QUEUED
        elif kind == "client":
            conn = self.live[int(words[1])]
            conn.unread += 0 if conn.ran else len(words[2]) // 2
        elif kind == "client-end":
            self.live[int(words[1])].ended = True
        elif kind == "client-took":
            conn = self.live[int(words[1])]
            conn.queued -= int(words[2])
            if conn.ran and conn.queued == 0:
                del self.live[int(words[1])]
                self.ready = [c for c in self.ready if c != int(words[1])]


def replay(program, folder, lines):
    """The last line of the report."""
    config, text = os.path.join(folder, "config.toml"), os.path.join(folder, "schedule.txt")
    with open(config, "w") as file:
        file.write(CONFIG)
    with open(text, "w") as file:
        file.write("".join(line + "\n" for line in lines))
    out = subprocess.run([program, "replay", config, text], stdout=subprocess.PIPE, check=False).stdout
    return out.decode().rstrip("\n").split("\n")[-1]


def main():
    program, show = os.path.abspath(sys.argv[1]), len(sys.argv) > 2
    counts, together, wrong = {}, set(), 0
    with tempfile.TemporaryDirectory() as folder:
        for standing, before in STANDINGS.items():
            for event in EVENTS:
                lines, model = ["tick 7"] + before + [event], Model()
                for line in lines[:-1]:
                    assert not model.reasons(line.split()), (standing, line)
                    model.take(line.split())
                reasons = model.reasons(event.split())
                want = f"> fault line {len(lines)} event {reasons[0]}" if reasons else f"> end {len(lines)}"
                got = replay(program, folder, lines)
                if show:
                    print(f"{standing}: {event[:40]}: {got}")
                if got != want:
                    wrong += 1
                    print(f"{standing}: {event[:40]}: {got}, and not {want}")
                counts[reasons[0] if reasons else 0] = counts.get(reasons[0] if reasons else 0, 0) + 1
                together |= {(a, b) for i, a in enumerate(reasons) for b in reasons[i + 1:]}
    print(f"{sum(counts.values())} schedules, {wrong} other; taken {counts.pop(0)}, by reason {dict(sorted(counts.items()))}")
    print(f"reasons that held together: {sorted(together)}")
    return 1 if wrong else 0


if __name__ == "__main__":
    sys.exit(main())
