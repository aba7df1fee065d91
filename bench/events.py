#!/usr/bin/env python3
"""Schedules whose events are taken or refused, beside a model of 120 lines written from the table of refusals.

    bench/events.py PROGRAM              PROGRAM is a built crates/ciravogu/out/ciravogu

One schedule for each reason to refuse an event, for each order in which two of them can meet, and for what a client's
bytes, end, reset and took-counts change where no server is chosen. Prints the schedules whose reports differ.
"""
import subprocess
import sys
import tempfile

GREETING = b"hi 7"
UNREAD_LIMIT = 65536

CONFIG = """version = 1
connections = 2

[[virtual]]
name = "v"
listen = "127.0.0.1:9000"
rules = ["r"]

[[virtual]]
name = "w"
listen = "127.0.0.1:9001"

[[rule]]
name = "r"
text = "when CLIENT_ACCEPTED { TCP::respond \\"hi 7\\" }"
"""


class Conn:
    def __init__(self, virtual):
        self.virtual, self.pending, self.taken, self.unread, self.dropped = virtual, b"", b"", 0, 0
        self.live, self.ended, self.reset, self.finished, self.ran = True, False, False, False, False


class Model:
    """What a replay writes of events, one at a time."""

    def __init__(self):
        self.conns, self.last, self.ring, self.moment, self.out, self.events = {}, 0, [], 0, [], 0

    def settle(self, number):
        conn = self.conns[number]
        if conn.finished and not conn.pending:
            self.out += [f"> close-client {number}", f"> ended {number} {conn.dropped}"]
            conn.live = False
            self.ring = [it for it in self.ring if it != number]
        elif number not in self.ring:
            self.ring.append(number)

    def accept(self, number, virtual):
        if number <= self.last:
            return 9
        if virtual not in ("v", "w"):
            return 10
        if sum(it.live for it in self.conns.values()) >= 2:
            return 7
        self.conns[number], self.last = Conn(virtual), number
        self.ring.append(number)
        return None

    def run(self):
        if not self.ring:
            return
        number = self.ring.pop(0)
        conn = self.conns[number]
        if not conn.ran:
            conn.ran = conn.finished = True
            if conn.virtual == "v" and conn.reset:
                conn.dropped += len(GREETING)
            elif conn.virtual == "v":
                conn.pending += GREETING
            self.out.append(f"> finish {number} unselected")
        if not conn.pending:
            self.settle(number)

    def comes(self, kind, number, more):
        conn = self.conns.get(number)
        if conn is None or not conn.live:
            return 1
        if kind in ("connected", "refused"):
            return 4
        if kind.startswith("server") or conn.reset or (kind in ("client", "client-end") and conn.ended):
            return 2
        if kind == "client":
            size = len(more) // 2
            if size > UNREAD_LIMIT - (0 if conn.finished else conn.unread):
                return 3
            conn.unread += 0 if conn.finished else size
        elif kind == "client-end":
            conn.ended = True
        elif kind == "client-reset":
            conn.reset, conn.dropped, conn.pending = True, conn.dropped + len(conn.pending), b""
        elif int(more) > len(conn.pending):
            return 6
        else:
            conn.taken, conn.pending = conn.taken + conn.pending[: int(more)], conn.pending[int(more):]
        if kind in ("client-reset", "client-took"):
            self.settle(number)
        elif number not in self.ring:
            self.ring.append(number)
        return None

    def event(self, kind, *words):
        if kind == "accept":
            return self.accept(int(words[0]), words[1])
        if kind == "mark":
            return 8
        if kind == "tick":
            back = int(words[0]) < self.moment
            self.moment = self.moment if back else int(words[0])
            return 5 if back else None
        if kind == "run":
            self.run()
        if kind in ("run", "turn"):
            return None
        return self.comes(kind, int(words[0]), words[1] if len(words) > 1 else "")

    def report(self, lines):
        last = None
        for at, line in enumerate(lines, 1):
            why = self.event(*line.split())
            if why is not None:
                last = f"> fault line {at} event {why}"
                break
            self.events += 1
        for number, conn in sorted(self.conns.items()):
            self.out.append(f"> client {number} {conn.taken.hex() or '-'}")
            if conn.live:
                self.out.append(f"> open {number} {len(conn.pending)} 0")
        return "".join(line + "\n" for line in [*self.out, last or f"> end {self.events}"])


SCHEDULES = """
# no connection: client
client 7 00
# no connection: client-end
client-end 7
# no connection: client-reset
client-reset 7
# no connection: client-took
client-took 7 0
# no connection: connected
connected 7
# no connection: refused
refused 7
# no connection: server
server 7 00
# no connection: server-end
server-end 7
# no connection: server-reset
server-reset 7
# no connection: server-took
server-took 7 1
# no connection: it has ended
accept 1 w; run; client 1 00
# no connection: took after its end
accept 1 v; run; client-took 1 4; client-took 1 0
# number 0
accept 0 v
# the same number again
accept 1 v; accept 1 v
# a lower number
accept 5 v; accept 3 v
# a number that has ended is not free
accept 1 w; run; accept 1 w
# no virtual server
accept 1 x
# full
accept 1 v; accept 2 v; accept 3 v
# full is of live ones
accept 1 w; run; accept 2 w; accept 3 v
# twice before no virtual server
accept 1 v; accept 1 x
# twice before full
accept 1 v; accept 2 v; accept 2 v
# twice before both
accept 1 v; accept 2 v; accept 2 x
# no virtual server before full
accept 1 v; accept 2 v; accept 3 x
# a refused accept takes no number
accept 1 v; accept 2 v; accept 9 v
# bytes after the end
accept 1 v; client-end 1; client 1 00
# bytes after the reset
accept 1 v; client-reset 1; client 1 00
# an end after the end
accept 1 v; client-end 1; client-end 1
# an end after the reset
accept 1 v; client-reset 1; client-end 1
# a reset after the end is taken
accept 1 v; client-end 1; client-reset 1
# a reset after the reset
accept 1 v; client-reset 1; client-reset 1
# a took-count after the end is taken
accept 1 v; run; client-end 1; client-took 1 1
# a took-count after the reset
accept 1 v; client-reset 1; client-took 1 0
# server bytes, no server
accept 1 v; server 1 00
# server end, no server
accept 1 v; server-end 1
# server reset, no server
accept 1 v; server-reset 1
# server took-count, no server
accept 1 v; server-took 1 0
# server bytes behind a finish
accept 1 v; run; server 1 00
# connected, nothing asked
accept 1 v; connected 1
# refused, nothing asked
accept 1 v; refused 1
# connected behind a finish
accept 1 v; run; connected 1
# refused after the reset
accept 1 v; client-reset 1; refused 1
# more than may lie unread
accept 1 v; zeros 1 65537
# as much as may lie unread
accept 1 v; zeros 1 65536
# one byte beyond
accept 1 v; zeros 1 65536; client 1 00
# in two pieces
accept 1 v; zeros 1 65000; zeros 1 537
# in two pieces that fit
accept 1 v; zeros 1 65000; zeros 1 536; client-end 1
# behind a finish all may come
accept 1 v; zeros 1 65536; run; zeros 1 65536; zeros 1 65536
# behind a finish, too much at once
accept 1 v; run; zeros 1 65537
# after the end before too much
accept 1 v; client-end 1; zeros 1 65537
# after the reset before too much
accept 1 v; client-reset 1; zeros 1 65537
# server: after the end before too much
accept 1 v; server-zeros 1 65537
# no connection before too much
zeros 7 65537
# took, nothing pending
accept 1 v; client-took 1 1
# took too much
accept 1 v; run; client-took 1 5
# took too much of the rest
accept 1 v; run; client-took 1 3; client-took 1 2
# after the reset before took too much
accept 1 v; run; client-end 1; client-reset 1; client-took 1 5
# after the reset before took too much, while it is live
accept 1 v; client-reset 1; client-took 1 5
# server: after the end before took too much
accept 1 v; server-took 1 5
# no connection before took too much
client-took 7 5
# a moment back
tick 5; tick 4
# the same moment
tick 5; tick 5
# back to 0
tick 1; tick 0
# the greatest moment
tick 9007199254740992; tick 9007199254740991
# moments beside a connection
accept 1 v; tick 3; run; tick 2
# no such pool
mark p 10.0.0.7:80 up
# no such pool, beside a connection
accept 1 v; mark p 10.0.0.7:80 down
# turn and run with nothing to do
turn; run; turn
# a reset drops what was pending
accept 1 v; run; client-took 1 1; client-reset 1
# a reset before the bodies
accept 1 v; client-reset 1; run
# an end changes nothing here
accept 1 v; client-end 1; run; client-took 1 4
# bytes that no rule reads
accept 1 v; client 1 0001; run; client-took 1 4
# two connections
accept 1 v; accept 2 v; run; client-reset 1; run; client-took 2 4
# the second in the ring goes on
accept 1 v; accept 2 v; run; run; client-took 2 4; client-took 1 4
# a refused event changes nothing
accept 1 v; run; client-took 1 3; client-took 1 9
"""


def spelled(line):
    """`zeros C N` and `server-zeros C N` stand for so many bytes of 0; an accept comes from one address."""
    words = line.split()
    if words[0] == "accept":
        return f"{line} 10.0.0.9 1"
    if words[0] in ("zeros", "server-zeros"):
        return f"{'client' if words[0] == 'zeros' else 'server'} {words[1]} {'00' * int(words[2])}"
    return line


def main():
    lines = SCHEDULES.strip().split("\n")
    differ = 0
    with tempfile.TemporaryDirectory() as folder:
        with open(f"{folder}/c.toml", "w") as file:
            file.write(CONFIG)
        for name, events in zip(lines[0::2], lines[1::2]):
            schedule = [spelled(event) for event in events.split("; ")]
            with open(f"{folder}/s.txt", "w") as file:
                file.write("".join(event + "\n" for event in schedule))
            command = [sys.argv[1], "replay", "c.toml", "s.txt"]
            found = subprocess.run(command, cwd=folder, capture_output=True, text=True).stdout
            wanted = Model().report(schedule)
            if found != wanted:
                differ += 1
                print(f"{name[2:]}: wanted\n{wanted}found\n{found}")
    print(f"{len(lines) // 2} schedules, {differ} differ")
    return 1 if differ else 0


if __name__ == "__main__":
    sys.exit(main())
