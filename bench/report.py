#!/usr/bin/env python3
"""Times `report` over the journals of so many served connections.

    bench/report.py PROGRAM [COUNT ..]     PROGRAM is a built crates/ciravogu/out/ciravogu

Each connection is accepted at one of a hundred virtual servers, sends a request that goes to a server, gets an answer, asks
the table once and is closed: sixteen lines. Times are the least of three runs, beside that of `wc -l`; the report is compared
with the sums that were written.
"""
import os
import subprocess
import sys
import tempfile
import time

COUNTS = [50_000, 100_000, 200_000]
REQUEST = b"GET / HTTP/1.1\r\nHost: a\r\n\r\n".hex()
CALL = b"table incr -notouch 10.0.0.9".hex()


def lines(conn):
    """The lines of one connection."""
    return (f"accept {conn} web{conn % 100:02} 10.0.{conn >> 8 & 255}.{conn & 255} 4000\nrun\n"
            f"> history {conn} {conn} {CALL} ok {str(conn).encode().hex()}\n"
            f"> connect {conn} 10.0.1.1:80\nconnected {conn}\nclient {conn} {REQUEST}\nrun\n> pass {conn} client 27\n"
            f"server-took {conn} 27\nserver {conn} {'61' * 79}\nrun\n> pass {conn} server 79\nclient-took {conn} 79\n"
            f"client-end {conn}\n> finish {conn} closed\n> ended {conn} 0\n")


def row(name, conns):
    """A row of the report."""
    return f"{name:<24}{conns:>8}{79 * conns:>14}{conns:>8}{0:>8}\n"


def due(count):
    """The report that is due."""
    head = f"{'virtual':<24}{'conns':>8}{'bytes':>14}{'calls':>8}{'early':>8}\n"
    sums = {}
    for conn in range(1, count + 1):
        sums[conn % 100] = sums.get(conn % 100, 0) + 1
    return head + "".join(row(f"web{at:02}", sums[at]) for at in sorted(sums)) + row("total", count)


def seconds(command):
    """The least time of three runs, and what the last of them wrote."""
    times = []
    for _ in range(3):
        start = time.perf_counter()
        ran = subprocess.run(command, stdout=subprocess.PIPE, check=True, text=True)
        times.append(time.perf_counter() - start)
    return min(times), ran.stdout


def main():
    """Prints a line for each count."""
    program = sys.argv[1]
    print("connections      MB   report s    wc -l s")
    for count in [int(it) for it in sys.argv[2:]] or COUNTS:
        with tempfile.TemporaryDirectory() as folder:
            record = os.path.join(folder, "record.txt")
            with open(record, "w", encoding="ascii") as file:
                for conn in range(1, count + 1):
                    file.write(lines(conn))
            took, text = seconds([program, "report", record])
            if text != due(count):
                sys.exit("bench/report.py: the report has other sums")
            print(f"{count:11} {os.path.getsize(record) / 1e6:7.0f} {took:10.2f} {seconds(['wc', '-l', record])[0]:10.3f}")


main()
