#!/usr/bin/env python3
"""Loads the built program's `serve` on 127.0.0.1 with rules that sleep (`after`), and checks every answer.

    bench/sleepers.py PROGRAM [--others 1000] [--sleepers 40] [--many 4000] [--seconds 10]

First one sleeper after another, SLEEPERS of them, sleeps 1,000 ms and is answered, while OTHERS clients connect again and
again and get 200 bytes each: prints how long behind its 1,000 ms each answer came, from the moment at which its connect was done.
Then MANY sleep at once for SECONDS and some: prints what processor time the program takes for SECONDS of it, with nothing else
going on, and beside 64 clients that are served; and that each of them is answered in the end, none too early. The status is 1
where an answer is wrong, comes early, or more than 30 ms late beside OTHERS, or where the program takes processor time for sleep.
"""
import argparse
import multiprocessing
import resource
import selectors
import socket
import subprocess
import sys
import tempfile
import time

import serve

LATE = 30.0
# What a clock of milliseconds may cut off at both ends of a sleep.
CLOCK = 2.0
CONFIG = """version = 1
connections = 4096
[[virtual]]
name = "s"
listen = "127.0.0.1:%d"
rules = ["short"]
[[virtual]]
name = "l"
listen = "127.0.0.1:%d"
rules = ["long"]
[[virtual]]
name = "v"
listen = "127.0.0.1:%d"
rules = ["r"]
[[rule]]
name = "short"
text = 'when CLIENT_ACCEPTED { after 1000; TCP::respond awake }'
[[rule]]
name = "long"
text = 'when CLIENT_ACCEPTED { after %d; TCP::respond awake }'
[[rule]]
name = "r"
text = 'when CLIENT_ACCEPTED { TCP::respond "%s\\n" }'
"""


def answer(it):
    """What a connection gives to its end, and when its first bytes came."""
    got, came = b"", None
    while True:
        more = it.recv(4096)
        came = came or time.monotonic()
        if not more:
            return got, came
        got += more


def loads(port, clients, seconds, told):
    told.put(serve.load(port, clients, seconds))


def beside(port, clients, seconds):
    """Clients of a process of their own, and where their counts of right and wrong answers come."""
    told = multiprocessing.Queue()
    process = multiprocessing.Process(target=loads, args=(port, clients, seconds, told))
    process.start()
    return process, told


def one_by_one(port, sleepers, process):
    """How late each answer came, in milliseconds, while the process lives; None for one that was wrong."""
    late = []
    for _ in range(sleepers):
        with socket.create_connection(("127.0.0.1", port), 5) as it:
            began = time.monotonic()
            got, came = answer(it)
        late.append((came - began) * 1000 - 1000 if got == b"awake" else None)
        if not process.is_alive():
            break
    return late


def all_at_once(port, many):
    """Sleepers that are connected, each with its moment."""
    found = []
    for _ in range(many):
        it = socket.create_connection(("127.0.0.1", port), 5)
        found.append((it, time.monotonic()))
    return found


def rests(pid):
    """The processor time of the program once it took none for a second."""
    last = -1.0
    while serve.processor(pid) != last:
        last = serve.processor(pid)
        time.sleep(1)
    return last


def wakes(found, sleep):
    """How many were answered rightly and not too early, and how late the last one was, in milliseconds."""
    poll, right, late, open_ones = selectors.DefaultSelector(), 0, 0.0, len(found)
    for it, began in found:
        it.setblocking(False)
        poll.register(it, selectors.EVENT_READ, [began, b"", None])
    end = time.monotonic() + sleep / 1000 + 10
    while open_ones and time.monotonic() < end:
        for key, _ in poll.select(0.5):
            now, has = time.monotonic(), key.data
            try:
                more = key.fileobj.recv(4096)
            except OSError:
                more = b""
            if more:
                has[1], has[2] = has[1] + more, has[2] or now
                continue
            poll.unregister(key.fileobj)
            key.fileobj.close()
            open_ones -= 1
            if has[1] == b"awake" and (has[2] - has[0]) * 1000 > sleep - CLOCK:
                right, late = right + 1, max(late, (has[2] - has[0]) * 1000 - sleep)
    return right, late


def first_demand(ports, words):
    process, told = beside(ports[2], words.others, words.sleepers * 1.05 + 2)
    time.sleep(1)
    late = one_by_one(ports[0], words.sleepers, process)
    right, wrong = told.get()
    process.join()
    good = [it for it in late if it is not None]
    print(f"{len(good)} of {len(late)} sleepers of 1,000 ms beside {words.others} clients ({right} answers, {wrong} wrong): "
          f"late by {min(good):.1f} ms at least, {sorted(good)[len(good) // 2]:.1f} in the middle, {max(good):.1f} at most")
    return len(good) == len(late) and not wrong and right > 0 and min(good) > -CLOCK and max(good) <= LATE


def second_demand(pid, ports, words, sleep):
    before = serve.processor(pid)
    found = all_at_once(ports[1], words.many)
    begun = rests(pid) - before
    before = serve.processor(pid)
    time.sleep(words.seconds)
    spent = serve.processor(pid) - before
    print(f"{len(found)} fall asleep in {begun:.0f} processor ms: {spent:.0f} processor ms in {words.seconds:.0f} s of their sleep, "
          f"{serve.resident(pid)} KB resident")
    before = serve.processor(pid)
    process, told = beside(ports[2], 64, words.seconds)
    right, wrong = told.get()
    process.join()
    cost = (serve.processor(pid) - before) * 1000 / max(right, 1)
    print(f"beside them {right / words.seconds:.0f} answers a second to 64 clients, {wrong} wrong, {cost:.1f} processor ms for 1,000")
    before = serve.processor(pid)
    good, late = wakes(found, sleep)
    print(f"{good} of {len(found)} answered behind their time, late by {late:.0f} ms at most; {serve.processor(pid) - before:.0f} processor ms")
    return good == len(found) and not wrong and spent <= 10


def main():
    words = argparse.ArgumentParser()
    words.add_argument("program")
    words.add_argument("--others", type=int, default=1000)
    words.add_argument("--sleepers", type=int, default=40)
    words.add_argument("--many", type=int, default=4000)
    words.add_argument("--seconds", type=float, default=10)
    words = words.parse_args()
    hard = resource.getrlimit(resource.RLIMIT_NOFILE)[1]
    resource.setrlimit(resource.RLIMIT_NOFILE, (hard, hard))
    ports = [serve.free_port() for _ in range(3)]
    sleep = round(words.seconds * 2000 + 20000)
    with tempfile.TemporaryDirectory() as folder:
        config = f"{folder}/serve.toml"
        open(config, "w").write(CONFIG % (*ports, sleep, "x" * 199))
        program = subprocess.Popen([words.program, "serve", config])
        try:
            for _ in range(100):
                try:
                    socket.create_connection(("127.0.0.1", ports[2]), 1).close()
                    break
                except OSError:
                    time.sleep(0.05)
            first = first_demand(ports, words)
            second = second_demand(program.pid, ports, words, sleep)
        finally:
            program.terminate()
            program.wait()
    return 0 if first and second else 1


if __name__ == "__main__":
    sys.exit(main())
