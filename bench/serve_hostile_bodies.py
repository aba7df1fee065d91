#!/usr/bin/env python3
"""Serves clients that make `serve` keep all that they can by bodies of HTTP, on 127.0.0.1, and tells what each costs it.

    bench/serve_hostile_bodies.py PROGRAM [--clients 50]

PROGRAM is crates/ciravogu/out/ciravogu. Five runs, each with a program of its own; of each client

  held       a body of 1,048,576 bytes is gathered, of which all came but the last
  chunks     the same in chunks of one byte, each behind a line of 4,000 bytes
  passed     a gathered body goes to a server that reads nothing, and 4 MB more come behind it
  returned   a response of 4 MB is gathered, copied into a variable and passed on to the client, which reads nothing
  answered   HTTP_REQUEST_DATA answers with 1,000,000 bytes, which it doesn't read, and 4 MB of further requests come

All run in a network of their own (so as root), in which the system keeps 32,768 bytes at most of what isn't read. Beside them 16 requests of
another virtual server are answered. Prints for each run the most resident memory for each client, which has to be below 8 MiB, and ends with 1
where it isn't, an answer beside is wrong or the program has ended.
"""
import argparse
import os
import resource
import socket
import subprocess
import sys
import tempfile
import threading
import time

from serve import free_port
from serve_hostile import own_network

CONFIG = """version = 1
connections = 4096
[[virtual]]
name = "beside"
listen = "127.0.0.1:%d"
http = true
rules = ["ok"]
[[virtual]]
name = "v"
listen = "127.0.0.1:%d"
http = true
pool = "p"
rules = ["r"]
[[pool]]
name = "p"
members = [{ addr = "127.0.0.1:%d" }]
[[rule]]
name = "ok"
text = 'when HTTP_REQUEST { HTTP::respond 200 content ok }'
[[rule]]
name = "r"
text = '''%s'''
"""
MOST, LIMIT = 1_048_576, 8 * 1024 * 1024
COLLECTS = "when HTTP_REQUEST { HTTP::collect }"
# One variable and its name are to stay within 1,048,576 bytes.
RETURNS = """when HTTP_RESPONSE { HTTP::collect 1000000 }
when HTTP_RESPONSE_DATA { set kept [HTTP::payload]; HTTP::payload replace 0 [HTTP::payload length] $kept }"""
ANSWERS = COLLECTS + """
when HTTP_REQUEST_DATA { HTTP::respond 200 -version 1.1 content [string repeat x 1000000] }"""
LONG_HEAD = b"POST / HTTP/1.1\r\nHost: a\r\nX: " + b"y" * 65_000 + b"\r\n"
ONE_CHUNK = b"1;" + b"x" * 3_990 + b"\r\na\r\n"


def told(length):
    return LONG_HEAD + b"Content-Length: %d\r\n\r\n" % length


RUNS = [
    ("held", COLLECTS, told(MOST) + b"x" * (MOST - 1)),
    ("chunks", COLLECTS, LONG_HEAD + b"Transfer-Encoding: chunked\r\n\r\n" + ONE_CHUNK * 1_000),
    ("passed", COLLECTS, told(5 * MOST) + b"x" * 5 * MOST),
    ("returned", RETURNS, b"GET / HTTP/1.1\r\nHost: a\r\n\r\n"),
    ("answered", ANSWERS, (told(MOST) + b"x" * MOST) * 4),
]


def most_resident(pid):
    """The most memory that the program had, in bytes."""
    return next(int(line.split()[1]) * 1024 for line in open(f"/proc/{pid}/status") if line.startswith("VmHWM"))


def small_link(link):
    link.setsockopt(socket.SOL_SOCKET, socket.SO_RCVBUF, 4096)
    return link


def send_all(link, sends):
    """Sends as much as is taken, until nothing is for two seconds."""
    link.settimeout(2)
    try:
        link.sendall(sends)
    except OSError:
        pass


def server(links, name):
    """Takes connections, and reads nothing of them but a byte; in `returned` each is answered by 4 MB."""
    links.settimeout(60)
    kept = []
    while True:
        try:
            link, _ = links.accept()
        except OSError:
            return
        kept.append(link)
        if name == "returned":
            link.recv(1)
            answer = b"HTTP/1.1 200 OK\r\nContent-Length: %d\r\n\r\n" % (4 * MOST) + b"x" * (4 * MOST)
            threading.Thread(target=send_all, args=(link, answer), daemon=True).start()


def right_beside(port):
    """How many of 16 requests are answered as is due."""
    right = 0
    for _ in range(16):
        with socket.create_connection(("127.0.0.1", port), 30) as it:
            it.sendall(b"GET / HTTP/1.1\r\nHost: a\r\nConnection: close\r\n\r\n")
            right += it.makefile("rb").read().endswith(b"\r\n\r\nok")
    return right


def wait(port):
    for _ in range(200):
        try:
            return socket.create_connection(("127.0.0.1", port), 1).close()
        except OSError:
            time.sleep(0.05)


def settled(pid):
    """Waits until the program's memory stays as it is for five seconds."""
    before, still = 0, 0
    while still < 10:
        now = most_resident(pid)
        before, still = now, still + 1 if now == before else 0
        time.sleep(0.5)


def run(program, name, rule, sends, clients):
    with tempfile.TemporaryDirectory() as folder, socket.socket() as links:
        small_link(links).bind(("127.0.0.1", 0))
        links.listen(4096)
        beside, port = free_port(), free_port()
        config = f"{folder}/bodies.toml"
        open(config, "w").write(CONFIG % (beside, port, links.getsockname()[1], rule))
        process = subprocess.Popen([program, "serve", config])
        try:
            wait(port)
            threading.Thread(target=server, args=(links, name), daemon=True).start()
            first, held, senders = most_resident(process.pid), [], []
            for _ in range(clients):
                held.append(small_link(socket.socket()))
                held[-1].connect(("127.0.0.1", port))
                senders.append(threading.Thread(target=send_all, args=(held[-1], sends)))
                senders[-1].start()
            for it in senders:
                it.join()
            settled(process.pid)
            each = (most_resident(process.pid) - first) // clients
            right = right_beside(beside)
            good = right == 16 and each < LIMIT and process.poll() is None
            print(f"{'' if good else 'NOT '}as due: {name}: {each:,} bytes a client at most, {right} right answers beside", flush=True)
            for it in held:
                it.close()
            return good
        finally:
            process.terminate()
            process.wait()


def main():
    words = argparse.ArgumentParser()
    words.add_argument("program")
    words.add_argument("--clients", type=int, default=50)
    words = words.parse_args()
    own_network()
    most = resource.getrlimit(resource.RLIMIT_NOFILE)[1]
    resource.setrlimit(resource.RLIMIT_NOFILE, (min(most, 8300), most))
    good = [run(os.path.abspath(words.program), *it, words.clients) for it in RUNS]
    return 0 if all(good) else 1


if __name__ == "__main__":
    sys.exit(main())
