#!/usr/bin/env python3
"""Passes bytes through the built program's `serve`, nginx and haproxy, to a server of this script, on 127.0.0.1.

    bench/relay.py PROGRAM [--megabytes 1000] [--connections 1000] [--rounds 3]

PROGRAM is crates/ciravogu/out/ciravogu; nginx (its module for streams) and haproxy are installed from Debian's packages
where they aren't there. Each has one process and one thread. In each round and for each of them: half of the megabytes
goes each way over one connection, and both ends compare the sums of what came; each end sees the end of the other
while it still sends; so many short connections are made, each of which reads 200 bytes to the end. Prints the middle
round: processor seconds for the megabytes, and for the connections. Of the program besides: how much is read of a
server whose client reads nothing, and of a client whose server reads nothing.
"""
import argparse
import hashlib
import os
import socket
import statistics
import subprocess
import sys
import tempfile
import threading
import time

from serve import free_port, processor
from serve_beside import installed

BLOCK = bytes(range(256)) * 256
CONFIG = """version = 1
connections = 4096
[[virtual]]
name = "v"
listen = "127.0.0.1:%d"
pool = "p"
[[pool]]
name = "p"
members = [{ addr = "127.0.0.1:%d" }]
"""
NGINX = """daemon off;
master_process off;
worker_processes 1;
pid %s/nginx.pid;
error_log stderr crit;
load_module /usr/lib/nginx/modules/ngx_stream_module.so;
events { worker_connections 4096; }
stream { server { listen 127.0.0.1:%d; proxy_pass 127.0.0.1:%d; proxy_half_close on; } }
"""
HAPROXY = """global
    nbthread 1
    maxconn 4096
defaults
    mode tcp
    timeout client 60s
    timeout server 60s
    timeout connect 5s
frontend f
    bind 127.0.0.1:%d
    default_backend b
backend b
    server s 127.0.0.1:%d
"""


def send(link, blocks):
    for _ in range(blocks):
        link.sendall(BLOCK)
    link.shutdown(socket.SHUT_WR)


def receive(link):
    """How many bytes came until the end, and their sum."""
    total, sum = 0, hashlib.sha1()
    while True:
        got = link.recv(1 << 20)
        if not got:
            return total, sum.hexdigest()
        total += len(got)
        sum.update(got)


class Origin:
    """A server that does with each connection what its first byte says: `m` both sends and receives so many blocks,
    `s` sends 200 bytes, `w` writes and never reads, `r` never reads."""

    def __init__(self):
        self.listener = socket.create_server(("127.0.0.1", 0), backlog=4096)
        self.port = self.listener.getsockname()[1]
        self.blocks, self.received, self.written = 0, [], 0
        threading.Thread(target=self.accept, daemon=True).start()

    def accept(self):
        while True:
            link, _ = self.listener.accept()
            threading.Thread(target=self.serve, args=(link,), daemon=True).start()

    def serve(self, link):
        kind = link.recv(1)
        if kind == b"m":
            sender = threading.Thread(target=send, args=(link, self.blocks))
            sender.start()
            self.received.append(receive(link))
            sender.join()
        elif kind == b"s":
            link.sendall(b"x" * 199 + b"\n")
        elif kind == b"w":
            self.write(link)
        elif kind == b"r":
            time.sleep(4)
        link.close()

    def write(self, link):
        link.settimeout(1)
        self.written = 0
        try:
            while True:
                self.written += link.send(BLOCK)
        except OSError:
            pass


def pass_through(origin, port, megabytes):
    """Half of the megabytes each way, compared at both ends."""
    origin.blocks, origin.received = megabytes * 1_000_000 // 2 // len(BLOCK), []
    wanted = hashlib.sha1()
    for _ in range(origin.blocks):
        wanted.update(BLOCK)
    link = socket.create_connection(("127.0.0.1", port))
    link.sendall(b"m")
    sender = threading.Thread(target=send, args=(link, origin.blocks))
    sender.start()
    came = receive(link)
    sender.join()
    while not origin.received:
        time.sleep(0.01)
    due = (origin.blocks * len(BLOCK), wanted.hexdigest())
    return came == due and origin.received == [due]


def half_closes(origin, port):
    """The client ends first, and the server still sends; and the other way round."""
    origin.blocks = 20
    link = socket.create_connection(("127.0.0.1", port))
    link.sendall(b"m")
    link.shutdown(socket.SHUT_WR)
    first = receive(link)[0] == 20 * len(BLOCK)
    origin.blocks, origin.received = 0, []
    link = socket.create_connection(("127.0.0.1", port))
    link.sendall(b"m")
    second = link.recv(1) == b""
    try:
        send(link, 1)
    except OSError:
        return False
    time.sleep(0.2)
    return first and second and origin.received == [(len(BLOCK), hashlib.sha1(BLOCK).hexdigest())]


def short(port, connections):
    right = 0
    for _ in range(connections):
        link = socket.create_connection(("127.0.0.1", port))
        link.sendall(b"s")
        right += receive(link)[0] == 200
        link.close()
    return right == connections


def unread(origin, port):
    """How many bytes are taken of a server whose client reads nothing, and of a client whose server reads nothing."""
    link = socket.create_connection(("127.0.0.1", port))
    link.sendall(b"w")
    time.sleep(3)
    server, sent = origin.written, 0
    link.close()
    link = socket.create_connection(("127.0.0.1", port))
    link.sendall(b"r")
    link.settimeout(1)
    try:
        while True:
            sent += link.send(BLOCK)
    except OSError:
        pass
    link.close()
    return server, sent


def ready(port):
    for _ in range(100):
        try:
            socket.create_connection(("127.0.0.1", port), 1).close()
            return
        except OSError:
            time.sleep(0.05)


def round_of(origin, command, port, megabytes, connections):
    server = subprocess.Popen(command, stderr=subprocess.DEVNULL)
    try:
        ready(port)
        halves = half_closes(origin, port)
        before = processor(server.pid)
        same = pass_through(origin, port, megabytes)
        between = processor(server.pid)
        answered = short(port, connections)
        after = processor(server.pid)
        return (between - before) / 1000, (after - between) / 1000, halves and same and answered
    finally:
        server.terminate()
        server.wait()


def commands(program, folder, origin):
    ports = [free_port() for _ in range(3)]
    files = {
        "relay.toml": CONFIG % (ports[0], origin),
        "nginx.conf": NGINX % (folder, ports[1], origin),
        "haproxy.cfg": HAPROXY % (ports[2], origin),
    }
    for name, written in files.items():
        with open(f"{folder}/{name}", "w") as file:
            file.write(written)
    return [
        ("ciravogu", [program, "serve", f"{folder}/relay.toml"], ports[0]),
        ("nginx", ["nginx", "-c", f"{folder}/nginx.conf"], ports[1]),
        ("haproxy", ["haproxy", "-db", "-f", f"{folder}/haproxy.cfg"], ports[2]),
    ]


def main():
    words = argparse.ArgumentParser()
    words.add_argument("program")
    words.add_argument("--megabytes", type=int, default=1000)
    words.add_argument("--connections", type=int, default=1000)
    words.add_argument("--rounds", type=int, default=3)
    words = words.parse_args()
    installed()
    origin = Origin()
    with tempfile.TemporaryDirectory() as folder:
        servers = commands(os.path.abspath(words.program), folder, origin.port)
        rounds = {name: [] for name, _, _ in servers}
        for _ in range(words.rounds):
            for name, command, port in servers:
                rounds[name].append(round_of(origin, command, port, words.megabytes, words.connections))
        for name, taken in rounds.items():
            print(f"{name:10} {statistics.median(it[0] for it in taken):6.2f} s for {words.megabytes} MB, "
                  f"{statistics.median(it[1] for it in taken):6.2f} s for {words.connections} connections, "
                  f"{'right' if all(it[2] for it in taken) else 'WRONG'}", flush=True)
        name, command, port = servers[0]
        server = subprocess.Popen(command, stderr=subprocess.DEVNULL)
        ready(port)
        print("unread: %d bytes of a server were taken, and %d of a client" % unread(origin, port))
        server.terminate()
        server.wait()
    return 0 if all(it[2] for it in rounds["ciravogu"]) else 1


if __name__ == "__main__":
    sys.exit(main())
