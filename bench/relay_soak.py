#!/usr/bin/env python3
"""Proxies clients to servers of this script for a time with a journal, and replays the journal to the same bytes.

    bench/relay_soak.py PROGRAM [--minutes 1] [--clients 8]

PROGRAM is crates/ciravogu/out/ciravogu. A pool has two servers and an address where nobody listens; a rule selects again where
a server refuses, and tells each server its client's port. Clients send up to 300,000 bytes, and end, reset or close;
servers read to the end or a part, answer up to 300,000 bytes, and end, reset or close. Then the program is ended and its
journal is replayed: what a client or a server got must be a front of what the replay gives it, and all of it where
it read to the end. Prints one line.
"""
import argparse
import os
import random
import socket
import struct
import subprocess
import sys
import tempfile
import threading
import time

from serve import free_port

CONFIG = """version = 1
connections = 512
[[virtual]]
name = "v"
listen = "127.0.0.1:%d"
pool = "p"
rules = ["r"]
[[pool]]
name = "p"
members = [{ addr = "127.0.0.1:%d" }, { addr = "127.0.0.1:%d" }, { addr = "127.0.0.1:%d" }]
[[rule]]
name = "r"
text = '''
when LB_FAILED { LB::reselect }
when SERVER_CONNECTED { TCP::respond "[TCP::client_port]\\n" }
'''
"""


def reset(link):
    link.setsockopt(socket.SOL_SOCKET, socket.SO_LINGER, struct.pack("ii", 1, 0))
    link.close()


def read(link, most):
    """What came, at most so many bytes, and whether the end came."""
    got = bytearray()
    try:
        while len(got) < most:
            more = link.recv(min(65536, most - len(got)))
            if not more:
                return bytes(got), True
            got += more
    except OSError:
        pass
    return bytes(got), False


def talk(link, kinds, first):
    """One end: it sends and reads in a random way; gives what it read, and whether to the end."""
    link.settimeout(20)
    sent = kinds.randbytes(kinds.choice((0, 1, 700, 66000, 300000)))
    most = kinds.choice((1 << 30, 1 << 30, 1 << 30, 40000, 1))

    def send():
        try:
            link.sendall(sent)
            if kinds.random() < 0.9:
                link.shutdown(socket.SHUT_WR)
        except OSError:
            pass

    sender = threading.Thread(target=send)
    sender.start()
    got, whole = read(link, most)
    if whole:
        sender.join()
        link.close()
    elif kinds.random() < 0.5:
        reset(link)
    else:
        link.close()
    sender.join()
    return first + got, whole


class Origin:
    def __init__(self, port, got):
        self.it = socket.create_server(("127.0.0.1", port), backlog=256)
        self.got = got
        threading.Thread(target=self.run, daemon=True).start()

    def run(self):
        while True:
            link = self.it.accept()[0]
            threading.Thread(target=self.one, args=(link,), daemon=True).start()

    def one(self, link):
        line = b""
        link.settimeout(20)
        try:
            while not line.endswith(b"\n"):
                more = link.recv(1)
                if not more:
                    break
                line += more
        except OSError:
            pass
        if not line.endswith(b"\n"):
            return
        bytes_got, whole = talk(link, random.Random(line), line)
        self.got.append((int(line), bytes_got, whole))


def replayed(program, config, journal):
    ports = [int(line.split()[4]) for line in open(journal) if line.startswith("accept ")]
    out = subprocess.run([program, "replay", config, journal], capture_output=True)
    given = {"client": {}, "server": {}}
    for line in out.stdout.decode().splitlines():
        words = line.split()
        if words[1] in given:
            given[words[1]][int(words[2])] = b"" if words[-1] == "-" else bytes.fromhex(words[-1])
    return out.returncode, ports, given


def wrong(got, given, ports):
    places = {}
    for place, port in enumerate(ports, 1):
        places.setdefault(port, []).append(given.get(place, b""))
    bad = 0
    for port, bytes_got, whole in got:
        bad += not any(it == bytes_got if whole else it.startswith(bytes_got) for it in places.get(port, []))
    return bad


def main():
    words = argparse.ArgumentParser()
    words.add_argument("program")
    words.add_argument("--minutes", type=float, default=1)
    words.add_argument("--clients", type=int, default=8)
    words = words.parse_args()
    program = os.path.abspath(words.program)
    port, first, second, dead = (free_port() for _ in range(4))
    servers, clients, end = [], [], time.time() + words.minutes * 60
    Origin(first, servers)
    Origin(second, servers)
    with tempfile.TemporaryDirectory() as folder:
        config, journal = f"{folder}/soak.toml", f"{folder}/journal"
        open(config, "w").write(CONFIG % (port, first, dead, second))
        process = subprocess.Popen([program, "serve", config, "--record", journal])
        for _ in range(400):
            try:
                socket.create_connection(("127.0.0.1", port), 1).close()
                break
            except OSError:
                time.sleep(0.05)

        def work(seed):
            kinds = random.Random(seed)
            while time.time() < end:
                link = socket.create_connection(("127.0.0.1", port), 20)
                own = link.getsockname()[1]
                clients.append((own, *talk(link, kinds, b"")))

        threads = [threading.Thread(target=work, args=(n,)) for n in range(words.clients)]
        for it in threads:
            it.start()
        for it in threads:
            it.join()
        time.sleep(2)
        process.terminate()
        process.wait()
        status, ports, given = replayed(program, config, journal)
        bad = wrong(clients, given["client"], ports), wrong(servers, given["server"], ports)
        print(f"{len(clients)} clients, {bad[0]} whose bytes the replay doesn't give, {len(servers)} servers, {bad[1]} "
              f"so, replay status {status}, {os.path.getsize(journal)} bytes of journal", flush=True)
        return 0 if bad == (0, 0) and status == 0 else 1


if __name__ == "__main__":
    sys.exit(main())
