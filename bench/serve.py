#!/usr/bin/env python3
"""Loads the built program's `serve` on 127.0.0.1, and checks every answer.

    bench/serve.py PROGRAM [--clients 64] [--seconds 9] [--record FILE] [--idle N]

PROGRAM is crates/ciravogu/out/ciravogu. So many clients connect again and again, each reads its answer to the end and
compares it. Prints answers a second, wrong ones, processor milliseconds of the program for 1,000 answers, and its
resident memory. --idle N keeps N more connections open that a rule holds none of: they connect and never read.
"""
import argparse
import os
import selectors
import socket
import subprocess
import sys
import tempfile
import time

ANSWER = b"x" * 199 + b"\n"
CONFIG = """version = 1
connections = 4096
[[virtual]]
name = "v"
listen = "127.0.0.1:%d"
rules = ["r"]
[[rule]]
name = "r"
text = 'when CLIENT_ACCEPTED { TCP::respond "%s\\n" }'
"""


def free_port():
    with socket.socket() as it:
        it.bind(("127.0.0.1", 0))
        return it.getsockname()[1]


def processor(pid):
    fields = open(f"/proc/{pid}/stat").read().rsplit(")", 1)[1].split()
    return (int(fields[11]) + int(fields[12])) * 1000.0 / os.sysconf("SC_CLK_TCK")


def resident(pid):
    return next(int(line.split()[1]) for line in open(f"/proc/{pid}/status") if line.startswith("VmRSS"))


def begin(poll, port):
    it = socket.socket()
    it.setblocking(False)
    it.connect_ex(("127.0.0.1", port))
    poll.register(it, selectors.EVENT_READ, bytearray())


def load(port, clients, seconds):
    poll, right, wrong, end = selectors.DefaultSelector(), 0, 0, time.time() + seconds
    for _ in range(clients):
        begin(poll, port)
    while time.time() < end:
        for key, _ in poll.select(0.1):
            try:
                got = key.fileobj.recv(4096)
            except OSError:
                got = None
            if got:
                key.data.extend(got)
                continue
            right, wrong = (right + 1, wrong) if got == b"" and key.data == ANSWER else (right, wrong + 1)
            poll.unregister(key.fileobj)
            key.fileobj.close()
            begin(poll, port)
    for key in list(poll.get_map().values()):
        key.fileobj.close()
    return right, wrong


def main():
    words = argparse.ArgumentParser()
    words.add_argument("program")
    words.add_argument("--clients", type=int, default=64)
    words.add_argument("--seconds", type=float, default=9)
    words.add_argument("--record")
    words.add_argument("--idle", type=int, default=0)
    words = words.parse_args()
    port = free_port()
    with tempfile.TemporaryDirectory() as folder:
        config = f"{folder}/serve.toml"
        open(config, "w").write(CONFIG % (port, "x" * 199))
        record = ["--record", os.path.abspath(words.record)] if words.record else []
        program = subprocess.Popen([words.program, "serve", config, *record])
        try:
            for _ in range(100):
                try:
                    socket.create_connection(("127.0.0.1", port), 1).close()
                    break
                except OSError:
                    time.sleep(0.05)
            idle = [socket.create_connection(("127.0.0.1", port), 5) for _ in range(words.idle)]
            before = processor(program.pid)
            right, wrong = load(port, words.clients, words.seconds)
            spent = processor(program.pid) - before
            print(f"{right / words.seconds:.0f} answers a second, {wrong} wrong, "
                  f"{spent * 1000 / max(right, 1):.1f} processor ms for 1,000, {resident(program.pid)} KB resident")
            for it in idle:
                it.close()
        finally:
            program.terminate()
            program.wait()
    return 1 if wrong or not right else 0


if __name__ == "__main__":
    sys.exit(main())
