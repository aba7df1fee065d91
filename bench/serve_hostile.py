#!/usr/bin/env python3
"""Serves clients that do harm, on 127.0.0.1, and sees that others are served meanwhile.

    bench/serve_hostile.py PROGRAM [--clients 1000] [--seconds 20]

PROGRAM is crates/ciravogu/out/ciravogu. Four runs, each with a program of its own:

  never   so many clients connect, are sent 100,000 bytes each, and read none of them
  slow    so many clients read nothing, and send a byte a second
  resets  clients connect, read a part of their answer or none, and reset; as many at a time as there is room for
  scarce  the program may have 64 descriptors, and 100 clients stay: those above the limit wait, and are answered once
          others have gone; with 5 descriptors it can't listen, and with just enough to listen it can accept no
          client at all: status 8 both, and the journal stands

All run in a network of their own (so as root), in which the system keeps 32,768 bytes at most of what a client doesn't
read: by itself it would keep all of such an answer, and nothing would be left to the program.

Beside the first three, 16 clients connect to another virtual server again and again, and each answer is compared.
Prints for each run the right and wrong answers, the resident memory, and whether the program still runs. The record
of `scarce` is replayed, and must give each client its bytes.
"""
import argparse
import ctypes
import fcntl
import os
import resource
import socket
import struct
import subprocess
import sys
import tempfile
import time

from serve import ANSWER, begin, free_port, load, processor, resident

CONFIG = """version = 1
connections = 4096
[[virtual]]
name = "v"
listen = "127.0.0.1:%d"
rules = ["r"]
[[virtual]]
name = "big"
listen = "127.0.0.1:%d"
rules = ["b"]
[[rule]]
name = "r"
text = 'when CLIENT_ACCEPTED { TCP::respond "%s\\n" }'
[[rule]]
name = "b"
text = 'when CLIENT_ACCEPTED { TCP::respond [string repeat x 100000] }'
"""


class Program:
    """A program that serves, and the ports of its two virtual servers."""

    def __init__(self, program, folder, descriptors=None, words=()):
        self.port, self.big = free_port(), free_port()
        self.config = f"{folder}/hostile.toml"
        open(self.config, "w").write(CONFIG % (self.port, self.big, "x" * 199))
        limit = (lambda: resource.setrlimit(resource.RLIMIT_NOFILE, (descriptors, descriptors))) if descriptors else None
        self.process = subprocess.Popen([program, "serve", self.config, *words], preexec_fn=limit)

    def wait(self):
        for _ in range(200):
            try:
                socket.create_connection(("127.0.0.1", self.port), 1).close()
                return
            except OSError:
                time.sleep(0.05)

    def runs(self):
        return self.process.poll() is None

    def end(self):
        self.process.terminate()
        return self.process.wait()


def own_network():
    """Goes into a network of its own, of a loopback alone, with small buffers for what is sent."""
    if ctypes.CDLL(None, use_errno=True).unshare(0x40000000):
        raise OSError(ctypes.get_errno(), "a network of its own can't be made")
    up = struct.pack("16sh22x", b"lo", 0x41)
    fcntl.ioctl(socket.socket(), 0x8914, up)
    open("/proc/sys/net/ipv4/tcp_wmem", "w").write("4096 16384 32768")


def never_reads(port):
    it = socket.socket()
    it.setsockopt(socket.SOL_SOCKET, socket.SO_RCVBUF, 4096)
    it.settimeout(10)
    it.connect(("127.0.0.1", port))
    return it


def all_begun(held):
    """Waits until the last one was sent something, which it doesn't take."""
    held[-1].settimeout(120)
    held[-1].recv(1, socket.MSG_PEEK)


def resets(it):
    it.setsockopt(socket.SOL_SOCKET, socket.SO_LINGER, struct.pack("ii", 1, 0))
    it.close()


def say(name, program, right, wrong, before, more=""):
    spent = processor(program.process.pid) - before
    print(f"{name}: {right} right and {wrong} wrong answers beside, {resident(program.process.pid)} KB resident, "
          f"{spent:.0f} processor ms, {'runs' if program.runs() else 'ENDED'}{more}", flush=True)
    return program.runs() and right > 0 and wrong == 0


def never(words, folder):
    program = Program(words.program, folder)
    program.wait()
    before = processor(program.process.pid)
    held = [never_reads(program.big) for _ in range(words.clients)]
    all_begun(held)
    right, wrong = load(program.port, 16, words.seconds)
    good = say(f"{words.clients} clients that never read", program, right, wrong, before)
    for it in held:
        it.close()
    program.end()
    return good


def slow(words, folder):
    program = Program(words.program, folder)
    program.wait()
    before = processor(program.process.pid)
    held = [never_reads(program.big) for _ in range(words.clients)]
    all_begun(held)
    right = wrong = sent = 0
    for _ in range(max(1, int(min(words.seconds, 60)))):
        for it in held:
            try:
                sent += it.send(b"G")
            except OSError:
                pass
        more = load(program.port, 16, 1)
        right, wrong = right + more[0], wrong + more[1]
    good = say(f"{words.clients} clients that send a byte a second", program, right, wrong, before, f", {sent} bytes sent")
    for it in held:
        it.close()
    program.end()
    return good


def reset(words, folder):
    program = Program(words.program, folder)
    program.wait()
    before = processor(program.process.pid)
    count = right = wrong = 0
    end = time.time() + words.seconds
    while time.time() < end:
        held = [never_reads(program.big) for _ in range(100)]
        for at, it in enumerate(held):
            if at % 2:
                it.settimeout(120)
                it.recv(1000)
            resets(it)
        count += len(held)
        more = load(program.port, 16, 0.2)
        right, wrong = right + more[0], wrong + more[1]
    good = say(f"{count} clients that reset", program, right, wrong, before)
    program.end()
    return good


def scarce(words, folder):
    journal = f"{folder}/journal"
    program = Program(words.program, folder, 64, ["--record", journal])
    program.wait()
    held = [never_reads(program.big) for _ in range(100)]
    time.sleep(1)
    late = socket.create_connection(("127.0.0.1", program.port), 5)
    late.settimeout(1)
    try:
        waited = late.recv(10) == b""
    except socket.timeout:
        waited = True
    for it in held:
        resets(it)
    late.settimeout(10)
    got = b""
    while len(got) < len(ANSWER):
        more = late.recv(4096)
        if not more:
            break
        got += more
    late.close()
    time.sleep(0.5)
    ran = program.runs()
    program.end()
    replayed = subprocess.run([words.program, "replay", program.config, journal], capture_output=True)
    served = replayed.stdout.count(b"client ")
    print(f"descriptors that run out: a client above the limit {'waited' if waited else 'DID NOT WAIT'} and got "
          f"{'its answer' if got == ANSWER else 'ANOTHER ANSWER'}, the program {'ran on' if ran else 'ENDED'}, "
          f"the journal replays with status {replayed.returncode} and {served} clients", flush=True)
    few = Program(words.program, folder, 5)
    status = few.process.wait(20)
    print(f"with 5 descriptors: status {status}", flush=True)
    return none_for_a_client(words, folder) and waited and got == ANSWER and ran and status == 8


def none_for_a_client(words, folder):
    """The least number of descriptors with which the program listens: none is left for a client."""
    for descriptors in range(6, 30):
        journal = f"{folder}/journal{descriptors}"
        program = Program(words.program, folder, descriptors, ("--record", journal))
        try:
            program.process.wait(1)
        except subprocess.TimeoutExpired:
            break
    ran = program.runs()
    client = socket.create_connection(("127.0.0.1", program.port), 5)
    status = program.process.wait(20)
    client.close()
    replayed = subprocess.run([words.program, "replay", program.config, journal], capture_output=True)
    print(f"with {descriptors} it {'listens' if ran else 'DOES NOT LISTEN'}, and at the first client: status {status}, "
          f"its journal replays with status {replayed.returncode}", flush=True)
    return ran and status == 8 and replayed.returncode == 0


def main():
    words = argparse.ArgumentParser()
    words.add_argument("program")
    words.add_argument("--clients", type=int, default=1000)
    words.add_argument("--seconds", type=float, default=20)
    words = words.parse_args()
    words.program = os.path.abspath(words.program)
    own_network()
    most = resource.getrlimit(resource.RLIMIT_NOFILE)[1]
    resource.setrlimit(resource.RLIMIT_NOFILE, (min(most, 8300), most))
    good = True
    for run in (never, slow, reset, scarce):
        with tempfile.TemporaryDirectory() as folder:
            good = run(words, folder) and good
    return 0 if good else 1


if __name__ == "__main__":
    sys.exit(main())
