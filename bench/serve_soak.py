#!/usr/bin/env python3
"""Serves clients for a long time with a journal, and replays the journal to the same bytes.

    bench/serve_soak.py PROGRAM [--minutes 20] [--clients 8] [--pause 0.02]

PROGRAM is crates/ciravogu/out/ciravogu. Runs of one minute each: clients connect one behind another, with a pause between;
some read all, some a part and reset, some nothing. Then the program is ended, its journal is replayed, and each client
must have got a front of the bytes that the replay gives it, those that read to the end all of them. Prints a line a run.
"""
import argparse
import os
import random
import resource
import socket
import struct
import subprocess
import sys
import tempfile
import threading
import time

from serve import free_port

LENGTHS = (10, 500, 5000, 60000)

SERVER = """
[[virtual]]
name = "v%d"
listen = "127.0.0.1:%d"
rules = ["r%d"]
[[rule]]
name = "r%d"
text = 'when CLIENT_ACCEPTED { TCP::respond "[string repeat y %d] end\\n" }'
"""


def client(port, kind):
    """One client; gives its port, what it got, and whether it read to the end."""
    it = socket.create_connection(("127.0.0.1", port), 20)
    own, got, whole = it.getsockname()[1], b"", False
    if kind > 0:
        it.settimeout(20)
        while kind > 1 or len(got) < 8:
            more = it.recv(4096)
            if not more:
                whole = True
                break
            got += more
    if kind < 2:
        it.setsockopt(socket.SOL_SOCKET, socket.SO_LINGER, struct.pack("ii", 1, 0))
    it.close()
    return own, got, whole


def replayed(program, config, journal):
    """The bytes that a replay gives each client, by the order of the accepts, and their ports."""
    ports = [int(line.split()[4]) for line in open(journal) if line.startswith("accept ")]
    out = subprocess.run([program, "replay", config, journal], capture_output=True)
    given = {}
    for line in out.stdout.decode().splitlines():
        words = line.split()
        if words[:2] == [">", "client"]:
            given[int(words[2])] = b"" if words[3] == "-" else bytes.fromhex(words[3])
    return out.returncode, ports, given


def run(program, folder, clients, pause, seconds):
    ports, journal = [free_port() for _ in LENGTHS], f"{folder}/journal"
    config = f"{folder}/soak.toml"
    servers = "".join(SERVER % (n, ports[n], n, n, length) for n, length in enumerate(LENGTHS))
    open(config, "w").write("version = 1\n" + servers)
    process = subprocess.Popen([program, "serve", config, "--record", journal])
    for _ in range(400):
        try:
            socket.create_connection(("127.0.0.1", ports[0]), 1).close()
            break
        except OSError:
            time.sleep(0.05)
    got, lock, end = [], threading.Lock(), time.time() + seconds

    def work(seed):
        kinds = random.Random(seed)
        while time.time() < end:
            one = client(kinds.choice(ports), kinds.choice((0, 1, 2, 2, 2, 2)))
            with lock:
                got.append(one)
            time.sleep(pause)

    threads = [threading.Thread(target=work, args=(n,)) for n in range(clients)]
    for it in threads:
        it.start()
    for it in threads:
        it.join()
    time.sleep(2)
    memory = next(int(line.split()[1]) for line in open(f"/proc/{process.pid}/status") if line.startswith("VmRSS"))
    process.terminate()
    process.wait()
    status, ports, given = replayed(program, config, journal)
    wrong = 0
    places = {}
    for place, own in enumerate(ports, 1):
        places.setdefault(own, []).append(place)
    for own, bytes_got, whole in got:
        fronts = [given.get(place, b"") for place in places.get(own, [])]
        fits = [it for it in fronts if (it == bytes_got if whole else it.startswith(bytes_got))]
        wrong += not fits
    print(f"{len(got)} clients, {wrong} whose bytes the replay doesn't give, replay status {status}, "
          f"{os.path.getsize(journal)} bytes of journal, {memory} KB resident", flush=True)
    return wrong == 0 and status == 0


def main():
    words = argparse.ArgumentParser()
    words.add_argument("program")
    words.add_argument("--minutes", type=float, default=20)
    words.add_argument("--clients", type=int, default=8)
    words.add_argument("--pause", type=float, default=0.02)
    words = words.parse_args()
    program = os.path.abspath(words.program)
    good, end = True, time.time() + words.minutes * 60
    while time.time() < end:
        with tempfile.TemporaryDirectory() as folder:
            good = run(program, folder, words.clients, words.pause, min(60, max(1, end - time.time()))) and good
    return 0 if good else 1


if __name__ == "__main__":
    sys.exit(main())
