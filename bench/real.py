#!/usr/bin/env python3
"""Loads the built program's relay and haproxy's with real clients and servers, in turns, on 127.0.0.1.

    bench/real.py PROGRAM [OTHER ..] [--rounds 5] [--seconds 3] [--connections 50]

PROGRAM is crates/ciravogu/out/ciravogu; each OTHER is one more program of this repository, to compare two trees in one run.
haproxy (TCP mode, one thread), nginx and redis (servers), wrk and redis-benchmark (clients) are installed from Debian's
packages where they aren't there. Loads:

    small    wrk asks nginx for 200 bytes, again and again, on connections that stay
    large    wrk asks for 100,000 bytes
    redis    redis-benchmark -t set -P 16 -d 1000: pieces of 16 KB, both ways
    idle     wrk asks for 200 bytes while 1,000 more connections to nginx stand open and say nothing

Prints the middle round of each: processor microseconds of the relay for a request, the 99th percentile of its latency in
milliseconds, and both beside haproxy's; last the machine's load when it began and ended.
"""
import argparse
import os
import re
import shutil
import socket
import statistics
import subprocess
import tempfile
import time

from relay import CONFIG, HAPROXY
from serve import free_port, processor

NGINX = """daemon off;
master_process off;
worker_processes 1;
pid %(folder)s/nginx.pid;
error_log stderr crit;
events { worker_connections 8192; }
http {
    access_log off;
    keepalive_requests 1000000000;
    keepalive_timeout 600s;
    server { listen 127.0.0.1:%(port)d; location / { root %(folder)s; } }
}
"""
PACKAGES = {"nginx": "nginx-core", "haproxy": "haproxy", "wrk": "wrk", "redis-server": "redis-server", "redis-benchmark": "redis-tools"}
SIZES = {"small": 200, "large": 100_000, "idle": 200}
IDLE = 1_000


def install():
    lacking = [package for name, package in PACKAGES.items() if not shutil.which(name)]
    if lacking:
        subprocess.run(["apt-get", "update"], stdout=subprocess.DEVNULL, check=True)
        subprocess.run(["apt-get", "install", "-y", *lacking], stdout=subprocess.DEVNULL, check=True)


class Process:
    """A server that listens on a port of its own."""

    def __init__(self, words, port):
        self.port = port
        self.run = subprocess.Popen(words, stdin=subprocess.DEVNULL, stdout=subprocess.DEVNULL, stderr=subprocess.DEVNULL)
        for _ in range(200):
            try:
                socket.create_connection(("127.0.0.1", port), timeout=1).close()
                return
            except OSError:
                time.sleep(0.05)
        raise SystemExit(f"real.py: {words[0]} doesn't listen at port {port}")

    def end(self):
        self.run.kill()
        self.run.wait()


def written(folder, name, text):
    with open(f"{folder}/{name}", "w", encoding="ascii") as it:
        it.write(text)
    return it.name


def servers(folder):
    """nginx with a file of each size, and redis: what the relays pass on to."""
    for size in set(SIZES.values()):
        written(folder, f"{size}", "x" * size)
    web, store = free_port(), free_port()
    pages = written(folder, "nginx.conf", NGINX % {"folder": folder, "port": web})
    nginx = Process(["nginx", "-c", pages], web)
    redis = Process(["redis-server", "--port", str(store), "--bind", "127.0.0.1", "--save", "", "--appendonly", "no"], store)
    return nginx, redis


def relays(folder, programs, origin):
    """A relay to the origin by each program, and by haproxy."""
    found = {}
    for place, program in enumerate(programs):
        port = free_port()
        config = written(folder, f"{place}-{origin}.toml", CONFIG % (port, origin))
        found[f"program {place + 1}"] = Process([os.path.realpath(program), "serve", config], port)
    port = free_port()
    config = written(folder, f"haproxy-{origin}.cfg", HAPROXY % (port, origin))
    found["haproxy"] = Process(["haproxy", "-q", "-f", config], port)
    return found


def milliseconds(text):
    number, unit = re.fullmatch(r"([\d.]+)(us|ms|s|m)", text).groups()
    return float(number) * {"us": 0.001, "ms": 1, "s": 1_000, "m": 60_000}[unit]


def by_wrk(port, size, given):
    """How many requests were answered, and the 99th percentile of their latency."""
    words = ["wrk", "-t", "1", "-c", str(given.connections), "-d", f"{given.seconds}s", "--latency", f"http://127.0.0.1:{port}/{size}"]
    said = subprocess.run(words, stdout=subprocess.PIPE, text=True, check=True).stdout
    if "Non-2xx" in said or "Socket errors" in said:
        raise SystemExit(f"real.py: wrk met errors:\n{said}")
    return int(re.search(r"(\d+) requests in", said)[1]), milliseconds(re.search(r"99%\s+(\S+)", said)[1])


def by_redis(port, given):
    words = ["redis-benchmark", "-p", str(port), "-t", "set", "-P", "16", "-d", "1000", "-c", str(given.connections), "-n", "200000", "--csv"]
    said = subprocess.run(words, stdout=subprocess.PIPE, stderr=subprocess.DEVNULL, text=True, check=True).stdout
    row = next(line for line in said.splitlines() if line.startswith('"SET"')).replace('"', "").split(",")
    return 200_000, float(row[6])


def idle(port):
    """Connections on which nothing is asked."""
    return [socket.create_connection(("127.0.0.1", port)) for _ in range(IDLE)]


def once(load, relay, given):
    open_links = idle(relay.port) if load == "idle" else []
    before = processor(relay.run.pid)
    count, latency = by_redis(relay.port, given) if load == "redis" else by_wrk(relay.port, SIZES[load], given)
    took = processor(relay.run.pid) - before
    for link in open_links:
        link.close()
    return 1_000 * took / count, latency


def tell(load, rounds):
    """The middle of the rounds of each relay, beside haproxy's."""
    middle = {name: tuple(statistics.median(it) for it in zip(*runs)) for name, runs in rounds.items()}
    cost, latency = middle["haproxy"]
    for name, (own_cost, own_latency) in middle.items():
        print(f"{load:6} {name:10} {own_cost:8.2f} us a request ({own_cost / cost:4.2f})   p99 {own_latency:8.2f} ms ({own_latency / latency:4.2f})", flush=True)


def main():
    ask = argparse.ArgumentParser(description=__doc__, formatter_class=argparse.RawDescriptionHelpFormatter)
    ask.add_argument("programs", nargs="+")
    ask.add_argument("--rounds", type=int, default=5)
    ask.add_argument("--seconds", type=int, default=3)
    ask.add_argument("--connections", type=int, default=50)
    given = ask.parse_args()
    install()
    began, running = os.getloadavg()[0], []
    with tempfile.TemporaryDirectory(prefix="real-") as folder:
        os.chmod(folder, 0o755)
        try:
            nginx, redis = servers(folder)
            running += [nginx, redis]
            web, store = relays(folder, given.programs, nginx.port), relays(folder, given.programs, redis.port)
            running += [*web.values(), *store.values()]
            for load in ("small", "large", "redis", "idle"):
                relays_of = store if load == "redis" else web
                rounds = {name: [] for name in relays_of}
                for _ in range(given.rounds):
                    for name, relay in relays_of.items():
                        rounds[name].append(once(load, relay, given))
                tell(load, rounds)
        finally:
            for it in running:
                it.end()
    print(f"load of the machine: {began:.1f} at the start, {os.getloadavg()[0]:.1f} at the end, {len(os.sched_getaffinity(0))} cores")


if __name__ == "__main__":
    main()
