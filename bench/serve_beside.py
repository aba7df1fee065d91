#!/usr/bin/env python3
"""Loads the built program's `serve`, nginx and haproxy in turns, with the same 200 bytes as each one's answer.

    bench/serve_beside.py PROGRAM [--clients 64] [--seconds 3] [--rounds 3] [--limiter]

PROGRAM is crates/ciravogu/out/ciravogu; nginx (its module for streams) and haproxy are installed from Debian's packages
where they aren't there. Each client connects, reads to the end and connects again, on 127.0.0.1. Each server has one
process and one thread: nginx answers by `return`, haproxy by a service in Lua, the program by `TCP::respond`. Prints
the middle round of each: answers a second, and processor milliseconds for 1,000 answers.

With --limiter each counts the visits of a client's address first, and would turn one away behind a billion: the program by
`table incr` and a lifetime of ten seconds, haproxy by a stick table with the rate over ten seconds. nginx limits the requests
of an address for HTTP alone (limit_req); its module for streams limits how many connections an address has at once
(limit_conn), which is less: it forgets an address whose connections are over.
"""
import argparse
import os
import shutil
import socket
import statistics
import subprocess
import sys
import tempfile
import time

from serve import ANSWER, CONFIG, free_port, load, processor

NGINX = """daemon off;
master_process off;
worker_processes 1;
pid %s/nginx.pid;
error_log stderr crit;
load_module /usr/lib/nginx/modules/ngx_stream_module.so;
events { worker_connections 4096; }
stream { %s server { listen 127.0.0.1:%d; %s return "%s\\n"; } }
"""
# What is set apart for a limiter: in nginx's block of streams and in its server, in haproxy's front.
NGINX_LIMIT = ("limit_conn_zone $binary_remote_addr zone=seen:10m;", "limit_conn seen 4096;")
HAPROXY_LIMIT = """
    stick-table type ip size 64k expire 10s store conn_rate(10s)
    tcp-request connection track-sc0 src
    tcp-request connection reject if { sc0_conn_rate gt 1000000000 }
"""
LIMITER = """version = 1
connections = 4096

[[virtual]]
name = "v"
listen = "127.0.0.1:%d"
rules = ["r"]

[[rule]]
name = "r"
text = '''
when CLIENT_ACCEPTED {
    set address [IP::client_addr]
    set count [table incr -notouch -subtable visits $address]
    if {$count == 1} { table lifetime -subtable visits $address 10 }
    if {$count > 1000000000} { reject; return }
    TCP::respond "%s\\n"
}
'''
"""
LUA = """core.register_service("answer", "tcp", function(applet) applet:send("%s\\n") end)
"""
HAPROXY = """global
    nbthread 1
    maxconn 4096
    lua-load %s/answer.lua
defaults
    mode tcp
    timeout client 5s
    timeout server 5s
    timeout connect 5s
frontend f
    bind 127.0.0.1:%d%s
    tcp-request inspect-delay 1s
    tcp-request content use-service lua.answer
"""


def installed():
    if shutil.which("nginx") and shutil.which("haproxy"):
        return
    subprocess.run(["apt-get", "update"], stdout=subprocess.DEVNULL, check=True)
    words = ["apt-get", "install", "-y", "nginx-core", "libnginx-mod-stream", "haproxy"]
    subprocess.run(words, stdout=subprocess.DEVNULL, check=True)


def commands(program, folder, limiter):
    """Each server's name, its command and its port."""
    ports = [free_port() for _ in range(3)]
    text = "x" * 199
    block, inside = NGINX_LIMIT if limiter else ("", "")
    files = {
        "serve.toml": (LIMITER if limiter else CONFIG) % (ports[0], text),
        "nginx.conf": NGINX % (folder, block, ports[1], inside, text),
        "answer.lua": LUA % text,
        "haproxy.cfg": HAPROXY % (folder, ports[2], HAPROXY_LIMIT.rstrip("\n") if limiter else ""),
    }
    for name, written in files.items():
        with open(f"{folder}/{name}", "w") as file:
            file.write(written)
    return [
        ("ciravogu", [program, "serve", f"{folder}/serve.toml"], ports[0]),
        ("nginx", ["nginx", "-c", f"{folder}/nginx.conf"], ports[1]),
        ("haproxy", ["haproxy", "-db", "-f", f"{folder}/haproxy.cfg"], ports[2]),
    ]


def round_of(command, port, clients, seconds):
    server = subprocess.Popen(command, stderr=subprocess.DEVNULL)
    try:
        for _ in range(100):
            try:
                socket.create_connection(("127.0.0.1", port), 1).close()
                break
            except OSError:
                time.sleep(0.05)
        before = processor(server.pid)
        right, wrong = load(port, clients, seconds)
        spent = processor(server.pid) - before
        return right / seconds, wrong, spent * 1000 / max(right, 1)
    finally:
        server.terminate()
        server.wait()


def main():
    words = argparse.ArgumentParser()
    words.add_argument("program")
    words.add_argument("--clients", type=int, default=64)
    words.add_argument("--seconds", type=float, default=3)
    words.add_argument("--rounds", type=int, default=3)
    words.add_argument("--limiter", action="store_true")
    words = words.parse_args()
    installed()
    assert len(ANSWER) == 200
    with tempfile.TemporaryDirectory() as folder:
        servers = commands(os.path.abspath(words.program), folder, words.limiter)
        rounds = {name: [] for name, _, _ in servers}
        for _ in range(words.rounds):
            for name, command, port in servers:
                rounds[name].append(round_of(command, port, words.clients, words.seconds))
    for name, taken in rounds.items():
        print(f"{name:10} {statistics.median(it[0] for it in taken):8.0f} answers a second, "
              f"{sum(it[1] for it in taken)} wrong, "
              f"{statistics.median(it[2] for it in taken):6.1f} processor ms for 1,000")
    return 1 if any(it[1] for it in rounds["ciravogu"]) else 0


if __name__ == "__main__":
    sys.exit(main())
