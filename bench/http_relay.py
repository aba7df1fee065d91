#!/usr/bin/env python3
"""Loads the built program's `serve`, nginx and haproxy in turns, each between clients of HTTP and an nginx that has the answers.

    bench/http_relay.py PROGRAM [--clients 64] [--seconds 3] [--rounds 3] [--only LOAD]

PROGRAM is crates/ciravogu/out/ciravogu. nginx, haproxy, wrk and curl are installed from Debian's packages where they aren't there. Each
relay has one process and one thread, and keeps its connections on both sides. Loads: `small`, 200 bytes by wrk; `edited`, the
same with a field put into each request and one taken out of each response, by a rule, by nginx's own words, by its njs and by haproxy's;
`chunked`, 200,000 bytes in chunks; `upload`, 100 MB by curl, once; `pipelined`, 10,000 requests that one client sends at once.
Prints the middle round of each: processor milliseconds of the relay for 1,000 requests (of `upload` for the one), and how much
that is of nginx's; what was answered otherwise than by the origin itself is told, and the status is 1 then.
"""
import argparse
import os
import re
import shutil
import socket
import statistics
import subprocess
import sys
import tempfile
import time

from serve import free_port, processor

LOADS = ["small", "edited", "chunked", "upload", "pipelined"]
SMALL, LARGE, UPLOADED, PIPELINED = 200, 200_000, 100_000_000, 10_000
MODULE = "/usr/lib/nginx/modules/ngx_http_js_module.so"
PACKAGES = ["nginx-core", "libnginx-mod-http-js", "haproxy", "wrk", "curl"]
ORIGIN = """daemon off;
master_process off;
worker_processes 1;
pid %(folder)s/origin.pid;
error_log stderr crit;
events { worker_connections 4096; }
http {
    access_log off;
    keepalive_requests 1000000000;
    client_max_body_size 1g;
    server {
        listen 127.0.0.1:%(port)d;
        root %(folder)s/site;
        location /upload { client_body_buffer_size 1m; proxy_pass http://127.0.0.1:%(port)d/took; }
        location /took { return 200 "took\\n"; }
        location /chunked { sub_filter_types *; sub_filter "never there" ""; }
    }
}
"""
NGINX = """daemon off;
master_process off;
worker_processes 1;
pid %(folder)s/relay.pid;
error_log stderr crit;
%(module)s
events { worker_connections 4096; }
http {
    %(imports)s
    access_log off;
    keepalive_requests 1000000000;
    client_max_body_size 1g;
    upstream origin { server 127.0.0.1:%(origin)d; keepalive 256; keepalive_requests 1000000000; }
    server {
        listen 127.0.0.1:%(port)d;
        location / {
            proxy_http_version 1.1;
            proxy_set_header Connection "";
            proxy_set_header Host $http_host;
            proxy_request_buffering off;
            proxy_pass http://origin;
            %(edits)s
        }
    }
}
"""
HAPROXY = """global
    nbthread 1
    maxconn 4096
defaults
    mode http
    timeout client 60s
    timeout server 60s
    timeout connect 5s
listen relay
    bind 127.0.0.1:%(port)d
    %(edits)s
    server origin 127.0.0.1:%(origin)d
"""
CIRAVOGU = """version = 1
connections = 4096
[[virtual]]
name = "web"
listen = "127.0.0.1:%(port)d"
http = true
pool = "origin"
%(uses)s
[[pool]]
name = "origin"
members = [{ addr = "127.0.0.1:%(origin)d" }]
%(rule)s
"""
NJS = """export default {
    from: (r) => r.remoteAddress,
    strip: (r) => { delete r.headersOut["Server"]; },
};
"""
RULE = """[[rule]]
name = "edits"
text = "when HTTP_REQUEST { HTTP::header insert X-Forwarded-For [IP::client_addr] }\\nwhen HTTP_RESPONSE { HTTP::header remove Server }"
"""


def install():
    if not all(shutil.which(it) for it in ("nginx", "haproxy", "wrk", "curl")) or not os.path.exists(MODULE):
        subprocess.run(["apt-get", "update"], stdout=subprocess.DEVNULL, check=True)
        subprocess.run(["apt-get", "install", "-y", *PACKAGES], stdout=subprocess.DEVNULL, check=True)


class Server:
    """A process that listens."""

    def __init__(self, words, port):
        self.port, self.process = port, subprocess.Popen(words, stdout=subprocess.DEVNULL, stderr=subprocess.DEVNULL)
        for _ in range(200):
            try:
                socket.create_connection(("127.0.0.1", port), 1).close()
                return
            except OSError:
                time.sleep(0.05)
        self.end()
        raise SystemExit(f"{words[0]} doesn't listen")

    def spent(self):
        return processor(self.process.pid)

    def end(self):
        self.process.terminate()
        self.process.wait()


def written(folder, name, text):
    path = f"{folder}/{name}"
    with open(path, "w", encoding="utf-8") as file:
        file.write(text)
    return path


def relay(name, program, folder, origin, edits):
    """A relay by its name, with the edits of the load or without."""
    port = free_port()
    given = {"folder": folder, "port": port, "origin": origin}
    given["module"] = given["imports"] = ""
    if name == "nginx njs":
        written(folder, "edits.js", NJS)
        given["module"], given["imports"] = f"load_module {MODULE};", f"js_path {folder}; js_import edits.js; js_set $from edits.from;"
        given["edits"] = "proxy_set_header X-Forwarded-For $from; js_header_filter edits.strip;"
        return Server(["nginx", "-c", written(folder, "relay.conf", NGINX % given)], port)
    if name == "nginx":
        given["edits"] = "proxy_set_header X-Forwarded-For $remote_addr; proxy_hide_header Server; server_tokens off;" if edits else ""
        return Server(["nginx", "-c", written(folder, "relay.conf", NGINX % given)], port)
    if name == "haproxy":
        given["edits"] = "http-request set-header X-Forwarded-For %[src]\n    http-response del-header Server" if edits else ""
        return Server(["haproxy", "-db", "-f", written(folder, "haproxy.conf", HAPROXY % given)], port)
    given["uses"], given["rule"] = ('rules = ["edits"]', RULE) if edits else ("", "")
    return Server([program, "serve", written(folder, "ciravogu.toml", CIRAVOGU % given)], port)


def by_wrk(port, path, words):
    """How many were answered, and how many otherwise than by 2xx."""
    command = ["wrk", "-t2", f"-c{words.clients}", f"-d{words.seconds}s", f"http://127.0.0.1:{port}/{path}"]
    said = subprocess.run(command, stdout=subprocess.PIPE, text=True, check=True).stdout
    wrong = sum(int(it) for it in re.findall(r"Non-2xx or 3xx responses: (\d+)", said))
    wrong += sum(int(it) for it in re.findall(r"(?:connect|read|timeout) (\d+)", said))
    return int(re.search(r"(\d+) requests in", said).group(1)), wrong


def body(port, path):
    return subprocess.run(["curl", "-s", f"http://127.0.0.1:{port}/{path}"], stdout=subprocess.PIPE, check=True).stdout


def by_upload(port, folder):
    command = ["curl", "-s", "-T", f"{folder}/upload", f"http://127.0.0.1:{port}/upload"]
    said = subprocess.run(command, stdout=subprocess.PIPE, check=True).stdout
    return 1, int(said != b"took\n")


def by_pipeline(port, folder):
    """So many requests at once, the last of which closes the connection."""
    request = b"GET /small HTTP/1.1\r\nHost: a\r\n\r\n"
    last = b"GET /small HTTP/1.1\r\nHost: a\r\nConnection: close\r\n\r\n"
    with open(f"{folder}/site/small", "rb") as file:
        answer = file.read()
    came = bytearray()
    with socket.create_connection(("127.0.0.1", port), 30) as it:
        it.setblocking(False)
        left = request * (PIPELINED - 1) + last
        while True:
            try:
                if left:
                    left = left[it.send(left) :]
            except BlockingIOError:
                pass
            try:
                piece = it.recv(1 << 20)
            except BlockingIOError:
                time.sleep(0.0005)
                continue
            if not piece:
                break
            came += piece
    return PIPELINED, PIPELINED - came.count(b"\r\n\r\n" + answer)


def once(load, name, program, folder, origin, words):
    """Processor milliseconds for each request, and how many were answered wrongly."""
    it = relay(name, program, folder, origin.port, load == "edited")
    path = "chunked" if load == "chunked" else "small"
    try:
        wrong = int(load != "upload" and body(it.port, path) != body(origin.port, path))
        before = it.spent()
        if load == "upload":
            asked, failed = by_upload(it.port, folder)
        elif load == "pipelined":
            asked, failed = by_pipeline(it.port, folder)
        else:
            asked, failed = by_wrk(it.port, path, words)
        return (it.spent() - before) / max(asked, 1), wrong + failed
    finally:
        it.end()


def main():
    words = argparse.ArgumentParser()
    words.add_argument("program")
    words.add_argument("--clients", type=int, default=64)
    words.add_argument("--seconds", type=int, default=3)
    words.add_argument("--rounds", type=int, default=3)
    words.add_argument("--only", choices=LOADS)
    words = words.parse_args()
    install()
    program, failed = os.path.abspath(words.program), 0
    with tempfile.TemporaryDirectory() as folder:
        os.chmod(folder, 0o755)
        os.mkdir(f"{folder}/site")
        written(folder, "site/small", "x" * (SMALL - 1) + "\n")
        written(folder, "site/chunked", "y" * (LARGE - 1) + "\n")
        with open(f"{folder}/upload", "wb") as file:
            file.truncate(UPLOADED)
        port = free_port()
        origin = Server(["nginx", "-c", written(folder, "origin.conf", ORIGIN % {"folder": folder, "port": port})], port)
        try:
            for load in [words.only] if words.only else LOADS:
                taken = {"ciravogu": [], "nginx": [], "haproxy": [], **({"nginx njs": []} if load == "edited" else {})}
                for _ in range(words.rounds):
                    for name, rounds in taken.items():
                        rounds.append(once(load, name, program, folder, origin, words))
                middle = {name: statistics.median(spent for spent, _ in rounds) for name, rounds in taken.items()}
                for name, spent in middle.items():
                    wrong = sum(it for _, it in taken[name])
                    failed += wrong if name == "ciravogu" else 0
                    print(f"{load:10} {name:9} {spent * (1 if load == 'upload' else 1000):9.1f} processor ms, "
                          f"{spent / middle['nginx']:5.2f} of nginx's, {wrong} wrong", flush=True)
        finally:
            origin.end()
    return 1 if failed else 0


if __name__ == "__main__":
    sys.exit(main())
