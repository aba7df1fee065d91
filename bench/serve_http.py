#!/usr/bin/env python3
"""Loads the built program's `serve`, nginx and haproxy in turns by wrk: 64 connections that are kept, and `ok` as each answer.

    bench/serve_http.py PROGRAM [--clients 64] [--seconds 3] [--rounds 3]

PROGRAM is crates/ciravogu/out/ciravogu. nginx (with its modules for Lua and for njs), haproxy and wrk are installed from Debian's packages
where they aren't there. Each server has one process and one thread: nginx answers by `return`, by Lua and by njs, haproxy by
`http-request return` and by a service in Lua, the program by `HTTP::respond 200 content ok`. Prints the middle round of each: answers
a second, processor milliseconds for 1,000 answers, and how much that is of nginx's `return`.
"""
import argparse
import os
import re
import shutil
import socket
import statistics
import subprocess
import sys
import tempfile
import time

from serve import free_port, processor

CONFIG = """version = 1
connections = 4096
[[virtual]]
name = "web"
listen = "127.0.0.1:%d"
http = true
rules = ["r"]
[[rule]]
name = "r"
text = "when HTTP_REQUEST { HTTP::respond 200 content ok }"
"""
NGINX = """daemon off;
master_process off;
worker_processes 1;
pid %(folder)s/nginx%(port)d.pid;
error_log stderr crit;
%(modules)s
events { worker_connections 4096; }
http {
    access_log off;
    keepalive_requests 1000000000;
    %(before)s
    server { listen 127.0.0.1:%(port)d; location / { default_type text/plain; %(answer)s } }
}
"""
MODULES = "/usr/lib/nginx/modules"
LUA = f"load_module {MODULES}/ndk_http_module.so; load_module {MODULES}/ngx_http_lua_module.so;"
NJS = f"load_module {MODULES}/ngx_http_js_module.so;"
SERVICE = """core.register_service("answer", "http", function(applet)
    applet:set_status(200)
    applet:add_header("Content-Length", "2")
    applet:start_response()
    applet:send("ok")
end)
"""
HAPROXY = """global
    nbthread 1
    maxconn 4096
    lua-load %(folder)s/answer.lua
defaults
    mode http
    timeout client 5s
    timeout server 5s
    timeout connect 5s
frontend f
    bind 127.0.0.1:%(port)d
    http-request %(answer)s
"""
PACKAGES = ["nginx-core", "libnginx-mod-http-lua", "libnginx-mod-http-js", "haproxy", "wrk"]


def installed():
    if all(shutil.which(it) for it in ("nginx", "haproxy", "wrk")) and os.path.exists(f"{MODULES}/ngx_http_js_module.so"):
        return
    subprocess.run(["apt-get", "update"], stdout=subprocess.DEVNULL, check=True)
    subprocess.run(["apt-get", "install", "-y", *PACKAGES], stdout=subprocess.DEVNULL, check=True)


def servers(program, folder):
    """Each server's name, its command and its port."""
    found = []

    def put(name, text, command):
        port = free_port()
        path = f"{folder}/{port}.conf"
        with open(path, "w") as file:
            file.write(text(port))
        found.append((name, [it.replace("CONF", path) for it in command], port))

    def nginx(modules, before, answer):
        return lambda port: NGINX % {"folder": folder, "port": port, "modules": modules, "before": before, "answer": answer}

    def haproxy(answer):
        return lambda port: HAPROXY % {"folder": folder, "port": port, "answer": answer}

    for name, text in (("answer.lua", SERVICE), ("answer.js", 'export default { ok: (r) => r.return(200, "ok") };\n')):
        with open(f"{folder}/{name}", "w") as file:
            file.write(text)
    put("ciravogu", lambda port: CONFIG % port, [program, "serve", "CONF"])
    put("nginx return", nginx("", "", 'return 200 "ok";'), ["nginx", "-c", "CONF"])
    put("nginx Lua", nginx(LUA, "", 'content_by_lua_block { ngx.print("ok") }'), ["nginx", "-c", "CONF"])
    put("nginx njs", nginx(NJS, f"js_path {folder}; js_import a from answer.js;", "js_content a.ok;"), ["nginx", "-c", "CONF"])
    put("haproxy return", haproxy('return status 200 content-type text/plain string "ok"'), ["haproxy", "-db", "-f", "CONF"])
    put("haproxy Lua", haproxy("use-service lua.answer"), ["haproxy", "-db", "-f", "CONF"])
    return found


def round_of(command, port, words):
    server = subprocess.Popen(command, stderr=subprocess.DEVNULL)
    try:
        for _ in range(100):
            try:
                socket.create_connection(("127.0.0.1", port), 1).close()
                break
            except OSError:
                time.sleep(0.05)
        before = processor(server.pid)
        wrk = ["wrk", "-t2", f"-c{words.clients}", f"-d{words.seconds}s", f"http://127.0.0.1:{port}/"]
        said = subprocess.run(wrk, stdout=subprocess.PIPE, text=True, check=True).stdout
        spent = processor(server.pid) - before
        answers = int(re.search(r"(\d+) requests in", said).group(1))
        wrong = sum(int(it) for it in re.findall(r"Non-2xx or 3xx responses: (\d+)", said))
        return answers / words.seconds, wrong, spent * 1000 / max(answers, 1)
    finally:
        server.terminate()
        server.wait()


def main():
    words = argparse.ArgumentParser()
    words.add_argument("program")
    words.add_argument("--clients", type=int, default=64)
    words.add_argument("--seconds", type=int, default=3)
    words.add_argument("--rounds", type=int, default=3)
    words = words.parse_args()
    installed()
    with tempfile.TemporaryDirectory() as folder:
        found = servers(os.path.abspath(words.program), folder)
        rounds = {name: [] for name, _, _ in found}
        for _ in range(words.rounds):
            for name, command, port in found:
                rounds[name].append(round_of(command, port, words))
    middle = {name: [statistics.median(it[k] for it in taken) for k in (0, 2)] for name, taken in rounds.items()}
    for name, (answers, spent) in middle.items():
        print(f"{name:15} {answers:8.0f} answers a second, {sum(it[1] for it in rounds[name])} wrong, {spent:6.1f} processor ms for 1,000, "
              f"{spent / middle['nginx return'][1]:5.2f} of nginx's return")
    return 1 if any(it[1] for it in rounds["ciravogu"]) else 0


if __name__ == "__main__":
    sys.exit(main())
