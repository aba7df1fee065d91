#!/usr/bin/env python3
"""Proxies HTTP between clients and a server of this script for a time with a journal, and replays the journal to the same bytes.

    bench/http_soak.py PROGRAM [--minutes 1] [--clients 8] [--pause 0.0]

PROGRAM is crates/ciravogu/out/ciravogu. Clients send up to eight requests on a connection, some of them at once, with bodies of a told
length or in chunks, cut anywhere, and some go in the middle of it. The server answers with told lengths, chunks, bodies to its stream's
end, 204 and 304, responses before the final one and heads that can't be read, and closes now and then. A rule tells it
the client's port, answers some requests itself, at once or by their body, gives some server connections up, and gathers bodies of both sides,
some of them whole, and replaces what it gathered. Then the program is ended and its journal is replayed: what a client or a server
connection got must be a front of what the replay gives it, and what a client got up to the end all of it. Prints one line.
"""
import argparse
import os
import random
import socket
import subprocess
import sys
import tempfile
import threading
import time

from serve import free_port

CONFIG = """version = 1
connections = 512
[[virtual]]
name = "v"
listen = "127.0.0.1:%d"
http = true
pool = "p"
rules = ["r"]
[[pool]]
name = "p"
members = [{ addr = "127.0.0.1:%d" }, { addr = "127.0.0.1:%d" }]
[[rule]]
name = "r"
text = '''
when LB_FAILED { HTTP::respond 503 content "none\\n" }
when HTTP_REQUEST {
    HTTP::header insert X-Port [TCP::client_port]
    if {[HTTP::path] equals "/answered"} { HTTP::respond 200 -version 1.1 content "by a rule\\n" }
    if {[HTTP::path] equals "/left"} { LB::detach }
    if {[HTTP::path] equals "/counted"} { HTTP::collect }
    if {[HTTP::path] equals "/gathered"} { HTTP::collect 3000 }
}
when HTTP_REQUEST_DATA {
    set size [HTTP::payload length]
    if {[HTTP::path] equals "/counted"} { HTTP::respond 200 -version 1.1 content "gathered $size\n" } elseif {$size > 0} {
        HTTP::payload replace 0 1 "<$size>"
        HTTP::release
    }
}
when HTTP_RESPONSE {
    HTTP::header remove Server
    HTTP::header insert X-Status [HTTP::status]
    if {[HTTP::header exists X-Gather]} { HTTP::collect [HTTP::header X-Gather] }
}
when HTTP_RESPONSE_DATA {
    catch { HTTP::payload replace 0 [HTTP::payload length] "in place of [HTTP::payload length]" }
}
'''
"""
PATHS = ["/a", "/b?c=1", "/answered", "/left", "/counted", "/gathered", "/" + "x" * 900]


def chunks(kinds, body):
    """A chunked body, some of its lines with extensions."""
    out = b""
    while body:
        n = kinds.randint(1, min(len(body), 40_000))
        out += b"%x%s\r\n%s\r\n" % (n, kinds.choice((b"", b";x=1")), body[:n])
        body = body[n:]
    return out + b"0\r\n" + kinds.choice((b"", b"T: 1\r\n")) + b"\r\n"


def body_of(kinds):
    return kinds.randbytes(kinds.choice((0, 1, 200, 5_000, 70_000)))


def request(kinds, last):
    head = f"{kinds.choice(('GET', 'POST', 'HEAD', 'PUT'))} {kinds.choice(PATHS)} HTTP/1.{int(kinds.random() < 0.9)}\r\nHost: a\r\n".encode()
    if last or kinds.random() < 0.05:
        head += b"Connection: close\r\n"
    how = kinds.randrange(3)
    if how == 0:
        return head + b"\r\n"
    body = body_of(kinds)
    if how == 1 or b"HTTP/1.0" in head:
        return head + b"Content-Length: %d\r\n\r\n" % len(body) + body
    return head + b"Transfer-Encoding: chunked\r\n\r\n" + chunks(kinds, body)


def response(kinds, method):
    """A response, and whether the connection is to be closed behind it."""
    how = kinds.randrange(12)
    head = b"HTTP/1.1 200 OK\r\nServer: s\r\n" + kinds.choice((b"", b"", b"X-Gather: 1\r\n", b"X-Gather: 4000\r\n", b"X-Gather: 1048576\r\n"))
    body = b"" if method == b"HEAD" else body_of(kinds)
    before = b"HTTP/1.1 103 Early Hints\r\nLink: x\r\n\r\n" if kinds.random() < 0.1 else b""
    if how < 4:
        return before + head + b"Content-Length: %d\r\n\r\n" % len(body) + body, False
    if how < 8:
        return before + head + b"Transfer-Encoding: chunked\r\n\r\n" + (b"" if method == b"HEAD" else chunks(kinds, body)), False
    if how == 8:
        return b"HTTP/1.1 %s\r\n\r\n" % kinds.choice((b"204 No Content", b"304 Not Modified\r\nContent-Length: 5")), False
    if how == 9:
        return head + b"\r\n" + body, True
    if how == 10:
        return head + b"Connection: close\r\nContent-Length: %d\r\n\r\n" % len(body) + body, True
    return kinds.choice((b"HTTP/1.1 2\r\n\r\n", b"", head + b"Content-Length: 9\r\n\r\nshort")), True


class Peer:
    """A link, and all that came of it."""

    def __init__(self, link):
        self.link, self.came, self.ended = link, b"", False
        link.settimeout(20)

    def more(self):
        try:
            piece = self.link.recv(65536)
        except OSError:
            return False
        self.came += piece
        self.ended = not piece
        return bool(piece)


def whole(stream):
    """How many bytes the first request of a stream takes, once it came whole (heads and chunks as the proxy writes them)."""
    at = stream.find(b"\r\n\r\n")
    if at < 0:
        return None
    head, at = stream[:at].lower(), at + 4
    if b"\r\ntransfer-encoding:" not in head:
        length = head.partition(b"\r\ncontent-length:")[2].partition(b"\r\n")[0]
        at += int(length or b"0")
        return at if len(stream) >= at else None
    while True:
        line = stream.find(b"\r\n", at)
        if line < 0:
            return None
        size = int(stream[at:line], 16)
        at = line + 2 + size + 2
        if len(stream) < at:
            return None
        if size == 0:
            return at


class Origin:
    def __init__(self, port, got):
        self.it, self.got = socket.create_server(("127.0.0.1", port), backlog=256), got
        threading.Thread(target=self.run, daemon=True).start()

    def run(self):
        while True:
            link = self.it.accept()[0]
            threading.Thread(target=self.one, args=(link,), daemon=True).start()

    def one(self, link):
        peer, done = Peer(link), 0
        closes = False
        while not closes:
            size = whole(peer.came[done:])
            if size is None:
                if not peer.more():
                    break
                continue
            kinds = random.Random(peer.came[done : done + size])
            out, closes = response(kinds, peer.came[done:].partition(b" ")[0])
            done += size
            try:
                link.sendall(out)
            except OSError:
                break
        link.close()
        port = peer.came.partition(b"\r\nX-Port: ")[2].partition(b"\r\n")[0]
        if port:
            self.got.append((int(port), peer.came))


def client(port, seed, got):
    kinds = random.Random(seed)
    with socket.create_connection(("127.0.0.1", port), 20) as link:
        own, peer = link.getsockname()[1], Peer(link)
        reader = threading.Thread(target=lambda: [None for _ in iter(peer.more, False)], daemon=True)
        reader.start()
        count = kinds.randint(1, 8)
        out = b"".join(request(kinds, it == count - 1) for it in range(count))
        if kinds.random() < 0.1:
            out = out[: kinds.randrange(len(out))]
        try:
            while out:
                n = kinds.choice((1, 7, 500, 20_000, len(out)))
                link.sendall(out[:n])
                out = out[n:]
            if kinds.random() < 0.2:
                link.shutdown(socket.SHUT_WR)
        except OSError:
            pass
        reader.join(kinds.choice((0.01, 10, 10, 10)))
        got.append((own, peer.came, peer.ended))


def replayed(program, config, journal):
    with open(journal, encoding="utf-8") as file:
        ports = [int(line.split()[4]) for line in file if line.startswith("accept ")]
    ran = subprocess.run([program, "replay", config, journal], stdout=subprocess.PIPE, text=True)
    clients, servers = {}, {}
    for line in ran.stdout.splitlines():
        words = line.split()
        if words[1] in ("client", "server"):
            given = b"" if words[-1] == "-" else bytes.fromhex(words[-1])
            port = ports[int(words[2]) - 1]
            (clients if words[1] == "client" else servers).setdefault(port, []).append(given)
    return ran.returncode, clients, servers


def main():
    words = argparse.ArgumentParser()
    words.add_argument("program")
    words.add_argument("--minutes", type=float, default=1)
    words.add_argument("--clients", type=int, default=8)
    words.add_argument("--pause", type=float, default=0.0)
    words = words.parse_args()
    program, clients, servers = os.path.abspath(words.program), [], []
    with tempfile.TemporaryDirectory() as folder:
        config, journal, ports = f"{folder}/config.toml", f"{folder}/journal", [free_port() for _ in range(3)]
        with open(config, "w", encoding="utf-8") as file:
            file.write(CONFIG % tuple(ports))
        for port in ports[1:]:
            Origin(port, servers)
        process = subprocess.Popen([program, "serve", config, "--record", journal], stderr=subprocess.PIPE)
        time.sleep(1)
        end, seeds = time.time() + words.minutes * 60, iter(range(1 << 60))

        def work():
            while time.time() < end:
                try:
                    client(ports[0], next(seeds), clients)
                except OSError:
                    pass
                time.sleep(words.pause)

        workers = [threading.Thread(target=work) for _ in range(words.clients)]
        for it in workers:
            it.start()
        for it in workers:
            it.join()
        time.sleep(2)
        alive = process.poll() is None
        process.kill()
        process.wait()
        status, given, taken = replayed(program, config, journal)
        bad = sum(not any(it == came if ended else it.startswith(came) for it in given.get(port, [])) for port, came, ended in list(clients))
        bad += sum(not any(it.startswith(came) for it in taken.get(port, [])) for port, came in list(servers))
        size = os.path.getsize(journal) / 1e6
    print(f"{len(clients)} clients, {len(servers)} server connections, {bad} otherwise than replayed; a journal of {size:.1f} MB, "
          f"replayed with status {status}; serving {'went on' if alive else 'ENDED'}")
    return int(bool(bad) or status or not alive)


if __name__ == "__main__":
    sys.exit(main())
