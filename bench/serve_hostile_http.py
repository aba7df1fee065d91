#!/usr/bin/env python3
"""Sends heads that do harm to `serve`, on 127.0.0.1, and sees what each is answered, what it costs, and that others are served meanwhile.

    bench/serve_hostile_http.py PROGRAM [--bytes-singly 65000]

PROGRAM is crates/ciravogu/out/ciravogu. Of each head stands below what is due: 200 of the rule, or 400 and the end. Those that come byte by
byte, and 65,536 bytes that hold no head, may take a second of the processor each, and 16 MB in all.
"""
import argparse
import os
import socket
import subprocess
import sys
import tempfile
import time

from serve import free_port, processor, resident

CONFIG = """version = 1
[[virtual]]
name = "web"
listen = "127.0.0.1:%d"
http = true
rules = ["r"]
[[rule]]
name = "r"
text = "when HTTP_REQUEST { HTTP::respond 200 content ok }"
"""
OK, BAD = b"HTTP/1.0 200 OK", b"HTTP/1.0 400 Bad Request"
GET = b"GET / HTTP/1.1\r\nHost: a\r\n"
HELLO = bytes.fromhex("16030100c8010000c40303") + bytes(range(1, 190))
CHUNKED = b"POST / HTTP/1.1\r\nHost: a\r\nTransfer-Encoding: chunked\r\n\r\n"


def heads(singly):
    """A name, the bytes, how many at a time, and what is due; a size of None where the client's end comes behind them."""
    long = GET + b"X: " + b"y" * (singly - len(GET) - 7) + b"\r\n\r\n"
    return [
        ("a head byte by byte", long, 1, OK),
        ("65,536 bytes of CR LF", b"\r\n" * 32768, 65536, BAD),
        ("65,536 bytes of CR LF byte by byte", b"\r\n" * 32768, 1, BAD),
        ("65,536 bytes without an end", GET + b"X: " + b"y" * 65536, 65536, BAD),
        ("101 fields", b"GET / HTTP/1.1\r\n" + b"Host: a\r\n" + b"X: y\r\n" * 100 + b"\r\n", 65536, BAD),
        ("100 fields", b"GET / HTTP/1.1\r\n" + b"Host: a\r\n" + b"X: y\r\n" * 99 + b"\r\n", 65536, OK),
        ("a NUL", GET + b"X: a\0b\r\n\r\n", 65536, BAD),
        ("LF alone, and the end", b"GET / HTTP/1.1\nHost: a\n\n", None, BAD),
        ("a line that is folded", GET + b"X: a\r\n b\r\n\r\n", 65536, BAD),
        ("two lengths", GET + b"Content-Length: 1\r\nContent-Length: 2\r\n\r\n", 65536, BAD),
        ("a length with chunked", GET + b"Content-Length: 1\r\nTransfer-Encoding: chunked\r\n\r\n", 65536, BAD),
        ("an absolute target", b"GET http://b/ HTTP/1.1\r\nHost: a\r\n\r\n", 65536, OK),
        ("HTTP/0.9", b"GET /\r\n\r\n", 65536, BAD),
        ("HTTP/2 with prior knowledge", b"PRI * HTTP/2.0\r\n\r\nSM\r\n\r\n", 65536, BAD),
        ("a ClientHello of TLS, and the end", HELLO, None, BAD),
        ("a chunk line byte by byte", CHUNKED + b"1;" + b"x" * 4000 + b"\r\na\r\n0\r\n\r\n", 1, OK),
        ("trailers byte by byte", CHUNKED + b"0\r\nX: " + b"y" * 59900 + b"\r\n\r\n", 1, OK),
    ]


def asked(port, sends, size):
    """The first line that comes, and whether the end comes behind what was sent."""
    it = socket.create_connection(("127.0.0.1", port), 60)
    it.setsockopt(socket.IPPROTO_TCP, socket.TCP_NODELAY, 1)
    try:
        for k in range(0, len(sends), size or len(sends)):
            it.sendall(sends[k:k + (size or len(sends))])
        if size is None:
            it.shutdown(socket.SHUT_WR)
        return it.recv(4096).split(b"\r\n")[0]
    except OSError as why:
        return str(why).encode()
    finally:
        it.close()


def main():
    words = argparse.ArgumentParser()
    words.add_argument("program")
    words.add_argument("--bytes-singly", type=int, default=65000)
    words = words.parse_args()
    port, failed = free_port(), 0
    with tempfile.TemporaryDirectory() as folder:
        open(f"{folder}/web.toml", "w").write(CONFIG % port)
        program = subprocess.Popen([os.path.abspath(words.program), "serve", f"{folder}/web.toml"])
        try:
            time.sleep(0.5)
            for name, sends, size, due in heads(words.bytes_singly):
                before = processor(program.pid)
                got = asked(port, sends, size)
                beside = asked(port, GET + b"\r\n", 65536)
                spent = processor(program.pid) - before
                good = got == due and beside == OK and spent < 1000 and resident(program.pid) < 16384
                failed += not good
                print(f"{'' if good else 'NOT '}as due: {name}: {got.decode(errors='replace')}, {spent:.0f} processor ms, "
                      f"{resident(program.pid)} KB resident", flush=True)
        finally:
            program.terminate()
            program.wait()
    return 1 if failed else 0


if __name__ == "__main__":
    sys.exit(main())
