#!/usr/bin/env python3
"""Streams of HTTP requests in random cuts, beside a model of what a rule answers them, written from RFC 9112 and docs/GUIDE.md.

    bench/request_cuts.py PROGRAM [SEED [COUNT]]      PROGRAM is a built crates/ciravogu/out/ciravogu

COUNT streams (2,000) of up to six requests each: with bodies of a length and chunked ones, extensions, trailers, empty lines before a
head, HTTP/1.0, Connection, Expect, HEAD, absolute targets, and heads and bodies with faults; some end within a head or a body. Each is
cut at random places, byte by byte at times, and the fragments of forty connections are mixed. A rule answers each request by its number,
method, path and host. The model knows the requests that it draws, and no code of the program; each client's bytes and the
cause of its end are compared.
"""
import random
import subprocess
import sys
import tempfile

CONFIG = """version = 1

[[virtual]]
name = "web"
listen = "127.0.0.1:9000"
http = true
rules = ["r"]

[[rule]]
name = "r"
text = 'when HTTP_REQUEST { HTTP::respond 200 content "[HTTP::request_num] [HTTP::method] [HTTP::path] [HTTP::host]" }'
"""
AT_ONCE = 40


def answer(text, closes, head):
    """What `HTTP::respond 200 content TEXT` sends."""
    connection = "close" if closes else "Keep-Alive"
    lines = ["HTTP/1.0 200 OK", "Server: BigIP", f"Connection: {connection}", f"Content-Length: {len(text)}", "", ""]
    return ("\r\n".join(lines) + ("" if head else text)).encode()


def refusal(fault):
    first = "501 Not Implemented" if fault == 8 else "400 Bad Request"
    return f"HTTP/1.0 {first}\r\nServer: BigIP\r\nConnection: close\r\nContent-Length: 0\r\n\r\n".encode()


class Stream:
    """Bytes of a client, what it is sent for them, and why the connection finishes, if it does."""

    def __init__(self, draw):
        self.draw, self.sends, self.due, self.cause, self.number = draw, b"", b"", None, 0
        for _ in range(draw.randint(1, 6)):
            if self.cause is None:
                self.request()
        self.ends = draw.random() < 0.7
        if self.ends and self.cause is None:
            self.end()

    def request(self):
        draw = self.draw
        if draw.random() < 0.1:
            return self.faulty()
        method = draw.choice(["GET", "GET", "HEAD", "POST", "PUT", "DELETE", "get"])
        version = draw.choice(["1.1", "1.1", "1.1", "1.0"])
        path = "/" + "".join(draw.choice("abc/") for _ in range(draw.randint(0, 6)))
        query = draw.choice(["", "?x=1", "?"])
        host, fields = "h.example:80", ["Host: h.example:80"]
        target = path + query
        if draw.random() < 0.1:
            host, target = "other:81", "http://other:81" + target
        fields += draw.choice([[], ["X-A: b"], ["Accept:  */*\t", "Cookie: a=b"]])
        option = draw.choice([None, None, "close", "Close, x-a", "keep-alive", "Keep-Alive"])
        if option:
            fields.append(f"Connection: {option}")
        persists = not (option or "").lower().startswith("close") and (version == "1.1" or (option or "").lower() == "keep-alive")
        body, framing = self.body(version)
        fields += framing
        expects = draw.random() < 0.1
        if expects:
            fields.append("Expect: 100-Continue")
        waits = expects and version == "1.1" and bool(framing)
        draw.shuffle(fields)
        self.sends += b"\r\n" * draw.choice([0, 0, 0, 1, 2])
        self.sends += "\r\n".join([f"{method} {target} HTTP/{version}", *fields, "", ""]).encode() + body
        self.number += 1
        closes = not persists or waits
        self.due += answer(f"{self.number} {method} {path} {host}", not persists, method == "HEAD") if not waits else answer(
            f"{self.number} {method} {path} {host}", True, method == "HEAD")
        if closes:
            self.cause = "closed"

    def body(self, version):
        """The bytes of a body, and the fields that say how long it is."""
        draw = self.draw
        text = bytes(draw.choice(b"abc\r\n0") for _ in range(draw.randint(0, 12)))
        kind = draw.choice(["none", "none", "length", "chunked" if version == "1.1" else "length"])
        if kind == "none":
            return b"", []
        if kind == "length":
            return text, [f"Content-Length: {len(text)}"] * draw.choice([1, 1, 2])
        chunks = b""
        while text:
            n = draw.randint(1, len(text))
            digits = draw.choice([f"{n:x}", f"{n:X}", f"{n:03x}"])
            chunks += f"{digits}{draw.choice(['', ';a', ';a=b'])}\r\n".encode() + text[:n] + b"\r\n"
            text = text[n:]
        trailers = draw.choice([b"", b"X-T: 1\r\n", b"A: b\r\nC: d\r\n"])
        return chunks + draw.choice([b"0", b"00", b"0;x"]) + b"\r\n" + trailers + b"\r\n", ["Transfer-Encoding: Chunked"]

    def faulty(self):
        """A head with a fault, or a body with one behind an answer."""
        heads = [
            (1, "GET / HTTP/1.1\r\nHost : a\r\n\r\n"),
            (1, "GET / HTTP/1.2\r\nHost: a\r\n\r\n"),
            (1, "GET ftp://a/ HTTP/1.1\r\nHost: a\r\n\r\n"),
            (3, "GET / HTTP/1.1\r\n\r\n"),
            (3, "GET / HTTP/1.1\r\nHost: a\r\nHost: a\r\n\r\n"),
            (3, "GET / HTTP/1.1\r\nHost: a,b\r\n\r\n"),
            (4, "POST / HTTP/1.1\r\nHost: a\r\nContent-Length: 3\r\nTransfer-Encoding: chunked\r\n\r\n"),
            (4, "POST / HTTP/1.1\r\nHost: a\r\nContent-Length: 3\r\nContent-Length: 4\r\n\r\n"),
            (4, "POST / HTTP/1.0\r\nTransfer-Encoding: chunked\r\n\r\n"),
            (4, "POST / HTTP/1.1\r\nHost: a\r\nTransfer-Encoding: gzip, chunked\r\n\r\n"),
            (8, "CONNECT a:1 HTTP/1.1\r\nHost: a\r\n\r\n"),
            (5, "POST / HTTP/1.1\r\nHost: a\r\nTransfer-Encoding: chunked\r\n\r\n2\r\nabc\r\n"),
            (5, "POST / HTTP/1.1\r\nHost: a\r\nTransfer-Encoding: chunked\r\n\r\n0\r\nA: b\n\r\n\r\n"),
        ]
        fault, text = self.draw.choice(heads)
        self.sends += text.encode()
        if fault == 5:
            self.number += 1
            self.due += answer(f"{self.number} POST / a", False, False)
        self.due += refusal(fault)
        self.cause = f"http {fault}"

    def end(self):
        """The client's end, between requests, or within a head or a body."""
        within = self.draw.choice(["between", "between", "head", "body"])
        if within == "head":
            self.sends += b"GET / HT"
            self.due += refusal(1)
        if within == "body":
            self.sends += b"POST /p HTTP/1.1\r\nHost: a\r\nContent-Length: 5\r\n\r\nab"
            self.number += 1
            self.due += answer(f"{self.number} POST /p a", False, False)
        self.cause = {"between": "closed", "head": "http 1", "body": "http 6"}[within]

    def fragments(self):
        """Its bytes, cut at random places."""
        rest, size = self.sends, self.draw.choice([1, 3, 20, 200])
        while rest:
            n = self.draw.randint(1, size)
            yield rest[:n]
            rest = rest[n:]


def schedule(draw, streams):
    lines = [f"accept {c} web 10.0.0.9 {4000 + c}" for c, _ in enumerate(streams, 1)]
    queues = {c: [f"client {c} {f.hex()}" for f in s.fragments()] + [f"client-end {c}"] * s.ends for c, s in enumerate(streams, 1)}
    while queues:
        c = draw.choice(list(queues))
        lines.append(queues[c].pop(0))
        if not queues[c]:
            del queues[c]
        lines += ["run"] * draw.choice([0, 0, 1, 2])
    lines += ["run"] * (8 * len(streams))
    lines += [f"client-took {c} {len(s.due)}" for c, s in enumerate(streams, 1) if s.due]
    return "\n".join(lines) + "\n"


def due(streams):
    """The lines of the report, but for their order and the last one."""
    lines = []
    for c, s in enumerate(streams, 1):
        lines.append(f"> client {c} {s.due.hex() or '-'}")
        if s.cause is None:
            lines.append(f"> open {c} 0 0")
        else:
            lines += [f"> finish {c} {s.cause}", f"> close-client {c}", f"> ended {c} 0"]
    return sorted(lines)


def main():
    program, seed, count = sys.argv[1], int((sys.argv[2:3] or ["1"])[0]), int((sys.argv[3:4] or ["2000"])[0])
    draw, compared = random.Random(seed), 0
    with tempfile.TemporaryDirectory() as folder:
        open(f"{folder}/c.toml", "w").write(CONFIG)
        while compared < count:
            streams = [Stream(draw) for _ in range(min(AT_ONCE, count - compared))]
            open(f"{folder}/s.txt", "w").write(schedule(draw, streams))
            run = subprocess.run([program, "replay", "c.toml", "s.txt"], cwd=folder, stdout=subprocess.PIPE, text=True, timeout=60)
            got, wanted = sorted(run.stdout.splitlines()[:-1]), due(streams)
            if run.returncode or got != wanted:
                print(f"stream {compared}..: status {run.returncode}")
                for line in sorted(set(wanted) ^ set(got))[:6]:
                    print(("  due " if line in wanted else "  got ") + line[:300])
                open("request_cuts.txt", "w").write(schedule(random.Random(seed), streams))
                sys.exit(1)
            compared += len(streams)
    print(f"{compared} streams of requests in random cuts are answered as the model answers them")


if __name__ == "__main__":
    main()
