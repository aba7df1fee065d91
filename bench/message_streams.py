"""Streams of HTTP whose heads and chunk lines are in order, read strictly by RFC 9112 (6 and 7); and sockets to read them from."""
import collections
import socket
import time

WAIT = 20.0
Response = collections.namedtuple("Response", "raw status body closes")


def free_port():
    with socket.socket() as it:
        it.bind(("127.0.0.1", 0))
        return it.getsockname()[1]


def listener(address):
    it = socket.socket()
    it.setsockopt(socket.SOL_SOCKET, socket.SO_REUSEADDR, 1)
    it.bind(address)
    it.listen(64)
    it.settimeout(WAIT)
    return it


def connected(port, seconds=60):
    end = time.time() + seconds
    while True:
        try:
            return socket.create_connection(("127.0.0.1", port), 1)
        except OSError:
            if time.time() > end:
                raise
            time.sleep(0.01)


class Side:
    """A socket, and what came of it."""

    def __init__(self, it):
        self.socket, self.came, self.ended = it, b"", False

    def more(self, seconds):
        self.socket.settimeout(seconds)
        try:
            piece = self.socket.recv(1 << 20)
        except (TimeoutError, BlockingIOError):
            return False
        except OSError:
            piece = b""
        self.came += piece
        self.ended = not piece
        return not self.ended

    def reach(self, length):
        while len(self.came) < length and not self.ended and self.more(WAIT):
            pass

    def rest(self, due):
        """All that is due, and what comes of more in a moment."""
        self.reach(due)
        while not self.ended and self.more(0.05):
            pass


def fields_of(head):
    """The first line of a head, and its fields."""
    first, *lines = head.split(b"\r\n")
    return first, {name.lower(): value.strip() for name, _, value in (it.partition(b":") for it in lines)}


def chunked(stream):
    """A chunked body without extensions and trailers, and what is behind it; None where it isn't whole."""
    body = b""
    while True:
        line, crlf, rest = stream.partition(b"\r\n")
        size = int(line, 16) if crlf else 0
        if not crlf or len(rest) < size + 2:
            return None, b""
        if size == 0:
            return body, rest[2:]
        body, stream = body + rest[:size], rest[size + 2 :]


def sized(stream, size):
    return (stream[:size], stream[size:]) if len(stream) >= size else (None, b"")


def requests(stream):
    """The method, the target and the body of each request of a stream, and whether the last isn't whole."""
    found = []
    while True:
        head, crlf2, rest = stream.partition(b"\r\n\r\n")
        if not crlf2:
            return found, bool(stream)
        first, fields = fields_of(head)
        method, target, _ = first.decode("latin-1").split(" ")
        if b"transfer-encoding" in fields:
            body, rest = chunked(rest)
        else:
            body, rest = sized(rest, int(fields.get(b"content-length", 0)))
        if body is None:
            return found, True
        found.append((method, target, body))
        stream = rest


def response(stream, method, ended):
    """The first response of a stream to a request of this method, with those of 1xx before it; None where it isn't whole."""
    at, status = 0, 100
    while status < 200:
        head, crlf2, rest = stream[at:].partition(b"\r\n\r\n")
        if not crlf2:
            return None
        at += len(head) + 4
        first, fields = fields_of(head)
        status = int(first.split(b" ")[1])
    option = fields.get(b"connection", b"").lower()
    closes = option == b"close" or (first.startswith(b"HTTP/1.0") and option != b"keep-alive")
    if method == "HEAD" or status in (204, 304):
        body, behind = b"", rest
    elif b"transfer-encoding" in fields:
        body, behind = chunked(rest)
    elif b"content-length" in fields:
        body, behind = sized(rest, int(fields[b"content-length"]))
    else:
        body, behind, closes = rest if ended else None, b"", True
    return None if body is None else Response(stream[: len(stream) - len(behind)], status, body, closes)


def responses(stream, methods, ended):
    """The responses of a stream to requests of these methods, and what is behind them."""
    found = []
    for method in methods:
        one = response(stream, method, ended)
        if one is None:
            break
        found.append(one)
        stream = stream[len(one.raw) :]
        if one.closes:
            break
    return found, stream
