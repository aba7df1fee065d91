"""Programs that ask and read responses: curl, node, nginx and haproxy of a server that answers with the parts of a stream, h11 and http1 of its bytes.

Each gives the status and the body of the responses that it read, and whether it refused what follows, or closed. Responses of 1xx aren't
told. A further connection of a reader is closed at once: what it didn't read on the first one it doesn't read.
"""
import json
import subprocess
import sys
import threading
import time

from message_streams import WAIT, Side, connected, free_port, listener, response
from request_readers import asked_http1, bytes_of, started

sys.path.append("/usr/lib/python3/dist-packages")
NGINX = """daemon off;
master_process off;
worker_processes 1;
pid %(folder)s/nginx.%(port)d.pid;
error_log stderr crit;
events { worker_connections 256; }
http {
    access_log off;
    upstream behind { server 127.0.0.1:%(behind)d max_fails=0; keepalive 1; }
    server {
        listen 127.0.0.1:%(port)d;
        location / { proxy_pass http://behind; proxy_http_version 1.1; proxy_set_header Connection ""; proxy_next_upstream off; }
    }
}
"""
HAPROXY = """global
    nbthread 1
defaults
    mode http
    retries 0
    timeout client 20s
    timeout server 20s
    timeout connect 20s
listen l
    bind 127.0.0.1:%(port)d
    http-reuse always
    server s 127.0.0.1:%(behind)d
"""
NODE = """const http = require("http");
const one = (port, agent, method, wait) => new Promise((done) => {
  let late = false;
  const request = http.request({ host: "127.0.0.1", port, agent, method }, (response) => {
    const parts = [];
    response.on("data", (it) => parts.push(it));
    response.on("close", () => done([response.statusCode, Buffer.concat(parts).toString("hex"), response.complete && !late]));
  });
  request.on("error", () => done([0, "", false]));
  request.setTimeout(wait, () => { late = true; request.destroy(); });
  request.end();
});
require("readline").createInterface({ input: process.stdin }).on("line", async (line) => {
  const { port, methods, wait } = JSON.parse(line);
  const agent = new http.Agent({ keepAlive: true, maxSockets: 1 });
  const found = [];
  for (const method of methods) {
    found.push(await one(port, agent, method, wait));
    if (!found[found.length - 1][2]) break;
  }
  agent.destroy();
  console.log(JSON.stringify(found));
});
"""


class Origin:
    """A server whose first connection gets a part of a stream for each request; the others are closed."""

    def __init__(self):
        self.port = free_port()
        self.begin([], False)
        self.listener = listener(("127.0.0.1", self.port))
        self.listener.settimeout(None)
        threading.Thread(target=self.accept, daemon=True).start()

    def begin(self, parts, ends):
        self.parts, self.ends, self.first = list(parts), ends, None

    def accept(self):
        while True:
            it, _ = self.listener.accept()
            if self.first is None:
                self.first = it
                threading.Thread(target=self.answer, args=(it,), daemon=True).start()
            else:
                it.close()

    def answer(self, it):
        side = Side(it)
        while self.parts and side.more(WAIT):
            while self.parts and b"\r\n\r\n" in side.came:
                side.came = side.came.partition(b"\r\n\r\n")[2]
                it.sendall(self.parts.pop(0))
        if self.ends:
            it.close()

    def end(self):
        if self.first is not None:
            self.first.close()
        time.sleep(0.05)


def by_h11(stream, methods, ended):
    import h11

    reader, found = h11.Connection(h11.CLIENT), []
    reader.receive_data(stream)
    if ended:
        reader.receive_data(b"")
    try:
        for method in methods:
            reader.send(h11.Request(method=method, target="/", headers=[("Host", "a")]))
            reader.send(h11.EndOfMessage())
            status, body, event = 0, b"", None
            while not isinstance(event, h11.EndOfMessage):
                event = reader.next_event()
                if event is h11.NEED_DATA or event is h11.PAUSED or isinstance(event, h11.ConnectionClosed):
                    return found, ended
                if isinstance(event, h11.Response):
                    status = event.status_code
                elif isinstance(event, h11.Data):
                    body += bytes(event.data)
            found.append((status, body))
            if reader.our_state is not h11.DONE or reader.their_state is not h11.DONE:
                return found, True
            reader.start_next_cycle()
    except h11.RemoteProtocolError:
        return found, True
    return found, False


def by_http1(program, stream, methods, ended):
    question = f"responses {'ended' if ended else 'open'} {stream.hex() or '-'} {' '.join(methods)}"
    found, refused = asked_http1(program, question, 2)
    return [(int(status), bytes_of(body)) for status, body in found if int(status) >= 200], refused


def by_curl(folder, port, methods, seconds):
    words = ["curl", "--fail-early"]
    for at, method in enumerate(methods):
        open(f"{folder}/curl.{at}", "wb").close()
        words += ["--next"] if at else []
        words += ["-s", "--http1.1", "--max-time", str(seconds), "-o", f"{folder}/curl.{at}", "-w", "%{http_code} %{exitcode}\\n"]
        words += [*(["-I"] if method == "HEAD" else []), f"http://127.0.0.1:{port}/"]
    ran, found = subprocess.run(words, stdout=subprocess.PIPE, text=True), []
    for at, line in enumerate(ran.stdout.split("\n")[:-1]):
        status, code = line.split()
        if code != "0":
            return found, True
        with open(f"{folder}/curl.{at}", "rb") as file:
            found.append((int(status), b"" if methods[at] == "HEAD" else file.read()))
    return found, len(found) < len(methods)


def through(port, methods, seconds):
    """What a proxy before the server gives for the responses that it reads."""
    side, found = Side(connected(port)), []
    for method in methods:
        side.socket.sendall(f"{method} / HTTP/1.1\r\nHost: a\r\n\r\n".encode())
        end, one = time.time() + seconds, None
        while one is None and time.time() < end and not side.ended:
            side.more(0.02)
            one = response(side.came, method, side.ended)
        if one is None or one.status in (502, 504):
            break
        found.append((one.status, one.body))
        side.came = side.came[len(one.raw) :]
        if one.closes:
            break
    side.socket.close()
    return found, len(found) < len(methods)


class ResponseReader:
    """A program that asks over a socket."""

    def __init__(self, name, folder):
        self.name, self.folder, self.port, self.origin, self.process = name, folder, free_port(), Origin(), None
        given = {"folder": folder, "port": self.port, "behind": self.origin.port}
        if name == "node":
            self.process = subprocess.Popen(["node", "-e", NODE], stdin=subprocess.PIPE, stdout=subprocess.PIPE, stderr=subprocess.DEVNULL, text=True)
        elif name != "curl":
            self.process = started(name, NGINX if name == "nginx" else HAPROXY, folder, given)
            connected(self.port).close()

    def read(self, parts, methods, ends, whole):
        """What it reads of the parts of a stream, and whether it refused or closed."""
        self.origin.begin(parts, ends)
        methods, seconds = ["HEAD" if it == "HEAD" else "GET" for it in methods], WAIT if whole else 1.0
        if self.name == "curl":
            read = by_curl(self.folder, self.origin.port, methods, seconds)
        elif self.name == "node":
            read = self.by_node(methods, seconds)
        else:
            read = through(self.port, methods, seconds)
        self.origin.end()
        return read

    def by_node(self, methods, seconds):
        self.process.stdin.write(json.dumps({"port": self.origin.port, "methods": methods, "wait": int(1000 * seconds)}) + "\n")
        self.process.stdin.flush()
        found = [(status, bytes.fromhex(body)) for status, body, whole in json.loads(self.process.stdout.readline()) if whole]
        return found, len(found) < len(methods)

    def end(self):
        if self.process is not None:
            self.process.kill()
