"""Programs that read requests, each of which says what it read: nginx and haproxy, which pass it on to a recorder, node, h11 and http1."""
import json
import subprocess
import sys
import threading
import time

from message_streams import WAIT, Side, connected, free_port, listener, requests

sys.path.append("/usr/lib/python3/dist-packages")
NGINX = """daemon off;
master_process off;
worker_processes 1;
pid %(folder)s/nginx.pid;
error_log stderr crit;
events { worker_connections 256; }
http {
    access_log off;
    underscores_in_headers on;
    client_max_body_size 1g;
    server { listen 127.0.0.1:%(port)d; location / { proxy_pass http://127.0.0.1:%(behind)d; } }
}
"""
HAPROXY = """global
    nbthread 1
defaults
    mode http
    timeout client 20s
    timeout server 20s
    timeout connect 20s
listen l
    bind 127.0.0.1:%(port)d
    server s 127.0.0.1:%(behind)d
"""
NODE = """const http = require("http");
const server = http.createServer((request, response) => {
  const parts = [];
  request.on("data", (it) => parts.push(it));
  request.on("end", () => {
    console.log(JSON.stringify([request.method, request.url, Buffer.concat(parts).toString("hex")]));
    response.end();
  });
});
server.listen(%(port)d, "127.0.0.1");
"""


def by_h11(stream):
    """The requests that h11 reads: method, target and body; and whether it refused what follows, or closes behind one of 1.0."""
    import h11

    reader, found, at, body = h11.Connection(h11.SERVER), [], None, b""
    reader.receive_data(stream)
    try:
        while True:
            event = reader.next_event()
            if event is h11.NEED_DATA or event is h11.PAUSED or isinstance(event, h11.ConnectionClosed):
                return found, False
            if isinstance(event, h11.Request):
                at, body = (event.method.decode("latin-1"), event.target.decode("latin-1")), b""
            elif isinstance(event, h11.Data):
                body += bytes(event.data)
            elif isinstance(event, h11.EndOfMessage):
                found.append((*at, body))
                at = None
                reader.send(h11.Response(status_code=200, headers=[("Content-Length", "0")]))
                reader.send(h11.EndOfMessage())
                if reader.our_state is h11.MUST_CLOSE:
                    return found, True
                reader.start_next_cycle()
    except h11.RemoteProtocolError:
        return found, True


def asked_http1(program, question, size):
    """The messages that `ask_http1` reads, each of so many words, and whether it refused what follows, or closes."""
    ran = subprocess.run([program], input=question + "\n", stdout=subprocess.PIPE, check=True, text=True)
    words = ran.stdout.split()
    how, words = (words[-2], words[:-2]) if words[-2:-1] and words[-2] in ("part", "refused") else (words[-1], words[:-1])
    whole = len(words) // size * size
    return [words[it : it + size] for it in range(0, whole, size)], how not in ("part", "end")


def bytes_of(word):
    return b"" if word == "-" else bytes.fromhex(word)


def by_http1(program, stream):
    found, refused = asked_http1(program, f"requests {stream.hex() or '-'}", 3)
    return [(bytes_of(it).decode("latin-1"), bytes_of(target).decode("latin-1"), bytes_of(body)) for it, target, body in found], refused


class Recorder:
    """A server that keeps what it read of each request."""

    def __init__(self):
        self.port, self.found = free_port(), []
        self.listener = listener(("127.0.0.1", self.port))
        self.listener.settimeout(None)
        threading.Thread(target=self.accept, daemon=True).start()

    def accept(self):
        while True:
            it, _ = self.listener.accept()
            threading.Thread(target=self.read, args=(it,), daemon=True).start()

    def read(self, it):
        side = Side(it)
        while side.more(WAIT):
            found, _ = requests(side.came)
            if found:
                self.found.append(found[0])
                it.sendall(b"HTTP/1.1 200 OK\r\nContent-Length: 0\r\nConnection: close\r\n\r\n")
                break
        it.close()


class RequestReader:
    """A program that reads requests."""

    def __init__(self, name, folder):
        self.name, self.port, self.recorder = name, free_port(), None
        given = {"folder": folder, "port": self.port}
        if name == "node":
            with open(f"{folder}/reader.js", "w", encoding="utf-8") as file:
                file.write(NODE % given)
            self.process = subprocess.Popen(["node", f"{folder}/reader.js"], stdout=subprocess.PIPE, stderr=subprocess.DEVNULL, text=True)
            self.found = []
            threading.Thread(target=self.listen, daemon=True).start()
        else:
            self.recorder = Recorder()
            given["behind"] = self.recorder.port
            self.process = started(name, NGINX if name == "nginx" else HAPROXY, folder, given)
            self.found = self.recorder.found
        connected(self.port).close()

    def listen(self):
        for line in self.process.stdout:
            method, target, body = json.loads(line)
            self.found.append((method, target, bytes.fromhex(body)))

    def read(self, stream, whole):
        """What it reads, and whether it refused or closed."""
        self.found.clear()
        side = Side(connected(self.port))
        side.socket.sendall(stream)
        end = time.time() + (WAIT if whole else 1.0)
        while time.time() < end and not side.ended and "/further" not in {it[1] for it in self.found}:
            side.more(0.02)
        time.sleep(0.02)
        side.socket.close()
        return list(self.found), side.ended or b" 400 " in side.came or b" 501 " in side.came

    def end(self):
        self.process.kill()


def started(name, text, folder, given):
    """nginx or haproxy with this configuration."""
    path = f"{folder}/{name}.{given['port']}.conf"
    with open(path, "w", encoding="utf-8") as file:
        file.write(text % given)
    words = ["nginx", "-c", path] if name == "nginx" else ["haproxy", "-db", "-f", path]
    return subprocess.Popen(words, stdout=subprocess.DEVNULL, stderr=subprocess.DEVNULL)
