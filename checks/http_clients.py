"""For checks/http: the bytes of answers, clients that behave and clients that do not, and the server that they talk to."""
import os
import re
import resource
import select
import signal
import socket
import struct
import subprocess
import tempfile
import time

JSON = "application/json"
TEXT = "text/plain; charset=utf-8"
PHRASES = {200: "OK", 400: "Bad Request", 403: "Forbidden", 404: "Not Found", 405: "Method Not Allowed", 409: "Conflict", 411: "Length Required",
           413: "Payload Too Large", 415: "Unsupported Media Type", 431: "Request Header Fields Too Large", 500: "Internal Server Error",
           503: "Service Unavailable"}
PATIENCE = 60  # seconds that a check waits for what should come sooner
RESET, SILENCE = b"<reset>", b"<no end>"


def answer(status, body, form=JSON):
    """A whole answer, by the sentence on answers: the status line, three fields, an empty line, the body."""
    body = body.encode()
    head = f"HTTP/1.1 {status} {PHRASES[status]}\r\ncontent-type: {form}\r\ncontent-length: {len(body)}\r\nconnection: close\r\n\r\n"
    return head.encode() + body


def calendar(body):
    """The answer with a calendar, whose length is not told."""
    return f"HTTP/1.1 200 OK\r\ncontent-type: {TEXT}\r\nconnection: close\r\n\r\n{body}".encode()


def number(value):
    return answer(200, f'{{"number":{value}}}\n')


def refused(value, name, field=None):
    first = f'"field":"{field}",' if field else ""
    return answer(409, f'{{{first}"name":"{name}","refused":{value}}}\n')


def fault(value, name, field=None):
    between = f'"field":"{field}",' if field else ""
    return answer(400, f'{{"fault":{value},{between}"name":"{name}"}}\n')


def error(status, word):
    return answer(status, f'{{"error":"{word}"}}\n')


def get(target, fields="", host="x"):
    return f"GET {target} HTTP/1.1\r\nHost: {host}\r\n{fields}\r\n".encode()


def post(body, fields=""):
    body = body.encode()
    return f"POST /commands HTTP/1.1\r\nHost: x\r\n{fields}Content-Length: {len(body)}\r\n\r\n".encode() + body


def rest(sock):
    """All that still comes, with a mark where the connection was reset or did not end."""
    came = []
    try:
        while piece := sock.recv(1 << 16):
            came.append(piece)
    except ConnectionResetError:
        came.append(RESET)
    except TimeoutError:
        came.append(SILENCE)
    return b"".join(came)


def reset(sock):
    """Closes a connection by a reset."""
    sock.setsockopt(socket.SOL_SOCKET, socket.SO_LINGER, struct.pack("ii", 1, 0))
    sock.close()


def send_slowly(sock, request):
    """Sends a byte a second, until all are sent or the server ended the connection. How many seconds that took."""
    begun = time.monotonic()
    for byte in request:
        try:
            sock.send(bytes([byte]))
        except OSError:
            break
        if select.select([sock], [], [], 1)[0]:
            break
    return time.monotonic() - begun


def limited(most):
    """What a child does first so that no file of its grows past a size: a write past it fails, and no signal ends it."""
    def prepare():
        signal.signal(signal.SIGXFSZ, signal.SIG_IGN)
        resource.setrlimit(resource.RLIMIT_FSIZE, (most, most))
    return prepare


class Server:
    """A run of `docketctl serve` at a port, or at the socket of a path, and how many connections it still takes; without a count it is endless."""

    begun_so_far = []

    def __init__(self, program, file, count, port=0, most=None, surroundings=None, words=(), path=None):
        self.left, self.seen, self.errors = count or 0, 0, tempfile.TemporaryFile()
        self.path, place = path, ["--socket", path] if path else ["--port", str(port)]
        words = [program, "serve", "--db", file, *place, *(["--count", str(count)] if count else ["--endless"]), *words]
        self.process = subprocess.Popen(words, stdin=subprocess.DEVNULL, stdout=subprocess.PIPE, stderr=self.errors,
                                        preexec_fn=limited(most) if most else None, env=surroundings)
        self.begun_so_far.append(self)
        ready = select.select([self.process.stdout], [], [], PATIENCE)[0]
        self.line = self.process.stdout.readline() if ready else b""
        found = re.fullmatch(rb"listening on 127\.0\.0\.1:([1-9][0-9]*)\n", self.line)
        self.port = int(found[1]) if found else 0

    def taken(self):
        self.left -= 1
        return self.port

    def connect(self, room=None):
        """A connection, whose client has room for so many bytes that it did not read yet."""
        sock = socket.socket(socket.AF_UNIX if self.path else socket.AF_INET)
        if not self.path:
            sock.setsockopt(socket.IPPROTO_TCP, socket.TCP_NODELAY, 1)
        if room:
            sock.setsockopt(socket.SOL_SOCKET, socket.SO_RCVBUF, room)
        sock.settimeout(PATIENCE)
        port = self.taken()
        sock.connect(self.path or ("127.0.0.1", port))
        return sock

    def begun(self, request, room=None):
        """A connection on which so much was sent."""
        sock = self.connect(room)
        sock.sendall(request)
        return sock

    def ask(self, request, size=1 << 30):
        """What comes for a request that is sent in pieces of a size."""
        with self.connect() as sock:
            for start in range(0, len(request), size):
                sock.sendall(request[start:start + size])
            return rest(sock)

    def curl(self, *words, body=None, targets=()):
        """What curl shows for one target, or for several: each answer whole, with its head."""
        place = ["--unix-socket", self.path] if self.path else []
        ports = [self.taken() for _ in targets]
        urls = [f"http://localhost{target}" if self.path else f"http://127.0.0.1:{port}{target}" for port, target in zip(ports, targets)]
        done = subprocess.run(["curl", "-q", "-sSi", "--noproxy", "*", "--max-time", str(PATIENCE), *place, *words, *urls],
                              input=body, stdout=subprocess.PIPE, stderr=subprocess.DEVNULL, check=False)
        return done.stdout

    def told(self):
        """The lines of standard error that came since this was asked last."""
        new = os.pread(self.errors.fileno(), 1 << 20, self.seen)
        self.seen += len(new)
        return new.decode().splitlines()

    def end(self):
        """The exit status of a run that ends by itself, and what it still wrote."""
        try:
            output, _ = self.process.communicate(timeout=PATIENCE)
        except subprocess.TimeoutExpired:
            self.kill()
            return "did not end", b""
        return self.process.returncode, output

    def kill(self):
        if self.process.poll() is None:
            self.process.kill()
            self.process.communicate()

    def let_go(self):
        """Closes what is still open of a run that ended, and forgets it."""
        self.process.stdout.close()
        self.errors.close()
        self.begun_so_far.remove(self)
