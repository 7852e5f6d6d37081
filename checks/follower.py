#!/usr/bin/env python3
"""Follows a log of commands in NATS JetStream: gives each command in the order of the log to a docket that is served, and goes to the next once the
answer is whole. PLACE is a file of its own with the place in the log up to which commands are answered; it is written to the disk before the next
command is given. So after a stop at most the last command is given again, which then does what it did. Batches would not: a refused
command has no receipt, and given again behind others it may act. Prints for each command its place, the milliseconds since it came into the log, and
the answer. Usage: follower.py SERVERS PORT PLACE, with SERVERS as 127.0.0.1:4222,127.0.0.1:4223 and PORT that of the docket"""

import base64
import calendar
import fcntl
import http.client
import itertools
import json
import os
import socket
import sys
import time

STREAM = "DOCKET"
SUBJECT = "docket.commands"
PATIENCE = 3  # seconds that a server is waited for, and then the next is asked
ANSWERED = (200, 400, 409, 413)  # a reply, a fault, a refusal, a command that is too long: the same for each docket


class Log:
    """A client of NATS' text protocol, for requests alone. A request is repeated until a server answers it: what is published may come into the log
    more than once."""

    def __init__(self, servers):
        self.servers = itertools.cycle([(host, int(port)) for host, _, port in (server.rpartition(":") for server in servers)])
        self.stream = None
        self.inbox = f"_INBOX.{os.urandom(12).hex()}"
        self.numbers = itertools.count()

    def connect(self):
        self.socket = socket.create_connection(next(self.servers), PATIENCE)
        self.stream = self.socket.makefile("rb")
        options = {"verbose": False, "pedantic": False, "headers": True, "no_responders": True, "lang": "python", "version": "1", "protocol": 1}
        self.socket.sendall(f"CONNECT {json.dumps(options)}\r\nSUB {self.inbox}.* 1\r\n".encode())

    def leave(self):
        if self.stream:
            self.stream.close()
            self.socket.close()
        self.stream = None

    def ask(self, subject, body):
        """The answer to one request. Where nobody has an answer, it has no body, which is no JSON."""
        if not self.stream:
            self.connect()
        inbox = f"{self.inbox}.{next(self.numbers)}"
        self.socket.sendall(f"PUB {subject} {inbox} {len(body)}\r\n".encode() + body + b"\r\n")
        while line := self.stream.readline():
            words = line.split()
            if words[0] == b"PING":
                self.socket.sendall(b"PONG\r\n")
            elif words[0] in (b"MSG", b"HMSG"):
                content = self.stream.read(int(words[-1]) + 2)[:-2]
                if words[1].decode() == inbox:
                    return json.loads(content[int(words[-2]) if words[0] == b"HMSG" else 0:])
        raise ConnectionError("the server has gone")

    def request(self, subject, body):
        while True:
            try:
                answer = self.ask(subject, body)
                if answer.get("error", {}).get("code", 0) < 500:
                    return answer
            except (OSError, ValueError):
                pass
            self.leave()
            time.sleep(0.02)

    def behind(self, place):
        """The first command behind a place and the second at which it came, or nothing where the log ends."""
        answer = self.request(f"$JS.API.STREAM.MSG.GET.{STREAM}", json.dumps({"seq": place + 1, "next_by_subj": SUBJECT}).encode())
        if "error" in answer and answer["error"]["code"] == 404:
            return None
        message = answer["message"]
        if message["seq"] != place + 1:
            sys.exit(f"follower.py: the log has no command {place + 1}")
        whole, _, part = message["time"].rstrip("Z").partition(".")
        return base64.b64decode(message["data"]), calendar.timegm(time.strptime(whole, "%Y-%m-%dT%H:%M:%S")) + float(f"0.{part or 0}")


def answer_of(port, command):
    """The docket's whole answer, or nothing."""
    connection = http.client.HTTPConnection("127.0.0.1", port, timeout=20)
    try:
        connection.request("POST", "/commands", command, {"Content-Type": "application/json"})
        response = connection.getresponse()
        text = response.read()
        return text if response.status in ANSWERED else None
    except (OSError, http.client.HTTPException):
        return None
    finally:
        connection.close()


def main():
    servers, port, path = sys.argv[1].split(","), int(sys.argv[2]), sys.argv[3]
    kept = os.open(path, os.O_RDWR | os.O_CREAT | os.O_DSYNC, 0o600)
    fcntl.flock(kept, fcntl.LOCK_EX | fcntl.LOCK_NB)  # two followers of one docket would mix two orders
    place = int(os.pread(kept, 32, 0) or 0)
    log = Log(servers)
    while True:
        found = log.behind(place)
        if not found:
            time.sleep(0.02)
            continue
        command, at = found
        while not (answer := answer_of(port, command)):
            time.sleep(0.05)
        place += 1
        os.pwrite(kept, f"{place:20}\n".encode(), 0)
        print(place, round((time.time() - at) * 1000), answer.decode().strip(), flush=True)


if __name__ == "__main__":
    main()
