"""A plain docket over the modules http.server and sqlite3: http_model.py FILE PORT COUNT serves COUNT connections, one after
the other and one request each, as `docketctl serve` does, in a file with the tables of `docketctl create`.

The commands are those of file_model.py, one transaction each, with a log that is synced at each commit. Beside POST /commands it
answers GET /cases/NUMBER and GET /calendar/FROM/TO, byte for byte as docketctl does.
"""
import json
import re
import sys
from datetime import date, timedelta
from http.server import BaseHTTPRequestHandler, HTTPServer

from file_model import EPOCH, ROLES, Docket, number_of

ROLE_NAMES = {number: name for name, number in ROLES.items()}
CASE = re.compile("/cases/([1-9][0-9]{0,9})")
CALENDAR = re.compile("/calendar/([0-9]{4}-[0-9]{2}-[0-9]{2})/([0-9]{4}-[0-9]{2}-[0-9]{2})")
ENDS = """SELECT due.day, due.case_no, due.deadline_no, deadline.rule, deadline.party
    FROM due JOIN deadline ON deadline.case_no = due.case_no AND deadline.number = due.deadline_no
    WHERE due.day BETWEEN ? AND ? ORDER BY due.day, due.moment, due.case_no, due.deadline_no"""
DEADLINES = """SELECT deadline.number, deadline.party, deadline.rule, due.day
    FROM deadline JOIN due ON due.case_no = deadline.case_no AND due.deadline_no = deadline.number
    WHERE deadline.case_no = ? ORDER BY deadline.number"""


def day_of(number):
    return EPOCH + timedelta(number)


class Texts(Docket):
    """The docket with its texts."""

    def __init__(self, path):
        super().__init__(path)
        settings = [self.one(f"PRAGMA {name}") for name in ("journal_mode", "synchronous")]
        if settings != ["wal", 2]:
            sys.exit(f"http_model.py: the log is not synced: {settings}")
        close = self.one("SELECT close FROM court")
        self.close = f"{close // 60:02}:{close % 60:02}"

    def case(self, number):
        found = self.conn.execute("SELECT label, caption, filed FROM cases WHERE number = ?", (number,)).fetchone()
        if found is None:
            return None
        lines = [f"case {number} {found[0]} filed {day_of(found[2])}\n{found[1]}\n"]
        for party, name, role in self.conn.execute("SELECT number, name, role FROM party WHERE case_no = ? ORDER BY number", (number,)):
            lines.append(f"party {party} {ROLE_NAMES[role]} {name}\n")
        for entry, day, text in self.conn.execute("SELECT number, day, body FROM entry WHERE case_no = ? ORDER BY number", (number,)):
            lines.append(f"entry {entry} {day_of(day)} {text}\n")
        for deadline, party, rule, day in self.conn.execute(DEADLINES, (number,)):
            lines.append(f"deadline {deadline} party {party or '-'} {rule} due {day_of(day)} 24:00 {self.close}\n")
        return "".join(lines)

    def calendar(self, first, last):
        lines = [f"{day_of(day)} 24:00 {self.close} {case:7} {deadline:4} {rule:16} {party or '-':>4}\n"
                 for day, case, deadline, rule, party in self.conn.execute(ENDS, (number_of(first), number_of(last)))]
        return "".join(lines) + f"end {len(lines)}\n"


class Handler(BaseHTTPRequestHandler):
    protocol_version = "HTTP/1.1"
    wbufsize = -1  # one write for a head and its body
    docket = None

    def log_message(self, *_):
        pass

    def answer(self, status, text, form="application/json", length=True):
        body = text.encode()
        self.send_response_only(status)
        self.send_header("content-type", form)
        if length:
            self.send_header("content-length", str(len(body)))
        self.send_header("connection", "close")
        self.end_headers()
        self.wfile.write(body)

    def do_POST(self):
        if self.path != "/commands":
            self.answer(404, '{"error":"not-found"}\n')
            return
        reply = self.docket.apply(self.rfile.read(int(self.headers["content-length"])))
        self.answer(200 if "number" in reply else 409, json.dumps(reply, sort_keys=True, separators=(",", ":")) + "\n")

    def do_GET(self):
        if found := CASE.fullmatch(self.path):
            text = self.docket.case(int(found[1]))
            if text is None:
                self.answer(404, '{"error":"no-such-case"}\n')
            else:
                self.answer(200, text, "text/plain; charset=utf-8")
        elif found := CALENDAR.fullmatch(self.path):
            text = self.docket.calendar(date.fromisoformat(found[1]), date.fromisoformat(found[2]))
            self.answer(200, text, "text/plain; charset=utf-8", length=False)
        else:
            self.answer(404, '{"error":"not-found"}\n')


def main():
    path, port, count = sys.argv[1], int(sys.argv[2]), int(sys.argv[3])
    Handler.docket = Texts(path)
    server = HTTPServer(("127.0.0.1", port), Handler)
    print(f"listening on 127.0.0.1:{server.server_port}", flush=True)
    for _ in range(count):
        request, address = server.get_request()
        server.process_request(request, address)
    Handler.docket.conn.close()


if __name__ == "__main__":
    main()
