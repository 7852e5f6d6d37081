"""For checks/http: the program, how a check is counted, and every route and refusal with its answer, which a server is asked at whatever place."""
import http.client
import json
import os
import signal
import socket
import subprocess
import sys
import time

from http_clients import (JSON, RESET, TEXT, answer, calendar, error, fault, get, number, post, refused, reset, rest, send_slowly)

TOP = os.path.dirname(os.path.dirname(os.path.realpath(__file__)))
PROGRAM = os.path.abspath(sys.argv[1]) if len(sys.argv) > 1 else os.path.join(TOP, "docketctl")
COURT = ["--zone", "EST5EDT,M3.2.0,M11.1.0", "--close", "17:00"]
CONNECTIONS = 170
COULD_NOT_READ = "docketctl: a request could not be read"
COULD_NOT_WRITE = "docketctl: an answer could not be written"
ENDED_EARLY = "docketctl: a request ended early"

OPEN = '{"caption":"Roe v. Doe","do":"open_case","filed":"2025-06-02","key":"k1","label":"1:25-cv-00001"}'
FIRST_ANSWER = (b'HTTP/1.1 200 OK\r\ncontent-type: application/json\r\ncontent-length: 13\r\nconnection: close\r\n\r\n'
                b'{"number":1}\n')
PARTY = '{"do":"add_party","key":"k2","case":1,"name":"Doe","role":"defendant"}'
ENTRY = '{"do":"file_entry","key":"k3","case":1,"day":"2025-06-02","text":"Complaint"}'
SUMMONS = '{"do":"serve_summons","key":"k4","case":1,"party":1,"basis":"private","served":"2025-06-13"}'
DEADLINES = "deadline 1 party 1 12(a)(1)(A)(i) due 2025-07-07 24:00 17:00\n"
CASE = f"case 1 1:25-cv-00001 filed 2025-06-02\nRoe v. Doe\nparty 1 defendant Doe\nentry 1 2025-06-02 Complaint\n{DEADLINES}"
JULY = "2025-07-07 24:00 17:00       1    1 12(a)(1)(A)(i)      1\nend 1\n"
HOLIDAYS = """\
2027-01-01 Fri New Year's Day
2027-01-18 Mon Martin Luther King Jr.'s Birthday
2027-02-15 Mon Washington's Birthday
2027-05-31 Mon Memorial Day
2027-06-18 Fri Juneteenth (observed)
2027-06-19 Sat Juneteenth
2027-07-04 Sun Independence Day
2027-07-05 Mon Independence Day (observed)
2027-09-06 Mon Labor Day
2027-10-11 Mon Columbus Day
2027-11-11 Thu Veterans' Day
2027-11-25 Thu Thanksgiving Day
2027-12-24 Fri Christmas Day (observed)
2027-12-25 Sat Christmas Day
2027-12-31 Fri New Year's Day (observed)
"""
NEXT = answer(200, DEADLINES, TEXT)  # what the next client asks for after one that misbehaved
BAD_HEAD = error(400, "bad-head")
BAD_VALUE = error(400, "bad-path-value")
FOREIGN = error(403, "foreign")
NOT_FOUND = error(404, "not-found")
NO_CASE = error(404, "no-such-case")
METHOD = error(405, "method")
NO_LENGTH = error(411, "length-required")
TOO_LONG = error(413, "too-long")
LONG_HEAD = error(431, "head-too-long")

counts = {True: 0, False: 0}


def shown(value):
    if isinstance(value, bytes) and value.startswith(b"HTTP/"):
        head, _, body = value.partition(b"\r\n\r\n")
        return f"{head.splitlines()[0].decode()}, {len(body)} bytes" + (f" {body.decode()!r}" if len(body) < 60 else "")
    text = repr(value)
    return text if len(text) < 200 else f"{text[:200]}.."


def check(name, found, wanted):
    """Counts a check, and prints its line."""
    passed = found == wanted
    counts[passed] += 1
    print(f"{name}: {shown(found)}" if passed else f"{name}: FAILED, {shown(found)} and not {shown(wanted)}", flush=True)


def within(name, seconds, least, most):
    counts[least <= seconds <= most] += 1
    verdict = "" if least <= seconds <= most else f": FAILED, not from {least} to {most}"
    print(f"{name}: {seconds:.1f} seconds{verdict}", flush=True)


def docketctl(*words, text=None):
    """The exit status, the output, and how many lines of standard error."""
    feed = {"input": text.encode()} if text else {"stdin": subprocess.DEVNULL}
    done = subprocess.run([PROGRAM, *words], capture_output=True, timeout=300, check=False, **feed)
    return done.returncode, done.stdout.decode(), done.stderr.count(b"\n")


def create(path):
    check(f"create {path}", docketctl("create", "--db", path, *COURT), (0, "created\n", 0))


def command(do, key, **fields):
    return json.dumps({"do": do, "key": key, **fields}, ensure_ascii=False, separators=(",", ":"))


def commands_are_answered(server):
    """The first commands, and what is no command."""
    vacate = command("vacate", "k5", case=1, deadline=1)
    rows = [
        ("a command that is sent again with its key", OPEN, FIRST_ANSWER),
        ("its key for another command", vacate.replace("k5", "k1"), refused(2, "KeyReused")),
        ("a label that stands", OPEN.replace("k1", "k5"), refused(8, "Exists")),
        ("a bad value", OPEN.replace("k1", "k5").replace("Roe v. Doe", ""), refused(3, "BadValue", "caption")),
        ("a case that is not there", vacate.replace('"case":1', '"case":9'), refused(4, "NoSuchCase")),
        ("a party", PARTY, number(1)),
        ("an entry", ENTRY, number(1)),
        ("a summons", SUMMONS, number(1)),
        ("a caption that is not in ASCII", command("open_case", "k6", label="2", caption="Zoë v. Doe", filed="2025-06-02"), number(2)),
        ("no JSON", "{", fault(1, "NotJson")),
        ("an empty body", "", fault(1, "NotJson")),
        ("no object", "[1]", fault(2, "NotAnObject")),
        ("no command", '{"do":"dance"}', fault(3, "UnknownCommand")),
        ("no case", '{"do":"vacate","key":"k"}', fault(4, "MissingField", "case")),
        ("a case in quotes", '{"case":"1","deadline":1,"do":"vacate","key":"k"}', fault(5, "WrongField", "case")),
        ("a field too many", '{"case":1,"deadline":1,"do":"vacate","key":"k","x":0}', fault(6, "UnknownField")),
        ("a body of 65,536 bytes", vacate.replace('"case":1', '"case":9').ljust(65536), refused(4, "NoSuchCase")),
    ]
    check("a first command", server.ask(post(OPEN)), FIRST_ANSWER)
    for name, body, wanted in rows:
        check(f"{name}, by curl", server.curl("--data-binary", "@-", body=body.encode(), targets=["/commands"]), wanted)
    for size in (1, 7):
        check(f"a command in pieces of {size}", server.ask(post(PARTY), size), number(1))


def questions_are_answered(server):
    rows = [
        ("/cases/1", answer(200, CASE, TEXT)),
        ("/cases/2", answer(200, "case 2 2 filed 2025-06-02\nZoë v. Doe\n", TEXT)),
        ("/cases/1?x=1", answer(200, CASE, TEXT)),
        ("/cases/1/deadlines", NEXT),
        ("/cases/2/deadlines", answer(200, "", TEXT)),
        ("/calendar/2025-07-01/2025-07-31", calendar(JULY)),
        ("/calendar/2025-07-08/2025-07-31", calendar("end 0\n")),
        ("/calendar/1980-01-01/3999-12-31", calendar(JULY)),
        ("/holidays/2027", answer(200, HOLIDAYS, TEXT)),
    ]
    for target, wanted in rows:
        check(f"GET {target}", server.ask(get(target)), wanted)
        check(f"GET {target}, by curl", server.curl(targets=[target]), wanted)
    check("in HTTP/1.0", server.curl("-0", targets=["/cases/1/deadlines"]), NEXT)
    check("two in one run of curl", server.curl(targets=["/cases/1/deadlines"] * 2), NEXT * 2)
    check("a GET with a body", server.ask(b"GET /cases/1/deadlines HTTP/1.1\r\nContent-Length: 5\r\n\r\nhello"), NEXT)
    check("lines without CR", server.ask(b"GET /cases/1/deadlines HTTP/1.1\n\n"), NEXT)
    check("Expect: 100-continue", server.curl("-H", "Expect: 100-continue", "--data-binary", PARTY, targets=["/commands"]), number(1))


def short_days_are_told(server):
    """A day on which the clerk's office closes early, which is then withdrawn."""
    early = command("short_day", "k8", day="2025-07-07", close="12:30", name="Heat")
    lines, july = DEADLINES.replace("17:00", "12:30"), JULY.replace("17:00", "12:30")
    rows = [
        ("a short day", post(early), number(1)),
        ("it again, under its key", post(early), number(1)),
        ("it under another key", post(early.replace("k8", "k9")), refused(8, "Exists")),
        ("one that closes with the court", post(early.replace("k8", "k9").replace("12:30", "17:00")), refused(3, "BadValue", "close")),
        ("one without its closing", post(early.replace('"close":"12:30",', "")), fault(4, "MissingField", "close")),
        ("one that closes at no time", post(early.replace("12:30", "24:00")), fault(5, "WrongField", "close")),
        ("the deadline", get("/cases/1/deadlines"), answer(200, lines, TEXT)),
        ("the case", get("/cases/1"), answer(200, CASE.replace("17:00", "12:30"), TEXT)),
        ("the calendar", get("/calendar/2025-07-01/2025-07-31"), calendar(july)),
        ("it is withdrawn", post(command("withdraw_calendar", "k10", row=1)), number(1)),
        ("the deadline then", get("/cases/1/deadlines"), NEXT),
        ("the calendar then", get("/calendar/2025-07-01/2025-07-31"), calendar(JULY)),
    ]
    for name, request, wanted in rows:
        check(f"a short day: {name}", server.ask(request), wanted)


def library_is_answered(server):
    """Python's own client, which takes answers apart by itself."""
    rows = [
        ("POST", "/commands", SUMMONS, 200, "OK", JSON, "13", '{"number":1}\n'),
        ("GET", "/cases/1", None, 200, "OK", TEXT, "161", CASE),
        ("GET", "/calendar/2025-07-01/2025-07-31", None, 200, "OK", TEXT, None, JULY),
        ("GET", "/cases/9", None, 404, "Not Found", JSON, "25", '{"error":"no-such-case"}\n'),
        ("HEAD", "/cases/1", None, 405, "Method Not Allowed", JSON, "19", ""),
    ]
    for method, target, body, status, phrase, form, length, text in rows:
        client = http.client.HTTPConnection("127.0.0.1", server.taken(), timeout=30)
        client.request(method, target, body)
        came = client.getresponse()
        found = (came.status, came.reason, came.getheader("content-type"), came.getheader("content-length"), came.read().decode())
        client.close()
        check(f"{method} {target}, by http.client", found, (status, phrase, form, length, text))


def refusals_are_told(server):
    """What is refused by its head. Each comes whole, though the server need not have read all that was sent."""
    fields = "".join(f"A{at}: b\r\n" for at in range(63))
    begun = "POST /commands HTTP/1.1\r\n"
    filler = "x" * (8192 - len("GET /cases/1/deadlines HTTP/1.1\r\nA: \r\n\r\n"))
    rows = [(f"GET {target} HTTP/1.1\r\n\r\n", wanted) for target, wanted in (
        ("/nowhere", NOT_FOUND), ("/", NOT_FOUND), ("//cases/1", NOT_FOUND), ("/cases/1/", NOT_FOUND), ("http://x/cases/1", NOT_FOUND),
        ("/cases/9", NO_CASE), ("/cases/9/deadlines", NO_CASE), ("/cases/4294967295", NO_CASE), ("/cases/01", BAD_VALUE),
        ("/cases/0", BAD_VALUE), ("/cases/4294967296", BAD_VALUE), ("/cases/%31", BAD_VALUE), ("/holidays/1999", BAD_VALUE),
        ("/holidays/2100", BAD_VALUE), ("/calendar/2025-07-31/2025-07-01", BAD_VALUE), ("/calendar/2025-02-29/2025-03-01", BAD_VALUE),
        ("/calendar/1979-12-31/2025-07-01", BAD_VALUE), ("/commands", METHOD), ("/cases/1 x", BAD_HEAD))]
    rows += [
        ("PUT /nowhere HTTP/1.1\r\n\r\n", NOT_FOUND),
        ("PUT /cases/01 HTTP/1.1\r\n\r\n", METHOD),
        ("HEAD /cases/1 HTTP/1.1\r\n\r\n", METHOD),
        ("get /cases/1 HTTP/1.1\r\n\r\n", METHOD),
        ("GET /cases/1 HTTP/1.2\r\n\r\n", BAD_HEAD),
        ("GET /cases/1 HTTP/1.1\r\nhello\r\n\r\n", BAD_HEAD),
        ("GET /cases/1 HTTP/1.1\r\nA : b\r\n\r\n", BAD_HEAD),
        ("GET /cases/1 HTTP/1.1\r\nA: b\r\n c\r\n\r\n", BAD_HEAD),
        (f"{begun}Content-Length: 3\r\ncontent-length: 3\r\n\r\n[1]", BAD_HEAD),
        (f"{begun}Content-Length: +3\r\n\r\n[1]", BAD_HEAD),
        (f"{begun}Content-Length: 99999999999\r\n\r\n[1]", BAD_HEAD),
        (f"{begun}\r\n", NO_LENGTH),
        (f"{begun}Transfer-Encoding: chunked\r\nContent-Length: 3\r\n\r\n[1]", NO_LENGTH),
        (f"{begun}Content-Length: 65537\r\n\r\n", TOO_LONG),
        (f"{begun}Content-Length: 65537\r\n\r\n" + " " * 65537, TOO_LONG),
        (f"GET /cases/1/deadlines HTTP/1.1\r\n{fields}Last: b\r\n\r\n", NEXT),
        (f"GET /cases/1/deadlines HTTP/1.1\r\n{fields}Last: b\r\nMore: b\r\n\r\n", LONG_HEAD),
        (f"GET /cases/1/deadlines HTTP/1.1\r\nA: {filler}\r\n\r\n", NEXT),
        (f"GET /cases/1/deadlines HTTP/1.1\r\nA: {filler}x\r\n\r\n", LONG_HEAD),
        ("x" * 100_000, LONG_HEAD),
    ]
    for request, wanted in rows:
        name = request if len(request) < 100 else f"{request[:60]}.. of {len(request)} bytes"
        check(json.dumps(name), server.ask(request.encode()), wanted)
    check("PUT by curl", server.curl("-X", "PUT", "-d", PARTY, targets=["/commands"]), METHOD)
    check("chunks by curl", server.curl("-H", "Transfer-Encoding: chunked", "-d", PARTY, targets=["/commands"]), NO_LENGTH)
    check("a megabyte by curl", server.curl("-H", "Expect:", "--data-binary", "@-", body=b" " * 1_000_000, targets=["/commands"]), TOO_LONG)


def next_is_served(server, name, *lines):
    """The next client has its answer, and standard error has these lines since it was read last."""
    check(f"the next after {name}", server.ask(get("/cases/1/deadlines")), NEXT)
    check(f"what is told of {name}", server.told(), list(lines))


def the_slow_are_cut(server):
    name = "one that says nothing"
    with server.connect():
        next_is_served(server, name)
    next_is_served(server, f"{name} and goes", ENDED_EARLY)
    name = "one that sends a byte a second"
    with server.connect() as slow:
        within(f"when {name} is cut", send_slowly(slow, post(PARTY)), 9, 13)
        check(f"what {name} gets", rest(slow).removesuffix(RESET), b"")
    next_is_served(server, name, COULD_NOT_READ)
    name, begun = "one that stays after its refusal", time.monotonic()
    with server.begun(get("/nowhere")) as staying:
        next_is_served(server, name)
        within(f"how long {name} holds up the next", time.monotonic() - begun, 0, 3)
        check(f"what {name} gets", rest(staying), NOT_FOUND)


def those_who_go_are_told(server):
    label = command("open_case", "k7", label="7", caption="Poe v. Coe", filed="2025-06-03")
    whole = post(label)
    inside = len(whole) - len(label) + 10
    for name, part in (("at once", b""), ("in the head", whole[:20]), ("in the body", whole[:inside])):
        server.begun(part).close()
        next_is_served(server, f"one that goes away {name}", ENDED_EARLY)
        with server.begun(part) as half:
            half.shutdown(socket.SHUT_WR)
            check(f"what one gets that ends its side {name}", rest(half), b"")
        next_is_served(server, f"one that ends its side {name}", ENDED_EARLY)
    for name, part in (("at once", b""), ("in the head", whole[:20]), ("in the body", whole[:inside])):
        reset(server.begun(part))
        next_is_served(server, f"one that resets {name}", COULD_NOT_READ)
    check("no case by a command that was cut", server.ask(get("/cases/3")), NO_CASE)
    os.kill(server.process.pid, signal.SIGSTOP)
    with server.begun(get("/cases/1/deadlines")) as first:  # behind it another sends a whole command and resets
        reset(server.begun(whole))
        os.kill(server.process.pid, signal.SIGCONT)
        check("one in front of one that resets", rest(first), NEXT)
    next_is_served(server, "one that resets behind a whole command", COULD_NOT_WRITE)
    check("the case of that command", server.ask(get("/cases/3")), answer(200, "case 3 7 filed 2025-06-03\nPoe v. Coe\n", TEXT))
    with server.begun(whole) as half:
        half.shutdown(socket.SHUT_WR)
        check("the command again, by one that ends its side behind it", rest(half), number(3))
    next_is_served(server, "that")


def one_request_is_served(server):
    check("a second request behind the first", server.ask(get("/cases/1/deadlines") + get("/cases/9")), NEXT)
    next_is_served(server, "a second request behind the first")
    check("a second one behind a refused one", server.ask(get("/nowhere") + get("/cases/1") * 1000), NOT_FOUND)
    next_is_served(server, "a second one behind a refused one")
