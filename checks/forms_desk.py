"""For checks/forms: a served docket at which a browser enters commands, and what was entered."""
import json
import os
import re
import urllib.parse

from forms_data import WITHOUT_CASE
from forms_pages import ALERT, FILL, FORM, WOULD
from http_clients import Server, get
from served_dockets import rows
from twin_dockets import check, make, written, written_all

POLICY = "default-src 'none'; style-src 'unsafe-inline'; form-action 'self'; base-uri 'none'; frame-ancestors 'none'"
BUTTON = "form[action='/pages/commands'] button"
SHOW = "button[formaction='/pages/previews']"


def is_number(text):
    """Whether a link may have it: a number from 1 to 4294967295."""
    return text.isdigit() and 0 < int(text) < 2**32


def path_after(kind, fields, reply):
    """Where an accepted command leads."""
    if kind == "open_case":
        return f"pages/cases/{reply}"
    if kind in WITHOUT_CASE:
        return "pages/rules" if kind == "local_rule" else "pages/court-days"
    return f"pages/cases/{fields['case']}"


class Desk:
    """A docket that is served with pages, a tab of a browser that shows it, and the commands that it accepted, in order."""

    def __init__(self, program, path, before):
        self.program, self.path, self.entered, self.keys, self.forms, self.copies = program, path, [], set(), 0, 0
        make(program, path, before)
        self.server = Server(program, path, None, words=["--pages"])
        self.host = f"127.0.0.1:{self.server.port}"
        self.begun = list(before)

    def address(self, path):
        return f"http://{self.host}/{path.removeprefix('/')}"

    def ask(self, target):
        """The status and the body of an answer."""
        head, _, body = self.server.ask(get(target, host=self.host)).partition(b"\r\n\r\n")
        return int(head[9:12]), body

    def post(self, command):
        """Enters a command beside the browser, as a program does, and returns the reply."""
        body = json.dumps(command).encode()
        head = f"POST /commands HTTP/1.1\r\nHost: {self.host}\r\nContent-Length: {len(body)}\r\n\r\n".encode()
        reply = json.loads(self.server.ask(head + body).partition(b"\r\n\r\n")[2])
        if "number" in reply:
            self.entered.append(command)
        return reply

    def begun_post(self, body):
        """A connection on which a form was sent."""
        head = f"POST /pages/commands HTTP/1.1\r\nHost: {self.host}\r\nOrigin: http://{self.host}\r\nContent-Type: application/x-www-form-urlencoded\r\nContent-Length: {len(body)}\r\n\r\n"
        return self.server.begun((head + body).encode())

    def state(self):
        """All rows of the docket, of a copy that the server makes."""
        status, copy = self.ask("/pages/backup")
        place = os.path.join(os.path.dirname(self.path), "copies")
        os.makedirs(place, exist_ok=True)
        with open(os.path.join(place, "copy.db"), "wb") as file:
            file.write(copy)
        return rows(file.name, place) if status == 200 else f"no copy: {status}"

    def open(self, tab, kind, fields=()):
        """Shows the form of a kind, filled in with the case and the deadline, as the links of a docket sheet do, and takes it."""
        named = [(name, written(fields[name])) for name in ("case", "deadline") if name in fields and is_number(written(fields[name]))]
        query = "?" + urllib.parse.urlencode(named) if named and named[0][0] == "case" and kind not in WITHOUT_CASE else ""
        tab.go(self.address(f"pages/enter/{kind}{query}"))
        form = tab.value(FORM)
        if not form:
            raise RuntimeError(f"{kind}: there is no form at {query}")
        if query:
            check(f"{kind}: filled in", {name: form["values"].get(name) for name, _ in named}, dict(named))
        self.is_fresh(kind, form)
        return form

    def is_fresh(self, name, form):
        """No form before had its key."""
        key = form["values"]["key"]
        check(f"{name}: a fresh key", (key in self.keys, bool(re.fullmatch(r"[!-~]{1,64}", key))), (False, True))
        self.keys.add(key)

    def send(self, tab, name, texts, unasked=False, button=BUTTON):
        """Fills the form in and clicks on a button of it; what was posted, with the status, and where that led."""
        check(f"{name}: the texts are taken", tab.value(f"({FILL})({json.dumps(texts)}, {json.dumps(unasked)})"), [])
        return self.sent(tab, name, button)

    def sent(self, tab, name, button=BUTTON):
        """Clicks on a button of the form as it is."""
        tab.taken()
        tab.click(button)
        self.forms += 1
        came = tab.taken()
        posts = [one for one in came if one[0] == "POST"]
        if not posts:
            raise RuntimeError(f"{name}: nothing was posted: {[one[:3] for one in came]}")
        return posts[0], came[-1]

    def accept(self, tab, kind, fields, reply=None):
        """Enters a command by its form: the answer leads to a page that is shown."""
        form = self.open(tab, kind, fields)
        post, last = self.send(tab, kind, written_all(fields))
        return self.is_accepted(kind, fields, form["values"]["key"], post, last, reply)

    def accept_shown(self, tab, kind, fields, reply=None):
        """Shows what a command would do, and enters it by the form that comes with that; what was told that it would do."""
        would, form = self.preview(tab, kind, fields)
        post, last = self.sent(tab, kind)
        self.is_accepted(kind, fields, form["values"]["key"], post, last, reply)
        return would

    def preview(self, tab, kind, fields):
        """Shows what a command would do: the form again, and the docket is as it was."""
        before, texts, name = self.state(), written_all(fields), f"preview of {kind}"
        self.open(tab, kind, fields)
        post, _ = self.send(tab, name, texts, button=SHOW)
        form, would = self.is_again(tab, name, "pages/previews", 200, texts, post, before), tab.value(WOULD)
        check(f"{name}: what it would do is told", (bool(would), tab.value(ALERT), form["marked"]), (True, [], []))
        return would, form

    def is_accepted(self, kind, fields, key, post, last, reply=None):
        """The answer to a form that was taken, which is kept with its key."""
        said = dict(urllib.parse.parse_qsl(post[3], keep_blank_values=True))
        check(f"{kind}: the command, key and texts are sent", {name: said.get(name) for name in ("do", "key", *fields)}, {"do": kind, "key": key, **written_all(fields)})
        check(f"{kind}: the form is answered", (post[1], post[2]), ("pages/commands", 303))
        location = path_after(kind, fields, reply)
        check(f"{kind}: it leads on", {name: post[4].get(name) for name in ("location", "content-length", "cache-control")},
              {"location": "/" + location, "content-length": "0", "cache-control": "no-store"})
        check(f"{kind}: the page is shown", last[:3], ("GET", location, 200))
        command = {"do": kind, "key": key, **fields}
        if post[2] == 303 and command not in self.entered:
            self.entered.append(command)
        return key

    def is_again(self, tab, name, path, status, sent, post, before):
        """The form again, with every text that was sent and a fresh key; and the docket is as it was."""
        check(f"{name}: the form is answered", (post[1], post[2]), (path, status))
        check(f"{name}: a page that runs nothing and is not kept", [post[4].get(field) for field in ("content-type", "content-security-policy", "cache-control")],
              ["text/html; charset=utf-8", POLICY, "no-store"])
        form = tab.value(FORM)
        if form is None:
            raise RuntimeError(f"{name}: the form does not come again")
        check(f"{name}: the texts stand", {field: form["values"].get(field) for field in sent if field != "key"}, {field: text for field, text in sent.items() if field != "key"})
        self.is_fresh(name, form)
        check(f"{name}: the docket is as it was", self.state() == before, True)
        return form

    def is_refused(self, tab, name, status, sent, post, marked, before, path="pages/commands"):
        """The form again: what is said, and what is marked."""
        form, said = self.is_again(tab, name, path, status, sent, post, before), tab.value(ALERT)
        check(f"{name}: one sentence is said", (len(said), bool(said and said[0])), (1, True))
        check(f"{name}: what is marked is tied to what is said", form["tied"], True)
        if marked is not None:
            check(f"{name}: what is marked", form["marked"], marked)
        return said[0] if said else "", form["marked"]
