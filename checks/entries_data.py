#!/usr/bin/env python3
"""Writes the gate's stored requests for forms and their whole answers (crates/rows/data/forms.in, forms.out): a docket that begins empty,
whose replies were worked out by hand, and pages put together here (entries_model.py, pages_model.py). Each request has a number, from 1 on,
which is that of the key of its form. Usage: checks/entries_data.py"""
import itertools
import os
from urllib.parse import urlencode

from entries_model import KINDS, TITLES, WORDS, entry, kinds_page
from exports_model import exported, written_csv, written_json
from pages_model import (TOP, answer, case_sheet, cases_table, cell, dated, deadline_page, entering, error, got, head, lines, literals, missing, number, page, posted, refusal, reply, rows, shown, spec, store, told)

TYPE = "Content-Type: application/x-www-form-urlencoded\r\n"
HOSTILE = "\"><script>alert('1')</script> & 100 % + Ünal"
NAME = "Doe & \"Söhne\" <b>"
COUNTED = """\
2025-06-13 Fri  summons and complaint served; 21 days after, 12(a)(1)(A)(i)
2025-07-04 Fri  counted to this day, 6(a)(1)(A), (B)
2025-07-04 Fri  passed over: Independence Day, 6(a)(6)(A)
2025-07-05 Sat  passed over: Saturday
2025-07-06 Sun  passed over: Sunday
2025-07-07 Mon  the period ends, 6(a)(1)(C)
"""
DUE = "2025-07-07 Mon  due: to 24:00 electronically, to 17:00 at the clerk's office, 6(a)(4)\n"
PLEADED = """\
2025-11-01 Sat  pleading served; 21 days after, 12(a)(1)(B)
2025-11-22 Sat  counted to this day, 6(a)(1)(A), (B)
2025-11-22 Sat  passed over: Saturday
2025-11-23 Sun  passed over: Sunday
2025-11-24 Mon  the period ends, 6(a)(1)(C)
2025-11-27 Thu  three days added for service, 6(d)
2025-11-27 Thu  passed over: Thanksgiving Day, 6(a)(6)(A)
2025-11-28 Fri  passed over: declared by the state, 6(a)(6)(C)
2025-11-29 Sat  passed over: Saturday
2025-11-30 Sun  passed over: Sunday
2025-12-01 Mon  the period ends, 6(a)(1)(C)
2025-12-01 Mon  due: to 24:00 electronically, to 17:00 at the clerk's office, 6(a)(4)
"""
EXTENDED = """\
2025-07-07 Mon  extended by 10 days, 6(b)(1)
2025-07-17 Thu  counted to this day, 6(a)(1)(A), (B)
2025-07-17 Thu  the period ends, 6(a)(1)(C)
2025-07-17 Thu  due: to 24:00 electronically, to 17:00 at the clerk's office, 6(a)(4)
"""
SUSPENDED = "2025-07-01 Tue  motion under 12(e) served; the time is suspended, 12(a)(4)\n"
STATEMENT = """\
2025-08-01 Fri  notice of the order; 14 days after, 12(e)
2025-08-15 Fri  counted to this day, 6(a)(1)(A), (B)
2025-08-15 Fri  the period ends, 6(a)(1)(C)
"""
AWAITED = "2025-08-01 Fri  more definite statement ordered; the time awaits it, 12(a)(4)(B)\nawaiting the statement\n"
NO_DEADLINE = "No deadline would be made or moved.\n"
CHANGED, UNMOVED = "The court's calendar would change.\n", "No deadline would move.\n"
KNOWN = literals(next(line for line in spec("docket_http/specs/Previews.antt") if line.startswith("known_words =")))[0]
CASE = {"do": "open_case", "key": "k1", "label": "1:25-cv-00001", "caption": HOSTILE, "filed": "2025-06-02"}
PARTY = {"do": "add_party", "key": "k2", "case": "1", "name": NAME, "role": "defendant"}
SUMMONS = {"do": "serve_summons", "key": "k3", "case": "1", "party": "1", "basis": "private", "served": "2025-06-13", "attorney": ""}
DECLARED = {"do": "declare_day", "key": "k4", "day": "2025-11-28", "kind": "state", "name": "Day after Thanksgiving"}
RULE = {"do": "local_rule", "key": "k5", "name": "LR7.1-opp", "days": "14", "direction": "backward", "three": "false", "extendable": "true"}
VACATE = {"do": "vacate", "key": "k6", "case": "1", "deadline": "1"}
# what is previewed
ENTRY = {"do": "file_entry", "key": "p1", "case": "1", "day": "2025-06-02", "text": HOSTILE}
PLEADING = {"do": "serve_pleading", "key": "p1", "case": "1", "party": "1", "kind": "counterclaim", "basis": "private", "served": "2025-11-01", "method": "C", "attorney": "", "attorney_method": ""}
EXTEND = {"do": "extend", "key": "p1", "case": "1", "deadline": "1", "at": "2025-07-07T09:00-04:00", "neglect": "false", "days": "10", "until": ""}
FILED = {"do": "satisfy", "key": "p1", "case": "1", "deadline": "1", "at": "2025-07-08T00:00-04:00", "way": "electronic"}
MOTION = {"do": "rule_motion", "key": "p2", "case": "1", "deadline": "1", "kind": "e", "served": "2025-07-01"}
RULING = {"do": "dispose", "key": "p3", "case": "1", "deadline": "1", "outcome": "statement", "notice": "2025-08-01", "party": "1", "due": ""}


def form(body, fields=TYPE, to="commands", host="x", length=True):
    body = body.encode() if isinstance(body, str) else urlencode(body).encode()
    size = f"Content-Length: {len(body)}\r\n" if length else ""
    return f"POST /pages/{to} HTTP/1.1\r\nHost: {host}\r\n{fields}{size}\r\n".encode() + body


def led(path):
    return f"HTTP/1.1 303 See Other\r\nlocation: {path}\r\ncache-control: no-store\r\ncontent-length: 0\r\nconnection: close\r\n\r\n".encode()


def again(fresh, texts, said, status):
    """The form again, of the kind that it names, or the page of kinds."""
    kind = KINDS.get(texts.get("do", ""))
    return shown(entry(kind, fresh, texts, said) if kind and kind != "ImportCalendar" else kinds_page(said), status)


def refused(texts, said, to="commands"):
    return form(texts, to=to), lambda fresh: again(fresh, texts, said, 409)


def faulty(texts, said, to="commands"):
    return form(texts, to=to), lambda fresh: again(fresh, texts, said, 400)


def previewed(texts, would):
    """The form again, with what it would do."""
    return form(texts, to="previews"), lambda fresh: shown(entry(KINDS[texts["do"]], fresh, texts, would=would))


def forms():
    """Each form, empty and filled in; what is no form."""
    yield got("/pages/enter"), shown(kinds_page())
    yield got("/pages/enter?case=1"), shown(kinds_page())
    for kind in TITLES:
        if kind != "ImportCalendar":
            yield got(f"/pages/enter/{WORDS[kind]}"), lambda fresh, kind=kind: shown(entry(kind, fresh, {}))
    for query, texts in (("case=1", {"case": "1"}), ("case=1&party=2", {"case": "1", "party": "2"}), ("case=4294967295&deadline=3", {"case": "4294967295", "deadline": "3"})):
        for kind in ("Extend", "OpenCase"):
            yield got(f"/pages/enter/{WORDS[kind]}?{query}"), lambda fresh, kind=kind, texts=texts: shown(entry(kind, fresh, texts))
    for query in ("", "case=", "case=x", "case=0", "case=01", "case=4294967296", "case=1&", "case=1&deadline=", "case=1&deadline=0", "case=1&party=1&deadline=1",
                  "case=1&deadline=1&party=1", "deadline=1", "party=1", "case=1&text=x", "x=1", "case=%31", "case=1%26deadline=1"):
        yield got(f"/pages/enter/vacate?{query}"), refusal("bad-path-value")
    for path in ("enter/", "enter/import_calendar", "enter/dance", "enter/Vacate", "enter/vacate/", "enter/vacate/1", "enters", "entervacate", "enter/dance?x", "court-days/", "rules/1", "commands/"):
        yield got(f"/pages/{path}"), refusal("not-found")
    for line in ("POST /pages/enter", "HEAD /pages/enter/vacate", "PUT /pages/rules", "POST /pages/court-days", "POST /pages/cases/1/deadlines/1", "DELETE /pages/enter/vacate?x", "GET /pages/commands",
                 "PUT /pages/commands", "HEAD /pages/commands", "GET /pages/previews"):
        yield f"{line} HTTP/1.1\r\nHost: x\r\n\r\n".encode(), refusal("method")


def no_forms():
    """What is posted and is no form, and enters nothing."""
    for fields in ("", "Content-Type: application/json\r\n", "Content-Type: text/plain\r\n", "Content-Type: multipart/form-data; boundary=x\r\n", TYPE * 2,
                   "Content-Type: application/x-www-form-urlencoded2\r\n", "Content-Type: \r\n"):
        yield form(CASE, fields), refusal("media-type")
    yield form(CASE, "", length=False), refusal("media-type")
    yield form(CASE, "", "previews"), refusal("media-type")
    yield form("", TYPE, length=False), refusal("length-required")
    yield form("", TYPE + "Transfer-Encoding: chunked\r\n", length=False), refusal("length-required")
    yield form("", TYPE + "Content-Length: 65537\r\n", length=False), refusal("too-long")
    yield form(CASE, TYPE + "Origin: http://evil.example\r\n"), error(403, "foreign")
    yield form(CASE, TYPE + "Origin: http://evil.example\r\n", "previews"), error(403, "foreign")
    yield form(CASE, TYPE + "Origin: null\r\n"), error(403, "foreign")
    yield form(CASE, TYPE + "Sec-Fetch-Site: cross-site\r\nSec-Fetch-Mode: navigate\r\n"), error(403, "foreign")
    yield form(CASE, host="evil.example"), error(403, "foreign")
    yield got("/pages/cases/1"), missing()


def faults():
    """What spells no command: the form of its kind again, or the page of kinds."""
    yield faulty({}, "UnknownCommand")
    yield faulty({"key": "k", "case": "1"}, "UnknownCommand")
    yield faulty({**VACATE, "do": "dance"}, "UnknownCommand")
    yield faulty({**VACATE, "do": ""}, "UnknownCommand")
    yield faulty({"do": "import_calendar", "key": "k", "rows": "[]"}, "WrongField rows")
    yield faulty({"do": "vacate"}, "MissingField key")
    yield faulty({**VACATE, "key": ""}, "MissingField key")
    yield faulty({**VACATE, "case": ""}, "MissingField case")
    yield faulty({**CASE, "caption": ""}, "MissingField caption")
    yield faulty({**VACATE, "deadline": "one"}, "WrongField deadline")
    for text in ("1 ", "01x", "12345678901", "4294967296"):
        yield faulty({**VACATE, "case": text}, "WrongField case")
    yield faulty({**RULE, "three": "maybe"}, "WrongField three")
    yield faulty({**PARTY, "role": "Defendant"}, "WrongField role")
    yield faulty({**CASE, "filed": "2025-6-2"}, "WrongField filed")
    yield faulty({**CASE, "filed": HOSTILE}, "WrongField filed")
    yield faulty({**VACATE, "x": ""}, "UnknownField")
    yield faulty({**VACATE, "attorney": "2025-06-13"}, "UnknownField")


def commands():
    """What is entered, repeated and refused."""
    yield refused(PARTY, "NoSuchCase")
    yield form(CASE), led("/pages/cases/1")
    yield form(CASE), led("/pages/cases/1")
    yield refused({**CASE, "caption": "Roe v. Doe"}, "KeyReused")
    yield refused({**CASE, "key": "k9"}, "Exists")
    yield refused({**CASE, "key": "two words"}, "BadKey")
    yield refused({**CASE, "key": "k9", "caption": "x" * 201}, "BadValue caption")
    yield refused({**CASE, "key": "k9", "filed": "1999-12-31"}, "BadValue filed")
    yield refused(SUMMONS, "NoSuchParty")
    yield form(PARTY, "Content-Type: Application/X-WWW-form-urlencoded;charset=UTF-8\r\nOrigin: http://x\r\nSec-Fetch-Site: same-origin\r\n"), led("/pages/cases/1")
    yield refused(VACATE, "NoSuchDeadline")
    yield previewed(SUMMONS, f"new deadline 1 of case 1\n{COUNTED}{DUE}")
    yield form(SUMMONS), led("/pages/cases/1")
    yield refused({**SUMMONS, "key": "k9", "case": "0000000001"}, "AlreadyServed")
    yield refused({"do": "withdraw_calendar", "key": "k9", "row": "1"}, "NoSuchCalendarRow")
    yield form(DECLARED), led("/pages/court-days")
    yield refused({"do": "local_period", "key": "k9", "case": "1", "party": "1", "rule": "LR7.1-opp", "start": "2025-07-01", "method": ""}, "NoSuchLocalRule")
    yield form(RULE), led("/pages/rules")
    # of a name that comes twice the last counts, in the command and in the form again; what is no UTF-8 is U+FFFD; `;` is no separator
    yield form("do=open_case&key=k7&label=2&caption=Roe&filed=2025-06-03&caption=Roe+v.%20Doe%FF;x"), led("/pages/cases/2")
    yield form("do=vacate&key=k6&case=1&deadline=1&case=3"), lambda fresh: again(fresh, {**VACATE, "case": "3"}, "NoSuchCase", 409)
    yield form("&&do=file_entry&key=k8&case=1&day=2025-06-02&text=%3Ci%3E+a%26b&&"), led("/pages/cases/1")
    yield posted({"do": "add_party", "key": "k10", "case": 2, "name": "Roe", "role": "plaintiff"}), reply(1)
    yield form({"do": "add_party", "key": "k10", "case": "2", "name": "Roe", "role": "plaintiff"}), led("/pages/cases/2")


def sheet(standing):
    """The docket sheet of case 1, and where its deadline stands."""
    case = (1, CASE["label"], CASE["filed"], HOSTILE)
    content = case_sheet(case, [("defendant", NAME)], [("2025-06-02", "<i> a&b")], [(1, "12(a)(1)(A)(i)", standing)])
    return got("/pages/cases/1"), dated(lambda on: page(CASE["label"], content, on=on))


def pages():
    """What was entered, on the pages to which the forms lead."""
    yield sheet("due 2025-07-07 24:00 17:00")
    cases = cases_table([(2, "2", "2025-06-03", "Roe v. Doe\ufffd;x"), (1, CASE["label"], "2025-06-02", HOSTILE)])
    yield got("/pages"), dated(lambda on: page("Cases", cases, on=on))
    days = rows(("Row", "Entered", "Name"), [head(1) + number(told("state 2025-11-28")) + cell(told("Day after Thanksgiving"))])
    for query in ("", "?x"):
        yield got("/pages/court-days" + query), dated(lambda on: page("Court days", entering({}, "calendar_kinds") + days, on=on))
    yield got("/pages/rules"), dated(lambda on: page("Rules", lines(rules() + "LR7.1-opp          14 days   backward -          -          extendable\n"), on=on))
    yield got("/pages/cases/1/deadlines/1"), dated(lambda on: deadline_page(1, 1, COUNTED + DUE, on))
    # on the second of the days that are shown, there are not 35 days before
    yield got("/pages/due.csv"), exported("csv", written_csv([], []))
    yield got("/pages/due.json"), exported("json", written_json([], []))
    for path in ("1/deadlines/2", "9/deadlines/1", "1/deadlines/4294967295"):
        yield got(f"/pages/cases/{path}"), missing()
    for path in ("1/deadlines/0", "1/deadlines/01", "x/deadlines/1", "1/deadlines/", "1/deadlines/1/", "1/deadlines/1/2"):
        yield got(f"/pages/cases/{path}"), refusal("bad-path-value")
    for path in ("1/deadlines", "1/deadline/1", "1//deadlines/1"):
        yield got(f"/pages/cases/{path}"), refusal("not-found")


def previews():
    """What each form would do, and that nothing was entered by that."""
    yield previewed(ENTRY, NO_DEADLINE)
    yield previewed(PLEADING, f"new deadline 2 of case 1\n{PLEADED}")
    yield previewed(EXTEND, f"deadline 1 of case 1\n{COUNTED}{EXTENDED}")
    yield previewed(FILED, f"deadline 1 of case 1\n{COUNTED}2025-07-08T00:00-04:00 Tue  done electronically\ndone\n")
    yield previewed({**DECLARED, "key": "p1", "day": "2025-07-07", "kind": "federal"}, CHANGED + "deadline 1 of case 1: 2025-07-07 becomes 2025-07-08\n")
    yield previewed({"do": "short_day", "key": "p1", "day": "2025-07-07", "close": "12:00", "name": "Heat"}, CHANGED + UNMOVED)
    yield previewed({"do": "withdraw_calendar", "key": "p1", "row": "1"}, CHANGED + UNMOVED)
    yield previewed(CASE, KNOWN)
    yield refused({**CASE, "caption": "Roe v. Doe"}, "KeyReused", "previews")
    yield refused({**SUMMONS, "key": "p1"}, "AlreadyServed", "previews")
    yield refused(RULING, "NotAwaiting", "previews")
    yield faulty({**PLEADING, "served": "11/01/2025"}, "WrongField served", "previews")
    yield faulty({"key": "p1"}, "UnknownCommand", "previews")
    yield sheet("due 2025-07-07 24:00 17:00")
    yield previewed(MOTION, f"deadline 1 of case 1\n{COUNTED}{SUSPENDED}suspended\n")
    yield form(MOTION), led("/pages/cases/1")
    yield previewed(RULING, f"new deadline 2 of case 1\n{STATEMENT}{DUE.replace('07-07 Mon', '08-15 Fri')}deadline 1 of case 1\n{COUNTED}{SUSPENDED}{AWAITED}")
    yield sheet("suspended")
    yield got("/cases/1/deadlines"), answer(200, "text/plain; charset=utf-8", b"deadline 1 party 1 12(a)(1)(A)(i) suspended\n")


def rules():
    """The lines of the rules that every docket has, which another script of the gate has from the table in the manual."""
    with open(os.path.join(TOP, "crates/rows/data/jobs-texts.rows"), encoding="utf-8") as file:
        after = file.read().partition("$ docketctl rules\n")[2]
    return "".join(line[2:] + "\n" for line in itertools.takewhile(lambda line: line.startswith("> "), after.splitlines()))


store("forms", itertools.chain(forms(), no_forms(), faults(), commands(), pages(), previews()))
