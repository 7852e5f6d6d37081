#!/usr/bin/env python3
"""Writes the gate's stored requests for pages and exports and their whole answers (crates/rows/data/pages.in, pages.out): a docket of
two cases whose deadlines were worked out by hand, and pages and exports put together here from what they are to show. One of the requests is
the first of a day, by its number, which is written into http-pages.rows. The pages of the stored exports are made here too (jobs-exports.rows).
Usage: checks/pages_data.py"""
import os
import re
import urllib.parse

from exports_model import exported, written_calendar, written_csv, written_json
from pages_model import (TOP, answer, case_link, case_sheet, cases_table, dated, days_page, deadline_page, days_told, due_table, error, got, link, missing, nav, page, posted, refusal, reply,
                         store, told, weekday_word)

NIGHT = 1_751_947_200_000_000_000  # the nanoseconds from 1970 to July 8, 2025 in New York
CASES = [(1, "1:25-cv-00001", "2025-06-02", 'Roe & Sons v. <b>"O\'Brien"</b>'), (2, "1:25-cv-00002", "2025-06-03", "Ünal v. Doe")]
PARTY, RULE = "</td><script>", "12(a)(1)(A)(i)"
DUE = ("2025-07-07", "24:00", "17:00", 1, 1, RULE, "1")
HOURS = ("2025-07-09", "10:30", "--:--", 2, 1, "order", "-")
DOE = "Doe-Öz"
NAMES = {(1, "1"): PARTY, (2, "1"): DOE}
COMMANDS = [
    {"do": "open_case", "key": "k1", "label": CASES[0][1], "caption": CASES[0][3], "filed": CASES[0][2]},
    {"do": "open_case", "key": "k2", "label": CASES[1][1], "caption": CASES[1][3], "filed": CASES[1][2]},
    {"do": "add_party", "key": "k3", "case": 1, "name": PARTY, "role": "defendant"},
    {"do": "file_entry", "key": "k4", "case": 1, "day": "2025-06-02", "text": "Complaint & exhibits"},
    # 21 days from June 13 end on July 4, a Friday and a holiday: the time runs to Monday, July 7
    {"do": "serve_summons", "key": "k5", "case": 1, "party": 1, "basis": "private", "served": "2025-06-13"},
    # 48 hours from 10:30 Eastern daylight time
    {"do": "order_period", "key": "k6", "case": 2, "party": 0, "unit": "hours", "at": "2025-07-07T10:30-04:00", "count": 48, "direction": "forward"},
]


def set_by_court(on):
    """Why a deadline on a day that the court set is what it is."""
    return f"{on} {weekday_word(on)}  day set by the court; it stays, whatever day it is\n"


def to_closing(on):
    return f"{on} {weekday_word(on)}  due: to 24:00 electronically, to 17:00 at the clerk's office, 6(a)(4)\n"


# what was filed on the last day, on the day after, and while a motion suspended the time
LAST = "2025-05-23 Fri  "
SET = set_by_court("2025-05-23")
MOVED = (f"2025-05-02 Fri  summons and complaint served; 21 days after, {RULE}\n{LAST}counted to this day, 6(a)(1)(A), (B)\n{LAST}the period ends, 6(a)(1)(C)\n"
         "2025-05-20 Tue  motion under 12(b) served; the time is suspended, 12(a)(4)\n")
FILED = [
    (2, SET + "2025-05-23T23:59-04:00 Fri  done electronically\ndone\n", "<p>By the present calendar it was done in time.</p>\n"),
    (3, SET + "2025-05-24T00:00-04:00 Sat  done electronically\ndone\n", '<p class="late">By the present calendar it was done late.</p>\n'),
    (4, MOVED + "2025-05-26T09:00-04:00 Mon  done at the clerk's office\ndone\n", "<p>By the present calendar no time was running when it was done.</p>\n"),
]
FILINGS = [
    *(({"do": "order_period", "key": f"s{number}", "case": 2, "party": 0, "unit": "fixed", "until": "2025-05-23"}, number) for number in (2, 3)),
    ({"do": "add_party", "key": "p2", "case": 2, "name": DOE, "role": "defendant"}, 1),
    ({"do": "serve_summons", "key": "s4", "case": 2, "party": 1, "basis": "private", "served": "2025-05-02"}, 4),
    ({"do": "rule_motion", "key": "m4", "case": 2, "deadline": 4, "kind": "b", "served": "2025-05-20"}, 4),
    ({"do": "satisfy", "key": "f2", "case": 2, "deadline": 2, "at": "2025-05-23T23:59-04:00", "way": "electronic"}, 1),
    ({"do": "satisfy", "key": "f3", "case": 2, "deadline": 3, "at": "2025-05-24T00:00-04:00", "way": "electronic"}, 0),
    ({"do": "satisfy", "key": "f4", "case": 2, "deadline": 4, "at": "2025-05-26T09:00-04:00", "way": "office"}, 1),
]

# on one day of a party of the first case, of a party, of every party and of that party again of the second
AUGUST = [("2025-08-01", "24:00", "17:00", case, deadline, "order", party) for case, deadline, party in ((1, 2, "1"), (2, 5, "1"), (2, 6, "-"), (2, 7, "1"))]
# 36 and 35 days before July 8, 2025, and 400 and 401 days after it, by the numbers of deadlines
EDGES = {8: "2025-06-02", 9: "2025-06-03", 10: "2026-08-12", 11: "2026-08-13"}
# why each deadline that is exported is what it is, by its case and number
REASONS = {
    (1, 1): f"2025-06-13 Fri  summons and complaint served; 21 days after, {RULE}\n2025-07-04 Fri  counted to this day, 6(a)(1)(A), (B)\n"
            "2025-07-04 Fri  passed over: Independence Day, 6(a)(6)(A)\n2025-07-05 Sat  passed over: Saturday\n2025-07-06 Sun  passed over: Sunday\n"
            "2025-07-07 Mon  the period ends, 6(a)(1)(C)\n" + to_closing("2025-07-07"),
    (2, 1): "2025-07-07T10:30-04:00 Mon  event; 48 hours after, 6(a)(2)\n2025-07-09T10:30-04:00 Wed  counted to this time, 6(a)(2)(A), (B)\n"
            "2025-07-09T10:30-04:00 Wed  the period ends, 6(a)(2)(C)\n2025-07-09T10:30-04:00 Wed  due\n",
    **{(case, deadline): set_by_court(on) + to_closing(on) for on, _, _, case, deadline, _, _ in AUGUST},
    **{(2, deadline): set_by_court(on) + to_closing(on) for deadline, on in EDGES.items()},
}


def cases(listed, newer=None, older=None):
    links = " ".join(link(f"cases?before={before}", words) for before, words in ((newer, "Newer cases"), (older, "Older cases")) if before)
    return dated(lambda on: page("Cases", cases_table(listed) + (nav("More cases", links) if links else ""), on=on))


def days(first, last, *listed, title=""):
    return dated(lambda on: days_page(first, last, listed, CASES, NAMES, on, title))


def found(words, *listed):
    """A search by words, with the cases that it finds."""
    table = cases_table(listed) if listed else "<p>No docket number, caption or name has these words.</p>\n"
    return got(f"/pages/search?{urllib.parse.urlencode({'find': words})}"), dated(lambda on: page("Search", f"<p>Cases found by {told(words)}</p>\n" + table, on=on))


def evening():
    """The requests of July 7, each with its answer."""
    yield got("/pages"), cases([])
    for command, value in zip(COMMANDS, (1, 2, 1, 1, 1, 1), strict=True):
        yield posted(command), reply(value)
    yield got("/pages/today"), days("2025-07-07", "2025-07-07", DUE, title="Today")
    yield got("/pages/week"), days("2025-07-07", "2025-07-13", DUE, HOURS, title="This week")
    yield got("/pages/overdue"), days("1980-01-01", "2025-07-06", title="Overdue")


def night():
    """Those of July 8, of which the first are the first of the day."""
    yield got("/pages/today"), days("2025-07-08", "2025-07-08", title="Today")
    yield got("/pages/week?x"), days("2025-07-08", "2025-07-14", HOURS, title="This week")
    yield got("/pages/overdue"), days("1980-01-01", "2025-07-07", DUE, title="Overdue")
    for target in ("/pages", "/pages/", "/pages/cases", "/pages/cases?before=3", "/pages?before=4294967295"):
        yield got(target), cases(CASES[::-1])
    yield got("/pages/cases?before=2"), cases(CASES[:1], newer=102)
    yield got("/pages/cases?before=1"), cases([], newer=101)
    due = f"due {DUE[0]} {DUE[1]} {DUE[2]}"
    sheet = case_sheet(CASES[0], [("defendant", PARTY)], [("2025-06-02", COMMANDS[3]["text"])], [(1, RULE, due)])
    yield got("/pages/cases/1"), dated(lambda on: page(CASES[0][1], sheet, on=on))
    for target in ("/pages/calendar?from=2025-07-07", "/pages/calendar/2025-07-07/2025-07-13", "/pages/calendar/2025-07-07/2025-07-13?from=2025-07-01"):
        yield got(target), days("2025-07-07", "2025-07-13", DUE, HOURS)
    yield got("/pages/calendar/2025-07-01/2025-07-06"), days("2025-07-01", "2025-07-06")
    yield got("/pages/calendar?from=1980-01-01"), days("1980-01-01", "1980-01-07")
    yield got("/pages/calendar?from=3999-12-28"), days("3999-12-28", "3999-12-31")
    yield from filings()
    yield from searches()
    yield from refusals()
    # of a docket in memory there is no file to copy: the caller is told that one is asked for
    yield got("/pages/backup"), b"a copy of the docket is asked for"
    yield got("/cases/1/deadlines"), answer(200, "text/plain; charset=utf-8", f"deadline 1 party 1 {RULE} {due}\n".encode())
    yield from named()
    yield from exports_of_days()
    yield from refused_exports()


def named():
    """On one day four deadlines: of a party of the first case, of a party, of every party and of that party again of the second."""
    for case, party, deadline in ((2, 1, 5), (1, 1, 2), (2, 0, 6), (2, 1, 7)):
        yield posted({"do": "order_period", "key": f"n{case}-{deadline}", "case": case, "party": party, "unit": "fixed", "until": "2025-08-01"}), reply(deadline)
    yield got("/pages/calendar/2025-08-01/2025-08-01"), days("2025-08-01", "2025-08-01", *AUGUST)


def exports_of(listed, query=""):
    """What is due in each format. An event tells the second of the request."""
    yield got(f"/pages/due.ics{query}"), lambda fresh: exported("ics", written_calendar(listed, CASES, REASONS, fresh // 10**9))
    yield got(f"/pages/due.csv{query}"), exported("csv", written_csv(listed, CASES))
    yield got(f"/pages/due.json{query}"), exported("json", written_json(listed, CASES))


def exports_of_days():
    """From 35 days before the day of the request to 400 days after it, where a deadline is due on each of these days, the day before the first
    and the day after the last; and of days that are asked for."""
    for deadline, until in EDGES.items():
        yield posted({"do": "order_period", "key": f"x{deadline}", "case": 2, "party": 0, "unit": "fixed", "until": until}), reply(deadline)
    before, first, last, after = ((until, "24:00", "17:00", 2, deadline, "order", "-") for deadline, until in EDGES.items())
    yield from exports_of([first, DUE, HOURS, *AUGUST, last])
    yield from exports_of([before, first, DUE, HOURS, *AUGUST, last, after], "?from=1980-01-01&to=3999-12-31")
    yield from exports_of([HOURS], "?from=2025-07-08&to=2025-07-09")
    yield from exports_of([], "?from=2025-07-08&to=2025-07-08")


def refused_exports():
    """A program is told in JSON why it gets nothing."""
    for target in ("ics?", "ics?x=1", "ics?from=2025-07-09&to=2025-07-08", "ics?from=2025-07-08", "csv?to=2025-07-08", "csv?to=2025-07-09&from=2025-07-08", "csv?from=2025-07-08&to=2025-02-30",
                   "csv?from=1979-12-31&to=2025-07-08", "json?from=2025-07-08&to=4000-01-01", "json?from=2025-07-08&to=2025-07-09&x=1", "json?from=2025-07-08&amp;to=2025-07-09"):
        yield got(f"/pages/due.{target}"), error(400, "bad-path-value")
    for line in ("POST /pages/due.ics", "HEAD /pages/due.csv", "PUT /pages/due.json", "DELETE /pages/due.ics?from=2025-07-08&to=2025-07-09"):
        yield f"{line} HTTP/1.1\r\nHost: x\r\n\r\n".encode(), error(405, "method")
    for target in ("/pages/due", "/pages/due.ics/", "/pages/due.pdf", "/pages/due.ICS", "/pages/due.html"):
        yield got(target), refusal("not-found")
    yield got("/due.ics"), error(404, "not-found")


def filings():
    """What was filed in time, late, and while no time was running."""
    for command, value in FILINGS:
        yield posted(command), reply(value)
    for deadline, steps, filed in FILED:
        yield got(f"/pages/cases/2/deadlines/{deadline}"), dated(lambda on, what=(2, deadline, steps), filed=filed: deadline_page(*what, on, filed))


def searches():
    """By a docket number, by a caption in letters of another case, by a part of a party's name, and what finds nothing: a part of a docket
    number, a letter beyond ASCII in the other case."""
    yield found("1:25-cv-00002", CASES[1])
    yield found("roe & SONS V. <B>", CASES[0])
    yield found(" v. ", *CASES[::-1])
    yield found("</TD>", CASES[0])
    yield found("E-Öz", CASES[1])
    for words in ("1:25-cv", "e-öz", "  ", "x" * 100):
        yield found(words)


def refusals():
    """A page says that nothing is there, or why a request is refused; JSON says it of what is no page."""
    for target in ("/pages/cases/9", "/pages/cases/4294967295", "/pages/cases/2/deadlines/5"):
        yield got(target), missing()
    for target in ("/pages/x", "/pagesx", "/pages/cases/", "/pages/cases/1/deadlines", "/pages/holidays/2027", "/pages//cases", "/pages/today/", "/pages/weeks", "/pages/search/", "/pages/backup/"):
        yield got(target), refusal("not-found")
    for target in ("/Pages", "/backup", "/today", "/search?find=roe"):
        yield got(target), error(404, "not-found")
    for target in ("?before=0", "?before=4294967296", "?", "?before=", "?before=1&x=2", "?x=1", "?from=1", "/cases/0", "/cases/01", "/calendar", "/calendar?from=2025-7-7",
                   "/calendar?from=1979-12-31", "/calendar/2025-07-02/2025-07-01", "/search", "/search?", "/search?find=", "/search?find=%FF", "/search?find=a&find=b", "/search?x=a",
                   f"/search?find={'x' * 101}"):
        yield got("/pages" + target), refusal("bad-path-value")
    for line in ("POST /pages", "HEAD /pages/cases/1", "PUT /pages/calendar", "POST /pages/backup", "POST /pages/search?find=roe"):
        yield f"{line} HTTP/1.1\r\nHost: x\r\n\r\n".encode(), refusal("method")


def replaced(name, pattern, texts):
    """Writes texts into a script in the places of what has the pattern, one after the other."""
    path, texts = os.path.join(TOP, "crates/rows/data", name), iter(texts)
    with open(path, encoding="utf-8") as file:
        whole = re.sub(pattern, lambda _: next(texts), file.read())
    with open(path, "w", encoding="utf-8") as file:
        file.write(whole)


def exports():
    """The pages that are exported: what is due in a month, the docket sheet of a case, and a day without deadlines."""
    case = (1, "1:25-cv-00012", "2025-06-02", 'Roe, "Jr." v. <Doe>; & Co.')
    due = [("2025-07-07", "15:30", "--:--", 1, 2, "order", "-"), DUE]
    sheet = case_sheet(case, [("defendant", "Doe")], [("2025-06-02", "Complaint")], [(1, RULE, "due 2025-07-07 24:00 17:00"), (0, "order", "due 2025-07-07T15:30-04:00")], False)
    for title, content in (("Deadlines", days_told("2025-07-01", "2025-07-31") + due_table(due, [case])), (case[1], sheet),
                           ("Deadlines", days_told("1980-01-01", "1980-01-01") + due_table([], []))):
        yield "".join(f"> {line}\n" for line in page(title, content, "").splitlines())


before = list(evening())
store("pages", [*before, *night()], NIGHT - len(before) - 1)
replaced("http-pages.rows", r"(?<=http pages )\d+", [str(NIGHT - len(before) - 1)])
replaced("jobs-exports.rows", r"> <!DOCTYPE html>\n(?:> .*\n)+?> </html>\n", exports())
