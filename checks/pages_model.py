"""For checks/pages_data.py and checks/entries_data.py: the bytes of pages and answers, put together from what they are to show. Style sheet
and words are read in the definitions (crates/*/specs), which a reader is to believe; how a page is made of them is written here once more."""
import html
import json
import os
import re
from datetime import date, datetime
from zoneinfo import ZoneInfo

TOP = os.path.dirname(os.path.dirname(os.path.realpath(__file__)))
WEEKDAYS = ("Mon", "Tue", "Wed", "Thu", "Fri", "Sat", "Sun")
ZONE = "EST5EDT,M3.2.0,M11.1.0"
POLICY = "default-src 'none'; style-src 'unsafe-inline'; form-action 'self'; base-uri 'none'; frame-ancestors 'none'"
STATUS = {200: "OK", 303: "See Other", 400: "Bad Request", 403: "Forbidden", 404: "Not Found", 405: "Method Not Allowed", 409: "Conflict", 411: "Length Required",
          413: "Payload Too Large", 415: "Unsupported Media Type", 500: "Internal Server Error", 503: "Service Unavailable"}
CODES = r'codes "((?:[^"\\]|\\.)*)"'


def spec(path):
    """The definitions of a file: each has its lines joined, and no comment."""
    with open(os.path.join(TOP, "crates", path), encoding="utf-8") as file:
        lines = [line for line in file.read().splitlines() if line and not line.startswith(("--", "use "))]
    return re.sub(r"\n +", " ", "\n".join(lines)).split("\n")


def literal(text):
    """A text as a definition writes it."""
    return text.replace('\\"', '"').replace("\\n", "\n").replace("\\\\", "\\")


def literals(text):
    return [literal(found) for found in re.findall(CODES, text)]


def table(path, name):
    """A function that is defined by cases: what stands before and behind each `=`."""
    return [(before.split(), behind) for before, behind in re.findall(rf"^{name} (.*?) = (.*)$", "\n".join(spec(path)), re.M)]


def style():
    """The rules of the style sheet, a line each, in the order in which the whole of it names their lists."""
    lists = {line.partition(" =")[0]: literals(line) for line in spec("html_sheets/specs/Styles.antt") if "_rules =" in line}
    whole = next(line for line in spec("html_sheets/specs/Styles.antt") if line.startswith("style_text ="))
    return "".join(rule + "\n" for name in re.findall(r"\w+_rules", whole) for rule in lists[name])


STYLE = style()


def escaped(text):
    """HTML Living Standard, 13.1.4: five characters of the markup are written as references; a control byte is a blank."""
    blank = "".join(" " if ord(letter) < 32 and letter != "\t" or ord(letter) == 127 else letter for letter in text)
    return html.escape(blank).replace("&#x27;", "&#39;")


def told(text):
    return f"<bdi>{escaped(text)}</bdi>"


def day(text):
    return f"<time>{text}</time>"


def weekday_word(text):
    return WEEKDAYS[date.fromisoformat(text).weekday()]


def weekday(text):
    return f"{day(text)} {weekday_word(text)}"


def rows(columns, rows_of):
    heads = "".join(f'<th scope="col">{column}</th>' for column in columns)
    return f"<table>\n<thead>\n<tr>{heads}</tr>\n</thead>\n<tbody>\n{''.join(f'<tr>{row}</tr>' + chr(10) for row in rows_of)}</tbody>\n</table>\n"


def head(text):
    return f'<th scope="row" class="number">{text}</th>'


def number(text):
    return f'<td class="number">{text}</td>'


def cell(text):
    return f"<td>{text}</td>"


def link(path, words):
    return f'<a href="/pages/{path}">{words}</a>'


def case_link(case):
    return link(f"cases/{case}", case)


def deadline_link(case, deadline):
    return link(f"cases/{case}/deadlines/{deadline}", deadline)


def nav(label, content):
    return f'<nav aria-label="{label}">{content}</nav>\n'


def asking(action, words, control, button):
    """A form that asks for a page."""
    return f'<form action="/pages/{action}><label>{words} <input {control} required></label> <button>{button}</button></form>'


def site():
    """What each page begins with: links, and the forms that search and that ask for a week."""
    pages = (("cases", "Cases"), ("today", "Today"), ("week", "This week"), ("overdue", "Overdue"), ("enter", "Enter"), ("court-days", "Court days"), ("rules", "Rules"))
    forms = (asking('search" role="search"', "Docket number, caption or name", 'type="search" name="find" maxlength="100"', "Find"),
             asking('calendar"', "Deadlines in the seven days from", 'type="date" name="from" min="1980-01-01" max="3999-12-31"', "Show"))
    return nav("Docket", "\n".join((*(link(path, words) for path, words in pages), *forms)))


def kinds():
    """The words of each kind, by its name."""
    return {before[0]: literals(behind)[0] for before, behind in table("docket_command/specs/Names.antt", "command_word")}


def titles():
    """What each kind is called on the pages, by its name."""
    return {before[0]: literals(behind)[0] for before, behind in table("html_sheets/specs/Titles.antt", "title_of")}


def entering(about, kinds_of):
    """Links to forms, as a definition of that name lists them."""
    words, called, query = kinds(), titles(), "&amp;".join(f"{name}={value}" for name, value in about.items())
    listed = next(line for line in spec("html_sheets/specs/Entering.antt") if line.startswith(f"{kinds_of} ="))
    return nav("Enter", "\n" + "".join(link(f"enter/{words[kind]}" + ("?" + query if query else ""), called[kind]) + "\n"
                                       for kind in re.findall(r"[A-Z]\w+", listed)))


def served(case, party):
    """The links behind the name of a party."""
    links = " ".join(link(f"enter/{kind}?case={case}&amp;party={party}", words) for kind, words in (("serve_summons", "Serve a summons"), ("serve_pleading", "Serve a pleading")))
    return f' <span class="act">{links}</span>'


def rule_words():
    """What each rule is about, by its name."""
    names = dict(re.findall(rf"^line_of (\w+) = line \({CODES}\)", "\n".join(spec("court_rules/specs/Rules.antt")), re.M))
    return {names[before[0]]: literals(behind)[0] for before, behind in table("html_sheets/specs/RuleWords.antt", "rule_words")}


RULE_WORDS = rule_words()


def worded(rule, name=""):
    """A rule in words and by its name, which may be marked up; a local one by its name alone."""
    return (RULE_WORDS[rule] + ", " if rule in RULE_WORDS else "") + (name or rule)


def cases_table(cases):
    """A row for each case: its number, docket number, day and caption."""
    return rows(("Case", "Docket number", "Filed", "Caption"), [head(case_link(case)) + cell(told(label)) + cell(day(filed)) + cell(told(caption)) for case, label, filed, caption in cases])


def case_sheet(case, parties, entries, deadlines, served_too=True):
    """The docket sheet: of each party its role and name, of each entry its day and text, of each deadline the number of its party, if it has
    one, its rule and standing. Where the docket is served, there are links."""
    number_of, label, filed, caption = case
    names = [told(name) for _, name in parties]
    said = (("Case", number_of), ("Docket number", told(label)), ("Caption", told(caption)), ("Filed", day(filed)))
    tables = (("Parties", ("Party", "Role", "Name"), [cell(role) + cell(told(name) + (served(number_of, at) if served_too else "")) for at, (role, name) in enumerate(parties, 1)]),
              ("Entries", ("Entry", "Day", "Text"), [cell(day(on)) + cell(told(text)) for on, text in entries]),
              ("Deadlines", ("Deadline", "Party", "Rule", "Standing"),
               [cell(f"{party} {names[party - 1]}" if party else f"- {told('')}") + cell(worded(rule, told(rule))) + number(standing) for party, rule, standing in deadlines]))
    heads = {"Deadlines": lambda at: deadline_link(number_of, at)} if served_too else {}
    return ("<dl>\n" + "".join(f"<dt>{word}</dt><dd>{content}</dd>\n" for word, content in said) + "</dl>\n" + (entering({"case": number_of}, "daily_kinds") if served_too else "")
            + "".join(f"<h2>{name}</h2>\n" + rows(columns, [head(heads.get(name, str)(at)) + row for at, row in enumerate(cells, 1)]) for name, columns, cells in tables))


def due_table(listed, cases, names=None):
    """What is due: day, time, closing, case, deadline, rule, party; the docket number and the caption are those of the case. Where the docket
    is served there are links, and each party has its name, by its case and its number."""
    columns = ("Day", "Time", "Closing", "Case", "Docket number", "Deadline", "Rule", "Party", "Caption")
    links = (lambda case: case, lambda _, deadline: deadline) if names is None else (case_link, deadline_link)
    party_of = (lambda _, party: number(party)) if names is None else (lambda case, party: cell(f"{party} {told(names.get((case, party), ''))}"))
    return rows(columns, [head(weekday(on)) + number(at) + number(closing) + number(links[0](case)) + number(told(cases[case - 1][1])) + number(links[1](case, deadline)) + cell(worded(rule, told(rule)))
                          + party_of(case, party) + cell(told(cases[case - 1][3])) for on, at, closing, case, deadline, rule, party in listed])


def days_told(first, last):
    return f"<p>{weekday(first)} to {weekday(last)}</p>\n"


def days_away(text, count):
    """A day so many days away, or the first or the last that there is."""
    away = date.fromisoformat(text).toordinal() + count
    return str(date.fromordinal(min(max(away, date(1980, 1, 1).toordinal()), date(3999, 12, 31).toordinal())))


def exports_nav(first, last):
    """Links to what is due on some days as files for other programs; a calendar to which one subscribes has days of its own."""
    days = f"?from={first}&amp;to={last}"
    return nav("Exports", " ".join((link("due.ics", "Calendar to subscribe to"), link("due.csv" + days, "CSV"), link("due.json" + days, "JSON"))))


def days_page(first, last, listed, cases, names, on, title=""):
    """What is due on some days, with links to those a week before and after; a list with a title of its own has none."""
    weeks = " ".join(link(f"calendar/{days_away(first, by)}/{days_away(last, by)}", words) for by, words in ((-7, "Week before"), (7, "Week after")))
    zone = f"<p>Times are local, in the zone {told(ZONE)}</p>\n"
    content = days_told(first, last) + zone + ("" if title else nav("Other weeks", weeks)) + due_table(listed, cases, names) + exports_nav(first, last)
    return page(title or "Deadlines", content, on=on)


def deadline_page(case, deadline, steps, on, filed=""):
    """Why a deadline stands as it does, and whether what was filed was in time."""
    return page(f"Why deadline {deadline} of case {case} stands as it does",
                f"<p>Case {case_link(case)}</p>\n{filed}" + entering({"case": case, "deadline": deadline}, "deadline_kinds") + lines(steps), on=on)


def page(title, content, beginning=None, on=""):
    """A page whole, whose title is plain text; one of a file has no links on top. One that shows the docket has the day on which it does."""
    printed = f'<p class="printed">Printed on {on} {weekday_word(on)}</p>\n' if on else ""
    return ('<!DOCTYPE html>\n<html lang="en">\n<head>\n<meta charset="utf-8">\n'
            '<meta name="viewport" content="width=device-width, initial-scale=1">\n'
            f"<title>{escaped(title)}</title>\n<style>{STYLE}</style>\n</head>\n<body>\n<main>\n<h1>{told(title)}</h1>\n"
            f"{site() if beginning is None else beginning}{content}{printed}</main>\n</body>\n</html>\n")


def lines(text):
    """A text of several lines as it stands."""
    return "<pre>" + "\n".join(map(escaped, text.split("\n"))) + "</pre>\n"


def answer(status, form, body):
    return f"HTTP/1.1 {status} {STATUS[status]}\r\ncontent-type: {form}\r\ncontent-length: {len(body)}\r\nconnection: close\r\n\r\n".encode() + body


def shown(text, status=200):
    """The answer with a page."""
    return answer(status, f"text/html; charset=utf-8\r\ncontent-security-policy: {POLICY}\r\ncache-control: no-store", text.encode())


def day_of(fresh):
    """The day of a request in the court's zone, by its number, which counts nanoseconds; days are shown from 1980 on."""
    return str(datetime.fromtimestamp(max(fresh // 10**9, 315_705_600), ZoneInfo("America/New_York")).date())


def dated(made):
    """The answer with a page that is made of the day of its request."""
    return lambda fresh: shown(made(day_of(fresh)))


def missing():
    """The answer with the page of a case or a deadline that is not there."""
    return shown(page("Not found", lines("There is no such case, or the case has no such deadline.")), 404)


REFUSALS = {"bad-path-value": (400, "BadPathValue"), "not-found": (404, "NotFound"), "method": (405, "Method"), "length-required": (411, "LengthRequired"),
            "too-long": (413, "TooLong"), "media-type": (415, "MediaType")}


def refusal(word):
    """The answer to a request for a page that is refused: a page that says why."""
    status, name = REFUSALS[word]
    sentence = next(literals(behind)[0] for before, behind in table("docket_http/specs/Answer.antt", "rejection_sentence") if before == [name])
    return shown(page("Request refused", lines(sentence)), status)


def failed(name):
    """The answer to a request for a page where the server fails: a small page, without links on top and without a style."""
    found = re.search(rf"^problem_page {name} = failure_page (\d+) \({CODES}\)", "\n".join(spec("docket_http/specs/Answer.antt")), re.M)
    return shown('<!DOCTYPE html>\n<html lang="en">\n<head>\n<meta charset="utf-8">\n<title>Not answered</title>\n</head>\n<body>\n<h1>Not answered</h1>\n'
                 f'<p>{literal(found[2])}</p>\n<p>{link("cases", "Cases")}</p>\n</body>\n</html>\n', int(found[1]))


def error(status, word):
    return answer(status, "application/json", f'{{"error":"{word}"}}\n'.encode())


def reply(value):
    return answer(200, "application/json", f'{{"number":{value}}}\n'.encode())


def got(target):
    return f"GET {target} HTTP/1.1\r\nHost: x\r\n\r\n".encode()


def posted(command):
    body = json.dumps(command, ensure_ascii=False, separators=(",", ":"), sort_keys=True).encode()
    return f"POST /commands HTTP/1.1\r\nHost: x\r\nContent-Length: {len(body)}\r\n\r\n".encode() + body


def escape_ascii(data):
    """As Rust's `escape_ascii` writes bytes."""
    named = {9: "\\t", 13: "\\r", 10: "\\n", 39: "\\'", 34: '\\"', 92: "\\\\"}
    return "".join(named.get(byte) or (chr(byte) if 32 <= byte < 127 else f"\\x{byte:02x}") for byte in data)


def store(name, exchanges, before=0):
    """Writes requests and their answers as a script of the gate reads them: NAME.in and NAME.out. An answer may be made of the number of
    its request, of which the first is the one behind `before`."""
    data = os.path.join(TOP, "crates/rows/data", name)
    with open(data + ".in", "w", encoding="ascii") as requests, open(data + ".out", "w", encoding="ascii") as answers:
        for fresh, (request, wanted) in enumerate(exchanges, before + 1):
            requests.write(json.dumps(request.decode("latin-1")) + "\n")
            answers.write(escape_ascii(wanted(fresh) if callable(wanted) else wanted) + "\n")
