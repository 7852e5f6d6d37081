"""For checks/pages_data.py and checks/entries_data.py: what is due as iCalendar (RFC 5545), CSV (RFC 4180) and JSON (RFC 8259), and the answers with it."""
import csv
import io
import json
import re
from datetime import datetime, timezone
from zoneinfo import ZoneInfo

from pages_model import answer, worded

TYPES = {"ics": "text/calendar; charset=utf-8", "csv": "text/csv; charset=utf-8", "json": "application/json"}
FIELDS = ("day", "time", "closing", "case", "label", "caption", "deadline", "rule", "party")


def records(listed, cases):
    """Of each deadline the values of the fields."""
    for day, at, closing, case, deadline, rule, party in listed:
        _, label, _, caption = cases[case - 1]
        yield dict(zip(FIELDS, (day, at, closing if at == "24:00" else None, case, label, caption, deadline, rule, party), strict=True))


def written_csv(listed, cases):
    out = io.StringIO(newline="")
    writer = csv.writer(out, lineterminator="\r\n")
    writer.writerows([FIELDS, *(record.values() for record in records(listed, cases))])
    return out.getvalue().encode()


def written_json(listed, cases):
    """An object a line, whose party is 0 for every party."""
    objects = ({**record, "party": 0 if record["party"] == "-" else int(record["party"])} for record in records(listed, cases))
    return ("[\n" + ",\n".join(json.dumps(one, ensure_ascii=False, separators=(",", ":"), sort_keys=True) for one in objects) + "\n]\n").encode()


def text_value(text):
    """3.3.11: a line break is written as \\n, another control character as a blank, and a backslash stands before some characters."""
    plain = "".join(" " if ord(letter) < 32 and letter not in "\t\n" or ord(letter) == 127 else letter for letter in re.sub("\r\n|\r", "\n", text))
    return re.sub(r"[\\;,]", r"\\\g<0>", plain).replace("\n", "\\n")


def folded(line):
    """3.1: no physical line is of more than 75 octets, and each character stays whole."""
    written, at = b"", 0
    for octets in map(str.encode, line):
        if at + len(octets) > 75:
            written, at = written + b"\r\n ", 1
        written, at = written + octets, at + len(octets)
    return written + b"\r\n"


# RFC 7986 5.7 for the interval, and what older programs read
HEAD = ("BEGIN:VCALENDAR", "VERSION:2.0", "PRODID:-//Wogzenay//docketctl//EN", "CALSCALE:GREGORIAN", "X-WR-CALNAME:Court deadlines",
        "REFRESH-INTERVAL;VALUE=DURATION:PT1H", "X-PUBLISHED-TTL:PT1H")


def utc(moment):
    return moment.astimezone(timezone.utc).strftime("%Y%m%dT%H%M%SZ")


def summary(label, caption, rule):
    return f"{label} {caption}: {worded(rule)}"


def event(record, reasons, stamp):
    """An event on the last day, or at the instant that ends the time."""
    at, case, deadline, label = record["time"], record["case"], record["deadline"], record["label"]
    moment = at != "24:00" and datetime.fromisoformat(f"{record['day']}T{at}").replace(tzinfo=ZoneInfo("America/New_York"))
    yield "BEGIN:VEVENT"
    yield f"UID:{text_value(f'deadline-{deadline}-of-case-{case}-{label}@docketctl')}"
    yield f"DTSTAMP:{utc(datetime.fromtimestamp(stamp, timezone.utc))}"
    yield f"DTSTART:{utc(moment)}" if moment else "DTSTART;VALUE=DATE:" + record["day"].replace("-", "")
    yield "SUMMARY:" + text_value(summary(label, record["caption"], record["rule"]))
    yield "DESCRIPTION:" + text_value(f"Case {case}, {label}, deadline {deadline}\n{reasons}")
    yield "TRANSP:TRANSPARENT"
    yield "END:VEVENT"


def written_calendar(listed, cases, reasons, stamp):
    """A calendar that is written at a second since 1970; the reasons are by case and deadline."""
    lines = list(HEAD)
    for record in records(listed, cases):
        lines += event(record, reasons[record["case"], record["deadline"]], stamp)
    return b"".join(map(folded, [*lines, "END:VCALENDAR"]))


def exported(form, body):
    """The answer with an export."""
    return answer(200, f"{TYPES[form]}\r\ncache-control: no-store", body)
