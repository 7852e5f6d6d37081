"""For checks/export and checks/icalendar: dockets with many deadlines, and what docketctl tells of each."""
import json
import os
import subprocess
from datetime import date, timedelta

from html_pages import CAPTIONS

TOP = os.path.dirname(os.path.dirname(os.path.realpath(__file__)))
PROGRAM = os.path.join(TOP, "crates/docketctl/out/docketctl")
DAYS = ("2025-01-01", "2026-12-31")


def commands(cases, each):
    """Cases with two parties and counterclaims on one of them, and in every third a period of hours, on days spread over a year."""
    for case in range(1, cases + 1):
        caption = CAPTIONS[case % len(CAPTIONS)] if cases < 1_000 else f"Roe v. Doe {case}"
        yield {"do": "open_case", "key": f"o{case}", "label": f"1:25-cv-{case:05}", "caption": caption, "filed": "2025-01-02"}
        for name, role in (("Doe", "defendant"), ("Roe", "plaintiff")):
            yield {"do": "add_party", "key": f"{name}{case}", "case": case, "name": name, "role": role}
        for number in range(each):
            served = date(2025, 1, 2) + timedelta((7 * case + 3 * number) % 360)
            yield {"do": "serve_pleading", "key": f"s{case}-{number}", "case": case, "party": 2, "kind": "counterclaim",
                   "basis": "private", "served": str(served), "method": "A"}
        if case % 3 == 0:
            yield {"do": "order_period", "key": f"h{case}", "case": case, "party": 0, "unit": "hours", "at": "2025-03-05T10:30-05:00",
                   "count": 48, "direction": "forward"}


def told(*words):
    return subprocess.run([PROGRAM, *words], capture_output=True, check=True).stdout.decode()


def deadlines(path):
    """What `calendar` and `cases` tell of each deadline, by its place."""
    cases = {}
    for line in told("cases", "--db", path).split("\n")[:-1]:
        _, number, label, _, _, caption = (line + " ").split(" ", 5)
        cases[int(number)] = (label, caption[:-1])
    found = []
    for line in told("calendar", "--db", path, *DAYS).split("\n")[:-2]:
        day, at, closing_time, case, number, rule, party = line.split()
        label, caption = cases[int(case)]
        found.append((day, at, closing_time, int(case), int(number), rule, party, label, caption))
    return found


def docket(path, cases, each):
    court = ["--zone", "EST5", "--close", "17:00"]
    subprocess.run([PROGRAM, "create", "--db", path, *court], stdout=subprocess.DEVNULL, check=True)
    lines = "".join(json.dumps(command) + "\n" for command in commands(cases, each))
    subprocess.run([PROGRAM, "run", "--db", path], input=lines.encode(), stdout=subprocess.DEVNULL, check=True)
