"""Mixed commands: mixed_commands.py CASES COMMANDS [local|all] prints commands that open so many cases, and so many over 1,000 of these:
parties, entries, counterclaims that are served, and extensions of their deadlines, all accepted. With `local` 20 local rules are
entered first, and a third of the deadlines run by them in the place of the counterclaim's. With `all` the commands are over all
cases. The same arguments give the same ones.
mixed_commands.py calendar prints commands that fill the court calendar: 2,000 closed days and 2,000 closed spans, years after the
deadlines."""
import json
import random
import sys
from datetime import date, timedelta

if sys.argv[1:] == ["calendar"]:
    for number in range(2_000):
        print(json.dumps({"do": "close_day", "key": f"calendar-day-{number}", "day": str(date(2030, 1, 1) + timedelta(number)), "name": "Closed"}))
        morning = date(2040, 1, 1) + timedelta(number)
        print(json.dumps({"do": "close_span", "key": f"calendar-span-{number}", "start": f"{morning}T10:00+00:00", "end": f"{morning}T11:00+00:00"}))
    sys.exit()

cases, commands, local = int(sys.argv[1]), int(sys.argv[2]), sys.argv[3:] == ["local"]
spread = cases if sys.argv[3:] == ["all"] else 1000
random.seed(6103)
day = lambda: str(date(2025, 1, 1) + timedelta(random.randrange(300)))
served = 0
filled = [[0, []] for _ in range(spread)]  # of each of these its number of parties and its deadlines, each with its extensions


def time_served(numbered, party):
    """A counterclaim that is served, or the like by a local rule."""
    global served
    served += 1
    start, method = day(), random.choice("ABCDEF")
    if local and served % 3 == 0:
        return {"do": "local_period", **numbered, "party": party, "rule": f"LR{served % 20 + 1}", "start": start, "method": method}
    return {"do": "serve_pleading", **numbered, "party": party, "kind": "counterclaim", "basis": "private", "served": start,
            "method": method}


def command():
    number = random.randrange(spread)
    case, numbered = filled[number], {"case": number * (cases // spread) + 1}
    if case[0] == 0 or (random.random() < 0.1 and case[0] < 900):
        case[0] += 1
        return {"do": "add_party", **numbered, "name": "Doe", "role": "defendant"}
    if random.random() < 0.5:
        return {"do": "file_entry", **numbered, "day": day(), "text": "Motion to dismiss, with a memorandum of law"}
    if len(case[1]) < 900 and random.random() < 0.6:
        case[1].append(0)
        return time_served(numbered, random.randint(1, case[0]))
    if case[1]:
        deadline = random.randrange(len(case[1]))
        if case[1][deadline] < 90:
            case[1][deadline] += 1
            return {"do": "extend", **numbered, "deadline": deadline + 1, "at": "2025-01-01T09:00+00:00", "neglect": True, "days": 3}
    return {"do": "file_entry", **numbered, "day": day(), "text": "Order"}


for number in range(20 if local else 0):
    print(json.dumps({"do": "local_rule", "key": f"r{number}", "name": f"LR{number + 1}", "days": 21, "direction": "forward",
                      "three": True, "extendable": True}))
for number in range(cases):
    print(json.dumps({"do": "open_case", "key": f"c{number}", "label": f"1:25-cv-{number:06}", "caption": "Roe v. Doe", "filed": "2025-06-02"}))
for number in range(commands):
    print(json.dumps({"key": f"k{number}", **command()}))
