"""A plain docket over the module sqlite3, in a file with the tables of `docketctl create`: file_model.py FILE [in-memory] < COMMANDS.
With the second word it works on a copy of the file in memory, which is not kept.

It answers the seven kinds of commands that bench/file sends it, one transaction each, with a log that is synced at each commit. It
refuses nothing but a key that was used for another command and a label that stands, and knows no calendar but the statutory
holidays.
"""
import json
import sqlite3
import sys
from datetime import date, timedelta
from functools import cache

EPOCH = date(1970, 1, 1)
WHOLE_DAY = 9_999_999_999_999
ROLES = {"plaintiff": 1, "defendant": 2}


def nth(year, month, weekday, count):
    first = date(year, month, 1)
    return first + timedelta((weekday - first.weekday()) % 7 + 7 * (count - 1))


@cache
def holidays(year):
    """The statutory holidays of a year, those of a fixed date also on the Friday before a Saturday and the Monday after a Sunday."""
    last_may = date(year, 5, 31)
    found = {nth(year, 1, 0, 3), nth(year, 2, 0, 3), last_may - timedelta(last_may.weekday()), nth(year, 9, 0, 1),
             nth(year, 10, 0, 2), nth(year, 11, 3, 4)}
    for of_year, month, day in ((year, 1, 1), (year, 6, 19), (year, 7, 4), (year, 11, 11), (year, 12, 25), (year + 1, 1, 1)):
        fixed = date(of_year, month, day)
        found |= {fixed, fixed - timedelta(fixed.weekday() == 5), fixed + timedelta(fixed.weekday() == 6)}
    return found


def rolled(day):
    while day.weekday() >= 5 or day in holidays(day.year):
        day += timedelta(1)
    return day


def number_of(day):
    return (day - EPOCH).days


class Docket:
    def __init__(self, path, in_memory=False):
        self.conn = sqlite3.connect(path, isolation_level=None)
        if in_memory:
            file, self.conn = self.conn, sqlite3.connect(":memory:", isolation_level=None)
            file.backup(self.conn)
            file.close()
        self.conn.execute("PRAGMA journal_mode = WAL")
        self.conn.execute("PRAGMA synchronous = FULL")
        self.conn.execute("PRAGMA foreign_keys = ON")

    def one(self, sql, *values):
        row = self.conn.execute(sql, values).fetchone()
        return None if row is None else row[0]

    def next_number(self, table, case):
        return (self.one(f"SELECT number FROM {table} WHERE case_no = ? ORDER BY number DESC LIMIT 1", case) or 0) + 1

    def open_case(self, c):
        if self.one("SELECT 1 FROM cases WHERE label = ?", c["label"]):
            return None
        number = (self.one("SELECT number FROM cases ORDER BY number DESC LIMIT 1") or 0) + 1
        filed = number_of(date.fromisoformat(c["filed"]))
        self.conn.execute("INSERT INTO cases VALUES (?, ?, ?, ?)", (number, c["label"], c["caption"], filed))
        return number

    def add_party(self, c):
        number = self.next_number("party", c["case"])
        self.conn.execute("INSERT INTO party VALUES (?, ?, ?, ?)", (c["case"], number, c["name"], ROLES[c["role"]]))
        return number

    def file_entry(self, c):
        number = self.next_number("entry", c["case"])
        day = number_of(date.fromisoformat(c["day"]))
        self.conn.execute("INSERT INTO entry VALUES (?, ?, ?, ?)", (c["case"], number, day, c["text"]))
        return number

    def local_rule(self, c):
        if self.one("SELECT 1 FROM local_rule WHERE name = ?", c["name"]):
            return None
        number = (self.one("SELECT number FROM local_rule ORDER BY number DESC LIMIT 1") or 0) + 1
        row = (number, c["name"], c["days"], 1, int(c["three"]), int(c["extendable"]))
        self.conn.execute("INSERT INTO local_rule VALUES (?, ?, ?, ?, ?, ?)", row)
        return number

    def local_period(self, c):
        sql = "SELECT days, three FROM local_rule WHERE name = ?"
        days, three = self.conn.execute(sql, (c["rule"],)).fetchone()
        return self.add_deadline(c, c["rule"], date.fromisoformat(c["start"]), days, three and c["method"] in "CDF")

    def serve_pleading(self, c):
        return self.add_deadline(c, "12(a)(1)(B)", date.fromisoformat(c["served"]), 21, c["method"] in "CDF")

    def add_deadline(self, c, rule, start, days, three):
        case = c["case"]
        number = self.next_number("deadline", case)
        self.conn.execute("INSERT INTO deadline VALUES (?, ?, ?, ?, 0)", (case, number, c["party"], rule))
        act = (case, number, 1, 1, number_of(start), 1, days, 1, int(three))
        self.conn.execute("INSERT INTO act VALUES (?, ?, ?, ?, ?, ?, ?, ?, ?)", act)
        end = rolled(start + timedelta(days))
        end = rolled(end + timedelta(3)) if three else end
        self.conn.execute("INSERT INTO due VALUES (?, ?, ?, ?)", (case, number, number_of(end), WHOLE_DAY))
        return number

    def extend(self, c):
        case, deadline = c["case"], c["deadline"]
        last = self.one("SELECT day FROM due WHERE case_no = ? AND deadline_no = ?", case, deadline)
        sql = "SELECT number FROM act WHERE case_no = ? AND deadline_no = ? ORDER BY number DESC LIMIT 1"
        number = self.one(sql, case, deadline) + 1
        act = (case, deadline, number, 3, c["days"], 0, 0, 0, 0)
        self.conn.execute("INSERT INTO act VALUES (?, ?, ?, ?, ?, ?, ?, ?, ?)", act)
        end = rolled(EPOCH + timedelta(last + c["days"]))
        self.conn.execute("UPDATE due SET day = ? WHERE case_no = ? AND deadline_no = ?", (number_of(end), case, deadline))
        return deadline

    def apply(self, line):
        c = json.loads(line)
        body = json.dumps(c, sort_keys=True, separators=(",", ":"))
        kept = self.conn.execute("SELECT body, reply FROM receipt WHERE command_key = ?", (c["key"],)).fetchone()
        if kept is not None:
            return {"number": kept[1]} if kept[0] == body else {"name": "KeyReused", "refused": 2}
        self.conn.execute("BEGIN")
        number = getattr(self, c["do"])(c)
        if number is None:
            self.conn.execute("ROLLBACK")
            return {"name": "Exists", "refused": 8}
        self.conn.execute("INSERT INTO receipt VALUES (?, ?, ?)", (c["key"], body, number))
        self.conn.execute("COMMIT")
        return {"number": number}


if __name__ == "__main__":
    docket = Docket(sys.argv[1], in_memory=sys.argv[2:] == ["in-memory"])
    for line in sys.stdin:
        sys.stdout.write(json.dumps(docket.apply(line), sort_keys=True, separators=(",", ":")) + "\n")
        sys.stdout.flush()
    docket.conn.close()
