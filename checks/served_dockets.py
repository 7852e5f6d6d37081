"""For checks/copies and checks/snapshots: a docket that is served, commands for it, and what sqlite3 and docketctl find in a copy."""
import json
import os
import shutil
import sqlite3
import subprocess
import sys
from contextlib import closing

from http_clients import number, post

TOP = os.path.dirname(os.path.dirname(os.path.realpath(__file__)))
PROGRAM = os.path.join(TOP, "crates/docketctl/out/docketctl")
COURT = ["--zone", "EST5EDT,M3.2.0,M11.1.0", "--close", "17:00"]
REPLIES = 5  # commands a case


def wrong(what):
    sys.exit(f"{sys.argv[0]}: {what}")


def docket(path, lines):
    """Makes a docket, and has it take commands."""
    subprocess.run([PROGRAM, "create", "--db", path, *COURT], stdout=subprocess.DEVNULL, check=True)
    subprocess.run([PROGRAM, "run", "--db", path], input="".join(json.dumps(line) + "\n" for line in lines).encode(), stdout=subprocess.DEVNULL, check=True)


def of_case(case):
    """Five commands: the case, its parties, an entry and a deadline."""
    return [{"do": "open_case", "key": f"o{case}", "label": f"1:25-cv-{case:05}", "caption": "Roe v. Doe", "filed": "2025-06-02"},
            {"do": "add_party", "key": f"d{case}", "case": case, "name": "Doe", "role": "defendant"},
            {"do": "add_party", "key": f"r{case}", "case": case, "name": "Roe", "role": "plaintiff"},
            {"do": "file_entry", "key": f"e{case}", "case": case, "day": "2025-06-02", "text": "Complaint " * 40},
            {"do": "serve_summons", "key": f"s{case}", "case": case, "party": 1, "basis": "private", "served": "2025-06-13"}]


def send(server, case):
    """Sends the commands of a case, one after the other; after each it is the caller's turn."""
    for command, reply in zip(of_case(case), (case, 1, 2, 1, 1), strict=True):
        answer = server.ask(post(json.dumps(command)))
        if answer != number(reply):
            wrong(f"{command}: {answer!r}")
        yield


def rows(path, folder):
    """All rows of all tables, as sqlite3 reads them from the file, or from it and its log; it must find no fault."""
    read = os.path.join(folder, "read.db")
    for end in ("", "-wal"):
        if os.path.exists(read + end):
            os.remove(read + end)
        if os.path.exists(path + end):
            shutil.copy(path + end, read + end)
    with closing(sqlite3.connect(read)) as base:
        if base.execute("PRAGMA integrity_check").fetchall() != [("ok",)] or base.execute("PRAGMA foreign_key_check").fetchall():
            wrong(f"sqlite3 finds a fault in {path}")
        names = base.execute("SELECT name FROM sqlite_schema WHERE type = 'table' ORDER BY name").fetchall()
        return {name: sorted(base.execute(f"SELECT * FROM {name}").fetchall(), key=repr) for (name,) in names}


def checked(path):
    """What docketctl tells of a docket that it finds sound."""
    done = subprocess.run([PROGRAM, "check", "--db", path], capture_output=True, text=True)
    if done.returncode != 0 or not done.stdout.startswith("sound\n"):
        wrong(f"check of {path}: {done.stdout}{done.stderr}")
    return done.stdout
