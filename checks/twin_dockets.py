"""For checks/forms and checks/enter: checks that are counted, a docket that takes commands as lines, and whether two dockets are the same."""
import json
import os
import re
import sqlite3
import subprocess

from forms_data import COURT
from served_dockets import rows

counts = {True: 0, False: 0}


def check(name, found, wanted):
    """Counts a check, and prints a line of what is not as wanted."""
    counts[found == wanted] += 1
    if found != wanted:
        print(f"{name}: FAILED: {found!r:.300} and not {wanted!r:.300}", flush=True)
    return found == wanted


def tried(part, *with_what):
    """Plays a part, and prints what it says; a part that breaks off counts as a check that failed."""
    name = part.__name__.replace("_", " ")
    try:
        print(f"{name}: {part(*with_what)}", flush=True)
    except (RuntimeError, TimeoutError, KeyError, IndexError, TypeError, ValueError, OSError, sqlite3.Error, subprocess.SubprocessError) as stopped:
        check(name, repr(stopped), "an end")


def written(value):
    """A value of a command as a form or an option has it."""
    return str(value).lower() if isinstance(value, bool) else str(value)


def written_all(fields):
    return {name: written(value) for name, value in fields.items()}


def said(program, *words, given=b"", shifted=None):
    """The status of a job, what it prints, and its errors; `shifted` is the environment of a clock that goes wrong."""
    done = subprocess.run([program, *words], input=given, capture_output=True, env=shifted and {**os.environ, **shifted}, timeout=60)
    return done.returncode, done.stdout, done.stderr


def make(program, path, lines):
    """Makes a docket, and has it take commands, each of which is accepted."""
    subprocess.run([program, "create", "--db", path, *COURT], stdout=subprocess.DEVNULL, check=True)
    text = "".join(json.dumps(line) + "\n" for line in lines)
    done = subprocess.run([program, "run", "--db", path], input=text.encode(), capture_output=True)
    if done.returncode != 0:
        raise RuntimeError(f"{path}: {[line for line in done.stdout.decode().splitlines() if 'number' not in line][:3]} {done.stderr.decode()}")


def standings(text):
    """Where each deadline of a case stands by the text of the case, by its number: a day or moment, or a word."""
    lines = [line.split(" ") for line in text.splitlines() if line.startswith("deadline ")]
    return {line[1]: line[6] if line[5] == "due" else line[5] for line in lines}


def told_of(kind, would, before, after):
    """The deadlines whose steps were told before a command was entered, each with its number, its case and its steps, and how many of case 1
    were told to move; before and after are their standings."""
    first, *parts = re.split(r"^(?:new )?deadline (\d+) of case (\d+)\n", would, flags=re.MULTILINE)
    moves = re.findall(r"^deadline (\d+) of case 1: (\S+) becomes (\S+)$", first, re.MULTILINE)
    check(f"{kind}: what moves was told", moves, [(number, before[number], after[number]) for number in before if before[number] != after[number] and not parts])
    check(f"{kind}: deadlines were told, or none was made", (bool(first), len(after) == len(before)), (not parts, not would.startswith("new ")))
    return list(zip(*(iter(parts),) * 3)), len(moves)


def are_twins(program, one, other, place, cases, deadlines):
    """Checks that two dockets have the same rows in all tables, receipts too, and that each question of people has the same text of both; `place`
    is a folder for copies, and case 1 has so many deadlines."""
    for words in (*(("case", str(number)) for number in range(1, cases + 1)), ("cases",), ("calendar", "1980-01-01", "3999-12-31"), ("holidays", "2025-01-01", "2025-12-31"),
                  ("rules",), ("check",), *(("explain", "1", str(number)) for number in range(1, deadlines + 1))):
        job, *rest = words
        mine, theirs = (said(program, job, "--db", path, *rest) for path in (one, other))
        check(f"{' '.join(words)} of both dockets", (mine == theirs, mine[0], bool(mine[1])), (True, 0, True))
    os.makedirs(place, exist_ok=True)
    check("all rows of both dockets", rows(one, place) == rows(other, place), True)
