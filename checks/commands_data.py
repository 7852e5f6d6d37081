#!/usr/bin/env python3
"""Writes the gate's script of what `docketctl commands` prints and of the help of each kind (crates/rows/data/jobs-commands.rows), put together
by commands_model.py. What stands behind the options of each kind's help is that of one kind in words.rows. Usage: checks/commands_data.py"""
import itertools
import os

from commands_model import commands_text, entry_help
from entries_model import WORDS
from pages_model import TOP

DATA = os.path.join(TOP, "crates/rows/data")
HEAD = """\
# What `docketctl commands` prints, of all kinds and of each, and the help of each kind. checks/commands_data.py wrote this.
"""


def help_of_kind(kind):
    """The help of a kind that words.rows has."""
    with open(os.path.join(DATA, "words.rows"), encoding="utf-8") as file:
        after = file.read().partition(f"$ docketctl enter {kind} --help\n")[2]
    return "".join(line[2:] + "\n" for line in itertools.takewhile(lambda line: line.startswith(">"), after.splitlines()))


def step(words, text):
    """A step that prints a text."""
    return f"\n$ docketctl {words}\n" + "".join(f"> {line}".rstrip(" ") + "\n" for line in text.splitlines())


def main():
    after = help_of_kind("serve_summons").partition("Print help\n\n")[2]
    kinds = [kind for kind in WORDS.values() if kind != "import_calendar"]
    steps = [step("commands", commands_text()), *(step(f"commands {kind}", commands_text(kind)) for kind in WORDS.values()),
             *(step(f"enter {kind} --help", entry_help(kind, after)) for kind in kinds)]
    with open(os.path.join(DATA, "jobs-commands.rows"), "w", encoding="utf-8") as file:
        file.write(HEAD + "".join(steps))


if __name__ == "__main__":
    main()
