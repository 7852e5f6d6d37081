"""For checks/enter and checks/commands_data.py: what `docketctl enter` says on standard error, what `docketctl commands` prints, and the help of
each kind. Words and tables are read in the definitions (docket_command/specs, html_sheets/specs/Titles.antt, entry_pages/specs), and the texts are
put together here once more."""
import json

from entries_model import FIELDS, KINDS, PAGES, SCHEMA, TITLES, WORDS, by_name, choices, kinds_in_groups, of_kind
from pages_model import literals, spec, table

FIELD_NAMED = {name: field for field, name in FIELDS.items()}


def fields_of(kind):
    """The names of the fields of a kind, in their order."""
    return [FIELDS[field] for _, field, _ in SCHEMA[KINDS[kind]]]


def type_in(kind, field):
    """The type of a field in a kind of command."""
    return next((type_of for _, one, type_of in SCHEMA[KINDS[kind]] if FIELDS[one] == field), "Text")


def value_form(type_of):
    """How a value is written: by an example, or by its words."""
    forms = by_name(PAGES + "ValueForms.antt", "value_form")
    return forms[type_of][0] if type_of in forms else "one of " + ", ".join(value for value, _ in choices(type_of))


def limit(kind, field):
    """What a value may be: the range of its type, then the limit of its field."""
    found = (by_name(PAGES + "Limits.antt", "range_of").get(type_in(kind, field)) or [""])[0], of_kind(PAGES + "Limits.antt", "limit_of", KINDS[kind], FIELD_NAMED[field])
    return ", and ".join(filter(None, found)) or "may not have this value"


def refusal_line(kind, name, field=None):
    """The line of a refusal."""
    if name == "BadValue":
        return f"docketctl: refused: --{field} {limit(kind, field)}"
    behind = next(behind for before, behind in table(PAGES + "Sentences.antt", "reason_words") if before[-1] == f"refusal.{name}")
    return "docketctl: refused: " + (literals(behind) or [by_kind(behind.split()[0], kind)])[0]


def by_kind(function, kind):
    """What a function says of a kind."""
    return next(literals(behind)[0] for before, behind in table(PAGES + "Sentences.antt", function) if before[0] in (f"kind.{KINDS[kind]}", "_"))


def fault_line(kind, name, field=None):
    """The line of a fault."""
    if name == "MissingField":
        return f"docketctl: --{field} must not be empty; it takes {value_form(type_in(kind, field))}"
    if name == "WrongField":
        return f"docketctl: --{field} takes {value_form(type_in(kind, field))}"
    raise KeyError(name)


NO_CASE = "docketctl: no case has that number or docket number (--case); docketctl cases lists them"
KNOWN = "entered before under this key"


def no_party(field):
    return f"docketctl: no party of the case has that number or name (--{field}); docketctl case lists them"


def several(field, one, other):
    return f"docketctl: parties {one} and {other} both have that name (--{field}); give the number"


# ---- what `docketctl commands` prints

def example_of(kind, field):
    return of_kind(PAGES + "Examples.antt", "example_of", KINDS[kind], FIELD_NAMED[field])


def one(path, name):
    """The text that a definition without arguments is, or begins with."""
    return literals(next(line for line in spec(PAGES + path) if line.startswith(f"{name} =")))[0]


def kind_line(kind):
    return f"  {kind:19}{TITLES[KINDS[kind]]}\n"


def kind_list():
    """All kinds in groups, and last the table of days."""
    groups = "".join(f"\n{heading}\n" + "".join(kind_line(WORDS[kind]) for kind in listed) for heading, listed in kinds_in_groups())
    return one("CommandList.antt", "list_head") + groups + one("CommandList.antt", "import_head") + kind_line("import_calendar")


def value_name(type_of):
    """What stands for a value behind an option."""
    names = {before[0].rpartition(".")[2]: (literals(behind) or [""])[0] for before, behind in table(PAGES + "ValueForms.antt", "value_name")}
    return names.get(type_of, names["_"])


def field_lines(kind, need, field, type_of):
    """A field: its option, what it is called, and whether it may be left out; then what its value may be."""
    called = of_kind(PAGES + "Labels.antt", "label_of", KINDS[kind], field) + (" (may be left out)" if need == "may" else "")
    own = of_kind(PAGES + "Limits.antt", "limit_of", KINDS[kind], field)
    words = choices(type_of) if type_of != "Flag" else []
    return f"  --{FIELDS[field] + value_name(type_of):22}{called}\n" + (f"      {own}\n" if own else "") + "".join(f"      {value}\n" if value == meaning else f"      {value}: {meaning}\n" for value, meaning in words)


def example_option(kind, field, type_of):
    """An option with an example of its value; a text is one word for a shell."""
    text = example_of(kind, FIELDS[field])
    if type_of == "Flag":
        return f" --{FIELDS[field]}" if text == "true" else ""
    return text and f" --{FIELDS[field]} " + (f'"{text}"' if type_of == "Text" else text)


def example_value(type_of, text):
    return {"Number": int, "Flag": lambda text: text == "true"}.get(type_of, str)(text)


def example_line(kind):
    """The example as a line of `docketctl run`."""
    given = {FIELDS[field]: example_value(type_of, example_of(kind, FIELDS[field])) for _, field, type_of in SCHEMA[KINDS[kind]] if example_of(kind, FIELDS[field])}
    return json.dumps({"do": kind, "key": "k1", **given}, sort_keys=True, separators=(",", ":"), ensure_ascii=False)


def commands_text(kind=None):
    """The text of `docketctl commands`, or of one kind."""
    if kind is None:
        return kind_list()
    if kind == "import_calendar":
        return one("CommandList.antt", "import_told")
    fields = SCHEMA[KINDS[kind]]
    options = "".join(example_option(kind, field, type_of) for _, field, type_of in fields)
    return (f"{kind}: {TITLES[KINDS[kind]]}\n\n" + "".join(field_lines(kind, *field) for field in fields) + one("CommandList.antt", "legend")
            + f"\nAn example, and the same as a line for docketctl run:\n  docketctl enter {kind} --db court.db \\\n   {options}\n  {example_line(kind)}\n")


# ---- help, as clap lays it out

WIDTH = 100  # of a line, where more than 40 are taken by options


def options_text(options):
    """The options with what they are: beside them, or below where that is too wide for one of them."""
    listed = [*(("    ", shown, words) for shown, words in options), ("-h, ", "--help", "Print help")]
    longest = max(len(shown) for _, shown, _ in listed) + 4
    below = longest + 4 > 40 and any(len(words) > WIDTH - longest - 4 for _, _, words in listed)
    return "".join(f"  {short}{shown}\n          {words}\n" if below else f"  {short}{shown:{longest - 2}}{words}\n" for short, shown, words in listed)


def option_value(field, type_of):
    """What help writes for the value of a field: how it is given, or the words that it takes."""
    if field in ("Case", "Party", "Opponent"):
        return "PARTY" if field == "Opponent" else field.upper()
    return {"Number": "NUMBER", "Day": "DAY", "Moment": "MOMENT", "TimeOfDay": "HH:MM", "Text": "TEXT"}.get(type_of) or "|".join(value for value, _ in choices(type_of))


def entry_help(kind, after):
    """What `docketctl enter KIND --help` prints, up to what stands behind the options of all kinds."""
    options = [("--db <FILE>", "The docket's file, of SQLite"), ("--key <KEY>", KEY_WORDS), ("--show", SHOW_WORDS)]
    needed = ["--db <FILE>"]
    for need, field, type_of in SCHEMA[KINDS[kind]]:
        shown = f"--{FIELDS[field]}" + ("" if type_of == "Flag" else f" <{option_value(field, type_of)}>")
        options.append((shown, of_kind(PAGES + "Labels.antt", "label_of", KINDS[kind], field)))
        needed += [shown] if need == "must" and type_of != "Flag" else []
    return f"{TITLES[KINDS[kind]]}\n\nUsage: docketctl enter {kind} [OPTIONS] {' '.join(needed)}\n\nOptions:\n{options_text(options)}\n{after}"


KEY_WORDS = "The key of the command, of 1 to 64 bytes; else one is made of the day and the command"
SHOW_WORDS = "Print what the command would do, and enter nothing"
