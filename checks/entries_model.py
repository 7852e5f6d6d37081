"""For checks/entries_data.py: the pages on which commands are entered. Fields, titles, labels, hints, choices and sentences are read in the
definitions (docket_command/specs/Schema.antt, html_sheets/specs/Titles.antt and entry_pages/specs), and the pages are put together here once more."""
import re

from pages_model import CODES, escaped, kinds, lines, link, literal, literals, page, spec, table, titles

PAGES = "entry_pages/specs/"


def by_name(path, name):
    return {before[-1].rpartition(".")[2]: literals(behind) for before, behind in table(path, name)}


FIELDS = {name: texts[0] for name, texts in by_name("docket_command/specs/Fields.antt", "field_name").items()}
WORDS = kinds()
KINDS = {word: kind for kind, word in WORDS.items()}
TITLES = titles()
SCHEMA = {before[0].rpartition(".")[2]: re.findall(r"(must|may) field\.(\w+) of\.(\w+)", behind) for before, behind in table("docket_command/specs/Schema.antt", "fields_of")}


def of_kind(path, name, kind, field):
    """A text that a kind has for a field, where another function may say it by the kind alone."""
    for before, behind in table(path, name):
        if before[-1] in (f"field.{field}", "_"):
            texts = literals(behind)
            return texts[0] if texts else "" if behind == "[]" else by_kind(path, behind.split()[0], kind)
    raise KeyError((name, field))


def by_kind(path, name, kind):
    for before, behind in table(path, name):
        if before[0] in (f"kind.{kind}", kind, "_"):
            return (literals(behind) or [""])[0]
    raise KeyError((name, kind))


def choices(type_of):
    behind = next(behind for before, behind in table(PAGES + "Controls.antt", "choices_of") if before == [f"of.{type_of}"])
    return [(literal(value), literal(words)) for value, words in re.findall(rf"\({CODES}, {CODES}\)", behind)]


def attributes(type_of):
    return (by_name(PAGES + "Controls.antt", "attributes_of").get(type_of) or [""])[0]


def control(type_of, name, value, state):
    """A line, or a choice with an empty one in front."""
    if not (listed := choices(type_of)):
        return f'<input{attributes(type_of)} id="{name}" name="{name}" value="{escaped(value)}"{state}>'
    options = "".join(f'<option value="{one}"{" selected" if one == value else ""}>{words}</option>' for one, words in listed)
    return f'<select id="{name}" name="{name}"{state}><option value=""></option>{options}</select>'


def hint(kind, field, type_of, needed):
    own = by_name(PAGES + "Hints.antt", "own_hint")["Moment"][0] if type_of == "Moment" else of_kind(PAGES + "Hints.antt", "field_hint", kind, field)
    return " ".join(words for words in (own, "" if needed else "May be left empty.") if words)


def field_of(kind, texts, marked, need, field, type_of):
    """A field, which is described by what was said of it and by its hint."""
    name, label, needed = FIELDS[field], of_kind(PAGES + "Labels.antt", "label_of", kind, field), need == "must"
    words, is_marked = hint(kind, field, type_of, needed), name == marked
    described = " ".join(["said"] * is_marked + [f"{name}-hint"] * bool(words))
    state = " required" * needed + ' aria-invalid="true"' * is_marked + (f' aria-describedby="{described}"' if described else "")
    below = f'<span id="{name}-hint" class="hint">{words}</span>' if words else ""
    return f'<p><label for="{name}">{label}</label>{control(type_of, name, texts.get(name, ""), state)}{below}</p>\n'


def form(kind, fresh, texts, marked=""):
    fields = "".join(field_of(kind, texts, marked, *row) for row in SCHEMA[kind])
    return ('<form class="entry" action="/pages/commands" method="post" autocomplete="off">\n'
            f'<input type="hidden" name="do" value="{WORDS[kind]}"><input type="hidden" name="key" value="desk-{fresh}">\n'
            f'{fields}<p><button>Enter</button> <button class="other" formaction="/pages/previews">Show what it would do</button></p>\n</form>\n')


def previewed(text):
    """What stands before a form of which a text says what it would do."""
    sentence = re.search(r"<p>(.*?)</p>", "\n".join(spec(PAGES + "Saying.antt")))[1]
    return f'<section role="status">\n<h2>What this would do</h2>\n{lines(text)}<p>{sentence}</p>\n</section>\n'


def sentence(words):
    """What is said of a command that is not entered, and the word before it: `Exists`, or `MissingField` with its field."""
    name = words.split()[0]
    for function, begun in (("refusal_words", "Refused: "), ("fault_words", "Not entered: ")):
        for before, behind in table(PAGES + "Saying.antt", function):
            if name == before[0].strip("()").rpartition(".")[2]:
                return begun, f'<p id="said" class="said" role="alert">{begun}{literals(behind)[0]} Nothing was entered.</p>\n'
    raise KeyError(words)


MARKED = {"NoSuchCase": "case", "NoSuchParty": "party", "NoSuchDeadline": "deadline", "NoSuchCalendarRow": "row", "NoSuchLocalRule": "rule"}


def entry(kind, fresh, texts, said="", would=""):
    """The page of a kind, filled in; what was said of it is as `NoSuchCase` or `WrongField case`, or the text of what it would do."""
    begun, above = ("Preview: ", previewed(would)) if would else sentence(said) if said else ("", "")
    marked = said.partition(" ")[2] or MARKED.get(said, "")
    return page(begun + TITLES[kind], above + form(kind, fresh, texts, marked))


def kinds_in_groups():
    """The headings of the kinds that are entered, and the kinds below each."""
    line = next(line for line in spec(PAGES + "Kinds.antt") if line.startswith("groups ="))
    return [(heading, listed.split(" ∷ ")) for heading, listed in re.findall(rf"\({CODES}, (.*?) ∷ \[\]\)", line)]


def kinds_page(said=""):
    """All kinds that have a form, under headings."""
    begun, alert = sentence(said) if said else ("", "")
    groups = ""
    for heading, listed in kinds_in_groups():
        links = "".join(f"<li>{link('enter/' + WORDS[kind], TITLES[kind])}</li>\n" for kind in listed)
        groups += f"<h2>{heading}</h2>\n<ul>\n{links}</ul>\n"
    return page(begun + "Enter", alert + groups)
