"""Names that are hostile to whoever writes them into another text, and a reader of the pages that docketctl writes, by html.parser and
xmllint."""
import re
import subprocess
import sys
from html.parser import HTMLParser

CAPTIONS = (
    "<script>alert(1)</script> v. Doe", "Roe ]]> v. \"O'Brien\" & Co.", "a,b;c\\d:e v. f", "Ünal \u2028 v. \u202eeoR\u202c",
    "x" * 200, "=HYPERLINK(\"x\") v. 'y'", "é" * 90 + " v. 中文", "BEGIN:VEVENT v. END:VCALENDAR", "&lt;b&gt; &amp; v. &#0;",
)
VOID = {"meta", "input"}
ELEMENTS = {"html", "head", "meta", "title", "style", "body", "main", "h1", "h2", "p", "table", "thead", "tbody", "tr", "th", "td", "bdi",
            "time", "dl", "dt", "dd"}
ATTRIBUTES = {"lang", "charset", "name", "content", "scope", "class"}
# what only the pages of a docket that is served have
SERVED_ELEMENTS = {"nav", "a", "form", "label", "input", "button", "select", "option", "span", "ul", "li", "pre", "section"}
SERVED_ATTRIBUTES = {"href", "action", "formaction", "type", "required", "min", "max", "maxlength", "aria-label", "method", "autocomplete", "id", "for", "value", "inputmode", "pattern",
                     "placeholder", "selected", "role", "aria-invalid", "aria-describedby"}
NOT_OF_HTML_4 = re.compile(r"Tag (main|bdi|time|nav|section) invalid")


class Page(HTMLParser):
    """The texts of the cells of a page, without the links to forms beside them, of what is said of a case, and of lines as they stand; where
    its links lead, the values of its inputs, and each element, which is closed where it was opened."""

    def __init__(self):
        super().__init__(convert_charrefs=True)
        self.open, self.rows, self.said, self.links, self.elements, self.attributes, self.lines, self.values = [], [], [], [], set(), set(), "", {}

    def handle_starttag(self, tag, attrs):
        self.elements.add(tag)
        self.attributes |= {name for name, _ in attrs}
        self.links += [value for name, value in attrs if name in ("href", "action", "formaction")]
        if tag == "input":
            self.values[dict(attrs).get("name")] = dict(attrs).get("value")
        if tag == "tr":
            self.rows.append([])
        if tag in ("td", "th"):
            self.rows[-1].append("")
        if tag == "dd":
            self.said.append("")
        if tag not in VOID:
            self.open.append(tag)

    def handle_endtag(self, tag):
        if self.open.pop() != tag:
            sys.exit(f"</{tag}> closes another element")

    def handle_data(self, data):
        if ("td" in self.open or "th" in self.open) and "span" not in self.open:
            self.rows[-1][-1] += data
        if "pre" in self.open:
            self.lines += data
        if "dd" in self.open:
            self.said[-1] += data


def page_of(output, served=False):
    """The page in a file, which has no element and no attribute but those of the pages, and in which xmllint finds no error."""
    with open(output, encoding="utf-8", newline="") as file:
        text = file.read()
    page = Page()
    page.feed(text)
    page.close()
    elements = page.elements - ELEMENTS - (SERVED_ELEMENTS if served else set())
    attributes = page.attributes - ATTRIBUTES - (SERVED_ATTRIBUTES if served else set())
    if page.open or elements or attributes:
        sys.exit(f"a page with {page.open or elements or attributes}")
    lint = subprocess.run(["xmllint", "--html", "--noout", output], capture_output=True, text=True, errors="replace")
    wrong = [line for line in lint.stderr.splitlines() if "error" in line and not NOT_OF_HTML_4.search(line)]
    if wrong:
        sys.exit(f"xmllint: {wrong[:3]}")
    return page
