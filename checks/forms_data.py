"""For checks/forms: a day of commands that are entered by forms, and what no form may enter. A command is a kind with its fields; its number is
the reply."""

COURT = ["--zone", "EST5EDT,M3.2.0,M11.1.0", "--close", "17:00"]
FULL = 2  # a case that has all parties that a case may have
MANY = 1_000
# before the forms: two cases, of which the second is full
BEFORE = [{"do": "open_case", "key": "b1", "label": "1:25-cv-00001", "caption": "Roe & Sons v. <b>\"O'Brien\"</b>", "filed": "2025-06-02"},
          {"do": "open_case", "key": "b2", "label": "1:25-cv-00002", "caption": "Ünal v. 中文", "filed": "2025-06-03"}]
BEFORE += [{"do": "add_party", "key": f"p{number}", "case": FULL, "name": f"Doe {number}", "role": "other"} for number in range(1, MANY + 1)]

# each kind that has a form at least once; the case is 1 where it goes without saying
DAY = [
    ("open_case", {"label": "1:25-cv-00003", "caption": "Poe v. Coe", "filed": "2025-06-03"}),
    ("add_party", {"case": 1, "name": "Doe", "role": "defendant"}),
    ("add_party", {"case": 1, "name": "Roe & Sons", "role": "plaintiff"}),
    ("add_party", {"case": 1, "name": "<i>Poe</i> \"the officer\"", "role": "defendant"}),
    ("add_party", {"case": 1, "name": "Coe", "role": "other"}),
    ("file_entry", {"case": 1, "day": "2025-06-02", "text": "Complaint & 3 exhibits: 100 % + 50 = \"all\""}),
    ("declare_day", {"day": "2025-11-28", "kind": "state", "name": "Day after Thanksgiving"}),
    ("close_day", {"day": "2025-12-05", "name": "Storm"}),
    ("close_span", {"start": "2025-06-23T15:00-04:00", "end": "2025-06-23T16:00-04:00"}),
    ("short_day", {"day": "2025-12-24", "close": "12:00", "name": "Christmas Eve"}),
    ("withdraw_calendar", {"row": 2}),
    ("serve_summons", {"case": 1, "party": 1, "basis": "private", "served": "2025-06-13"}),  # deadline 1, due on July 7
    ("serve_summons", {"case": 1, "party": 3, "basis": "officer", "served": "2025-04-01", "attorney": "2025-04-04"}),
    ("file_waiver", {"case": 1, "party": 4, "sent": "2025-03-31", "allowed": 30, "returned": "2025-04-30", "abroad": False}),
    ("serve_pleading", {"case": 1, "party": 2, "kind": "counterclaim", "basis": "private", "served": "2025-11-01", "method": "C"}),
    ("order_reply", {"case": 1, "party": 2, "served": "2025-11-03", "method": "A"}),  # deadline 5
    ("rule_motion", {"case": 1, "deadline": 1, "kind": "e", "served": "2025-07-01"}),
    ("dispose", {"case": 1, "deadline": 1, "outcome": "statement", "notice": "2025-08-01", "party": 2}),  # deadline 6
    ("statement_served", {"case": 1, "deadline": 1, "served": "2025-08-15", "method": "C"}),
    ("notice_hearing", {"case": 1, "party": 1, "opponent": 2, "hearing": "2025-12-12"}),  # deadlines 7 and 8
    ("order_period", {"case": 1, "party": 0, "unit": "hours", "at": "2025-06-20T15:30-04:00", "count": 48, "direction": "forward"}),
    ("order_period", {"case": 1, "party": 1, "unit": "fixed", "until": "2025-08-30"}),  # deadline 10
    ("enter_judgment", {"case": 1, "entered": "2025-09-02", "discharged": "2025-08-28"}),  # deadlines 11 to 17
    ("extend", {"case": 1, "deadline": 10, "at": "2025-08-29T09:00-04:00", "neglect": False, "days": 10}),
    ("satisfy", {"case": 1, "deadline": 3, "at": "2025-05-30T17:00-04:00", "way": "office"}),
    ("vacate", {"case": 1, "deadline": 6}),
    ("local_rule", {"name": "LR7.1-opp", "days": 14, "direction": "forward", "three": True, "extendable": True}),
    ("local_period", {"case": 1, "party": 1, "rule": "LR7.1-opp", "start": "2025-11-10", "method": "C"}),  # deadline 18
    ("rule_motion", {"case": 1, "deadline": 2, "kind": "b", "served": "2025-05-01"}),
    ("declare_day", {"day": "2025-12-01", "kind": "federal", "name": "Mourning"}),  # to which deadlines 4 and 18 ran
]
KINDS = sorted({kind for kind, _ in DAY})
WITHOUT_CASE = {"open_case", "declare_day", "close_day", "close_span", "short_day", "withdraw_calendar", "local_rule"}

VACATE = {"case": 1, "deadline": 4}
EXTEND = {"case": 1, "deadline": 4, "at": "2025-11-20T09:00-05:00", "neglect": False}
# what is refused after that day: the refusal, the kind, its fields, and the field that is marked
REFUSED = [
    ("BadKey", "vacate", {**VACATE, "key": "two words"}, None),
    ("BadValue", "open_case", {"label": "1:25-cv-00004", "caption": "x" * 201, "filed": "2025-06-03"}, "caption"),
    ("BadValue", "file_entry", {"case": 1, "day": "1999-12-31", "text": "Answer"}, "day"),
    ("BadValue", "order_period", {"case": 1, "party": 1, "unit": "days", "start": "2025-06-20", "count": 10}, "direction"),
    ("NoSuchCase", "vacate", {"case": 9, "deadline": 1}, "case"),
    ("NoSuchParty", "serve_summons", {"case": 1, "party": 9, "basis": "private", "served": "2025-06-13"}, "party"),
    ("NoSuchDeadline", "vacate", {"case": 1, "deadline": 99}, "deadline"),
    ("NoSuchCalendarRow", "withdraw_calendar", {"row": 2}, "row"),
    ("NoSuchLocalRule", "local_period", {"case": 1, "party": 1, "rule": "LR9", "start": "2025-11-10"}, "rule"),
    ("Exists", "open_case", {"label": "1:25-cv-00001", "caption": "Poe v. Coe", "filed": "2025-06-03"}, None),
    ("NotOpen", "vacate", {"case": 1, "deadline": 6}, None),
    ("NotAwaiting", "statement_served", {"case": 1, "deadline": 4, "served": "2025-11-20", "method": "A"}, None),
    ("NotResponsive", "rule_motion", {"case": 1, "deadline": 7, "kind": "b", "served": "2025-11-10"}, None),
    ("WrongMotion", "dispose", {"case": 1, "deadline": 2, "outcome": "statement", "notice": "2025-06-01", "party": 2}, None),
    ("AfterDeadline", "rule_motion", {"case": 1, "deadline": 4, "kind": "b", "served": "2026-01-05"}, None),
    ("AlreadyServed", "serve_summons", {"case": 1, "party": 1, "basis": "private", "served": "2025-06-14"}, None),
    ("ShortWaiver", "file_waiver", {"case": 1, "party": 2, "sent": "2025-03-31", "allowed": 29, "returned": "2025-04-02", "abroad": False}, None),
    ("LateWaiver", "file_waiver", {"case": 1, "party": 2, "sent": "2025-03-31", "allowed": 30, "returned": "2025-06-30", "abroad": False}, None),
    ("MayNotExtend", "extend", {**EXTEND, "deadline": 11, "days": 10}, None),
    ("Expired", "extend", {**EXTEND, "at": "2026-01-05T09:00-05:00", "days": 10}, None),
    ("NotLater", "extend", {**EXTEND, "until": "2025-11-21"}, None),
    ("Full", "add_party", {"case": FULL, "name": "Doe", "role": "other"}, None),
]
# what is no command of its kind: the fault, the kind, its fields as they are written, and the field that is marked
FAULTS = [
    ("MissingField", "vacate", {"case": "1", "deadline": ""}, "deadline"),
    ("MissingField", "open_case", {"label": "", "caption": "", "filed": ""}, "label"),
    ("MissingField", "file_waiver", {"case": "1", "party": "2", "sent": "2025-03-31", "allowed": "30", "returned": "2025-04-02", "abroad": ""}, "abroad"),
    ("WrongField", "vacate", {"case": "one", "deadline": "1"}, "case"),
    ("WrongField", "vacate", {"case": "1", "deadline": "4294967296"}, "deadline"),
    ("WrongField", "close_span", {"start": "2025-06-23T15:00", "end": "2025-06-23T16:00-04:00"}, "start"),
    ("WrongField", "satisfy", {"case": "1", "deadline": "4", "at": "noon", "way": "office"}, "at"),
]
# what is typed into the search, and the cases that are found, the newest first
FOUND = [("1:25-cv-00002", ["2"]), ("roe & SONS v.", ["1"]), (" V. ", ["3", "2", "1"]), ("<I>poe</i> \"the", ["1"]), ("doe 1000", ["2"]), ("1:25-cv", []), ("nobody", [])]
HOSTILE = ("<img src=x onerror=\"document.title='run'\">", "\"><svg onload=document.title='run'>", "'><script>document.title='run'</script>",
           "</title></textarea></select><h1 id=case>Doe</h1>", "\" autofocus onfocus=document.title='run' x=\"", "&lt;b&gt; &amp;amp; &#0; &quot",
           "a=b&do=vacate&key=k;c%3Dd+e", "\u202eeoR\u202c v. \u2028 Ünal 中文 \U0001f409")
