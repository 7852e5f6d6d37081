"""For checks/enter: how people name cases and parties, and what `docketctl enter` refuses after the day of checks/forms."""
from commands_model import NO_CASE, no_party, several

LABELS = {1: "1:25-cv-00001", 2: "1:25-cv-00002", 3: "1:25-cv-00003"}
NAMES = {1: "dOE", 2: "& sons", 3: "THE OFFICER", 4: "Coe"}  # of the parties of case 1, of which "Doe" and "Coe" are whole names
OF_PARTIES = ("party", "opponent")

SPAN = {"start": "2025-06-23T15:00-04:00", "end": "2025-06-23T16:00-04:00"}
SUMMONS = {"case": 1, "party": 1, "basis": "private", "served": "2025-06-13"}
PLEADING = {"case": 1, "party": 2, "kind": "counterclaim", "basis": "private", "served": "2025-11-01", "method": "C"}
WAIVER = {"case": 1, "party": 2, "sent": "2025-03-31", "allowed": 30, "returned": "2025-04-30", "abroad": False}
RULING = {"case": 1, "deadline": 1, "outcome": "denied", "notice": "2025-08-01"}
DAYS = {"case": 1, "party": 1, "unit": "days", "start": "2025-06-20", "count": 10, "direction": "forward"}
HOURS = {"case": 1, "party": 0, "unit": "hours", "at": "2025-06-20T15:30-04:00", "count": 48, "direction": "forward"}
FIXED = {"case": 1, "party": 1, "unit": "fixed", "until": "2025-08-30"}
EXTEND = {"case": 1, "deadline": 4, "at": "2025-11-20T09:00-05:00", "neglect": False, "days": 10}
FILED = {"case": 1, "deadline": 4, "at": "2025-11-20T09:00-05:00", "way": "office"}
RULE = {"name": "LR7.2", "days": 14, "direction": "forward", "three": False, "extendable": True}
# what is refused beside the refusals of checks/forms: the kind, its fields, the refusal, and the field that it names
MORE = [
    ("declare_day", {"day": "2025-11-28", "kind": "state", "name": "Day after Thanksgiving"}, "Exists", None),
    ("close_span", SPAN, "Exists", None),
    ("local_rule", {**RULE, "name": "LR7.1-opp"}, "Exists", None),
    ("notice_hearing", {"case": 1, "party": 1, "opponent": 9, "hearing": "2025-12-12"}, "NoSuchParty", None),
    ("declare_day", {"day": "2100-01-01", "kind": "state", "name": "Day"}, "BadValue", "day"),
    ("close_span", {**SPAN, "start": "1999-12-31T15:00-05:00"}, "BadValue", "start"),
    ("close_span", {**SPAN, "end": SPAN["start"]}, "BadValue", "end"),
    ("short_day", {"day": "2025-12-23", "close": "17:00", "name": "Eve"}, "BadValue", "close"),
    ("close_day", {"day": "2025-12-23", "name": "x" * 101}, "BadValue", "name"),
    ("open_case", {"label": "1:25 cv", "caption": "Poe v. Coe", "filed": "2025-06-03"}, "BadValue", "label"),
    ("open_case", {"label": "1:25-cv-00004", "caption": "Poe\tv. Coe", "filed": "2025-06-03"}, "BadValue", "caption"),
    ("file_entry", {"case": 1, "day": "2025-06-03", "text": "x" * 2001}, "BadValue", "text"),
    ("local_rule", {**RULE, "name": "7.2"}, "BadValue", "name"),
    ("local_rule", {**RULE, "days": 3651}, "BadValue", "days"),
    ("local_rule", {**RULE, "direction": "backward", "three": True}, "BadValue", "three"),
    ("serve_summons", {**SUMMONS, "attorney": "2025-06-14"}, "BadValue", "attorney"),
    ("serve_pleading", {**PLEADING, "kind": "unanswered", "basis": "officer"}, "BadValue", "basis"),
    ("serve_pleading", {**PLEADING, "attorney_method": "C"}, "BadValue", "attorney_method"),
    ("file_waiver", {**WAIVER, "allowed": 0}, "BadValue", "allowed"),
    ("file_waiver", {**WAIVER, "returned": "2025-03-30"}, "BadValue", "returned"),
    ("dispose", {**RULING, "party": 2}, "BadValue", "party"),
    ("dispose", {**RULING, "due": "1999-12-31"}, "BadValue", "due"),
    ("order_period", {**HOURS, "start": "2025-06-20"}, "BadValue", "start"),
    ("order_period", {**DAYS, "at": "2025-06-20T15:30-04:00"}, "BadValue", "at"),
    ("order_period", {**DAYS, "count": 3651}, "BadValue", "count"),
    ("order_period", {**FIXED, "direction": "forward"}, "BadValue", "direction"),
    ("order_period", {**DAYS, "direction": "backward", "method": "C"}, "BadValue", "method"),
    ("order_period", {**DAYS, "until": "2025-08-30"}, "BadValue", "until"),
    ("extend", {**EXTEND, "days": 0}, "BadValue", "days"),
    ("extend", {**EXTEND, "until": "2026-01-30"}, "BadValue", "until"),
    ("satisfy", {**FILED, "at": "1999-12-31T12:00-05:00"}, "BadValue", "at"),
]
# what is no command of its kind: its fields with one that is empty or written otherwise, that field and the fault
FAULTS = [
    ("vacate", {"case": "1", "deadline": ""}, "deadline", "MissingField"),
    ("open_case", {"label": "", "caption": "", "filed": ""}, "label", "MissingField"),
    ("serve_summons", {**SUMMONS, "served": ""}, "served", "MissingField"),
    ("serve_summons", {**SUMMONS, "party": ""}, "party", "MissingField"),
    ("add_party", {"case": 1, "name": "Doe", "role": ""}, "role", "MissingField"),
    ("vacate", {"case": 1, "deadline": "one"}, "deadline", "WrongField"),
    ("vacate", {"case": 1, "deadline": "4294967296"}, "deadline", "WrongField"),
    ("vacate", {"case": "4294967296", "deadline": 1}, "case", "WrongField"),
    ("serve_summons", {**SUMMONS, "served": "06/13/2025"}, "served", "WrongField"),
    ("serve_summons", {**SUMMONS, "attorney": "2025-02-30"}, "attorney", "WrongField"),
    ("close_span", {**SPAN, "start": "2025-06-23T15:00"}, "start", "WrongField"),
    ("satisfy", {**FILED, "at": "noon"}, "at", "WrongField"),
    ("short_day", {"day": "2025-12-24", "close": "5pm", "name": "Eve"}, "close", "WrongField"),
    ("declare_day", {"day": "2025-12-24", "kind": "closed", "name": "Eve"}, "kind", "WrongField"),
    ("add_party", {"case": 1, "name": "Doe", "role": "Defendant"}, "role", "WrongField"),
    ("serve_summons", {**SUMMONS, "basis": "us"}, "basis", "WrongField"),
    ("serve_pleading", {**PLEADING, "kind": "answer"}, "kind", "WrongField"),
    ("serve_pleading", {**PLEADING, "method": "c"}, "method", "WrongField"),
    ("rule_motion", {"case": 1, "deadline": 1, "kind": "12(b)", "served": "2025-07-01"}, "kind", "WrongField"),
    ("dispose", {**RULING, "outcome": "granted"}, "outcome", "WrongField"),
    ("order_period", {**DAYS, "unit": "weeks"}, "unit", "WrongField"),
    ("order_period", {**DAYS, "direction": "back"}, "direction", "WrongField"),
    ("satisfy", {**FILED, "way": "mail"}, "way", "WrongField"),
]

# a docket in which people have to be told apart: three cases with their docket numbers, and the parties of each
TOLD_APART = [("1:25-cv-00001", ["John Roe", "Jane Roe", "Roe", "Doe", "DOE", "Poe & Sons", "12", "Ünal"]), ("77", ["Roe & Sons", "Woe"]), ("12345678901", ["Poe"])]
# what is given for the case and the party, and their numbers
FOUND = [
    ("1", "1", 1, 1), ("1:25-cv-00001", "0000000002", 1, 2), ("12345678901", "1", 3, 1), ("2", "0", 2, 0), ("1", "roe", 1, 3), ("1", "ROE", 1, 3), ("1", "john", 1, 1),
    ("1:25-cv-00001", "JANE R", 1, 2), ("1", "oe & s", 1, 6), ("2", "Roe", 2, 1), ("2", "oe & s", 2, 1), ("2", "woe", 2, 2), ("12345678901", "POE", 3, 1), ("1", "Ünal", 1, 8), ("1", "nAL", 1, 8),
]
# or the line, where they fit none or several
NOT_FOUND = [
    ("1:25-CV-00001", "1", NO_CASE), ("1:25-cv-0000", "1", NO_CASE), ("Roe", "1", NO_CASE), ("99999999999", "1", NO_CASE), ("+1", "1", NO_CASE),
    *((case, party, no_party("party")) for case, party in (("1", "nobody"), ("1", "ünal"), ("1", "Woe"), ("1", "+1"), ("1", "Roe "), ("2", "Doe"), ("12345678901", "Roe"), ("9", "Roe"))),
    ("1", "ro", several("party", 1, 2)), ("1", "doe", several("party", 4, 5)), ("1", "e", several("party", 1, 2)), ("2", "oe", several("party", 1, 2)),
]
# digits are a number, whatever a docket number or a name may be: what is then refused
NUMBERS = [("77", "1", "NoSuchCase"), ("0", "1", "NoSuchCase"), ("1", "12", "NoSuchParty"), ("3", "8", "NoSuchParty")]
# instants by the clock, and the days of the courts: an hour before and after midnight in Eastern winter and summer, in Guam and in Hawaii
INSTANTS = [
    ("EST5EDT,M3.2.0,M11.1.0", "2026-03-08T04:59:59", "2026-03-07"), ("EST5EDT,M3.2.0,M11.1.0", "2026-03-08T05:00:00", "2026-03-08"),
    ("EST5EDT,M3.2.0,M11.1.0", "2026-07-01T03:59:59", "2026-06-30"), ("EST5EDT,M3.2.0,M11.1.0", "2026-07-01T04:00:00", "2026-07-01"),
    ("ChST-10", "2026-12-31T14:00:00", "2027-01-01"), ("HST10", "2027-01-01T09:59:59", "2026-12-31"), ("UTC0", "2028-02-29T23:59:59", "2028-02-29"),
]
