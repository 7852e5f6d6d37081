"""Answers the lines of `count` (federal, state, closed, forward, backward), as a plain program would."""
import sys
from datetime import date, timedelta

DAY = timedelta(1)


def is_fixed(day):
    return (day.month, day.day) in ((1, 1), (6, 19), (7, 4), (11, 11), (12, 25))


def is_statutory(day):
    month, number, weekday = day.month, day.day, day.weekday()
    if is_fixed(day):
        return True
    if weekday == 0:
        return (
            (month in (1, 2) and 15 <= number <= 21)
            or (month == 5 and number >= 25)
            or (month == 9 and number <= 7)
            or (month == 10 and 8 <= number <= 14)
            or is_fixed(day - DAY)
        )
    if weekday == 3:
        return month == 11 and 22 <= number <= 28
    return weekday == 4 and is_fixed(day + DAY)


def main():
    entered = {"federal": set(), "state": set(), "closed": set()}
    federal, state, closed = entered["federal"], entered["state"], entered["closed"]

    def is_business(day, forward):
        if day.weekday() >= 5 or is_statutory(day) or day in federal:
            return False
        return not (forward and day in state)

    def end(day, count, forward):
        if not forward:
            day -= count * DAY
            while not is_business(day, False):
                day -= DAY
            if day not in closed:
                return day
            day += DAY
        else:
            day += count * DAY
        while day in closed or not is_business(day, forward):
            day += DAY
        return day

    def read_day(text):
        if len(text) != 10:
            raise ValueError
        day = date.fromisoformat(text)
        if not 2000 <= day.year <= 2099:
            raise ValueError
        return day

    def read_count(text):
        if not text.isdigit() or text[0] == "0" or not 1 <= int(text) <= 3650:
            raise ValueError
        return int(text)

    def answer(line):
        words = line.split(" ")
        if words[0] in entered:
            (day,) = words[1:]
            days = entered[words[0]]
            day = read_day(day)
            if day not in days and sum(map(len, entered.values())) == 4000:
                return "full"
            days.add(day)
            return "ok"
        if words[0] in ("forward", "backward"):
            day, count = words[1:]
            return end(read_day(day), read_count(count), words[0] == "forward").isoformat()
        raise ValueError

    out = []
    for line in sys.stdin:
        line = line.rstrip("\n")
        try:
            out.append(answer(line) if line else "")
        except ValueError:
            out.append("bad")
    sys.stdout.write("\n".join(out) + "\n")


main()
