"""Days, tenors, calendars and schedules, by the rules of the market file: as far as a fault of a market depends on
them."""
import datetime
import re

FIRST, LAST = datetime.date(1901, 1, 1).toordinal(), datetime.date(2199, 12, 31).toordinal()
MOST_DAYS = 801
CONVENTIONS = ["unadjusted", "following", "preceding", "modified_following", "modified_preceding"]
CONVENTIONS += ["half_month_modified_following", "nearest"]
WEEK = ["mon", "tue", "wed", "thu", "fri", "sat", "sun"]
TENOR = re.compile(rb"([1-9][0-9]{0,4})([DWMY])")
LONGEST = {"D": 22000, "W": 3100, "M": 720, "Y": 60}


class OutOfRange(Exception):
    """A day before 1901-01-01 or after 2199-12-31."""


class NoSchedule(Exception):
    """Why there is no schedule: the part of the plan that is at fault, and the fault."""

    def __init__(self, part, why):
        super().__init__(why)
        self.part, self.why = part, why


def day_of(data):
    """Returns the day that the bytes write, as a number, or None."""
    if not re.fullmatch(rb"[0-9]{4}-[0-9]{2}-[0-9]{2}", data):
        return None
    try:
        day = datetime.date(*(int(it) for it in data.split(b"-"))).toordinal()
    except ValueError:
        return None
    return day if FIRST <= day <= LAST else None


def text_of(day):
    return datetime.date.fromordinal(day).isoformat()


def tenor_of(data):
    """Returns the count and the unit of a tenor, or None."""
    found = TENOR.fullmatch(data)
    tenor = (int(found[1]), found[2].decode()) if found else (0, "D")
    return tenor if 1 <= tenor[0] <= LONGEST[tenor[1]] else None


def month_of(day):
    date = datetime.date.fromordinal(day)
    return date.year, date.month


def month_length(year, month):
    return (datetime.date(year + month // 12, month % 12 + 1, 1) - datetime.date(year, month, 1)).days


def in_range(day):
    if not FIRST <= day <= LAST:
        raise OutOfRange
    return day


def add_months(day, count):
    date = datetime.date.fromordinal(day)
    months = date.year * 12 + date.month - 1 + count
    year, month = months // 12, months % 12 + 1
    if not 1901 <= year <= 2199:
        raise OutOfRange
    return datetime.date(year, month, min(date.day, month_length(year, month))).toordinal()


def is_month_end(day):
    date = datetime.date.fromordinal(day)
    return date.day == month_length(date.year, date.month)


def month_end(day):
    year, month = month_of(day)
    return datetime.date(year, month, month_length(year, month)).toordinal()


def easter(year):
    """Easter Sunday, by the rule of Meeus, Jones and Butcher."""
    a, b, c = year % 19, year // 100, year % 100
    h = (19 * a + b - b // 4 - (b - (b + 8) // 25 + 1) // 3 + 15) % 30
    left = (32 + 2 * (b % 4) + 2 * (c // 4) - h - c % 4) % 7
    n = h + left - 7 * ((a + 11 * h + 22 * left) // 451) + 114
    return datetime.date(year, n // 31, n % 31 + 1).toordinal()


class Calendar:
    """The business days of a calendar: it knows by a rule whether a day is one, and keeps what it has worked out."""

    def __init__(self, rule):
        self.rule, self.known = rule, {}

    def is_business(self, day):
        if day not in self.known:
            self.known[day] = self.rule(day)
        return self.known[day]

    def walk(self, day, step):
        while FIRST <= day <= LAST:
            if self.is_business(day):
                return day
            day += step
        raise OutOfRange

    def adjusted(self, day, convention):
        if convention == "unadjusted":
            return day
        if convention == "nearest":
            for apart in range(LAST - FIRST + 1):
                for near in (day + apart, day - apart):
                    if FIRST <= near <= LAST and self.is_business(near):
                        return near
            raise OutOfRange
        step = -1 if convention in ("preceding", "modified_preceding") else 1
        found = self.walk(day, step)
        if convention in ("following", "preceding"):
            return found
        crosses = convention.startswith("half") and self.is_past_middle(day, found)
        return self.walk(day, -step) if month_of(found) != month_of(day) or crosses else found

    @staticmethod
    def is_past_middle(day, found):
        return datetime.date.fromordinal(day).day <= 15 < datetime.date.fromordinal(found).day

    def moved(self, day, count, step):
        """The day moved by business days in a direction: by none, the day itself or the next that is one."""
        day = self.walk(day, step) if count == 0 else day
        for _ in range(count):
            day = self.walk(day + step, step)
        return day


def target(day):
    date = datetime.date.fromordinal(day)
    if date.weekday() > 4 or (date.month, date.day) in ((1, 1), (5, 1), (12, 25), (12, 26)):
        return False
    return day not in (easter(date.year) - 2, easter(date.year) + 1)


def weekdays(day):
    return datetime.date.fromordinal(day).weekday() < 5


def bespoke(weekend, holidays):
    return lambda day: WEEK[datetime.date.fromordinal(day).weekday()] not in weekend and day not in holidays


def shifted(seed, tenor, times, keeps_end):
    """The seed moved by a tenor so many times, or None where that leaves the range."""
    count, unit = tenor
    try:
        if unit in "DW":
            return in_range(seed + times * count * (7 if unit == "W" else 1))
        day = add_months(seed, times * count * (12 if unit == "Y" else 1))
    except OutOfRange:
        return None
    return month_end(day) if keeps_end and is_month_end(seed) else day


def raw_days(start, end, tenor, rule, keeps_end, first, last):
    """The days of a plan before any is moved, one more than may be where there are too many."""
    found = {start, end}
    if rule == "zero":
        return found
    found.update(it for it in (first, last) if it is not None)
    seed, bound, step = end if last is None else last, start if first is None else first, -1
    if rule == "forward":
        seed, bound, step = bound, seed, 1
    times = 1
    while len(found) <= MOST_DAYS:
        day = shifted(seed, tenor, times * step, keeps_end)
        if day is None or (day - bound) * step >= 0:
            break
        found.add(day)
        times += 1
    return found


def schedule(start, end, every, calendar, rules, first=None, last=None):
    """Returns the days of a schedule. Its rules are the rule, the convention, that of the end, and whether month ends
    stay such."""
    rule, convention, end_convention, keeps_end = rules
    if not start < end:
        raise NoSchedule("end", f"the start {text_of(start)} is not before the end {text_of(end)}")
    for part, day in (("first", first), ("last", last)):
        if day is not None and rule == "zero":
            raise NoSchedule(part, f"`{part}` stands with the rule `zero`")
        if day is not None and not start < day < end:
            raise NoSchedule(part, f"{text_of(day)} is not between {text_of(start)} and {text_of(end)}")
    if first is not None and last is not None and first > last:
        raise NoSchedule("last", f"the first day {text_of(first)} is after the last one {text_of(last)}")
    raw = raw_days(start, end, every, rule, keeps_end, first, last)
    if len(raw) > MOST_DAYS:
        raise NoSchedule("every", f"more than {MOST_DAYS} days from {text_of(start)} to {text_of(end)}")
    try:
        stop = calendar.adjusted(end, end_convention)
        moved = {day: calendar.adjusted(day, convention) for day in raw if day != end}
    except OutOfRange:
        raise NoSchedule("end", "a day of it would be moved out of 1901-01-01 to 2199-12-31") from None
    if not moved[start] < stop:
        raise NoSchedule("end", f"start and end fall on one business day, {text_of(stop)}, or change places")
    return sorted({day for day in moved.values() if day < stop}) + [stop]
