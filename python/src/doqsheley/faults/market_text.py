"""The market and its two tables, read as the program reads them, up to the first fault."""
import difflib

from .csv_text import records
from .days import CONVENTIONS, WEEK, Calendar, NoSchedule, OutOfRange
from .days import bespoke, day_of, schedule, target, tenor_of, text_of, weekdays
from .places import A_DAY, A_NAME, A_RATE, A_TENOR, BILLION, TEN, WORDS
from .places import is_name, one_of, shown, ticked, units_of, why_not_decimal
from .toml_text import TomlFault, read

MOST_BYTES, MOST_OBJECTS, MOST_FLOWS = 8388608, 4096, 1602
CALENDARS = {
    "null": ["name"],
    "weekends": ["name"],
    "target": ["name"],
    "bespoke": ["name", "weekend", "holidays"],
    "joint": ["name", "rule", "parts"],
}
BOND = [
    "name", "notional", "start", "end", "calendar", "engine", "coupon", "index", "spread", "every", "rule",
    "convention",
]
BOND += ["end_convention", "month_end", "counter", "first", "last"]
WITH_COUPONS = BOND[BOND.index("spread") :]
SWAP = [
    "name", "notional", "side", "start", "end", "calendar", "engine", "rule", "convention", "end_convention",
    "month_end",
]
SWAP += ["fixed_rate", "fixed_every", "fixed_counter", "index", "spread", "float_every", "float_counter"]
OBJECTS = {
    "sum": ["name", "first", "second"],
    "difference": ["name", "first", "second"],
    "handle": ["name", "target", "to"],
    "curve": ["name", "calendar", "settlement", "helpers"],
    "implied": ["name", "curve", "reference"],
    "index": ["name", "calendar", "fixing_days", "tenor", "convention", "month_end", "counter", "curve"],
    "engine": ["name", "curve"],
    "stock": ["name", "quote"],
    "composite": ["name", "parts"],
    "bond": BOND,
    "swap": SWAP,
    "fra": ["name", "notional", "side", "index", "start", "strike", "engine"],
}
LATER = {"curve": ["reference"], "bond": ["payment_lag"], "swap": ["payment_lag"]}
HELPERS = {
    "deposit": ["quote", "tenor", "convention", "month_end", "counter"],
    "swap": ["quote", "tenor", "every", "convention", "month_end", "counter"],
}
PARTS = ["part", "weight"]
TOP = ["version", "today", "quotes", "fixings", "calendar", "object"]
SORTS = {
    "text": "a text", "integer": "a number", "float": "a number with a point", "flag": "a flag",
    "day": "a date of TOML",
}
SORTS.update(array="an array", table="a table")
TAKES = {"text": "a text in quotes", "integer": "a number without quotes", "flag": "true or false, without quotes"}
TAKES.update(array="an array [ .. ]", table="tables { .. }")

# What may be named in a place: the words for it, and the kinds.
QUOTE_LIKE, CURVE_LIKE = ["quote", "sum", "difference"], ["curve", "implied"]
PRICED = ["stock", "composite", "bond", "swap", "fra"]
QUOTE = "a quote, a sum, a difference or a handle of quotes", QUOTE_LIKE + ["handle of quotes"]
CURVE = "a curve, an implied curve or a handle of curves", CURVE_LIKE + ["handle of curves"]
INSTRUMENT = "a stock, a composite, a bond, a swap or a fra", PRICED
ENGINE, INDEX = ("an engine", ["engine"]), ("an index", ["index"])
TARGETS = {
    "quote": ("a quote, a sum or a difference", QUOTE_LIKE), "curve": ("a curve or an implied curve", CURVE_LIKE)
}

IN_THE_FILE, TABLES, REFUSED = "The file", "The two tables", "How a market is refused"
SECTION = {
    "sum": "Quotes: `sum`, `difference`, `handle`",
    "curve": "Curves: `curve`, `implied`",
    "index": "Indexes and engines: `index`, `engine`",
    "stock": "Instruments: `stock`, `composite`, `bond`, `swap`, `fra`",
}
SECTION.update(
    dict.fromkeys(["difference", "handle"], SECTION["sum"]), implied=SECTION["curve"], engine=SECTION["index"]
)
SECTION.update(dict.fromkeys(["composite", "bond", "swap", "fra"], SECTION["stock"]))


class Fault(Exception):
    """The first fault: what the program says, and where it stands, what is found there, and what would be taken."""

    def __init__(self, kind, span, word, found, taken, manual=None):
        super().__init__(kind)
        self.kind, self.span, self.word, self.found, self.taken, self.manual = kind, span, word, found, taken, manual
        self.section, self.entry, self.file, self.where = None, 0, "market", ""


class Thing:
    """An object, as far as a fault depends on it: its kind, and the terms of an index."""

    def __init__(self, kind, terms=None):
        self.kind, self.terms, self.rates = kind, terms, {}


def told(value):
    """What stands in the text as a value, in words."""
    if value.sort in ("array", "table"):
        return SORTS[value.sort]
    said = {"text": lambda it: f'"{shown(it.encode())}"', "flag": lambda it: str(it).lower()}.get(value.sort, str)
    return f"{SORTS[value.sort]}, {said(value.value)}"


def near(word, words):
    found = difflib.get_close_matches(word, list(words), 1)
    return f"; is `{found[0]}` meant?" if found else ""


def article(word):
    return f"an {word}" if word[0] in "aeiou" else f"a {word}"


class Table:
    """A table of the market, read key by key in the order in which the manual lists the keys."""

    def __init__(self, reader, value, what, manual):
        self.reader, self.value, self.what, self.manual = reader, value, what, manual
        self.keys = value.value
        self.span = (value.start, value.end if value.origin else value.start + 1)

    def fault(self, kind, entry, found, taken, span=None):
        span = span or (entry.value.start, entry.value.end)
        return Fault(kind, span, f"the key `{entry.key}`", found, taken, self.manual)

    def has(self, key):
        return key in self.keys

    def only(self, keys, later=()):
        """Whether the table has no other keys. Of several that are not listed, the first in the text is told."""
        odd = [it for it in self.keys.values() if it.key not in keys]
        if odd:
            entry = min(odd, key=lambda it: it.start)
            taken = "the keys " + ", ".join(keys)
            if entry.key in later:
                taken += f"; `{entry.key}` comes with version = 2"
            raise Fault(
                "key", (entry.start, entry.end), "", f"the key `{entry.key}`, which {self.what} does not have",
                taken + near(entry.key, keys), self.manual,
            )

    def entry(self, key, sort, taken, optional=False):
        """The entry of a key, whose value is of this sort, or None where it is missing and may be."""
        entry = self.keys.get(key)
        if entry is None and optional:
            return None
        if entry is None:
            raise Fault(
                "key", self.span, "", f"{self.what} without the key `{key}`", f"{key} = .., {taken}", self.manual
            )
        if entry.value.sort != sort:
            raise self.fault("key", entry, told(entry.value), f"{TAKES[sort]}: {taken}")
        return entry

    def items(self, key, sort, taken, optional=False):
        """The values of an array of this sort."""
        entry = self.entry(key, "array", taken, optional)
        for it in entry.value.value if entry else []:
            if it.sort != sort:
                raise self.fault("key", entry, told(it), f"{TAKES[sort]} in the array: {taken}", (it.start, it.end))
        return entry, entry.value.value if entry else []

    def kind(self, kinds):
        entry = self.entry("kind", "text", one_of(kinds))
        if entry.value.value not in kinds:
            raise self.fault("choice", entry, told(entry.value), one_of(kinds) + near(entry.value.value, kinds))
        return entry.value.value

    def choice(self, key, words, default=None):
        entry = self.entry(key, "text", one_of(words), default is not None)
        if entry and entry.value.value not in words:
            raise self.fault("choice", entry, told(entry.value), one_of(words) + near(entry.value.value, words))
        return entry.value.value if entry else default

    def convention(self, key="convention", default=None):
        return self.choice(key, CONVENTIONS, default)

    def counter(self, key="counter"):
        return self.choice(key, WORDS["counter"])

    def flag(self, key):
        entry = self.entry(key, "flag", "true or false", True)
        return bool(entry) and entry.value.value

    def count(self, key, least, most, but=None):
        taken = f"a whole number from {least:,} to {most:,}" + ("" if but is None else f", and not {but}")
        entry = self.entry(key, "integer", taken)
        if not least <= entry.value.value <= most or entry.value.value == but:
            raise self.fault("number", entry, told(entry.value), taken)
        return entry.value.value

    def text(self, key, taken, optional=False):
        """The entry of a text and its bytes."""
        entry = self.entry(key, "text", taken, optional)
        return entry, entry.value.value.encode() if entry else None

    def decimal(self, key, places, least, most, taken, optional=False):
        entry, data = self.text(key, taken, optional)
        if entry and units_of(data, places, least, most) is None:
            raise self.fault("number", entry, why_not_decimal(data, places), taken)
        return entry

    def rate(self, key, optional=False):
        return self.decimal(key, 9, -TEN, TEN, A_RATE, optional)

    def notional(self):
        return self.decimal(
            "notional", 6, 1, BILLION, "a decimal with at most six places, above 0, to 1,000,000,000,000"
        )

    def tenor(self, key, months=False):
        taken = A_TENOR.replace("D, W, M or Y: to 22,000 days, 3,100 weeks,", "M or Y: to") if months else A_TENOR
        entry, data = self.text(key, taken)
        tenor = tenor_of(data)
        if tenor is None or (months and tenor[1] not in "MY"):
            raise self.fault("number", entry, told(entry.value), taken)
        return tenor

    def day(self, key, optional=False):
        entry, data = self.text(key, A_DAY, optional)
        if entry and day_of(data) is None:
            raise self.fault("date", entry, told(entry.value), A_DAY)
        return day_of(data) if entry else None

    def name(self, known):
        entry, data = self.text("name", A_NAME)
        if not is_name(data):
            raise self.fault("name", entry, told(entry.value), A_NAME)
        if data in known or data == b"today":
            raise self.fault("taken", entry, self.reader.taken_by(data, known), "a name that no other has")
        return data

    def calendar(self):
        taken = "the name of a calendar that stands above"
        entry, data = self.text("calendar", taken)
        if not is_name(data):
            raise self.fault("name", entry, told(entry.value), A_NAME)
        if data not in self.reader.calendars:
            hint = near(entry.value.value, [it.decode() for it in self.reader.calendars])
            raise self.fault("unknown", entry, f"{ticked(data)}, and no calendar has that name", taken + hint)
        return self.reader.calendars[data][0]

    def named(self, key, wanted, optional=False):
        """The object that is named, which is of one of the kinds that are wanted."""
        words, kinds = wanted
        entry, data = self.text(key, f"the name of {words} that stands before", optional)
        return self.reader.named(data, wanted, lambda *it: self.fault(it[0], entry, *it[1:])) if entry else None


class Market:
    """Reads a market. `things` are its objects by name, and `made_in` is where each name was made, for the words of a
    fault."""

    def __init__(self):
        self.things, self.calendars, self.made_in, self.version = {b"today": Thing("today")}, {}, {}, 1
        self.number = 0

    def taken_by(self, data, known):
        if data == b"today":
            return "`today`, the name of the evaluation date"
        return f"{ticked(data)}, which is the name of {self.made_in.get((known is self.calendars, data), 'another')}"

    # The top table.

    def top(self, data):
        """Reads the text of the market. A text over the limit is no market's."""
        if len(data) > MOST_BYTES:
            raise self.whole(
                "top", "market", "toolong", f"more than {MOST_BYTES:,} bytes",
                f"a file of at most {MOST_BYTES:,} bytes",
            )
        try:
            text = data.decode("utf-8")
        except UnicodeDecodeError as error:
            span = (len(data[: error.start].decode("utf-8")), None)
            fault = Fault(
                "toml", span, "", f"the byte {data[error.start]:#04x}, which is no UTF-8", "text in UTF-8",
                "Which TOML",
            )
            raise self.of("top", 0, fault) from None
        offset = 1 if text.startswith("\ufeff") else 0
        try:
            # (a mark is dropped, and the places are those in the file)
            table = read(" " + text[1:] if offset else text)
        except TomlFault as error:
            fault = Fault("toml", (error.start, error.end), "", error.found, error.taken, "Which TOML")
            raise self.of("top", 0, fault) from None
        try:
            return self.top_keys(Table(self, table, "the top of a market", IN_THE_FILE))
        except Fault as fault:
            raise self.of("top", 0, fault) from None

    def top_keys(self, top):
        top.span = None
        top.only(TOP)
        self.version = top.count("version", 1, 2)
        top.day("today")
        paths = []
        for key in ("quotes", "fixings"):
            entry = top.entry(key, "text", "the path of a table", True)
            paths.append(entry)
        self.calendar_tables = top.items("calendar", "table", "the tables [[calendar]]", True)[1]
        self.object_tables = top.items("object", "table", "the tables [[object]]", True)[1]
        return paths

    def whole(self, section, file, kind, found, taken, manual=REFUSED):
        fault = Fault(kind, None, "", found, taken, manual)
        fault.file = file
        return self.of(section, 0, fault)

    @staticmethod
    def of(section, entry, fault, where=""):
        fault.section, fault.entry, fault.where = section, entry, fault.where or where
        return fault

    # The sections behind it.

    def rest(self, quotes, fixings):
        for number, table in enumerate(self.calendar_tables, 1):
            self.one("calendars", number, table, self.calendar_table)
        self.records("quotes", quotes, [b"name", b"value"], self.quote)
        for number, table in enumerate(self.object_tables, 1):
            self.one("objects", number, table, self.object_table)
        self.records("fixings", fixings, [b"index", b"day", b"rate"], self.fixing)
        return len(self.things) - 1, sum(len(it.rates) for it in self.things.values())

    def one(self, section, number, table, make):
        where = f"[[{'calendar' if section == 'calendars' else 'object'}]] number {number}"
        self.number = number
        said = "".join(
            f", {it} {ticked(table.value[it].value.value.encode())}"
            for it in ("kind", "name") if it in table.value and table.value[it].value.sort == "text"
        )
        try:
            make(table, where)
        except Fault as fault:
            raise self.of(section, number, fault, where + said) from None

    def add(self, name, thing, made_in, span, word, manual):
        if len(self.things) >= MOST_OBJECTS:
            raise Fault(
                "limit", span, word, f"{MOST_OBJECTS - 1:,} objects before it",
                f"at most {MOST_OBJECTS - 1:,} objects, the quotes counted", manual,
            )
        self.things[name] = thing
        self.made_in[False, name] = made_in

    def named(self, data, wanted, fault):
        words, kinds = wanted
        if not is_name(data):
            raise fault("name", f"{ticked(data)}", A_NAME)
        if data not in self.things:
            hint = near(data.decode(), [it.decode() for it in self.things])
            if data in self.calendars:
                hint = f"; `{shown(data)}` is a calendar, and these have names of their own"
            raise fault(
                "unknown", f"{ticked(data)}, which no object before it has",
                f"the name of {words}{self.later(data) or hint}",
            )
        kind = self.things[data].kind
        if kind not in kinds:
            raise fault(
                "kind", f"{ticked(data)}, which is {article(kind) if kind != 'today' else 'the evaluation date'}",
                f"the name of {words}",
            )
        return self.things[data]

    def later(self, data):
        """Where the name is made further down, if it is."""
        for number, table in enumerate(self.object_tables, 1):
            name = table.value.get("name")
            if name and name.value.sort == "text" and name.value.value.encode() == data:
                return f"; [[object]] number {number}, which has that name, " + (
                    "names itself" if number == self.number else "stands further down"
                )
        return ""

    # Calendars.

    def calendar_table(self, value, made_in):
        t = Table(self, value, "a calendar", "Calendars")
        kind = t.kind(list(CALENDARS))
        t.what = f"a calendar of the kind `{kind}`"
        t.only(["kind"] + CALENDARS[kind])
        name = t.name(self.calendars)
        rules = {"null": lambda day: True, "weekends": weekdays, "target": target}
        rule = rules.get(kind) or (self.bespoke(t) if kind == "bespoke" else self.joint(t))
        self.calendars[name] = Calendar(rule), kind
        self.made_in[True, name] = made_in

    def bespoke(self, t):
        entry, items = t.items("weekend", "text", "weekdays, " + one_of(WEEK))
        for it in items:
            if it.value not in WEEK:
                raise t.fault("choice", entry, told(it), one_of(WEEK) + near(it.value, WEEK), (it.start, it.end))
        weekend = {it.value for it in items}
        if len(weekend) == 7:
            raise t.fault("weekend", entry, "all seven weekdays", "at most six of them")
        entry, items = t.items("holidays", "text", A_DAY)
        for it in items:
            if day_of(it.value.encode()) is None:
                raise t.fault("date", entry, told(it), A_DAY, (it.start, it.end))
        return bespoke(weekend, {day_of(it.value.encode()) for it in items})

    def joint(self, t):
        rule = t.choice("rule", ["holidays", "business"])
        taken = "1 to 8 names of calendars that stand above, none of them joint"
        entry, items = t.items("parts", "text", taken)
        for kind, is_faulty, found in (
            ("name", lambda it: not is_name(it), "{}"),
            ("unknown", lambda it: it not in self.calendars, "{}, and no calendar above has that name"),
            ("kind", lambda it: self.calendars[it][1] == "joint", "{}, which is joint"),
        ):
            for it in items:
                if is_faulty(it.value.encode()):
                    raise t.fault(
                        kind, entry, found.format(told(it)), taken if kind != "name" else A_NAME, (it.start, it.end)
                    )
        if not 1 <= len(items) <= 8:
            raise t.fault("parts", entry, f"{len(items)} parts", taken)
        parts = [self.calendars[it.value.encode()][0] for it in items]
        judge = any if rule == "business" else all
        return lambda day: judge([it.is_business(day) for it in parts])

    # The two tables.

    def records(self, section, data, header, make):
        if data is None:
            return
        found = records(data)
        columns = b",".join(header).decode()
        if not found or [it.data for it in found[0]] != header:
            said = "no record" if not found else f"`{shown(b','.join(it.data for it in found[0]))}`"
            span = (found[0][0].start, found[0][-1].end) if found else None
            fault = Fault("header", span, "the header", said, f"`{columns}` as the first record", TABLES)
            fault.file = section
            raise self.of(section, 0, fault)
        for number, record in enumerate(found[1:], 1):
            try:
                if len(record) != len(header):
                    span = (record[0].start, record[-1].end)
                    raise Fault(
                        "record", span, "the record", f"{len(record)} field{'s' * (len(record) != 1)}",
                        f"{len(header)} fields, {columns}", TABLES,
                    )
                make(*record, f"record {number} of the {section} file")
            except Fault as fault:
                fault.file = section
                raise self.of(section, number, fault, f"record {number} behind the header") from None

    @staticmethod
    def field(field, kind, word, found, taken):
        return Fault(kind, (field.start, field.end), f"the {word}", found, taken, TABLES)

    def quote(self, name, value, made_in):
        if not is_name(name.data):
            raise self.field(name, "name", "name", f"{ticked(name.data)}", A_NAME)
        if name.data in self.things:
            raise self.field(name, "taken", "name", self.taken_by(name.data, self.things), "a name that no other has")
        if value.data and units_of(value.data, 9, -BILLION, BILLION) is None:
            taken = "a decimal with at most nine places, within 1,000,000,000 either way, or nothing"
            raise self.field(value, "number", "value", why_not_decimal(value.data, 9), taken)
        self.add(name.data, Thing("quote"), made_in, (name.start, name.end), "the record", REFUSED)

    def fixing(self, name, day, rate, made_in):
        index = self.named(name.data, INDEX, lambda *it: self.field(name, it[0], "index", *it[1:]))
        if day_of(day.data) is None:
            raise self.field(day, "date", "day", f"{ticked(day.data)}", A_DAY)
        if units_of(rate.data, 9, -TEN, TEN) is None:
            raise self.field(rate, "number", "rate", why_not_decimal(rate.data, 9), A_RATE)
        number = day_of(day.data)
        if number in index.rates:
            found = f"a second rate of `{shown(name.data)}` for {text_of(number)}, which {index.rates[number]} has"
            raise self.field(day, "exists", "day", found, "one rate for each day of an index")
        index.rates[number] = made_in

    # Objects.

    def object_table(self, value, made_in):
        t = Table(self, value, "an object", "Objects")
        kind = t.kind(list(OBJECTS))
        t.what, t.manual = f"a table of the kind `{kind}`", SECTION[kind]
        t.only(["kind"] + OBJECTS[kind] + (LATER.get(kind, []) if self.version == 2 else []), LATER.get(kind, []))
        name = t.name(self.things)
        thing = getattr(self, "make_" + kind)(t) or Thing(kind)
        self.add(name, thing, made_in, t.span, "the object", REFUSED)

    def make_sum(self, t):
        t.named("first", QUOTE)
        t.named("second", QUOTE)

    make_difference = make_sum

    def make_handle(self, t):
        what = t.choice("target", ["quote", "curve"])
        t.named("to", TARGETS[what], True)
        return Thing(f"handle of {what}s")

    def make_curve(self, t):
        t.calendar()
        begins = "either settlement = 0 to 30, or reference = a day"
        if self.version == 2 and t.has("settlement") and t.has("reference"):
            raise t.fault(
                "key", t.keys["reference"], "`settlement` and `reference`", begins,
                (t.keys["reference"].start, t.keys["reference"].end),
            )
        if self.version == 2 and not (t.has("settlement") or t.has("reference")):
            raise Fault("key", t.span, "", "neither `settlement` nor `reference`", begins, t.manual)
        if t.has("reference"):
            t.day("reference")
        else:
            t.count("settlement", 0, 30)
        entry, items = t.items("helpers", "table", "1 to 64 tables of deposits and swaps")
        for it in items:
            self.helper(Table(self, it, "a helper", t.manual))
        if not 1 <= len(items) <= 64:
            raise t.fault("parts", entry, f"{len(items)} helpers", "1 to 64 of them")

    @staticmethod
    def helper(t):
        kind = t.kind(list(HELPERS))
        t.what = f"a helper of the kind `{kind}`"
        t.only(["kind"] + HELPERS[kind])
        t.named("quote", QUOTE)
        t.tenor("tenor", kind == "swap")
        if kind == "swap":
            t.tenor("every", True)
        t.convention()
        t.flag("month_end")
        t.counter()

    def make_implied(self, t):
        t.named("curve", CURVE)
        t.day("reference")

    def make_index(self, t):
        calendar, days = t.calendar(), t.count("fixing_days", 0, 30)
        t.tenor("tenor")
        convention = t.convention()
        t.flag("month_end")
        t.counter()
        t.named("curve", CURVE)
        return Thing("index", (calendar, days, convention))

    def make_engine(self, t):
        t.named("curve", CURVE)

    def make_stock(self, t):
        t.named("quote", QUOTE)

    def make_composite(self, t):
        entry, items = t.items("parts", "table", "tables with part, an instrument, and weight", True)
        for it in items:
            part = Table(self, it, "a part of a composite", t.manual)
            part.only(PARTS)
            part.named("part", INSTRUMENT)
            part.count("weight", -1000000, 1000000, 0)
        seen = set()
        for it in items:
            member = it.value["part"]
            if member.value.value in seen:
                raise t.fault(
                    "parts", member, f"`{member.value.value}` a second time", "each member once: add its weights"
                )
            seen.add(member.value.value)

    # Instruments that are flows.

    def rules(self, t):
        rule = t.choice("rule", WORDS["schedule rule"], "backward")
        convention = t.convention("convention", "modified_following")
        return rule, convention, t.convention("end_convention", convention), t.flag("month_end")

    def lag(self, t):
        return t.count("payment_lag", 0, 30) if t.has("payment_lag") else 0

    @staticmethod
    def plan(t, every, *given):
        """The days of a schedule. `every` is the key that has its tenor, and its value."""
        try:
            return schedule(*given[:2], every[1], *given[2:])
        except NoSchedule as fault:
            key = every[0] if fault.part == "every" else fault.part
            raise t.fault("plan", t.keys[key], fault.why, "a plan of at most 801 days, start before end") from None

    @staticmethod
    def paid(t, key, days, calendar, lag, index=None):
        """Looks whether each payment, and each fixing of a period, has a day."""
        taken = "payments and fixings from 1901-01-01 to 2199-12-31"
        for start, end in zip(days, days[1:]):
            for what, day, move in (
                ("payment", end, lambda: calendar.moved(end, lag, 1)),
                ("fixing", start, lambda: index and index[0].moved(start, index[1], -1)),
            ):
                try:
                    move()
                except OutOfRange:
                    raise t.fault(
                        "range", t.keys[key], f"a {what} for {text_of(day)} that would be moved out of the range",
                        taken,
                    ) from None
        return len(days) - 1

    @staticmethod
    def few(t, count):
        if count > MOST_FLOWS:
            raise Fault("flows", t.span, "the instrument", f"{count:,} flows", f"at most {MOST_FLOWS:,}", t.manual)

    def make_bond(self, t):
        t.notional()
        start, end, calendar = t.day("start"), t.day("end"), t.calendar()
        t.named("engine", ENGINE, True)
        lag, has_coupon, has_index = self.lag(t), t.has("coupon"), t.has("index")
        odd = self.odd_in_bond(t, has_coupon, has_index)
        if odd:
            entry = t.keys[odd[0]]
            raise t.fault("key", entry, odd[1], odd[2], (entry.start, entry.end))
        if not has_coupon and not has_index:
            if not start < end:
                raise t.fault(
                    "plan", t.keys["end"], f"the start {text_of(start)} is not before the end {text_of(end)}",
                    "a start before the end",
                )
            return self.few(t, self.paid(t, "end", [end, end], calendar, lag))
        t.rate("coupon", not has_coupon)
        index = t.named("index", INDEX) if has_index else None
        t.rate("spread", True)
        every, rules = t.tenor("every"), self.rules(t)
        t.counter()
        first, last = t.day("first", True), t.day("last", True)
        days = self.plan(t, ("every", every), start, end, calendar, rules, first, last)
        flows = self.paid(t, "every", days, calendar, lag, index and index.terms)
        return self.few(t, flows + self.paid(t, "end", [end, end], calendar, lag))

    @staticmethod
    def odd_in_bond(t, has_coupon, has_index):
        """The key that does not go with the others, what is found, and what would be taken; or None."""
        if has_coupon and has_index:
            return "index", "`coupon` and `index`", "`coupon` for fixed coupons, or `index` for floating ones"
        if has_coupon and t.has("spread"):
            return "spread", "`spread` beside `coupon`", "`spread` with `index` alone"
        odd = [] if has_coupon or has_index else [it for it in WITH_COUPONS if t.has(it)]
        first = min(odd, key=lambda it: t.keys[it].start, default=None)
        taken = "a bond with coupons has coupon or index; one without has no such key"
        return (first, f"`{first}` without `coupon` and `index`", taken) if first else None

    def make_swap(self, t):
        t.notional()
        t.choice("side", ["pay", "receive"])
        start, end, calendar = t.day("start"), t.day("end"), t.calendar()
        t.named("engine", ENGINE, True)
        lag, rules = self.lag(t), self.rules(t)
        t.rate("fixed_rate")
        fixed = t.tenor("fixed_every")
        t.counter("fixed_counter")
        index = t.named("index", INDEX)
        t.rate("spread", True)
        floating = t.tenor("float_every")
        t.counter("float_counter")
        plans = [
            self.plan(t, it, start, end, calendar, rules) for it in (("fixed_every", fixed), ("float_every", floating))
        ]
        count = self.paid(t, "fixed_every", plans[0], calendar, lag)
        self.few(t, count + self.paid(t, "float_every", plans[1], calendar, lag, index.terms))

    def make_fra(self, t):
        t.notional()
        t.choice("side", ["long", "short"])
        calendar, days, convention = t.named("index", INDEX).terms
        start = t.day("start")
        t.rate("strike")
        t.named("engine", ENGINE, True)
        try:
            calendar.moved(calendar.adjusted(start, convention), days, -1)
        except OutOfRange:
            found = f"a payment or a fixing for {text_of(start)} that would be moved out of the range"
            raise t.fault(
                "range", t.keys["start"], found, "a payment and a fixing from 1901-01-01 to 2199-12-31"
            ) from None
