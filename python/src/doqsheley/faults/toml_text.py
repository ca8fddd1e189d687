"""Reads TOML 1.1, as the program's reader takes it, and keeps where each key and each value stands."""
import math
import re

DEEPEST = 80
BLANK = re.compile(r"(?:[ \t\n]+|\r\n|#[\t\x20-\x7e\x80-\U0010ffff]*)*")
SPACE = re.compile(r"[ \t]*")
BARE = re.compile(r"[A-Za-z0-9_-]+")
WORD = re.compile(r"[A-Za-z0-9_.:+-]+(?: (?=[0-9])[A-Za-z0-9_.:+-]+)?")
DATE = r"[0-9]{4}-[0-9]{2}-[0-9]{2}"
TIME = r"[0-9]{2}:[0-9]{2}(?::[0-9]{2}(?:\.[0-9]+)?)?"
MOMENT = re.compile(rf"(?:({DATE})(?:[Tt ]({TIME})([Zz]|[+-][0-9]{{2}}:[0-9]{{2}})?)?|({TIME}))")
DECIMAL = re.compile(r"[+-]?(0|[1-9][0-9]*)(\.[0-9]+)?([eE][+-]?[0-9]+)?")
ESCAPES = {"b": "\b", "t": "\t", "n": "\n", "f": "\f", "r": "\r", "e": "\x1b", '"': '"', "\\": "\\"}
DIGITS = {"x": 2, "u": 4, "U": 8}
RADIX = {"0x": 16, "0o": 8, "0b": 2}
A_VALUE = "a value: a text in quotes, a number, true, false, [ .. ] or { .. }"


class TomlFault(Exception):
    """Where the text is no TOML, from character `start` to `end`, what stands there, and what would be taken."""

    def __init__(self, start, end, found, taken):
        super().__init__(found)
        self.start, self.end, self.found, self.taken = start, end, found, taken


class Value:
    """A value: its sort, and where it stands. A table's value is a dict of `Entry` by key."""

    def __init__(self, sort, value, start, end, origin=None):
        self.sort, self.value, self.start, self.end, self.origin = sort, value, start, end, origin


class Entry:
    """A key of a table with its value, and where the key stands."""

    def __init__(self, key, start, end, value):
        self.key, self.start, self.end, self.value = key, start, end, value


def is_moment(word):
    found = MOMENT.fullmatch(word)
    if not found:
        return False
    day, time, offset, alone = found.groups()
    if day:
        year, month, date = (int(it) for it in day.split("-"))
        leap = year % 4 == 0 and (year % 100 != 0 or year % 400 == 0)
        lengths = [31, 29 if leap else 28, 31, 30, 31, 30, 31, 31, 30, 31, 30, 31]
        if not (1 <= month <= 12 and 1 <= date <= lengths[month - 1]):
            return False
    for it, most in ((time or alone, (23, 59, 60)), (offset if offset and len(offset) > 1 else None, (23, 59))):
        parts = re.split(":", it.lstrip("+-").split(".")[0]) if it else []
        if any(int(part) > limit for part, limit in zip(parts, most)):
            return False
    return True


def number_of(word):
    """Returns the sort and the value of a number, or None."""
    digit = "[0-9A-Fa-f]" if word.startswith("0x") else "[0-9]"
    if re.search(rf"_(?!{digit})|(?<!{digit})_", word):
        return None
    plain = word.replace("_", "")
    if plain[:2] in RADIX:
        try:
            value = int(plain[2:], RADIX[plain[:2]]) if re.fullmatch(r"[0-9A-Fa-f]+", plain[2:]) else -1
        except ValueError:
            return None
        return ("integer", value) if 0 <= value < 2**63 else None
    if plain.lstrip("+-") in ("inf", "nan") and len(plain) < 5:
        return "float", float(plain)
    found = DECIMAL.fullmatch(plain)
    if not found:
        return None
    if found[2] or found[3]:
        return None if math.isinf(float(plain)) else ("float", float(plain))
    return ("integer", int(plain)) if -(2**63) <= int(plain) < 2**63 else None


class Reader:
    """The text, and how far it is read."""

    def __init__(self, text):
        self.text, self.at = text, 0
        self.root = Value("table", {}, 0, 0, "header")

    def fail(self, taken, start=None, end=None, found=None):
        start = self.at if start is None else start
        raise TomlFault(start, end or start + 1, found or self.shown(start), taken)

    def shown(self, at):
        if at >= len(self.text):
            return "the end of the file"
        if self.text[at] in "\r\n":
            return "the end of the line"
        word = re.compile(r"[^\s,=\[\]{}#]+").match(self.text, at)
        return f"`{word[0][:40] if word else self.text[at]}`"

    def front(self, what):
        return self.text.startswith(what, self.at)

    def skip(self, pattern):
        self.at = pattern.match(self.text, self.at).end()

    # Keys: a list of parts, each with the place where it stands.

    def key(self):
        parts = []
        while True:
            start = self.at
            if self.front('"') or self.front("'"):
                name = self.one_line()
            else:
                found = BARE.match(self.text, self.at)
                if not found:
                    self.fail("a key: letters, digits, _ and -, or a text in quotes")
                name, self.at = found[0], found.end()
            parts.append((name, start, self.at))
            self.skip(SPACE)
            if not self.front("."):
                return parts
            if len(parts) == DEEPEST:
                self.fail(f"at most {DEEPEST} parts in a key")
            self.at += 1
            self.skip(SPACE)

    def pair(self, depth):
        key = self.key()
        if not self.front("="):
            self.fail("`=` behind a key")
        self.at += 1
        self.skip(SPACE)
        return key, self.value(depth)

    # Values.

    def value(self, depth):
        if self.front("[") or self.front("{"):
            if depth == 0:
                self.fail(f"values within one another at most {DEEPEST} deep")
            return self.array(depth - 1) if self.front("[") else self.inline(depth - 1)
        start = self.at
        if self.front('"') or self.front("'"):
            return Value("text", self.quoted(), start, self.at)
        found = WORD.match(self.text, self.at)
        if not found:
            self.fail(A_VALUE)
        self.at = found.end()
        word = found[0]
        if word in ("true", "false"):
            return Value("flag", word == "true", start, self.at)
        if re.match(r"[0-9]+[-:]", word):
            if not is_moment(word):
                self.fail("a text in quotes, or a date that there is", start, self.at, f"`{word}`")
            return Value("day", word, start, self.at)
        number = number_of(word)
        if number is None:
            self.fail(A_VALUE, start, self.at, f"`{word}`")
        return Value(number[0], number[1], start, self.at)

    def behind(self, closing):
        self.skip(BLANK)
        if self.front(","):
            self.at += 1
        elif not self.front(closing):
            self.fail(f"`,` or `{closing}`")

    def array(self, depth):
        start, items = self.at, []
        self.at += 1
        while True:
            self.skip(BLANK)
            if self.front("]"):
                self.at += 1
                return Value("array", items, start, self.at)
            items.append(self.value(depth))
            self.behind("]")

    def inline(self, depth):
        start = self.at
        table = Value("table", {}, start, start, "header")
        self.at += 1
        while True:
            self.skip(BLANK)
            if self.front("}"):
                self.at += 1
                break
            key, value = self.pair(depth)
            self.put(table, key, value)
            self.behind("}")
        table.end = self.at
        return close(table)

    # Texts.

    def quoted(self):
        if self.front('"""') or self.front("'''"):
            start, mark = self.at, self.text[self.at]
            self.at += 3
            self.at += 1 if self.front("\n") else 2 if self.front("\r\n") else 0
            return self.body(mark, True, start)
        return self.one_line()

    def one_line(self):
        start, mark = self.at, self.text[self.at]
        self.at += 1
        return self.body(mark, False, start)

    def body(self, mark, is_long, start):
        plain = re.compile("[\t\x20-\x7e\x80-\U0010ffff" + ("\n" if is_long else "") + "]")
        run = re.compile(f"(?:(?![{mark}{chr(92) * 2 if mark == chr(34) else ''}]){plain.pattern})+")
        said = []
        while True:
            found = run.match(self.text, self.at)
            if found:
                said.append(found[0])
                self.at = found.end()
            if self.front(mark):
                count = len(re.compile(f"{mark}+").match(self.text, self.at)[0])
                if not is_long or count == 3:
                    self.at += 3 if is_long else 1
                    return "".join(said)
                if count > 5:
                    self.fail("the end of a text")
                said.append(mark)
                self.at += 1
            elif mark == '"' and self.front("\\"):
                said.append(self.escape(is_long))
            elif is_long and self.front("\r\n"):
                said.append("\r")
                self.at += 1
            else:
                what = f"{self.shown(self.at)}, and the text that begins with {mark} is not closed"
                self.fail(f"`{mark}` at the end of a text", start, self.at, what)

    def escape(self, is_long):
        start = self.at
        self.at += 1
        letter = self.text[self.at : self.at + 1]
        if is_long and re.compile(r"[ \t]*\r?\n").match(self.text, self.at):
            self.skip(re.compile(r"(?:[ \t\n]|\r\n)*"))
            return ""
        if letter in DIGITS:
            digits = self.text[self.at + 1 : self.at + 1 + DIGITS[letter]]
            value = int(digits, 16) if re.fullmatch(f"[0-9A-Fa-f]{{{DIGITS[letter]}}}", digits) else 0xD800
            if value < 0xD800 or 0xE000 <= value <= 0x10FFFF:
                self.at += 1 + DIGITS[letter]
                return chr(value)
        elif letter and letter in ESCAPES:
            self.at += 1
            return ESCAPES[letter]
        self.fail(
            'one of the escapes \\b \\t \\n \\f \\r \\e \\" \\\\ \\xHH \\uHHHH \\UHHHHHHHH', start, self.at + 1,
            f"`\\{letter}`",
        )

    # What a table holds.

    def twice(self, part, entry):
        line = self.text.count("\n", 0, entry.start) + 1
        self.fail(
            "a key that the table has not yet", part[1], part[2], f"`{part[0]}`, which stands in line {line} already"
        )

    def put(self, table, key, value):
        for part in key[:-1]:
            entry = table.value.get(part[0])
            if entry is None:
                entry = Entry(*part, Value("table", {}, part[1], part[2], "dotted"))
                table.value[part[0]] = entry
            if entry.value.sort != "table" or entry.value.origin not in ("implicit", "dotted"):
                self.twice(part, entry)
            table = entry.value
            table.origin = "dotted"
        name, start, end = key[-1]
        if name in table.value:
            self.twice(key[-1], table.value[name])
        table.value[name] = Entry(name, start, end, value)

    def header(self, key, is_array, start, end):
        table = self.root
        for part in key[:-1]:
            entry = table.value.get(part[0])
            if entry is None:
                entry = Entry(*part, Value("table", {}, start, end, "implicit"))
                table.value[part[0]] = entry
            if entry.value.origin is None:
                self.twice(part, entry)
            table = entry.value.value[-1] if entry.value.sort == "array" else entry.value
        name, entry = key[-1][0], table.value.get(key[-1][0])
        new = Value("table", {}, start, end, "header")
        if entry is None:
            made = Value("array", [new], start, end, "array") if is_array else new
            table.value[name] = Entry(*key[-1], made)
        elif is_array and entry.value.origin == "array":
            entry.value.value.append(new)
        elif not is_array and entry.value.sort == "table" and entry.value.origin == "implicit":
            new = entry.value
            new.origin, new.start, new.end = "header", start, end
        else:
            self.twice(key[-1], entry)
        return new

    def document(self):
        table = self.root
        while True:
            self.skip(BLANK)
            start = self.at
            if start == len(self.text):
                return self.root
            if self.front("["):
                is_array = self.front("[[")
                self.at += 2 if is_array else 1
                self.skip(SPACE)
                key, closing = self.key(), "]]" if is_array else "]"
                if not self.front(closing):
                    self.fail(f"`{closing}`")
                self.at += len(closing)
                end = self.at
                self.ended()
                table = self.header(key, is_array, start, end)
            else:
                key, value = self.pair(DEEPEST)
                self.ended()
                self.put(table, key, value)

    def ended(self):
        self.skip(SPACE)
        if self.at < len(self.text) and self.text[self.at] not in "#\r\n":
            self.fail("the end of the line")


def close(table):
    """A table that is a value as a whole, to which nothing is added."""
    table.origin = None
    return table


def read(text):
    """Returns the table of a text, or raises the text's TomlFault."""
    return Reader(text).document()
