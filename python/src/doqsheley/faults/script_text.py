"""The script, read as the program reads it: its first fault, as the program tells it, and those behind it."""
import difflib
import re

from .days import day_of
from .market_text import MOST_BYTES, Fault, article, near
from .places import A_DAY, A_NAME, A_RATE, BILLION, TEN, is_name, one_of, shown, units_of, why_not_decimal

MOST_NAMES = 65536
LINES, COMMANDS, BLOCKS, FAULTS = "Lines and words", "Commands", "Watchers", "Faults of a script"
# The words of a command as the manual writes them. A small letter or more than one name is told by `place`.
COMMAND = {
    "quote": "N V",
    "sum": "N A B",
    "difference": "N A B",
    "handle": "N quote|curve",
    "stock": "N Q",
    "composite": "N",
    "member": "K I W",
    "set": "Q v",
    "unset": "Q",
    "link": "H T",
    "unlink": "H",
    "engine": "I E",
    "today": "D",
    "fixing": "X D R",
    "freeze": "O",
    "thaw": "O",
    "recalc": "O",
    "forward": "O on|off",
    "defer": "",
    "resume": "",
    "watch": "N A",
    "register": "N O",
    "unregister": "N O",
    "drop": "N",
    "ask": "O",
    "df": "C D",
    "action": "A",
    "end": "",
}
A_VALUE = "a decimal with at most nine places, within 1,000,000,000 either way"


def is_weight(data):
    return re.fullmatch(rb"-?[0-9]{1,7}", data) is not None and abs(int(data)) <= 1000000


def place(letter, data):
    """Why a word does not fit its place: the kind, what is found and what would be taken; or None."""
    if letter in ("V", "v", "R"):
        most, taken = (TEN, A_RATE) if letter == "R" else (BILLION, A_VALUE)
        if letter == "V" and data == b"unset":
            return None
        taken += ", or unset" if letter == "V" else ""
        return None if units_of(data, 9, -most, most) is not None else ("number", why_not_decimal(data, 9), taken)
    if letter == "W":
        return None if is_weight(data) else (
            "number", f"`{shown(data)}`", "a whole number of one to seven digits, within 1,000,000 either way"
        )
    if letter == "D":
        return None if day_of(data) is not None else ("date", f"`{shown(data)}`", A_DAY)
    if "|" in letter:
        words = letter.split("|")
        return None if data.decode("latin-1") in words else ("choice", f"`{shown(data)}`", one_of(words))
    if letter == "E" and data == b"none":
        return None
    return None if is_name(data) else ("name", f"`{shown(data)}`", A_NAME + (", or none" if letter == "E" else ""))


class Script:
    """Reads a script, over the names that a market has. `faults` are all its faults, the one that the program tells
    before the others; `commands` are its commands without a fault, `begun` the names of its blocks, and `wild` the
    words of the lines with a fault."""

    def __init__(self, names):
        self.names = set(names)
        self.actions, self.named, self.block = {}, [], None
        self.count = 0
        self.faults, self.commands, self.wild, self.begun = [], [], set(), []

    @staticmethod
    def fault(number, kind, span, word, found, taken, manual):
        fault = Fault(kind, span, word, found, taken, manual)
        fault.section, fault.entry, fault.file = "script", number, "script"
        return fault

    def read(self, data):
        """How many commands a script has. A fault is raised, the first one."""
        if len(data) > MOST_BYTES:
            raise self.fault(
                0, "toolong", None, "", f"more than {MOST_BYTES:,} bytes", f"a file of at most {MOST_BYTES:,} bytes",
                LINES,
            )
        self.lines(data)
        if self.faults:
            raise self.faults[0]
        return self.count

    def lines(self, data):
        at = 0
        for number, line in enumerate(data.split(b"\n"), 1):
            is_last = at + len(line) == len(data)
            said = line[:-1] if line.endswith(b"\r") and not is_last else line
            if said or not is_last:
                try:
                    self.line(number, said, at)
                except Fault as fault:
                    self.behind(fault, said)
            at += len(line) + 1
        if self.block:
            self.faults.append(self.fault(
                self.block[0], "unclosed", self.block[1], "the block", "no `end` behind it",
                "`end` in a line of its own", BLOCKS,
            ))
        for number, word, span in self.named:
            if word not in self.actions:
                taken = "the name of a block `action .. end`" + near(
                    word.decode(), [it.decode() for it in self.actions]
                )
                self.faults.append(self.fault(
                    number, "noaction", span, "the action", f"`{shown(word)}`, which no block defines", taken, BLOCKS
                ))

    def behind(self, fault, line):
        """Reads on behind a line with a fault: its names may be any, and it may begin or end a block. The names that
        find no room are told once."""
        if fault.kind != "names" or all(it.kind != "names" for it in self.faults):
            self.faults.append(fault)
        words = line.split(b"#", 1)[0].split()
        self.wild.update(words[1:])
        first = words[0].decode("latin-1") if words else ""
        meant = [first] if first in COMMAND else difflib.get_close_matches(first, COMMAND, 1)
        if meant == ["action"] and not self.block:
            self.block = fault.entry, fault.span
            self.actions.update((it, fault.entry) for it in words[1:] if it not in self.actions)
        if meant == ["end"]:
            self.block = None

    def line(self, number, line, at):
        odd = re.search(rb"[^\t\x20-\x7e]", line)
        if odd:
            span = (at + odd.start(), at + odd.end())
            taken = "the bytes 32 to 126 and tab, in comments too, and \\r directly before \\n"
            raise self.fault(number, "byte", span, "the byte", f"{odd[0][0]:#04x}", taken, LINES)
        found = list(re.finditer(rb"[^\t ]+", line.split(b"#", 1)[0]))
        if found:
            self.count += 1
            self.command(number, [(it[0], (at + it.start(), at + it.end())) for it in found])

    def command(self, number, words):
        first, span = words[0]
        word = first.decode()
        if word not in COMMAND:
            raise self.fault(
                number, "word", span, "the first word", f"`{shown(first)}`", "a command" + near(word, COMMAND),
                COMMANDS,
            )
        letters = COMMAND[word].split()
        if len(words) - 1 != len(letters):
            whole, said = (span[0], words[-1][1][1]), " ".join([word] + letters).replace(" v", " V")
            found = f"{len(words) - 1} word{'s' * (len(words) != 2)} behind `{word}`"
            raise self.fault(number, "count", whole, "the number of words", found, f"`{said}`", COMMANDS)
        if word == "action" and self.block:
            found = f"`action` inside the block that begins in line {self.block[0]}"
            raise self.fault(number, "nested", span, "the first word", found, "`end` before it", BLOCKS)
        if word == "end" and not self.block:
            raise self.fault(
                number, "end", span, "the first word", "`end` outside a block", "`action A` before it", BLOCKS
            )
        for place_number, (letter, (data, where)) in enumerate(zip(letters, words[1:]), 2):
            odd = place(letter, data)
            if odd:
                raise self.fault(
                    number, odd[0], where, f"word {place_number}", *odd[1:],
                    COMMANDS if odd[0] == "choice" else LINES,
                )
        if word == "action" and words[1][0] in self.actions:
            found = f"`{shown(words[1][0])}`, whose block begins in line {self.actions[words[1][0]]}"
            raise self.fault(number, "twice", words[1][1], "the action", found, "a name that no block has", BLOCKS)
        self.keep_names(number, letters, words)
        if word not in ("action", "end"):
            self.commands.append((number, bool(self.block), words))
        self.keep(number, word, words)

    def keep_names(self, number, letters, words):
        for letter, (data, where) in zip(letters, words[1:]):
            if not re.fullmatch("[A-Z]", letter) or letter in "VRWD" or (letter == "E" and data == b"none"):
                continue
            if data not in self.names and len(self.names) >= MOST_NAMES:
                raise self.fault(
                    number, "names", where, "the name", f"`{shown(data)}`, the 65,537th name",
                    "at most 65,536 names in a session", LINES,
                )
            self.names.add(data)

    def keep(self, number, word, words):
        if word == "action":
            self.actions[words[1][0]] = number
            self.begun.append((words[1][0], number, words[1][1]))
            self.block = number, (words[0][1][0], words[-1][1][1])
        elif word == "end":
            self.block = None
        elif word == "watch":
            self.named.append((number, *words[2]))
