"""The names of a script: which commands a run refuses, whatever the market does, for a name in them.

A name is told only where no run can take it. What a block of an action makes, what may have been dropped, and what a
line with a fault may have been meant to make is taken for an object of any kind.
"""
import difflib

from .market_text import article

QUOTES = ("quote", "sum", "difference")
CURVES = ("curve", "implied")
FLOWS = ("bond", "swap", "fra")
MEMBERS = ("stock", "composite", *FLOWS)
HANDLES = ("handle of quotes", "handle of curves")
WORDS = {"implied": "implied curve", "fra": "forward rate agreement"}
INPUT = ("a quote, a sum, a difference or a handle of quotes", (*QUOTES, HANDLES[0]))
PRICED = ("a curve or an instrument", (*CURVES, *MEMBERS))
WATCHER = ("a watcher", ("watcher",))
ALL = (*QUOTES, *CURVES, *MEMBERS, *HANDLES, "index", "engine")
# Which kinds each name of a command may have: the place of the word, what is taken there in words, and the kinds.
TAKES = {
    "sum": [(2, *INPUT), (3, *INPUT)],
    "difference": [(2, *INPUT), (3, *INPUT)],
    "stock": [(2, *INPUT)],
    "member": [(1, "a composite", ("composite",)), (2, "an instrument", MEMBERS)],
    "set": [(1, "a quote", ("quote",))],
    "unset": [(1, "a quote", ("quote",))],
    "link": [(1, "a handle", HANDLES), (2, "", ())],
    "unlink": [(1, "a handle", HANDLES)],
    "engine": [(1, "a bond, a swap or a forward rate agreement", FLOWS), (2, "an engine", ("engine",))],
    "fixing": [(1, "an index", ("index",))],
    **{it: [(1, *PRICED)] for it in ("freeze", "thaw", "recalc", "forward", "ask")},
    "register": [(1, *WATCHER), (2, "an object that is no watcher", ("today", *ALL))],
    "unregister": [(1, *WATCHER), (2, "an object that is no watcher", ("today", *ALL))],
    "drop": [(1, "an object of the session", (*ALL, "watcher"))],
    "df": [(1, "a curve or an implied curve", CURVES)],
}
TARGETS = {
    HANDLES[0]: ("a quote, a sum or a difference", QUOTES), HANDLES[1]: ("a curve or an implied curve", CURVES),
}
MAKES = {it: it for it in ("quote", "sum", "difference", "stock", "composite")}


def made_by(words):
    """The name that a command makes, and its kind; or None."""
    word = words[0][0].decode()
    if word == "handle":
        return words[1][0], f"handle of {words[2][0].decode()}s"
    if word == "watch":
        return words[1][0], "watcher"
    return (words[1][0], MAKES[word]) if word in MAKES else None


class Wrong:
    """A name that no run takes where it stands: the line of the script, the place, what was found and what would be
    taken."""

    def __init__(self, number, span, word, found, taken):
        self.number, self.span, self.word, self.found, self.taken = number, span, word, found, taken
        self.manual, self.where = "Commands", ""


class Known:
    """An object that may have a name: its kinds, whether it has the name for sure, and where it was made."""

    def __init__(self, kinds, is_sure, made_in):
        self.kinds, self.is_sure, self.made_in = set(kinds), is_sure, made_in


class Names:
    """Follows a script over the objects of a market. `commands` are its commands: the number of the line, whether it
    stands in a block, and its words with their places. `wild` are the words of lines with a fault."""

    def __init__(self, market, commands, wild):
        self.wild, self.wrong = wild, []
        made = {name: market.made_in.get((False, name), "the evaluation date") for name in market.things}
        self.known = {name: Known([it.kind], True, made[name]) for name, it in market.things.items()}
        self.blocks, dropped = {}, set()
        for number, is_block, words in commands:
            if is_block and made_by(words):
                name, kind = made_by(words)
                self.blocks.setdefault(name, Known([], False, f"line {number}")).kinds.add(kind)
            if is_block and words[0][0] == b"drop":
                dropped.add(words[1][0])
        self.dropped = dropped
        # (what a block may name is everything that the whole script may make)
        self.ever = {name: set(it.kinds) for name, it in self.known.items()}
        for _, _, words in commands:
            if made_by(words):
                name, kind = made_by(words)
                self.ever.setdefault(name, set()).add(kind)
        for command in commands:
            self.command(*command)

    def kinds(self, name, is_block):
        """The kinds that an object of this name may have, None where nothing is known; and whether there is one."""
        if name in self.wild:
            return None, False
        if is_block:
            return self.ever.get(name, set()), name in self.known and name not in self.dropped
        known, later = self.known.get(name), self.blocks.get(name)
        kinds = (known.kinds if known else set()) | (later.kinds if later else set())
        return kinds, bool(known and known.is_sure) and name not in self.dropped

    def command(self, number, is_block, words):
        word = words[0][0].decode()
        made = made_by(words)
        if made and self.is_taken(number, is_block, words[1]):
            return
        right = [self.takes(number, is_block, word, words, *it) for it in TAKES.get(word, ())]
        if is_block:
            return
        if made:
            name, kind = made
            before = self.known.get(name)
            kinds = {kind} | (before.kinds if before else set())
            self.known[name] = Known(kinds, all(right) and name not in self.dropped, f"line {number}")
        if word == "drop" and words[1][0] in self.known:
            self.known[words[1][0]].is_sure = False

    def is_taken(self, number, is_block, word):
        name, span = word
        if name in self.wild or name in self.dropped or not (name in self.known and self.known[name].is_sure):
            return False
        found = f"the name `{name.decode()}`, which is that of {self.made(name)}"
        self.wrong.append(Wrong(number, span, "", found, "a name that no object has"))
        return True

    def made(self, name):
        known = self.known[name]
        if "today" in known.kinds:
            return "the evaluation date"
        return f"{self.kind_of(known.kinds)}, made in {known.made_in}"

    @staticmethod
    def kind_of(kinds):
        return " or ".join(article(WORDS.get(it, it)) for it in sorted(kinds))

    def takes(self, number, is_block, command, words, place, said, taken):
        """Whether a name of a command may be one that it takes."""
        name, span = words[place]
        if command == "engine" and name == b"none":
            return True
        if command == "link" and place == 2:
            handles, _ = self.kinds(words[1][0], is_block)
            targets = [TARGETS[it] for it in HANDLES if handles is None or it in handles]
            if len(targets) != 1:
                targets = [("a quote, a sum, a difference, a curve or an implied curve", (*QUOTES, *CURVES))]
            said, taken = targets[0]
        kinds, is_sure = self.kinds(name, is_block)
        if kinds is None or kinds & set(taken):
            return True
        if not kinds:
            found = f"the name `{name.decode()}`, which no object has here"
            hint = self.near(name, is_block, taken)
        else:
            found = f"the name `{name.decode()}`, which is that of {self.made(name)}" if is_sure and name in self.known \
                else f"the name `{name.decode()}`, which is that of {self.kind_of(kinds)} at most"
            hint = ""
        self.wrong.append(Wrong(number, span, "", found, f"the name of {said}{hint}"))
        return False

    def near(self, name, is_block, taken):
        """The known name that is nearest, of those that are taken before all others."""
        right = [it.decode() for it in (self.ever if is_block else self.known) if self.kinds(it, is_block)[0]
                 and self.kinds(it, is_block)[0] & set(taken)]
        found = difflib.get_close_matches(name.decode(), right, 1)
        return f"; is `{found[0]}` meant?" if found else ""
