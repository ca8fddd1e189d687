"""The market of a session as its accepted lines leave it: the day, the quotes, the objects, and a short script for the same.

The market at the start is read from `doqs graph`. A line is followed by its words, so nothing is asked of the session.
"""

import re
from decimal import Decimal

MOVES = {"set", "unset", "link", "unlink", "engine", "today", "member", "fixing"}
MAKES = {"sum": "derived quote", "difference": "derived quote", "stock": "stock", "composite": "composite"}
SHAPES = {*MOVES, *MAKES, "quote", "handle", "drop"}
ASKS = {"ask", "df"}
MOST_KEPT = 50000
BOOKS, CURVES = {"composite"}, {"curve", "implied curve"}
INSTRUMENTS = {"bond", "swap", "forward rate agreement", "stock"}

NAME = re.compile(r"[A-Za-z]\w{0,31}", re.ASCII)
NODE = re.compile(r'  "(\w+)" \[shape=\w+,? ?(.*)label="(.*)"\];')
EDGE = re.compile(r'  "(\w+)" -> "(\w+)"(.*);')
SIGNS = {"fresh", "not current", "frozen", "late", "held", "unpriced", "deferred"}


def words_of(line):
    return line.partition("#")[0].split()


def read_graph(text):
    """The nodes and the arrows of a graph in the language of Graphviz, as `doqs graph` writes it."""
    nodes, arrows = [], []
    for line in text.splitlines():
        if node := NODE.fullmatch(line):
            _, kind, *rest = node[3].split("\\n")
            signs = [it for it in rest if it in SIGNS]
            value = " ".join(it for it in rest if it not in SIGNS)
            nodes.append({"name": node[1], "kind": kind, "value": value, "signs": signs})
        elif arrow := EDGE.fullmatch(line):
            arrows.append({"from": arrow[1], "to": arrow[2], "watches": "dashed" in arrow[3]})
    return {"nodes": nodes, "arrows": arrows}


class Tracked:
    """What the lines of a session have made of its market. `opening` is the script that the session was opened with."""

    def __init__(self, graph, opening=""):
        self.opening = opening if not opening or opening.endswith("\n") else opening + "\n"
        self.read(graph)
        self.is_short = True  # whether the short script makes the same session
        self.is_moved_by_actions = False  # whether an action has a command that this class would have to see done
        self.is_deferred = False
        self.made = False  # whether an object was made or dropped that the market's file does not have
        self.kept, self.asked, self.count, self.block, self.first_moves, self.actions = {}, {}, 0, None, [], set()
        for line in self.opening.splitlines():
            self.opened(line)

    def read(self, graph):
        """Takes the day, the quotes and the objects from a graph."""
        nodes = read_graph(graph)["nodes"]
        self.day = next((it["value"] for it in nodes if it["kind"] == "evaluation date"), "")
        self.kinds = {it["name"]: it["kind"] for it in nodes if it["kind"] != "evaluation date"}
        self.quotes = {it["name"]: number(it["value"]) for it in nodes if it["kind"] == "quote"}

    def opened(self, line):
        """Looks at a line of the opening script, whose effect the graph has already."""
        words = words_of(line)
        if words and not self.note(words):
            self.is_short &= words[0] in SHAPES or words[0] in ASKS
            if words[0] in MOVES:
                self.first_moves.append(" ".join(words))

    def begins(self, words):
        """Whether a line with these words begins the block of an action."""
        return len(words) == 2 and words[0] == "action" and bool(NAME.fullmatch(words[1])) and words[1] not in {"none", "unset", *self.actions}

    def note(self, words):
        """Notes what a line means for the lines after it. Returns whether it is one of a block."""
        word = words[0]
        if word == "end":
            self.block = None
        elif self.block is not None:
            self.is_moved_by_actions |= word in SHAPES
        elif word == "action":
            self.block, self.is_short = words[1], False
            self.actions.add(words[1])
        else:
            if word == "defer" or word == "resume":
                self.is_deferred = word == "defer"
            self.made |= word in SHAPES and word not in MOVES
            return False
        return True

    def done(self, line):
        """Follows a line that the session has done, with neither a fault nor a refusal."""
        words = words_of(line)
        if not words or self.note(words):
            return
        word, *rest = words
        if word == "set":
            self.quotes[rest[0]] = Decimal(rest[1])
        elif word == "unset":
            self.quotes[rest[0]] = None
        elif word == "today":
            self.day = rest[0]
        elif word == "quote":
            self.kinds[rest[0]], self.quotes[rest[0]] = "quote", number(rest[1])
        elif word in MAKES:
            self.kinds[rest[0]] = MAKES[word]
        elif word == "handle":
            self.kinds[rest[0]] = f"{rest[1]} handle"
        elif word == "drop":
            self.kinds.pop(rest[0], None)
            self.quotes.pop(rest[0], None)
            self.asked.pop(rest[0], None)
        elif word == "watch":
            self.kinds[rest[0]] = "watcher"
        self.keep(word, rest, " ".join(words))

    def keep(self, word, rest, line):
        if word in ASKS:
            self.asked[rest[0]] = True
        elif word not in SHAPES:
            self.is_short = False
        else:
            self.count += 1
            key = ("set", rest[0]) if word in ("set", "unset") else ("today",) if word == "today" else self.count
            self.kept.pop(key, None)
            self.kept[key] = line
            self.is_short &= len(self.kept) < MOST_KEPT

    def script(self):
        """A script after which a session shows what this one shows. Only right while `is_short`."""
        asks = [f"ask {it}" for it in self.asked if self.kinds.get(it) != "watcher"]
        return self.opening + "".join(f"{it}\n" for it in [*self.kept.values(), *asks])

    def moves(self):
        """The moves that lead from the market's file to the market of now."""
        return self.first_moves + [it for it in self.kept.values() if it.split()[0] in MOVES]

    def named(self, kinds):
        """The names of the objects of these kinds, in the order in which they were made."""
        return [name for name, kind in self.kinds.items() if kind in kinds]


def number(text):
    return None if text in ("", "unset") else Decimal(text)
