#!/usr/bin/env python3
"""A plain model of the text of `doqs graph`, written beside its manual and not after the code.

    models/graph_pictures.py MODEL [FILE..]
    models/graph_pictures.py MODEL --random COUNT SEED

MODEL is the folder of an independent model of the session, a package of Python that this repository does not have. It plays the
script; what an ask would find is what it answers to one, over a copy. Compares the cases of the files, those of crates/script_vectors
if none is named, prints each that differs and how many agree, and ends with 1 if any differs. With `--random` it writes so many cases
of sessions made at random, with their texts, over markets of version 1 and 2 in turn.
"""

import copy
import importlib
import pathlib
import random
import re
import sys

TOP = pathlib.Path(__file__).resolve().parent.parent
CASES = [TOP / "crates/script_vectors/data" / name for name in ("graph_by_hand", "graph_sessions")]

HEAD = """\
// An arrow goes from an object to what it observes; that of a registration is dashed, that to `today` is light.
// Ellipses are sources, hexagons pass notices on, boxes are priced, dotted octagons are watchers.
// A box is green where its value is fresh, grey where it is not current, blue where it is frozen, orange where it is late,
// yellow where something beneath it is held, red where it is held and has no value.
// A double border is a deferred source: it changed, and has told nobody yet.
digraph session {
  rankdir=LR;
  node [fontname="sans-serif", fontsize=11, style=filled, fillcolor=white];
  edge [arrowsize=0.7];
  subgraph cluster_legend {
    label="An arrow leads to what an object observes: dashed\\lto what a watcher is registered with, light to today.\\l";
    fontname="sans-serif"; fontsize=10; labeljust=l; color="#c8c8c8";
    node [fontsize=10, height=0.3];
    edge [style=invis];
    "a source" [shape=ellipse];
    "a deferred source" [shape=ellipse, peripheries=2];
    "it passes notices on" [shape=hexagon];
    "it is priced" [shape=box];
    "a watcher" [shape=octagon, style="filled,dotted"];
    "it is fresh" [shape=box, fillcolor="#b7e1a1", label="fresh"];
    "it is not current" [shape=box, fillcolor="#d9d9d9", label="not current"];
    "it is frozen" [shape=box, fillcolor="#a9cdf2", label="frozen"];
    "it is late" [shape=box, fillcolor="#ffc680", label="late"];
    "it is held" [shape=box, fillcolor="#fff2a8", label="held"];
    "it is unpriced" [shape=box, fillcolor="#f4a6a6", label="frozen or late, unpriced"];
    "it is fresh" -> "a source";
    "it is not current" -> "a deferred source";
    "it is frozen" -> "it passes notices on";
    "it is late" -> "it is priced";
    "it is held" -> "a watcher";
  }
"""
COLOURS = {"fresh": "b7e1a1", "frozen": "a9cdf2", "late": "ffc680", "held": "fff2a8", "not current": "d9d9d9", "unpriced": "f4a6a6"}
SHAPES = {
    "ellipse": ["today", "quote"],
    "hexagon": ["sum", "difference", "handle", "index", "engine"],
    "box": ["curve", "implied", "stock", "composite", "bond", "swap", "fra"],
    'octagon, style="filled,dotted"': ["watcher"],
}
SHAPE_OF = {kind: shape for shape, kinds in SHAPES.items() for kind in kinds}
WORDS = {"today": "evaluation date", "sum": "derived quote", "difference": "derived quote", "implied": "implied curve"}
WORDS |= {"fra": "forward rate agreement"}


# ---- the text of a session


def decimal(units, places):
    sign = "-" if units < 0 else ""
    whole, rest = divmod(abs(units), 10**places)
    return f"{sign}{whole}.{rest:0{places}d}"


def last_value(model, state, o):
    """The lines of a label for the value that an object has."""
    if state.objs[o].kind == "today":
        return [model.days.text(state.today)]
    if state.objs[o].kind == "quote":
        rate = state.objs[o].value
        return ["unset" if rate is None else decimal(rate, 9)]
    if o not in state.last:
        return []
    value = state.last[o]
    if isinstance(value, int):
        return [decimal(value, 6)]
    day, factor = (value.nodes or [(value.reference, 10**12)])[-1]
    return [f"{model.days.text(day)} {decimal(factor, 12)}"]


def found(state, o):
    """What an ask of an object finds, in words, the last of which has the colour."""
    if SHAPE_OF[state.objs[o].kind] != "box":
        return []
    asked = copy.deepcopy(state)
    asked.calls = []
    asked.ask(state.objs[o].name, o)
    if asked.asked == ("refused", ("unpriced", o)):
        return [state.mark(o), "unpriced"]
    if asked.asked[0] == "value" and not asked.calls:
        assert asked.asked[1] == state.last[o]
        return [state.mark(o)]
    return ["not current"]


def node(model, state, o):
    kind, name = state.objs[o].kind, state.objs[o].name.decode()
    word = state.objs[o].target_kind + " handle" if kind == "handle" else WORDS.get(kind, kind)
    finding = found(state, o)
    deferred = ["deferred"] if o in state.sources else []
    signs = SHAPE_OF[kind] + "".join(f', fillcolor="#{COLOURS[word]}"' for word in finding[-1:])
    signs += ", peripheries=2" if deferred else ""
    label = "\\n".join([name, word] + last_value(model, state, o) + finding + deferred)
    return f'  "{name}" [shape={signs}, label="{label}"];\n'


def arrows(state, o):
    registered = sorted(subject for watcher, subject in state.registered if watcher == o)
    signs = [(x, []) for x in state.edges(o)] + [(x, ["style=dashed"]) for x in registered]
    lines = ""
    for x, own in signs:
        own = own + ['color="#c8c8c8"', "constraint=false"] if state.objs[x].kind == "today" else own
        end = f" [{', '.join(own)}]" if own else ""
        lines += f'  "{state.objs[o].name.decode()}" -> "{state.objs[x].name.decode()}"{end};\n'
    return lines


def graph(model, state):
    numbers = sorted(state.objs)
    return HEAD + "".join(node(model, state, o) for o in numbers) + "".join(arrows(state, o) for o in numbers) + "}\n"


# ---- a case


def fields(given):
    """The words of a case, and its files."""
    words = given.split("\n")[1].split(" ")
    files = []
    for part in given.split("-- ")[1:]:
        path, _, text = part.partition("\n")
        filled = re.search(r"\\\+(\d+)\s*$", text)
        if filled:
            front = text[: filled.start()]
            text = front + "\n" * (int(filled[1]) - len(front.encode()))
        files.append((path, text.encode()))
    return words, files


def refused(status, words):
    """The lines on standard error of a status, with what helps, and its exit code."""
    helps = {2: "usage: doqs graph MARKET SCRIPT\n"}
    helps[3] = helps[4] = f"desk_fault {' '.join(words)} says in which line, and what would be taken\n"
    return f"{status.line}\n{helps.get(status.code, '')}exit {status.code}\n"


def shown(model, given):
    """What a terminal shows of a case."""
    words, files = fields(given)
    if len(words) != 2 or any(word in ("", "help") or word.startswith("-") for word in words):
        return refused(model.cli.Status(2, "doqs graph: usage"), words)
    shelf = model.outside.MemoryShelf(files, 4096)
    try:
        market = model.cli.load_market(shelf, words[0], "doqs graph")
        script = model.cli.load_script(shelf, words[1], "doqs graph", market)
    except model.cli.Status as status:
        return refused(status, words)
    state = model.session.start(market, script, "first")
    for command in script.commands:
        state.round(command)
    return graph(model, state)


def compare(model, file):
    agree = differ = 0
    for case in file.read_text().split("==\n"):
        given, _, text = case.partition("-- shown\n")
        if shown(model, given) == text:
            agree += 1
        else:
            differ += 1
            print(f"{file.name}: this differs: {case}")
    print(f"{file.name}: {agree} agree, {differ} differ")
    return differ == 0


# ---- sessions made at random

CONVENTIONS = ["following", "modified_following", "preceding", "modified_preceding", "unadjusted", "nearest"]
COUNTERS = ["act360", "act365", "actact", "thirty360", "thirtye360", "bus252"]
DEPOSITS, SWAPS = ["3M", "6M", "1Y"], ["2Y", "3Y", "5Y", "10Y"]
DOT_WORDS = ["node", "edge", "graph", "digraph", "subgraph", "strict"]
RATES = ["0.031", "0.0275", "0.04", "-0.004", "0.0362", "0", "1.25"]
QUOTES = ["quote", "sum", "difference"]
CURVES = ["curve", "implied"]
INSTRUMENTS = ["stock", "composite", "bond", "swap", "fra"]


class Maker:
    """A market and a script, at random. It keeps the kinds of the names that it gave."""

    def __init__(self, chance, version):
        self.chance, self.version = chance, version
        self.kinds, self.given = {"today": "today"}, 0
        self.today = f"2024-{chance.randint(1, 12):02}-{chance.randint(1, 28):02}"

    def one(self, choices):
        return self.chance.choice(choices)

    def often(self, part):
        return self.chance.random() < part

    def later(self, years):
        return f"{2024 + self.one(years)}-{self.chance.randint(1, 12):02}-{self.chance.randint(1, 28):02}"

    def new(self, kind):
        free = [word for word in DOT_WORDS if word not in self.kinds]
        self.given += 1
        name = self.one(free) if free and self.often(0.1) else f"{kind[:3]}{self.given}"
        self.kinds[name] = kind
        return name

    def of(self, kinds):
        """A name of one of these kinds, now and then another."""
        fit = [name for name, kind in self.kinds.items() if kind in kinds]
        return self.one(fit) if fit and not self.often(0.04) else self.one([*self.kinds, "nobody"])

    def has(self, kinds):
        return any(kind in kinds for kind in self.kinds.values())

    # the market

    def helper(self, tenor):
        quote = self.of(QUOTES + ["quote handle"])
        kind = "swap" if tenor in SWAPS else "deposit"
        every = ', every = "1Y"' if kind == "swap" else ""
        return (
            f'{{ kind = "{kind}", quote = "{quote}", tenor = "{tenor}"{every}, '
            f'convention = "{self.one(CONVENTIONS)}", counter = "{self.one(COUNTERS)}" }}'
        )

    def engine(self):
        return [f'engine = "{self.of(["engine"])}"'] if self.has(["engine"]) and self.often(0.9) else []

    def lag(self):
        return ["payment_lag = 2"] if self.version == 2 and self.often(0.5) else []

    def span(self):
        return [f'start = "{self.later([-1, 0])}"', f'end = "{self.later([1, 2, 3])}"', 'calendar = "cal"']

    def terms(self, kind):
        """The lines of an object behind its kind and its name."""
        curve = f'curve = "{self.of(CURVES + ["curve handle"])}"'
        notional = f'notional = "{self.one(["100", "2500000.5", "1000000"])}"'
        index = f'index = "{self.of(["index"])}"'
        if kind in ("sum", "difference"):
            return [f'{end} = "{self.of(QUOTES + ["quote handle"])}"' for end in ("first", "second")]
        if kind in ("quote handle", "curve handle"):
            to = [f'to = "{self.of(QUOTES if kind[0] == "q" else CURVES)}"'] if self.often(0.8) else []
            return [f'target = "{kind[:5]}"'] + to
        if kind == "curve":
            tenors = sorted(self.chance.sample(range(len(DEPOSITS + SWAPS)), self.one([1, 2, 3])))
            helpers = ", ".join(self.helper((DEPOSITS + SWAPS)[k]) for k in tenors)
            own = self.version == 2 and self.often(0.4)
            start = f'reference = "{self.today}"' if own else f"settlement = {self.one([0, 2])}"
            return ['calendar = "cal"', start, f"helpers = [{helpers}]"]
        if kind == "implied":
            return [curve, f'reference = "{self.later([0, 1])}"']
        if kind == "index":
            tail = [f'convention = "{self.one(CONVENTIONS)}"', f'counter = "{self.one(COUNTERS)}"', curve]
            return ['calendar = "cal"', "fixing_days = 2", f'tenor = "{self.one(["3M", "6M"])}"'] + tail
        if kind == "engine":
            return [curve]
        if kind == "stock":
            return [f'quote = "{self.of(QUOTES + ["quote handle"])}"']
        if kind == "composite":
            fit = [name for name, kind in self.kinds.items() if kind in INSTRUMENTS]
            parts = self.chance.sample(fit, min(len(fit), self.one([0, 1, 2, 3])))
            weights = [self.one([1, 2, -1, 100]) for _ in parts]
            return ["parts = [" + ", ".join(f'{{ part = "{p}", weight = {w} }}' for p, w in zip(parts, weights)) + "]"]
        if kind == "bond":
            tail = ['every = "6M"', f'counter = "{self.one(COUNTERS)}"']
            rate = self.one([['coupon = "0.035"'] + tail, [index] + tail, []])
            return [notional] + self.span() + self.engine() + self.lag() + rate
        if kind == "swap":
            fixed = ['fixed_rate = "0.03"', 'fixed_every = "1Y"', f'fixed_counter = "{self.one(COUNTERS)}"']
            floating = [index, 'float_every = "6M"', f'float_counter = "{self.one(COUNTERS)}"']
            return [notional, f'side = "{self.one(["pay", "receive"])}"'] + self.span() + self.engine() + self.lag() + fixed + floating
        side = f'side = "{self.one(["long", "short"])}"'
        return [notional, side, index, f'start = "{self.later([0, 1])}"', 'strike = "0.03"'] + self.engine()

    def market(self):
        """The texts of a market and of its quotes."""
        quotes = [(self.new("quote"), "" if self.often(0.08) else self.one(RATES[:3])) for _ in range(self.one([2, 3, 4]))]
        lines = [f"version = {self.version}", f'today = "{self.today}"', 'quotes = "q"', "", "[[calendar]]"]
        lines += [f'kind = "{self.one(["target", "weekends", "null"])}"', 'name = "cal"']
        wanted = [self.one(QUOTES[1:] + ["quote handle", "stock"]) for _ in range(self.one([1, 2, 3]))]
        wanted += ["curve"] + self.one([[], ["implied"], ["curve handle"], ["curve handle", "implied"]]) + ["engine"]
        wanted += self.one([[], ["index"], ["index"]])
        flows = INSTRUMENTS[2:] if "index" in wanted else ["bond"]
        wanted += [self.one(flows) for _ in range(self.one([1, 1, 2]))]
        wanted += [self.one(["stock", "composite"]) for _ in range(self.one([1, 2]))]
        for kind in wanted:
            terms = self.terms(kind)
            lines += ["", "[[object]]", f'kind = "{"handle" if " " in kind else kind}"', f'name = "{self.new(kind)}"'] + terms
        return "\n".join(lines) + "\n", "name,value\n" + "".join(f"{name},{value}\n" for name, value in quotes)

    # the script

    def link(self, handle, targets):
        return f"{self.of([handle])} {self.of(targets)}"

    def command(self, actions):
        """A command. A name is new as far as the maker knows: a command may be refused."""
        priced, held = CURVES + INSTRUMENTS, INSTRUMENTS[2:]
        anything = [kind for kind in {*self.kinds.values()} if kind not in ("today", "watcher")]
        made = {
            "quote": lambda: self.one(RATES + ["unset"]),
            "sum": lambda: f"{self.of(QUOTES)} {self.of(QUOTES)}",
            "stock": lambda: self.of(QUOTES + ["quote handle"]),
            "composite": lambda: "",
            "watch": lambda: self.one(actions),
        }
        row = {
            "ask": (10, lambda: self.of(priced)),
            "set": (6, lambda: f"{self.of(['quote'])} {self.one(RATES)}"),
            "unset": (1, lambda: self.of(["quote"])),
            "freeze": (4, lambda: self.of(self.one([priced, ["curve", "stock"]]))),
            "thaw": (1, lambda: self.of(priced)),
            "defer": (2, lambda: ""),
            "resume": (1, lambda: ""),
            "recalc": (2, lambda: self.of(priced)),
            "forward": (1, lambda: f"{self.of(priced)} {self.one(['on', 'off'])}"),
            "link": (2, lambda: self.link(*self.one([("curve handle", CURVES), ("quote handle", QUOTES)]))),
            "unlink": (1, lambda: self.of(["quote handle", "curve handle"])),
            "engine": (1, lambda: f"{self.of(held)} {self.one([self.of(['engine']), 'none'])}"),
            "today": (1, lambda: self.later([0])),
            "fixing": (1, lambda: f"{self.of(['index'])} {self.later([-1, 0])} 0.03"),
            "member": (2, lambda: f"{self.of(['composite'])} {self.of(INSTRUMENTS)} {self.one([0, 1, 3, -2])}"),
            "register": (3, lambda: f"{self.of(['watcher'])} {self.of(anything)}"),
            "unregister": (1, lambda: f"{self.of(['watcher'])} {self.of(anything)}"),
            "drop": (1, lambda: self.of(anything + ["watcher"])),
            "df": (1, lambda: f"{self.of(CURVES)} {self.later([0, 1])}"),
        }
        row |= {verb: (2 if verb == "watch" else 1, None) for verb in made}
        verb = self.chance.choices([*row], [weight for weight, _ in row.values()])[0]
        if verb in made:
            rest = made[verb]()
            words = f"{verb} {self.new({'watch': 'watcher'}.get(verb, verb))} {rest}"
        else:
            words = f"{verb} {row[verb][1]()}"
        return words.strip()

    def script(self):
        """Two actions; at times a watcher and asks; then any commands."""
        actions = ["look", "move"]
        lines = []
        for action in actions:
            lines += [f"action {action}"] + [f"  {self.command(actions)}" for _ in range(self.one([1, 2]))] + ["end"]
        if self.often(0.6):
            lines += [f"watch {self.new('watcher')} look", f"register {self.of(['watcher'])} {self.of(CURVES + INSTRUMENTS)}"]
        lines += [f"ask {self.of(CURVES + INSTRUMENTS)}" for _ in range(self.one([0, 5, 8]))]
        return "\n".join(lines + [self.command(actions) for _ in range(self.chance.randint(1, 18))]) + "\n"


def random_cases(model, count, seed):
    chance = random.Random(seed)
    made = 0
    while made < count:
        maker = Maker(chance, 1 + made % 2)
        market, quotes = maker.market()
        script = maker.script()
        given = f"# random {made + 1}\nm s\n-- m\n{market}-- q\n{quotes}-- s\n{script}"
        text = shown(model, given)
        if text.startswith(HEAD):
            sys.stdout.write(("==\n" if made else "") + given + "-- shown\n" + text)
            made += 1


class Model:
    """The modules of the independent model."""

    def __init__(self, folder):
        folder = pathlib.Path(folder).resolve()
        sys.path.insert(0, str(folder.parent))
        for name in ("cli", "config", "days", "outside", "session"):
            setattr(self, name, importlib.import_module(f"{folder.name}.{name}"))
        # the last of the formats that it knows
        self.config.set_stage(20)


def main():
    model = Model(sys.argv[1])
    if sys.argv[2:3] == ["--random"]:
        random_cases(model, int(sys.argv[3]), int(sys.argv[4]))
        return
    agreed = [compare(model, pathlib.Path(file)) for file in sys.argv[2:] or CASES]
    sys.exit(0 if all(agreed) else 1)


if __name__ == "__main__":
    main()
