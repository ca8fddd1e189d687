#!/usr/bin/env python3
"""Writes crates/graph_vectors/data/watchers.txt: random steps over graphs with watchers, beside a plain model.

    models/watcher_rows.py > crates/graph_vectors/data/watchers.txt

The model keeps sets of nodes, pairs, marked sources and told watchers, and works each answer out from what is meant,
with no worklist: a notice grows a set until nothing is added, a path is one that a search finds. One line is a graph: the
letters of its nodes by number (s source, f forwarder, l lazy, w watcher), and its steps, `;` between them. Numbers name
nodes. The same bytes come out each time.
"""
import random

GRAPHS = 100
STEPS = 200
FIRST_LINKS = 30


class Model:
    def __init__(self, roles):
        self.role = dict(enumerate(roles))
        self.pairs = set()
        self.current, self.frozen, self.forward = set(), set(), set()
        self.sources, self.noticed = set(), set()
        self.deferring = False

    def passes(self, node):
        """Whether a node that is told passes the notice on."""
        if self.role[node] == "f":
            return True
        is_open = node not in self.frozen and (node in self.current or node in self.forward)
        return self.role[node] == "l" and is_open

    def tell(self):
        """A notice from all sources: the least set that holds their observers, and those of each that passes it on."""
        told = set()
        while True:
            more = {o for (x, o) in self.pairs if x in self.sources or (x in told and self.passes(x))}
            if more <= told:
                break
            told |= more
        self.current -= told
        self.noticed |= {o for o in told if self.role[o] == "w"}
        self.sources = set()

    def changed(self, node):
        self.sources.add(node)
        if not self.deferring:
            self.tell()

    def resume(self):
        if self.deferring:
            self.deferring = False
            self.tell()

    def beneath(self, node, through=lambda inner: True):
        """What lies beneath a node by edges of nodes that are no watchers, on paths whose inner nodes pass."""
        found = set()
        def go(top):
            for (x, o) in self.pairs:
                if o == top and self.role[top] != "w" and x not in found:
                    found.add(x)
                    if through(x):
                        go(x)
        go(node)
        return found

    def late(self, node):
        """The least source that makes a node late."""
        near = self.beneath(node, lambda inner: inner not in self.frozen) | {node}
        return min(self.sources & near, default=None)

    def clear(self, node):
        return not ((self.beneath(node) | {node}) & (self.frozen | self.sources))

    def user(self, node):
        return min((o for (x, o) in self.pairs if x == node and self.role[o] != "w"), default=None)

    def drop(self, node):
        del self.role[node]
        self.pairs = {(x, o) for (x, o) in self.pairs if node not in (x, o)}
        for nodes in (self.current, self.frozen, self.forward, self.sources, self.noticed):
            nodes.discard(node)


def yes(answer):
    return "yes" if answer else "no"


def name(node):
    return "none" if node is None else str(node)


def link(model, rng):
    """A new pair: an edge goes to a lower number, so that no path leads back; a watcher may watch whom it likes."""
    observers = [o for o in model.role if model.role[o] != "s"]
    observer = rng.choice(observers) if observers else None
    if observer is None:
        return None
    is_watcher = model.role[observer] == "w"
    subjects = [x for x in model.role if (x, observer) not in model.pairs and model.role[x] != "w"
                and (is_watcher or x < observer)]
    if not subjects:
        return None
    subject = rng.choice(subjects)
    model.pairs.add((subject, observer))
    return f"link {subject} {observer}"


def step(model, rng, verb=None):
    """One step, done in the model, with its answer."""
    verb = verb or rng.choices(
        ["link", "unlink", "flag", "change", "switch", "told", "pair", "watching", "reaches", "user", "late", "clear",
         "current", "forget", "drop"],
        [9, 4, 18, 20, 5, 16, 3, 3, 4, 3, 5, 5, 6, 1, 0.5])[0]
    node = rng.choice(sorted(model.role))
    other = rng.choice(sorted(model.role))
    if verb == "link":
        return link(model, rng)
    if verb in ("unlink", "pair"):
        if model.pairs and rng.random() < 0.8:
            node, other = rng.choice(sorted(model.pairs))
        answer = yes((node, other) in model.pairs)
        if verb == "unlink":
            model.pairs.discard((node, other))
        return f"{verb} {node} {other} {answer}"
    if verb == "flag":
        lazy = sorted(n for n in model.role if model.role[n] == "l")
        if not lazy:
            return None
        node = rng.choice(lazy)
        word = rng.choices(["settle", "freeze", "thaw", "forward", "backward"], [16, 2, 2, 2, 2])[0]
        nodes = {"settle": model.current, "freeze": model.frozen, "thaw": model.frozen}.get(word, model.forward)
        (nodes.discard if word in ("thaw", "backward") else nodes.add)(node)
        return f"{word} {node}"
    if verb == "change":
        observed = sorted({x for (x, _) in model.pairs})
        if observed and rng.random() < 0.8:
            node = rng.choice(observed)
        model.changed(node)
        return f"change {node}"
    if verb == "switch":
        if model.deferring:
            model.resume()
            return "resume"
        model.deferring = True
        return "defer"
    if verb == "told":
        first = min(model.noticed, default=None)
        model.noticed.discard(first)
        return f"told {name(first)}"
    if verb == "watching":
        return f"watching {node} {yes(any(o == node for (_, o) in model.pairs))}"
    if verb == "reaches":
        return f"reaches {node} {other} {yes(node == other or other in model.beneath(node))}"
    if verb == "user":
        return f"user {node} {name(model.user(node))}"
    if verb == "late":
        return f"late {node} {name(model.late(node))}"
    if verb == "clear":
        return f"clear {node} {yes(model.clear(node))}"
    if verb == "current":
        return f"current {node} {yes(node in model.current)}"
    if verb == "forget":
        model.sources.discard(node)
        return f"forget {node}"
    if len(model.role) <= 6:
        return None
    model.drop(node)
    return f"drop {node}"


def main():
    rng = random.Random(44)
    for _ in range(GRAPHS):
        size = rng.randint(8, 24)
        roles = ["s"] + [rng.choices("sflw", [2, 3, 6, 5])[0] for _ in range(size - 1)]
        model = Model(roles)
        steps = []
        for turn in range(10 * STEPS):
            if len(steps) == STEPS:
                break
            line = step(model, rng, "link" if turn < FIRST_LINKS else None)
            if line is not None:
                steps.append(line)
        print("".join(roles) + ": " + ";".join(steps))


main()
