#!/usr/bin/env python3
"""Writes `rounds.txt` and `picks.csv` of crates/graph_vectors/data: random rounds of watchers beside a plain model, and
picks of the generator.

Run it at the top of the repository. The model keeps sets and counts and shares nothing with the crate but the rules that
its documents state: a watcher is due once however often it was told, the due stand by creation, a run takes its watcher
out and is counted by name, a name runs at most 8 times a round, and the first notice after that is told apart.
"""
import random
from collections import Counter

MOST_RUNS = 8
MULTIPLIER, INCREMENT = 6364136223846793005, 1442695040888963407
DATA = "crates/graph_vectors/data"


class Generator:
    def __init__(self, state):
        self.state = state

    def pick(self, due):
        self.state = (self.state * MULTIPLIER + INCREMENT) % 2**64
        return (self.state >> 33) % due


class Place:
    def __init__(self, of):
        self.of = of

    def pick(self, due):
        return self.of(due)


def picker_of(order):
    if order == "first":
        return Place(lambda due: 0)
    if order == "last":
        return Place(lambda due: due - 1)
    return Generator(int(order))


class Round:
    def __init__(self):
        self.due = {}
        self.runs = Counter()
        self.over = set()

    def told(self, watcher, name):
        if self.runs[name] < MOST_RUNS:
            self.due[watcher] = name
            return "due"
        if name in self.over:
            return "again"
        self.over.add(name)
        return "first"

    def next_due(self, picker):
        if not self.due:
            return "none"
        watcher = sorted(self.due)[picker.pick(len(self.due))]
        self.runs[self.due.pop(watcher)] += 1
        return str(watcher)


def told_step(rng, current, watchers):
    """A notice to a watcher that is no other's namesake among the due."""
    watcher = rng.choice(sorted(watchers))
    name = watchers[watcher]
    return f"told {watcher} {name} {current.told(watcher, name)}"


def replaced_step(rng, current, watchers, nodes):
    """A watcher is dropped, and another of its name is made."""
    old = rng.choice(sorted(watchers))
    new = rng.choice([node for node in range(nodes) if node not in watchers])
    watchers[new] = watchers.pop(old)
    current.due.pop(old, None)
    return f"gone {old}"


def round_row(rng, picker, watchers, size):
    """The steps of a round, with what each answers. `size` may grow."""
    current = Round()
    steps = []
    heat = rng.choice([0.2, 0.45, 0.7])
    revival = rng.choice([0.2, 0.5, 0.9, 1.0])
    for _ in range(rng.randrange(1, 24)):
        kind = rng.random()
        if kind < heat:
            steps.append(told_step(rng, current, watchers))
        elif kind < heat + 0.24:
            steps.append(f"next {current.next_due(picker)}")
        elif kind < heat + 0.26:
            steps.append(replaced_step(rng, current, watchers, size["nodes"]))
        elif kind < heat + 0.265:
            size["names"] += rng.randrange(2)
            size["nodes"] += rng.randrange(3)
            steps.append(f"grow {rng.randrange(size['names'] + 1)} {rng.randrange(size['nodes'] + 1)}")
            steps.append(f"grow {size['names']} {size['nodes']}")
        elif current.due:
            watcher = rng.choice(sorted(current.due))
            steps.append(told_step(rng, current, {watcher: current.due[watcher]}))
            steps.append(f"next {current.next_due(picker)}")
        if rng.random() < 0.15:
            steps.append(" ".join(["due"] + [str(watcher) for watcher in sorted(current.due)]))
    while current.due:
        steps.append(f"next {current.next_due(picker)}")
        if rng.random() < revival:
            steps.append(told_step(rng, current, watchers))
    for _ in range(rng.randrange(4)):
        steps.append(told_step(rng, current, watchers))
    steps.append(f"next {current.next_due(picker)}")
    return "; ".join(steps)


def rounds(rng):
    for session in range(50):
        order = rng.choice(["first", "last", str(rng.randrange(2**64)), str(rng.randrange(10))])
        size = {"names": rng.choice([1, 2, 2, 3, 5]), "nodes": rng.randrange(6, 14)}
        watchers = dict(zip(rng.sample(range(size["nodes"]), size["names"]), range(size["names"])))
        yield f"session {order} {size['names']} {size['nodes']}"
        picker = picker_of(order)
        for _ in range(40):
            yield round_row(rng, picker, watchers, size)


def picks(rng):
    for seed in [0, 1, 42, 2**63, 2**64 - 1]:
        generator = Generator(seed)
        for _ in range(1000):
            due = rng.choice([1, 2, 3, 7, 8, 1000, 65536, 2**31 + 11, 2**32 - 1])
            yield f"{seed},{due},{generator.pick(due)}"


def main():
    rng = random.Random(11)
    for name, rows in (("rounds.txt", rounds(rng)), ("picks.csv", picks(rng))):
        with open(f"{DATA}/{name}", "w") as out:
            out.writelines(row + "\n" for row in rows)


main()
