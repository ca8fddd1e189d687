#!/usr/bin/env python3
"""Cuts a script of scenarios into parts, and joins what `desk_grid` wrote of them.

    parts.py cut SCRIPT BLOCKS FOLDER    writes FOLDER/0001.txt, .. : each has at most BLOCKS blocks, and all asks
    parts.py join SCRIPT FOLDER OUT      joins FOLDER/0001.out, .. , which `desk_grid` wrote of those, into OUT

A part begins with the lines of the script up to its first block, each kept as it is. A line of a part is one of the script,
so a fault is told of a line of the part, not of the script: cut a script that `desk_grid` takes.

The joined bytes are those that one run of `desk_grid` writes of the whole script: the scenario without moves once, from the
first part, the scenarios of the blocks in their order, and for each ask the least amount of all parts, of equal ones that of
the first scenario. It is refused, and OUT is not there, where a part is not there, where its status (FOLDER/0001.status, which
`run_part.sh` writes) is not 0, or where it ends early, differs from the others in the scenario without moves, or has other
scenarios than its blocks.
"""
import os
import sys
from decimal import Decimal


class Refused(Exception):
    pass


def words_of(line):
    """The words of a line without its comment."""
    return line.split(b"#")[0].split()


def read_script(path):
    """The blocks of a script, each with its name and its lines, and the lines outside of blocks."""
    blocks, outside, open_block = [], [], None
    with open(path, "rb") as file:
        lines = file.read().split(b"\n")
    for line in lines:
        words = words_of(line)
        if open_block is not None:
            open_block[1].append(line)
            if words == [b"end"]:
                blocks.append(open_block)
                open_block = None
        elif words[:1] == [b"action"]:
            open_block = (words[1] if len(words) == 2 else b"", [line])
        elif words:
            outside.append(line)
    if open_block is not None:
        raise Refused("the last block has no end")
    return blocks, outside


def groups_of(blocks, size):
    """The blocks in groups; a script without blocks is one group without any."""
    return [blocks[at:at + size] for at in range(0, len(blocks), size)] or [[]]


def part_path(folder, at, ending):
    return os.path.join(folder, "%04d.%s" % (at + 1, ending))


def cut(script, size, folder):
    blocks, outside = read_script(script)
    os.makedirs(folder, exist_ok=True)
    if os.listdir(folder):
        raise Refused(f"{folder} is not empty")
    for at, group in enumerate(groups_of(blocks, size)):
        lines = outside + [line for block in group for line in block[1]]
        with open(part_path(folder, at, "txt"), "wb") as file:
            file.write(b"".join(line + b"\n" for line in lines))


def read_part(path, names, asks):
    """The scenarios of a part's output, each its bytes, and its worst lines."""
    with open(path, "rb") as file:
        text = file.read()
    if not text.endswith(b"\n"):
        raise Refused(f"{path} ends within a line")
    lines = text.split(b"\n")[:-1]
    cut_at = len(lines) - len(asks)
    worst = lines[cut_at:] if cut_at > 0 else []
    if [line.split(b" ")[:2] for line in worst] != [[b"worst", name] for name in asks]:
        raise Refused(f"{path} has not one worst line for each ask")
    scenarios = []
    for line in lines[:cut_at]:
        words = line.split(b" ")
        # A heading has two words. A line of an ask or of a refusal has more, also of an object that is called `scenario`.
        if len(words) == 2 and words[0] == b"scenario":
            scenarios.append((words[1], [line]))
        elif scenarios:
            scenarios[-1][1].append(line)
        else:
            raise Refused(f"{path} is no grid")
    if [name for name, _ in scenarios] != [b"base"] + names:
        raise Refused(f"{path} has other scenarios than its blocks")
    return [b"".join(line + b"\n" for line in lines) for _, lines in scenarios], worst


def lower(first, other):
    """The worst of two worst lines of one ask: the other's where that is less, else the first's."""
    def amount(line):
        words = line.split(b" ")
        return Decimal(words[3].decode()) if len(words) == 4 else None

    if amount(other) is None or (amount(first) is not None and amount(first) <= amount(other)):
        return first
    return other


def join(script, folder, out):
    blocks, outside = read_script(script)
    asks = [words_of(line)[1] for line in outside]
    parts = sorted(name for name in os.listdir(folder) if name.endswith(".txt"))
    if not parts or parts != ["%04d.txt" % (at + 1) for at in range(len(parts))]:
        raise Refused(f"{folder} has not all parts")
    names = [[block[0] for block in read_script(os.path.join(folder, part))[0]] for part in parts]
    if [name for group in names for name in group] != [block[0] for block in blocks]:
        raise Refused("the parts are not those of the script")
    base, texts, worst = None, [], None
    for at, group in enumerate(names):
        status = part_path(folder, at, "status")
        if not os.path.exists(status) or open(status).read().strip() != "0":
            raise Refused(f"part {at + 1} ({part_path(folder, at, 'txt')}) was not done: run it again")
        scenarios, lines = read_part(part_path(folder, at, "out"), group, asks)
        if base is None:
            base, worst = scenarios[0], lines
        elif scenarios[0] != base:
            raise Refused(f"part {at + 1} has another scenario without moves: the parts are of other markets")
        else:
            worst = [lower(first, other) for first, other in zip(worst, lines)]
        texts += scenarios[1:]
    whole = base + b"".join(texts) + b"".join(line + b"\n" for line in worst)
    with open(out + ".part", "wb") as file:
        file.write(whole)
    os.replace(out + ".part", out)


def main(words):
    try:
        if len(words) == 4 and words[0] == "cut" and words[2].isdigit() and int(words[2]) > 0:
            cut(words[1], int(words[2]), words[3])
        elif len(words) == 4 and words[0] == "join":
            if os.path.exists(words[3]):
                os.remove(words[3])
            join(*words[1:])
        else:
            sys.exit(__doc__)
    except Refused as why:
        sys.exit(f"parts.py: {why}")


main(sys.argv[1:])
