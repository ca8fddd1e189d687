"""The shape of a script for `grid` and `explain`: blocks that hold moves, and asks."""
MOVES = ("set", "unset", "link", "unlink", "engine", "today", "member", "fixing")
MOST_EACH = 1000
SECTION = "The script"


class ShapeFault:
    """A line that does not fit: the number of the fault, the place, what was found and what would be taken."""

    def __init__(self, shape, number, span, found, taken):
        self.shape, self.number, self.span, self.found, self.taken = shape, number, span, found, taken
        self.word, self.where, self.manual = "", "", SECTION


def shape_faults(blocks, script):
    """What does not fit in a script for `grid` or `explain`: those with the number that the command tells before the
    others."""
    faults = [
        ShapeFault(1, number, words[0][1], f"`{words[0][0].decode()}` in a block", "a move: " + ", ".join(MOVES))
        for number, is_block, words in script.commands if is_block and words[0][0].decode() not in MOVES
    ]
    asks = [it for it in script.commands if not it[1]]
    faults += [
        ShapeFault(2, number, words[0][1], f"`{words[0][0].decode()}` outside a block", "`ask O`, or a block around it")
        for number, _, words in asks if words[0][0] != b"ask"
    ]
    named = {name: (number, span) for name, number, span in script.begun}
    if b"base" in named:
        faults.append(ShapeFault(3, *named[b"base"], "a block of the name `base`", "another name of the block"))
    for what, places in (
        ("block", [it[1:] for it in script.begun]), ("ask", [(number, words[0][1]) for number, _, words in asks]),
    ):
        if len(places) > MOST_EACH:
            found = f"the 1,001st {what}"
            faults.append(ShapeFault(4, *places[MOST_EACH], found, f"at most 1,000 {what}s"))
    if blocks == "explain" and b"total" in named:
        faults.append(ShapeFault(3, *named[b"total"], "a block of the name `total`", "another name of the block"))
    return faults
