#!/usr/bin/env python3
"""Counts the functions of the sources that only hand on, by crate.

    benchmarks/lab/forwarders.py              how many each crate has, and all
    benchmarks/lab/forwarders.py CRATE..      those of these crates, each with its body

A function hands on where its body is one call, perhaps with `?`, a `;` or within `Ok`, whose arguments are the function's own, each once at
most and all of them, by name or borrowed anew; nothing is added, as a field or a number would be. The call may be of a method of `self`, of
an argument, of a field of one of these, or of what an accessor without arguments gives of one; a place that is borrowed under a name first
counts as that place. A call of a constructor (`Some`, a struct's
`new`) hands nothing on. Left out are functions of a trait (`impl TRAIT for TYPE`), whose names are not their own, and tests. It reads the
sources as `rt fmt` lays them out: a body begins with a brace at the function's own place, or behind its signature.
"""
import re
import sys
from pathlib import Path

TOP = Path(__file__).resolve().parent.parent.parent
HEAD = re.compile(r"( *)(?:pub(?:\([a-z]+\))? )?(?:const )?(?:unsafe )?fn (\w+)")
FIELDS = r"[a-z_]\w*(?:\.\w+)*"
CALL = re.compile(rf"(?:Ok\()?(?:(?P<of>{FIELDS}(?:\.[a-z_]\w*\(\)(?:\.\w+)*)?)\.|(?:\w+::)*)(?P<name>[a-z_]\w*)\((?P<words>[^()]*)\)\??\)?;?")
BORROWED = re.compile(rf"let (\w+) = &(?:mut )?({FIELDS}); (.*)")
WORD = re.compile(r"(?:&mut |&|\*)?([a-z_]\w*)")


def bodies(text):
    """The functions that stand in no trait's impl: name, line, names of the arguments, body in one line."""
    lines = [line.split("//")[0].rstrip() for line in text.split("\n")]
    is_traits = False
    for at, line in enumerate(lines):
        if re.match(r"(unsafe )?impl\b|(pub )?trait\b", line):
            is_traits = " for " in line
        elif line == "}":
            is_traits = False
        head = HEAD.match(line)
        if not head or is_traits:
            continue
        indent, name = head.groups()
        begun = at
        while begun < len(lines) and not (lines[begun] == indent + "{" or (
                lines[begun].endswith("{") and re.match(indent + r"\S", lines[begun]))):
            begun += 1
            if begun < len(lines) and (HEAD.match(lines[begun]) or lines[begun] == indent[4:] + "}"):
                begun = len(lines)
        if begun < len(lines) and indent + "}" in lines[begun:]:
            end = lines.index(indent + "}", begun)
            signature = re.split(r"\)(?: ->|$|\s*where)", " ".join(it for it in lines[at:begun + 1] if not re.match(r"\s*(requires|ensures|decreases)", it)))[0]
            words = re.findall(r"(\w+): ", signature[signature.index("(", signature.index("fn ")):])
            yield name, at + 1, words, " ".join(" ".join(lines[begun + 1:end]).split())


def hands_on(words, body):
    borrowed = BORROWED.fullmatch(body)
    if borrowed:
        body = re.sub(rf"\b{borrowed[1]}\b(?=\.)", borrowed[2], borrowed[3])
    found = CALL.fullmatch(body)
    if not found or found["name"] in ("new", "default", "from"):
        return False
    given = [WORD.fullmatch(it) for it in re.split(r",\s*", found["words"].strip(", ")) if it]
    if not all(given):
        return False
    names = [it[1] for it in given]
    holder = re.split(r"\W", found["of"] or "")[0]
    own = [it for it in words if it != holder]
    return bool(holder or names) and (not holder or holder == "self" or holder in words) and sorted(it for it in names if it != "self") == sorted(own)


def main():
    counts = {}
    for crate in sorted((TOP / "crates").iterdir()):
        for file in sorted(crate.glob("src/**/*.rt")):
            if "tests" in str(file):
                continue
            for name, line, words, body in bodies(file.read_text()):
                if hands_on(words, body):
                    counts[crate.name] = counts.get(crate.name, 0) + 1
                    if crate.name in sys.argv[1:]:
                        print(f"{file.relative_to(TOP)}:{line} {name}: {body}")
    for name, count in sorted(counts.items(), key=lambda it: -it[1]):
        if not sys.argv[1:] or name in sys.argv[1:]:
            print(f"{count:4}  {name}")
    print(f"{sum(counts.values()):4}  in all")


main()
