"""The pages and examples of a release: those of the repository that can be used without it, and manual pages made from them.

A page has text that only holds in a clone between `<!--clone-->` and `<!--/clone-->`, or, where an installed page has other text in its
place, between `<!--clone-->` and `<!--else OTHER TEXT-->`. In a script a line that ends with `# clone` is left out.
"""
import fnmatch
import posixpath
import re
import subprocess

import packing
from packing import Entry

# Pages and examples that are of use only in a clone.
LEFT_OUT = (
    "docs/internals/*", "docs/how-to/new-engine-in-rust.md", "docs/how-to/ship.md", "docs/reference/rust.md",
    "examples/*.sh", "examples/pricing_service/*", "examples/c/run.sh", "examples/c/trial.c", "examples/c/pairs.c", "examples/c/steps.txt",
    "examples/c/doqsheley.map", "examples/grid_over_machines/compare.py", "examples/live/board/test_board.py",
)
# A script's name in brackets, and the last lines of a page that lead into the sources.
ASIDE = re.compile(r"\s*\((?:with )?`(?:benchmarks|models|checks)/[^)]*\)")
END = re.compile(r"\n---\n(?:(?!\n---\n).)*\Z", re.S)
CUT = re.compile(r"<!--clone-->.*?(?:<!--/clone-->|<!--else[ \n](.*?)-->)", re.S)
LINK = re.compile(r"(!?)\[([^\]]*)\]\(([^)\s]+)\)")
OF_CLONE = re.compile(r"(?<![\w$])(?:crates|tools|checks|benchmarks|models|python|\.ci|internals)/|CONTRIBUTING|crates\.txt")
SECTIONS = {"market": (5, "doqsheley-market"), "script": (5, "doqsheley-script"), "transcript": (5, "doqsheley-transcript"),
            "limits": (7, "doqsheley-limits"), "glossary": (7, "doqsheley-glossary"), "cli": (7, "doqs-commands"), "c": (3, "doqsheley"),
            "python": (7, "doqsheley-python")}


class Clone(Exception):
    """A page for a release names what only a clone has."""


def tracked(clone, commit):
    """The files of docs/ and examples/ of a commit, by name."""
    words = ["git", "archive", "--format=tar", commit, "docs", "examples"]
    return packing.untar(subprocess.run(words, cwd=clone, capture_output=True, check=True).stdout)


def adapted(name, text, shipped):
    """The text of a page or script as it is installed."""
    if not name.endswith(".md"):
        return "".join(it for it in text.splitlines(True) if not it.rstrip().endswith("# clone"))
    text = CUT.sub(lambda it: it[1] or "", text)
    text = ASIDE.sub("", text)

    def is_there(it):
        to = it[3].split("#")[0]
        at = posixpath.normpath(posixpath.join(posixpath.dirname(name), to))
        return not to or re.match(r"\w+:", to) or at in shipped or any(one.startswith(f"{at}/") for one in shipped)

    def link(it):
        return it[0] if is_there(it) else it[2]

    end = END.search(text)
    if end and not all(map(is_there, LINK.finditer(end[0]))):
        text = text[:end.start()]
    # (a row of a table is of the clone where it names something of it, or begins with a link into it)
    def is_of_clone(row):
        return row.startswith("|") and (OF_CLONE.search(row) or not all(map(is_there, LINK.finditer(cells(row)[0]))))

    text = re.sub(r"\n{3,}", "\n\n", "\n".join(it for it in text.split("\n") if not is_of_clone(it)))
    parts = re.split(r"(?ms)(^```.*?^```$)", text)
    return "".join(part if number % 2 else LINK.sub(link, part) for number, part in enumerate(parts)).strip() + "\n"


def of_release(clone, commit):
    """The files of docs/ and examples/ that a release has. Stops where one names what only a clone has."""
    found = {name: it for name, it in tracked(clone, commit).items() if not any(fnmatch.fnmatch(name, one) for one in LEFT_OUT)}
    files, slips = {}, []
    for name, it in found.items():
        files[name] = it
        if not name.endswith((".png", ".svg")):
            text = adapted(name, it.data.decode(), found)
            files[name] = Entry(text.encode(), it.is_program)
            slips += [f"{name}: {line.strip()}" for line in text.splitlines() if OF_CLONE.search(line)]
    if slips:
        raise Clone("a page of the release names what only a clone has:\n" + "\n".join(slips))
    return files


def escaped(text):
    for one, other in (("\\", "\\e"), ("-", "\\-"), ("'", "\\(aq"), ("`", "\\(ga"), ("^", "\\(ha"), ("~", "\\(ti")):
        text = text.replace(one, other)
    return "\n".join("\\&" + it if it.startswith((".", "\\(aq")) else it for it in text.split("\n"))


def inline(text):
    """A line of Markdown for man: code and emphasis in bold, links as their text."""
    text = LINK.sub(lambda it: it[2], text)
    parts = re.split(r"(`[^`]+`|\*\*[^*]+\*\*)", text)
    out = "".join(f"\\fB{escaped(it.strip('`*'))}\\fR" if number % 2 else escaped(it) for number, it in enumerate(parts))
    return "\\&" + out if out.startswith((".", "'")) else out


def cells(line):
    return [it.strip().replace("\\|", "|") for it in re.split(r"(?<!\\)\|", line.strip().strip("|"))]


def table(lines):
    """A table as a list: the first column is the tag, and the others follow, under their heads where there are several."""
    heads, rows = cells(lines[0]), [cells(it) for it in lines[2:]]
    for row in rows:
        yield ".TP"
        yield inline(row[0]) or "\\&"
        rest = [(head, it) for head, it in zip(heads[1:], row[1:]) if it]
        if len(heads) == 2:
            yield inline(rest[0][1]) if rest else "\\&"
        else:
            for number, (head, it) in enumerate(rest):
                yield from ([".br"] if number else [])
                yield f"{inline(head)}: {inline(it)}" if head else inline(it)
            if not rest:
                yield "\\&"


def head_of(name, section, version, date):
    return f'.TH {name.upper()} {section} "{date}" "doqsheley {version}" "Doqsheley"'


def manual(text, name, section, version, date):
    """The manual page of a page of Markdown."""
    lines = text.rstrip("\n").split("\n")
    title = lines[0].lstrip("# ").strip()
    command = f"{name.split('-')[-1]}: "
    title = title[len(command):] if title.startswith(command) else title
    brief = title[:1].lower() + title[1:] if title[1:2].islower() else title
    out = [head_of(name, section, version, date), ".SH NAME", f"{escaped(name)} \\- {inline(brief)}", ".SH DESCRIPTION"]
    at, again = 1, False
    while at < len(lines):
        line = lines[at]
        item = re.match(r"(\s*)([-*]|\d+\.) +(.*)", line)
        if line.startswith("```"):
            end = next(it for it in range(at + 1, len(lines)) if lines[it].startswith("```"))
            shown = [escaped(it) or "\\&" for it in lines[at + 1:end]]
            out += [".PP", ".RS 4", ".EX", *shown, ".EE", ".RE"]
            at, again = end, False
        elif line.startswith("#"):
            depth = len(line) - len(line.lstrip("#"))
            head = line.lstrip("# ").strip()
            out.append(f".SH {inline(head.upper() if depth == 2 and '`' not in head else head)}" if depth <= 2 else f".SS {inline(head)}")
            again = True
        elif line.startswith("|") and at + 1 < len(lines) and re.match(r"\|[ :|-]+\|?$", lines[at + 1]):
            end = at
            while end < len(lines) and lines[end].startswith("|"):
                end += 1
            out += table(lines[at:end])
            at, again = end - 1, False
        elif item:
            out += [f".IP {item[2]} 4" if item[2][0].isdigit() else ".IP \\(bu 2", inline(item[3])]
            again = True
        elif not line.strip() or line.startswith(("---", "<!--", "![")):
            again = again and not line.strip() and bool(out) and out[-1].startswith((".SH", ".SS"))
        else:
            if not again:
                out.append(".PP")
            out.append(inline(line.strip()))
            again = True
        at += 1
    return "\n".join(out) + "\n"


def manuals(docs, doqs_page, version, date):
    """The manual pages of a release, by their names below man/: of the commands, of the formats, of the library for C."""
    found, listed = {}, []
    for path in sorted(docs):
        name = path[len("docs/reference/"):-3]
        if path.startswith("docs/reference/") and path.endswith(".md"):
            section, page = SECTIONS.get(name, (1, f"doqs-{name}"))
            listed.append(f"{page}({section})")
            found[f"man{section}/{page}.{section}"] = manual(docs[path].data.decode(), page, section, version, date)
    see = " ,\n".join(f".BR {it.split('(')[0]} ({it.split('(')[1]}" for it in listed)
    found["man1/doqs.1"] = f"{doqs_page.rstrip()}\n.PP\n{see}\n"
    for name, commands in (("desk", "run, check and load"), ("desk_bump", "bump"), ("desk_grid", "grid"), ("desk_yield", "yield")):
        found[f"man1/{name}.1"] = f"""{head_of(name, 1, version, date)}
.SH NAME
{name} \\- {commands} of doqs under an older name
.SH DESCRIPTION
It writes the same results as {commands} of
.BR doqs (1),
with the same exit status.
.SH SEE ALSO
.BR doqs (1),
.BR doqs\\-commands (7)
"""
    found["man1/desk_fault.1"] = f"""{head_of('desk_fault', 1, version, date)}
.SH NAME
desk_fault \\- where a market or a script has its first fault
.SH SYNOPSIS
.B desk_fault
.I MARKET
.RI [ SCRIPT ]
.SH DESCRIPTION
It writes the file, line and column of the first fault, what was found there, and what would be taken.
It needs Python 3.8 or later.
.SH SEE ALSO
.BR doqs (1)
"""
    return {name: text.encode() for name, text in found.items()}
