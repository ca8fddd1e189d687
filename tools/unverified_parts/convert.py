#!/usr/bin/env python3
"""Makes a cargo workspace of plain Rust out of the repository's Rattle sources.

    convert.py REPOSITORY WORKSPACE [KEY=VALUE..]     # each KEY=VALUE is a line of the workspace's release profile

Each program that is named in PROGRAMS, and each library of crates.txt that one of them needs, becomes a cargo crate of its own
name, without its contracts; the files of shims/ stand for Rattle's std and for the kit's crates. Files that did not change are
left as they are, so that cargo builds only what did.
"""
import os, re, shutil, sys

HERE = os.path.dirname(os.path.abspath(__file__))
PROGRAMS = "doqs desk desk_bump desk_grid desk_yield".split()
# The library for C, a static one: its functions get the arguments of the header.
LIBRARY = "desk_c"
# The file in which the program says by what it was built.
VERSION = "crates/tool_front/src/version.rt"
SHIMS = ["rt_std", "slab", "itoa", "indexmap", "jiff", "jiff_core", "toml", "csv", "clap"]
WORD = re.compile(r"[A-Za-z_][A-Za-z_0-9]*")


def skip(text, at):
    """The end of the comment, string or character that begins at `at`, or `at` where none does."""
    if text.startswith("//", at):
        end = text.find("\n", at)
        return len(text) if end < 0 else end
    if text.startswith("/*", at):
        return text.index("*/", at) + 2
    if text[at] == '"':
        at += 1
        while text[at] != '"':
            at += 2 if text[at] == "\\" else 1
        return at + 1
    if text[at] == "'":
        found = re.match(r"'(\\x..|\\u\{[^}]*\}|\\.|[^\\'])'", text[at:])
        return at + found.end() if found else at
    return at


def balanced(text, at):
    """The place behind the bracket that closes the one at `at`."""
    pairs = {"(": ")", "[": "]", "{": "}"}
    stack = []
    while at < len(text):
        to = skip(text, at)
        if to > at:
            at = to
            continue
        c = text[at]
        if c in pairs:
            stack.append(pairs[c])
        elif c in ")]}":
            if stack and stack[-1] == c:
                stack.pop()
            if not stack:
                return at + 1
        at += 1
    raise ValueError("unbalanced")


def braced(text, at):
    """The place behind the brace that closes the one at `at`; a clause's other brackets may be any."""
    depth = 0
    while True:
        to = skip(text, at) if text[at] != "'" else at
        if to > at:
            at = to
            continue
        depth += {"{": 1, "}": -1}.get(text[at], 0)
        at += 1
        if depth == 0:
            return at


CLAUSE = re.compile(r"(?:requires|ensures|decreases|invariant)\*?\s*(?:[a-z_0-9A-Z]+\s*)?(?=\{)")
GHOST = re.compile(r"(?:pub\s+)?ghost\s+\w+")
FIELD = re.compile(r"(?:pub(?:\(crate\))?\s+)?ghost\s+\w+:\s*(?=\{)")


def strip(text):
    out, at = [], 0
    while at < len(text):
        to = skip(text, at)
        if to > at:
            out.append(text[at:to])
            at = to
            continue
        c = text[at]
        is_start = at == 0 or not (text[at - 1].isalnum() or text[at - 1] == "_")
        if is_start and (c.isalpha() or c == "_"):
            found = CLAUSE.match(text, at)
            if found:
                at = braced(text, found.end())
                continue
            found = FIELD.match(text, at)
            end = braced(text, found.end()) if found else at
            if text.startswith(",", end) and found:
                at = end + 1
                continue
            found = GHOST.match(text, at)
            if found:
                at = found.end()
                while text[at] != ";":
                    to = skip(text, at) if text[at] != "'" else at
                    at = to if to > at else braced(text, at) if text[at] == "{" else at + 1
                at += 1
                continue
            word = WORD.match(text, at)
            out.append(word.group(0))
            at = word.end()
            continue
        if c == "#":
            found = re.match(r"#!?\[(tactic|cycle)\b", text[at:])
            if found:
                at = balanced(text, text.index("[", at))
                continue
        out.append(c)
        at += 1
    return "".join(out)


def without_impls(text, name):
    """The text without its blocks `impl .. NAME for .. { .. }`."""
    at = 0
    while True:
        found = re.compile(r"^impl\b(?:<[^{]*?>)?\s+%s\s+for\s+[^{]*" % name, re.M).search(text, at)
        if not found:
            return text
        text = text[:found.start()] + text[braced(text, found.end()):]
        at = found.start()


def derived(found):
    words = [w.strip() for w in found.group(1).split(",") if w.strip()]
    words = [w for w in words if w not in ("Drop", "Error")]
    return "#[derive(%s)]" % ", ".join(words) if words else ""


EXPORT = re.compile(r"^#\[unsafe\(no_mangle\)\]\npub extern \"C\" fn (\w+)\(([^)]*)\)( -> \w+)?", re.M)


def exported(text):
    """The text, in which each function for C is also one that takes a slice as a pointer and a length."""
    def outside(found):
        name, result = found[1], found[3] or ""
        given, handed = [], []
        for it in filter(None, (it.strip() for it in found[2].split(","))):
            word, kind = it.split(": ", 1)
            if kind == "Global":
                handed.append("Global")
            elif kind in ("&[u8]", "&mut [u8]"):
                pointer, make = ("*const", "from_raw_parts") if kind == "&[u8]" else ("*mut", "from_raw_parts_mut")
                given += [f"{word}: {pointer} u8", f"{word}_length: usize"]
                handed.append(f"core::slice::{make}({word}, {word}_length)")
            else:
                given.append(f"{word}: {kind}")
                handed.append(word)
        return (
            f"#[unsafe(no_mangle)]\npub unsafe extern \"C\" fn {name}({', '.join(given)}){result} {{\n"
            f"    unsafe {{ {name}_of({', '.join(handed)}) }}\n}}\n\nfn {name}_of({found[2]}){result}"
        )
    return EXPORT.sub(outside, text)


def convert(text, path):
    text = exported(strip(text))
    text = re.sub(r"^(\s*)//[/!]", r"\1//", text, flags=re.M)
    for name in ("Model", "Drop"):
        text = without_impls(text, name)
    text = re.sub(r"#\[derive\(([^)]*)\)\]", derived, text)
    text = re.sub(r"^\s*#\[error\([^\n]*\)\]\n", "", text, flags=re.M)
    text = re.sub(r"^use thiserror::Error;\n", "", text, flags=re.M)
    text = re.sub(r"^use std::marker::Model;\n", "", text, flags=re.M)
    text = re.sub(r"\s*\+\s*Drop\b", "", text)
    text = re.sub(r"(<|, )([A-Z]\w*): Drop\b", r"\1\2", text)
    text = re.sub(r"(\btype [A-Z]\w*): Drop;", r"\1;", text)
    text = re.sub(r"^\s*[A-Z]\w*: Drop,\n", "", text, flags=re.M)
    text = re.sub(r"\bwhere\s*\{", "{", text)
    text = re.sub(r"fn fmt<W: fmt::Write>\(&self, f: &mut fmt::Formatter<W>\)", "fn fmt(&self, f: &mut fmt::Formatter<'_>)", text)
    # Rust's own methods of these names take other arguments.
    text = re.sub(r"\.to_vec\(", ".to_vec_in(", text)
    text = re.sub(r"\.as_str\(\)", ".as_text()", text)
    text = re.sub(r"#\[cfg\(test\)\]\s*\n\s*mod \w+;\n", "", text)
    if path.endswith(VERSION):
        text, count = re.subn(r'^(pub const BUILD: &str =) "[^"]*";', r'\1 "unverified build";', text, flags=re.M)
        if count != 1:
            sys.exit(f"convert.py: {path} has not one line of BUILD")
    text, count = re.subn(r"^fn main\(", "fn main_of(", text, flags=re.M)
    if count:
        text += "\nfn main() -> std::process::ExitCode {\n    std::start(main_of)\n}\n"
    head = "#![no_std]\n#![allow(dead_code, unused)]\n#[macro_use]\nextern crate rt_std as std;\n" if path.endswith(("lib.rt", "main.rt")) else ""
    lines = text.split("\n")
    docs = 0
    while docs < len(lines) and not lines[docs].startswith("///") and (
            lines[docs].startswith("//") or lines[docs].startswith("#!") or not lines[docs].strip()):
        docs += 1
    return "\n".join(lines[:docs]) + "\n" + head + "#[allow(unused_imports)]\nuse std::prelude::lab::*;\n" + "\n".join(lines[docs:])


def read(path):
    with open(path, encoding="utf-8") as file:
        return file.read()


def write(path, text):
    if os.path.exists(path) and read(path) == text:
        return
    os.makedirs(os.path.dirname(path), exist_ok=True)
    with open(path, "w", encoding="utf-8") as file:
        file.write(text)


def manifest(name, deps, extra=""):
    lines = [f'[package]\nname = "{name}"\nversion = "0.1.0"\nedition = "2024"\n{extra}\n[dependencies]']
    lines += [f'{d} = {{ path = "../{d}" }}' for d in deps]
    return "\n".join(lines) + "\n"


def libraries(top, programs):
    """What crates.txt says that each crate depends on, of these programs and of all that they depend on."""
    deps, needed = {}, {}
    for line in read(f"{top}/crates.txt").split("\n"):
        line = line.split("#")[0].strip()
        if line:
            name, rest = line.split(":", 1)
            deps[name.split()[0]] = rest.split()
    names = list(programs)
    while names:
        name = names.pop()
        if name in deps and name not in needed:
            needed[name] = deps[name]
            names += deps[name]
    return needed


def make(top, out, profile):
    """Makes the workspace of the repository `top` in the folder `out`, and returns its programs."""
    programs = [it for it in PROGRAMS if os.path.exists(f"{top}/crates/{it}/src/main.rt")]
    needed = libraries(top, [*programs, LIBRARY])
    made = set()

    def put(path, text):
        made.add(os.path.normpath(f"{out}/{path}"))
        write(f"{out}/{path}", text)
    for name, deps in needed.items():
        source = f"{top}/crates/{name}/src"
        for folder, _, files in os.walk(source):
            for file in files:
                path = os.path.join(folder, file)
                if file.endswith(".rt") and "tests" not in os.path.relpath(path, source):
                    put(f"{name}/src/{os.path.relpath(path, source)[:-3]}.rs", convert(read(path), path))
        extra = '\n[lib]\ncrate-type = ["staticlib"]\n' if name == LIBRARY else ""
        put(f"{name}/Cargo.toml", manifest(name, ["rt_std", *(it for it in deps if it in needed or it in SHIMS)], extra))
    for shim in SHIMS:
        put(f"{shim}/src/lib.rs", read(f"{HERE}/shims/{shim}.rs"))
        put(f"{shim}/Cargo.toml", manifest(shim, {"rt_std": [], "jiff": ["rt_std", "jiff_core"]}.get(shim, ["rt_std"])))
    members = ", ".join(f'"{name}"' for name in [*SHIMS, *needed])
    put("Cargo.toml", f'[workspace]\nresolver = "2"\nmembers = [{members}]\n\n[profile.release]\n' + "".join(f"{it}\n" for it in profile))
    for folder, _, files in os.walk(out):
        for file in files:
            path = os.path.join(folder, file)
            if "/src" in folder and file.endswith(".rs") and os.path.normpath(path) not in made:
                os.remove(path)
    return programs


if __name__ == "__main__":
    if len(sys.argv) < 3:
        sys.exit(__doc__)
    make(sys.argv[1], sys.argv[2], sys.argv[3:])
