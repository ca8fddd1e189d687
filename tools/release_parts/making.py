"""Makes a release of a clone in which CI has run: everything twice, and compared."""
import gzip
import json
import os
import re
import subprocess
import tempfile
import time
from pathlib import Path

import elf
import libraries
import packages
import packing
import pages
from building import extension, is_proved, library, programs
from common import ARCHIVE, PROGRAMS, Source, Stop, built, call, git, kit_folder, logic_of, machine, to_build
from packing import sum_of

# Where the version stands in a clone.
VERSIONS = (
    ("CHANGELOG.md", r"(?m)^## (\S+), "),
    ("crates/tool_front/src/version.rt", r'VERSION: &str = "([^"]*)"'),
    ("python/pyproject.toml", r'(?m)^version = "([^"]*)"'),
    ("python/src/doqsheley/__init__.py", r'(?m)^__version__ = "([^"]*)"'),
)


def first_heading(changes):
    """The version that a list of changes begins with."""
    found = re.search(VERSIONS[0][1], changes)
    return found[1] if found else ""


def sums(clone):
    """The lines that the log of CI has of what was built."""
    return [f"sum {it} {path}" for path, it in built(clone).items()]


def stated_sums(log):
    """The sums of what was built, which the log of CI has."""
    return {it[2]: it[1] for it in map(re.compile(r"sum ([0-9a-f]{64}) (\S+)$").match, log.splitlines()) if it}


def faults_of_log(log, commit, files):
    """What is wrong with the log of CI, for this commit and the sums of these files."""
    lines = [it for it in log.splitlines() if it.strip()]
    named = [it for it in map(re.compile(r"commit ([0-9a-f]{40}|none)\b.*").match, lines) if it]
    last = lines[-1] if lines else ""
    if {it[1] for it in named} != {commit} or not last.startswith("commit "):
        yield f"the log is of the commit {', '.join(sorted({it[1] for it in named})) or 'none'}, and the release of {commit}"
    if any("with changes" in it[0] for it in named):
        yield "the log is of a dirty tree: it had changes that were not committed"
    if not re.search(r"(?m)^\d+ passed, 0 failed$", log) or not last.endswith(" passed, 0 failed"):
        yield "the log does not end with 'passed, 0 failed'"
    stated = stated_sums(log)
    for path, found in files.items():
        # (a run that was given the programs of an earlier one has no objects: each has to link to its program)
        if stated.get(path) != found and (path in stated or not path.endswith(".o")):
            yield f"the log has {'no sum' if path not in stated else 'another sum'} of {path}"


def faults_of_clone(clone, version, log):
    """Why no release of this version can be made of the clone."""
    if git(clone, "status", "--porcelain"):
        yield f"the tree of {clone} is dirty: it has changes that are not committed"
    for path, pattern in VERSIONS:
        found = re.search(pattern, (clone / path).read_text())
        if not found or found[1] != version:
            yield f"{path} has the version {found[1] if found else 'none'}, and the release {version}"
    commit, tag = git(clone, "rev-parse", "HEAD"), f"refs/tags/v{version}^{{commit}}"
    tagged = subprocess.run(["git", "rev-parse", "-q", "--verify", tag], cwd=clone, capture_output=True, text=True)
    if tagged.stdout.strip() != commit:
        yield f"the tag v{version} is not on the commit {commit}"
    there = built(clone)
    lacking = [it for it in to_build() if it not in there]
    if lacking:
        yield f"{lacking[0]} is not there: tools/release_parts/ci_from_scratch builds it"
    yield from faults_of_log(log, commit, there)


def seen_libraries(source):
    """The libraries that are in the programs and in the library, with where each was seen."""
    if not source.kit:
        return []
    # (Rattle's own compiler inlines no function, so each library that is used shows)
    objects = {name: source.clone / f"crates/{name}/out/{name}.by-rattle.o" for name in PROGRAMS}
    objects = {name: [it.read_bytes()] for name, it in objects.items() if it.is_file()}
    if (source.clone / ARCHIVE).is_file():
        members = elf.members((source.clone / ARCHIVE).read_bytes())
        objects["libdoqsheley"] = [data for _, data in members if data[:4] == b"\x7fELF"]
    own = libraries.own_crates(source.clone)
    known = own | {it.name[:-5] for it in (source.kit / "rlibs").glob("*.rlib")}
    where = {}
    for name, parts in objects.items():
        for it in libraries.seen(parts, known):
            where.setdefault(it, []).append(name)
    found = [libraries.Library(it, "own", source.version, None, "", "", where[it]) for it in sorted(where) if it in own]
    found += [libraries.of_kit(source.kit, it, where[it]) for it in sorted(where) if it not in own]
    compiler = call("gcc", "-dumpfullversion").decode().strip()
    libc = os.confstr("CS_GNU_LIBC_VERSION").split()[-1]
    return found + libraries.of_c(compiler, libc, [f"{it} for any Linux" for it in PROGRAMS])


def packed(source, work):
    """All files of a release, by name."""
    version, clone, when = source.version, source.clone, source.when
    of_debian, of_any = programs(source, work)
    logic = logic_of(clone)
    for name, data in [*of_debian.items(), *of_any.items()]:
        if not source.trial and not is_proved(data, logic):
            raise Stop(f"{name} is not built of what was proved in the logic {logic}")
    shared, held = library(source, work)
    libs = seen_libraries(source)
    notices = libraries.notices(version, libs).encode()
    docs = pages.of_release(clone, source.commit)
    date = time.strftime("%Y-%m-%d", time.gmtime(when))
    mans = pages.manuals(docs, call(clone / "tools/command_pages", "manual").decode(), version, date)

    def archive(name, tree):
        files[f"{name}.tar.gz"] = packing.zipped(packing.tar(tree, when, f"{name}/"))

    files = {}
    archive(packages.archive_name(version), packages.archive(source, of_any, shared, held, docs, mans, notices))
    files.update(packages.debs(source, of_debian, shared, held, docs, mans, notices, libs))
    module = extension(source, work)
    if module:
        name, data = packages.wheel(source, module, of_any["doqs"], notices)
        files[name] = data
    if not source.trial:
        archive(f"doqsheley-{version}-objects", packages.objects(source))
    time_of = time.strftime("%Y-%m-%dT%H:%M:%SZ", time.gmtime(when))
    files[f"doqsheley-{version}.cdx.json"] = libraries.materials(version, source.commit, time_of, libs, source.trial)
    files["NOTICES.txt"], files["README.txt"] = notices, packages.readme(source)
    files["ci.log.gz"] = packing.zipped(source.log.encode())
    told = {
        "name": "doqsheley", "version": version, "commit": source.commit, "tree": source.tree, "date": date, "logic": logic,
        "kit": (source.kit / "KIT-ID").read_text().split("\n")[0] if source.kit else None, "trial": source.trial,
        "built": built(clone), "programs": {it: sum_of(data) for it, data in of_any.items()}, "tools": machine(),
    }
    files["release.json"] = json.dumps(told, indent=2).encode() + b"\n"
    files["SHA256SUMS"] = "".join(f"{sum_of(data)}  {it}\n" for it, data in sorted(files.items())).encode()
    return files


def make(version, out, clone, log, trial):
    """Writes a release to the folder `out`, and returns its files. Stops where none can be made."""
    clone, out = Path(clone).resolve(), Path(out)
    if out.exists() and (not out.is_dir() or any(out.iterdir())):
        raise Stop(f"{out} is there and not empty")
    data = Path(log).read_bytes() if log else b""
    text = (gzip.decompress(data) if data[:2] == b"\x1f\x8b" else data).decode(errors="replace")
    slips = list(faults_of_clone(clone, version, text))
    if slips and not trial:
        raise Stop("\n".join(slips))
    if not trial and not kit_folder():
        raise Stop("there is no rt on the path: Rattle's kit links the programs")
    when, maker = git(clone, "log", "-1", "--format=%ct %cn <%ce>").split(" ", 1)
    source = Source(clone, git(clone, "rev-parse", "HEAD"), git(clone, "rev-parse", "HEAD^{tree}"), version, int(when), maker, text,
                    kit_folder(), ["it was made with --trial", *slips] if trial else [], trial)
    twice = []
    for folder, mask in (("release-", 0o022), ("release-again-", 0o077)):
        before = os.umask(mask)
        try:
            with tempfile.TemporaryDirectory(prefix=folder) as work:
                twice.append(packed(source, Path(work)))
        finally:
            os.umask(before)
    one, other = twice
    differ = sorted(it for it in {*one, *other} if one.get(it) != other.get(it))
    if differ:
        raise Stop(f"packed twice, these are not the same: {', '.join(differ)}")
    out.mkdir(parents=True, exist_ok=True)
    for name, data in one.items():
        (out / name).write_bytes(data)
    return one
