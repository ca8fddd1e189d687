"""Verifies a release by its files alone."""
import gzip
import json
import os
import re
import shutil
import subprocess
import tempfile
from pathlib import Path

import building
import elf
import libraries
import packing
from common import PROGRAMS, Source, kit_folder, machine
from making import faults_of_log, first_heading, stated_sums
from packing import sum_of


def is_elf(data):
    return data[:4] == b"\x7fELF"


def listed(files):
    """What is wrong with the sums, and with the files that they list."""
    said = dict(reversed(it.split("  ", 1)) for it in files.get("SHA256SUMS", b"").decode().splitlines())
    if not said:
        yield "there is no SHA256SUMS"
    for name in sorted({*said, *files} - {"SHA256SUMS"}):
        if name not in files:
            yield f"{name} is in SHA256SUMS and not there"
        elif name not in said:
            yield f"{name} is not in SHA256SUMS"
        elif said[name] != sum_of(files[name]):
            yield f"{name} has other bytes than SHA256SUMS says"


def opened(files):
    """The files within the packages of a release, by package."""
    found = {}
    for name, data in files.items():
        if name.endswith(".tar.gz"):
            found[name] = packing.untar(data)
        elif name.endswith(".deb"):
            control, system = packing.undeb(data, elf.members)
            found[name] = {**system, **{f"DEBIAN/{it}": entry for it, entry in control.items()}}
        elif name.endswith(".whl"):
            found[name] = packing.unwheel(data)
    return found


def programs(packages, version, commit, logic):
    """Programs and libraries that are not proved, or of another commit or version."""
    seen = set()
    for package, files in packages.items():
        for name, entry in files.items():
            if name.endswith(".a") and "objects" not in package:
                data = next((it for _, it in elf.members(entry.data) if is_elf(it)), b"")
            else:
                data = entry.data
            if not is_elf(data) or name.endswith((".o", "_c.a")):
                continue
            place = f"{package}: {name}"
            seen.add(os.path.basename(name))
            if not building.is_proved(data, logic):
                yield f"{place} is not proved: it does not name the logic {logic}"
            mark = building.mark_of(data)
            if not name.endswith(".a") and mark != building.mark(version, commit, []):
                yield f"{place} is of {mark or 'no commit'}, and the release of version {version}, commit {commit}"
    for name in PROGRAMS:
        if name not in seen:
            yield f"no package has the program {name}"


def notices(files, packages, version):
    """Libraries of the bill of materials whose notice is missing or another."""
    bills = [data for name, data in files.items() if name.endswith(".cdx.json")]
    if len(bills) != 1:
        yield "there is no bill of materials"
        return
    wanted = libraries.noticed(bills[0])
    if not wanted:
        yield "the bill of materials has no library with a notice"
    texts = {"NOTICES.txt": files.get("NOTICES.txt", b"")}
    for package, inside in packages.items():
        if "objects" in package:
            continue
        found = [it.data for name, it in inside.items() if os.path.basename(name) in ("NOTICES.txt", "NOTICES.txt.gz")]
        texts[package] = b"".join(gzip.decompress(it) if it[:2] == b"\x1f\x8b" else it for it in found)
    for place, text in texts.items():
        parts = libraries.sections(text.decode())
        for name, found in sorted(wanted.items()):
            if name not in parts:
                yield f"{place} has no notice of {name}"
            elif sum_of(parts[name].encode()) != found:
                yield f"{place} has another notice of {name} than the bill of materials"


def versions(files, packages, version):
    """Places whose version is not that of the list of changes."""
    tree = next((it for name, it in packages.items() if name.endswith("x86_64.tar.gz")), {})
    changes = next((it.data.decode() for name, it in tree.items() if name.endswith("/CHANGELOG.md")), "")
    listed = first_heading(changes)
    if listed != version:
        yield f"the release is of version {version}, and CHANGELOG.md begins with {listed or 'none'}"
    for name in packages:
        found = re.match(r"[a-z]+[0-9]?(?:-dev)?[-_](\d+(?:\.\d+)+)", name)
        if not found or found[1] != version:
            yield f"{name} has not the version {version} in its name"
    for package, inside in packages.items():
        for name, entry in inside.items():
            if name == "DEBIAN/control" or name.endswith((".dist-info/METADATA", ".pc")):
                found = re.search(r"(?m)^Version: ([^\s-]+)", entry.data.decode())
                if not found or found[1] != version:
                    yield f"{package}: {name} has the version {found[1] if found else 'none'}, and the release {version}"
    said = run_version(tree)
    if said and f"doqs {version}" not in said:
        yield f"doqs --version writes {said[0]}, and the release is of version {version}"


def run_version(tree):
    """The lines of `doqs --version` of the archive's program."""
    data = next((it.data for name, it in tree.items() if name.endswith("/bin/doqs")), None)
    if data is None or os.uname().machine != "x86_64":
        return None
    with tempfile.TemporaryDirectory() as work:
        program = Path(work) / "doqs"
        program.write_bytes(data)
        program.chmod(0o755)
        ran = subprocess.run([program, "--version"], stdin=subprocess.DEVNULL, stdout=subprocess.PIPE, stderr=subprocess.STDOUT)
    return ran.stdout.decode(errors="replace").splitlines() or ["nothing"]


def relinked(log, packages, told):
    """Programs that are not what their objects link to, where this machine has the same linker and C library."""
    inside = next((it for name, it in packages.items() if "-objects" in name), None)
    if inside is None:
        yield "there are no objects of the programs"
        return
    top = next(iter(inside)).split("/")[0]
    stated, kit = stated_sums(log), kit_folder()
    for name in PROGRAMS:
        entry, path = inside.get(f"{top}/{name}.o"), f"crates/{name}/out/{name}"
        if entry is None or sum_of(entry.data) != told["built"].get(f"{path}.o"):
            yield f"the object {name}.o is not the one that CI built"
            return
        if f"{path}.o" not in stated and not kit:
            yield f"the log has no sum of {path}.o, and there is no kit here that links it to {path}, of which it has one"
        elif f"{path}.o" not in stated:
            with tempfile.TemporaryDirectory() as folder:
                made, given = Path(folder) / name, Path(folder) / f"{name}.o"
                given.write_bytes(entry.data)
                building.linked(kit, made, given)
                if sum_of(made.read_bytes()) != stated.get(path):
                    yield f"the object {name}.o does not link to the program of which the log has the sum"
    if not all(map(shutil.which, ("gcc", "ld", "strip", "objcopy"))) or machine() != told["tools"]:
        return
    source = Source(None, told["commit"], None, told["version"], 0, "", "", None, [], None)
    with tempfile.TemporaryDirectory() as folder:
        work = Path(folder)
        for name, entry in inside.items():
            (work / os.path.basename(name)).write_bytes(entry.data)
        for name in PROGRAMS:
            building.static(work / name, work / f"{name}.o", [work / "libos_c.a", work / "liblibc_c.a"])
            if sum_of(building.marked(work / name, source, work)) != told["programs"].get(name):
                yield f"the program {name} is not what its object links to"


def faults(folder):
    """What is wrong with the release in a folder, a line each."""
    files = {it.name: it.read_bytes() for it in sorted(Path(folder).iterdir()) if it.is_file()}
    yield from listed(files)
    try:
        told = json.loads(files["release.json"])
        version, commit, logic, built = told["version"], told["commit"], told["logic"], told["built"]
        packages = opened(files)
    except Exception as error:
        yield f"release.json or a package cannot be read: {type(error).__name__}: {error}"
        return
    for it in told.get("trial") or []:
        yield f"it is a trial, and no release: {it}"
    log = gzip.decompress(files["ci.log.gz"]).decode(errors="replace") if "ci.log.gz" in files else ""
    yield from faults_of_log(log, commit, built)
    yield from programs(packages, version, commit, logic)
    tree = next((it for name, it in packages.items() if name.endswith("x86_64.tar.gz")), {})
    for name, found in told["programs"].items():
        entry = next((it for path, it in tree.items() if path.endswith(f"/bin/{name}")), None)
        if entry is None or sum_of(entry.data) != found:
            yield f"the archive has another program {name} than release.json says"
    yield from notices(files, packages, version)
    yield from versions(files, packages, version)
    if not told.get("trial"):
        yield from relinked(log, packages, told)
