"""The libraries that are in the programs, with their notices and the bill of materials (CycloneDX)."""
import hashlib
import json
import re
import uuid
from collections import namedtuple
from pathlib import Path

import elf
from packing import sum_of

FUNCTION = 2
# A library. Its kind says whether it is of the repository ("own"), a port of a Rust crate ("port"), of the kit itself ("kit"), or
# linked by the compiler of C ("c").
Library = namedtuple("Library", "name kind version origin terms notice where")
TERMS_UNDECIDED = (
    "The terms of doqsheley are its owner's to decide, and they are not decided: this is for those to whom the owner hands it."
)


class Unknown(Exception):
    """A library or a notice that is not found, and why."""


def own_crates(clone):
    lines = (clone / "crates.txt").read_text().splitlines()
    return {it.split(":")[0].split()[0] for it in lines if ":" in it and not it.startswith("#")}


def seen(objects, known):
    """The libraries of an object's functions. Each function's name begins with that of its library; those of C have no `::`."""
    found = set()
    for data in objects:
        for it in elf.Elf(data).symbols():
            if it.kind == FUNCTION and it.is_defined and "::" in it.name:
                name = re.match(r"[<&\s]*(?:impl\s+)?(\w+)", it.name)
                if not name or name[1] not in known:
                    raise Unknown(f"the function {it.name} is of no library of crates.txt and of the kit")
                found.add(name[1])
    return found


def terms_of(files):
    """The terms that these files state, by their texts."""
    found = []
    for name, text in files:
        if "Apache License" in text and "Version 2.0" in text:
            found.append("Apache-2.0")
        elif "Permission is hereby granted, free of charge" in text:
            found.append("MIT")
        else:
            raise Unknown(f"{name} has terms that are neither those of MIT nor Apache-2.0: say in libraries.py what they are")
    return " OR ".join(sorted(set(found), reverse=True))


def origin_of(folder, name):
    """The Rust crate of which a port says it is one, with its version, or without."""
    page = folder / "README.md"
    said = page.read_text() if page.is_file() else ""
    found = re.findall(r"`?\b([a-z][a-z0-9_-]*)`? (\d+\.\d+\.\d+)\b", said)
    return next((it for it in found if it[0].startswith(name.split("_")[0])), (name, ""))


def of_kit(kit, name, where):
    """A library of the kit: a port where it has files of terms."""
    folder, version = kit / "rattle" / name, (kit / "KIT-ID").read_text().split()[0]
    files = [(it.name, it.read_text()) for it in sorted(folder.glob("LICENSE*")) + sorted(folder.glob("NOTICE*"))]
    if not files:
        return Library(name, "kit", version, None, "", "", where)
    notice = "".join(f"--- {file} ---\n\n{text.strip()}\n\n" for file, text in files)
    return Library(name, "port", version, origin_of(folder, name), terms_of(files), notice, where)


def of_c(compiler_version, libc_version, where):
    """The C library and the start of programs, which a static program holds."""
    found = []
    for name, version, terms, places in (
        ("glibc", libc_version, "LGPL-2.1-or-later", ["/usr/share/doc/libc6-dev/copyright", "/usr/share/common-licenses/LGPL-2.1"]),
        ("libgcc", compiler_version, "GPL-3.0-or-later WITH GCC-exception-3.1",
         [f"/usr/share/doc/gcc-{compiler_version.split('.')[0]}-base/copyright"]),
    ):
        lacking = [it for it in places if not Path(it).is_file()]
        if lacking:
            raise Unknown(f"the notice of {name} is not in {lacking[0]}, where Debian has it")
        notice = "".join(f"--- {it} ---\n\n{Path(it).read_text(errors='replace').strip()}\n\n" for it in places)
        found.append(Library(name, "c", version, None, terms, notice, where))
    return found


def heading(it):
    return f"=== {it.name}: {it.terms or 'no terms are stated'} ==="


def told(it):
    """The section of a library in the notices."""
    lines = [heading(it), ""]
    if it.kind == "port":
        lines.append(f"A port, of {it.version}, of the Rust crate {' '.join(it.origin).strip()}.")
    lines += [f"In: {', '.join(it.where)}.", "", it.notice.strip(), ""]
    return "\n".join(lines) + "\n"


def notices(version, libraries):
    """The text of all notices."""
    kit = [it for it in libraries if it.kind == "kit"]
    text = f"Notices of doqsheley {version}\n\n{TERMS_UNDECIDED}\n\n"
    text += "The programs and the library hold code of these libraries, whose terms ask that their notices go along.\n"
    if kit:
        text += f"They hold code of {', '.join(it.name for it in kit)} of {kit[0].version} too, for which that kit states no terms.\n"
    return text + "\n" + "".join(told(it) for it in libraries if it.notice)


def sections(text):
    """The sections of a text of notices, by the name of the library."""
    found = {}
    for part in re.split(r"(?m)^(?==== )", text)[1:]:
        found[re.match(r"=== (\S+): ", part)[1]] = part
    return found


def materials(version, commit, when, libraries, trial):
    """The bill of materials."""
    def component(it):
        group = {"own": "doqsheley", "port": "rattle-port", "kit": "rattle-kit", "c": "c"}[it.kind]
        made = {"type": "library", "bom-ref": f"{group}/{it.name}", "group": group, "name": it.name, "version": it.version}
        if it.terms:
            made["licenses"] = [{"expression": it.terms}]
        if it.origin:
            name, number = it.origin
            url = f"pkg:cargo/{name}" + (f"@{number}" if number else "")
            made["pedigree"] = {"ancestors": [{"type": "library", "name": name, **({"version": number} if number else {}), "purl": url}]}
        made["properties"] = [{"name": "doqsheley:in", "value": place} for place in it.where]
        if it.notice:
            made["properties"].append({"name": "doqsheley:notice-sha256", "value": sum_of(told(it).encode())})
        return made

    own = uuid.UUID(bytes=hashlib.sha256(f"{version} {commit}".encode()).digest()[:16], version=4)
    body = {
        "bomFormat": "CycloneDX", "specVersion": "1.5", "serialNumber": f"urn:uuid:{own}", "version": 1,
        "metadata": {
            "timestamp": when,
            "component": {
                "type": "application", "bom-ref": "doqsheley", "name": "doqsheley", "version": version,
                "properties": [{"name": "doqsheley:commit", "value": commit}, {"name": "doqsheley:terms", "value": TERMS_UNDECIDED}]
                + ([{"name": "doqsheley:trial", "value": "yes"}] if trial else []),
            },
        },
        "components": [component(it) for it in libraries],
        "dependencies": [{"ref": "doqsheley", "dependsOn": [component(it)["bom-ref"] for it in libraries]}],
    }
    return json.dumps(body, indent=2).encode() + b"\n"


def noticed(bill):
    """Of each library of a bill of materials that has a notice, the sum of its section."""
    found = {}
    for it in json.loads(bill)["components"]:
        for said in it.get("properties", []):
            if said["name"] == "doqsheley:notice-sha256":
                found[it["name"]] = said["value"]
    return found
