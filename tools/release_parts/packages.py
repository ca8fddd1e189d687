"""The packages of a release: the files of each, by name."""
import ast
import re
import time

import libraries
import packing
import pages
from building import glibc_of
from common import PROGRAMS, SONAME, call
from packing import Entry

REVISION, TRIPLET = "1", "x86_64-linux-gnu"
ABOUT = """\
 Doqsheley prices curves, bonds, swaps, shares and books of them while the
 market moves, and recomputes only what a move made out of date. A
 machine-checked proof says that it never shows a stale price as fresh.
"""
LAUNCH = b"""#!/bin/sh
# Says where a market or a script has its first fault.
here=$(dirname "$(readlink -f "$0")")
command -v python3 > /dev/null || { echo "desk_fault: no command python3: it needs Python 3.8" >&2; exit 127; }
exec python3 "$here/../lib/doqsheley/tools/desk_fault" "$@"
"""
SHIM = b"""#!python
import importlib.util, os, sys
program = os.path.join(os.path.dirname(importlib.util.find_spec("doqsheley").origin), "doqs")
os.execv(program, ["doqs", *sys.argv[1:]])
"""
RELINK = f"""#!/bin/sh
# Links the programs for any Linux once more, with the C library of this machine: the terms of that library ask that you can.
set -eu
cd "$(dirname "$0")"
for name in {' '.join(PROGRAMS)}; do
    gcc -static-pie -o "$name" "$name.o" libos_c.a liblibc_c.a
done
""".encode()


def archive_name(version):
    return f"doqsheley-{version}-linux-x86_64"


def readme(source):
    name = archive_name(source.version)
    return f"""{libraries.TERMS_UNDECIDED}

Doqsheley {source.version}{' (A TRIAL, not a release)' if source.trial else ''}, commit {source.commit}
A price from this folder, on any Linux on x86-64 with the instructions of x86-64-v2:

    tar xzf {name}.tar.gz
    cd {name}/examples/desk && ../../bin/doqs run market.toml script.txt

bin/       the programs {', '.join(PROGRAMS)}, which need no library; desk_fault, which needs Python 3.8
lib/       the library for C, shared and static, include/ its header
docs/      the pages, and share/man the same for man: export PATH="$PWD/bin:$PATH", then man doqs
examples/  markets and scripts, each with its output
NOTICES.txt has the terms of the libraries that are in the programs.
""".encode()


def fault_tool(clone):
    """desk_fault with what it imports, below lib/doqsheley."""
    # (the launcher runs it)
    found = {"tools/desk_fault": Entry((clone / "tools/desk_fault").read_bytes().split(b"\n", 1)[1])}
    for it in sorted((clone / "python/src/doqsheley").rglob("*.py")):
        found[str(it.relative_to(clone))] = Entry(it.read_bytes())
    return found


def pkg_config(version, prefix, libdir):
    return f"""prefix={prefix}
libdir={libdir}
includedir=${{prefix}}/include

Name: doqsheley
Description: a proved pricing session in the process of a program in C
Version: {version}
Libs: -L${{libdir}} -ldoqsheley
Cflags: -I${{includedir}}
""".encode()


def header(clone):
    return Entry((clone / "examples/c/doqsheley.h").read_bytes())


def completion(clone):
    return Entry(call(clone / "tools/command_pages", "completion"))


def archive(source, of_any, shared, held, docs, mans, notices):
    """The files of the archive for any Linux."""
    clone, version = source.clone, source.version
    tree = {f"bin/{it}": Entry(data, True) for it, data in of_any.items()}
    tree["bin/desk_fault"] = Entry(LAUNCH, True)
    tree.update({f"lib/doqsheley/{it}": entry for it, entry in fault_tool(clone).items()})
    tree.update({f"share/man/{it}": Entry(data) for it, data in mans.items()})
    tree["share/bash-completion/completions/doqs"] = completion(clone)
    tree.update(docs)
    tree["README.txt"], tree["NOTICES.txt"] = Entry(readme(source)), Entry(notices)
    tree["CHANGELOG.md"] = Entry((clone / "CHANGELOG.md").read_bytes())
    if shared is not None:
        tree[f"lib/{SONAME}.{version}"], tree["lib/libdoqsheley.a"] = Entry(shared), Entry(held)
        tree[f"lib/{SONAME}"] = Entry(b"", False, f"{SONAME}.{version}")
        tree["lib/libdoqsheley.so"] = Entry(b"", False, SONAME)
        tree["include/doqsheley.h"] = header(clone)
        tree["lib/pkgconfig/doqsheley.pc"] = Entry(pkg_config(version, "${pcfiledir}/../..", "${prefix}/lib"))
    return tree


def copyright_of(libs):
    held = "".join(f"  {it.name}: {it.terms}\n" for it in libs if it.notice)
    return f"""{libraries.TERMS_UNDECIDED}

The copyright of doqsheley is its owner's. The programs hold code of these libraries:

{held}
Their notices are in NOTICES.txt.gz beside this file. On Debian the texts of the Apache License 2.0, of LGPL 2.1 and of GPL 3
are in /usr/share/common-licenses/Apache-2.0, /usr/share/common-licenses/LGPL-2.1 and /usr/share/common-licenses/GPL-3.
""".encode()


def control(source, name, section, brief, files, fields):
    """The file control of a Debian package."""
    size = sum(len(it.data) for it in files.values()) // 1024 + 1
    more = "".join(f"{key}: {value}\n" for key, value in fields.items())
    return Entry(f"""Package: {name}
Source: doqsheley
Version: {source.version}-{REVISION}
Architecture: amd64
Maintainer: {source.maker}
Installed-Size: {size}
{more}Section: {section}
Priority: optional
Description: {brief}
{ABOUT}""".encode())


def papers(source, name, notices, libs):
    """What Debian has of each package in /usr/share/doc."""
    full, where = f"{source.version}-{REVISION}", f"usr/share/doc/{name}"
    date = time.strftime("%a, %d %b %Y %H:%M:%S +0000", time.gmtime(source.when))
    said = f"""doqsheley ({full}) unstable; urgency=medium

  * Version {source.version}. The changes are in changelog.gz.

 -- {source.maker}  {date}
"""
    packed = {"changelog.Debian": said.encode(), "changelog": (source.clone / "CHANGELOG.md").read_bytes(), "NOTICES.txt": notices}
    found = {f"{where}/{it}.gz": Entry(packing.zipped(data)) for it, data in packed.items()}
    return {**found, f"{where}/copyright": Entry(copyright_of(libs))}


def debs(source, of_debian, shared, held, docs, mans, notices, libs):
    """The Debian packages, by file name."""
    version, clone, found = source.version, source.clone, {}
    full, where = f"{version}-{REVISION}", f"usr/lib/{TRIPLET}"

    def add(name, section, brief, files, fields, **more):
        files = {**files, **papers(source, name, notices, libs)}
        inside = {"control": control(source, name, section, brief, files, fields), **{it: Entry(text) for it, text in more.items()}}
        found[f"{name}_{full}_amd64.deb"] = packing.deb(inside, files, source.when)

    files = {f"usr/bin/{name}": Entry(data, True) for name, data in of_debian.items()}
    files["usr/bin/desk_fault"] = Entry(LAUNCH, True)
    files.update({f"usr/lib/doqsheley/{name}": it for name, it in fault_tool(clone).items()})
    zipped = {f"usr/share/man/{name}.gz": Entry(packing.zipped(data)) for name, data in mans.items()}
    files.update({name: it for name, it in zipped.items() if "/man3/" not in name})
    files["usr/share/bash-completion/completions/doqs"] = completion(clone)
    files.update({f"usr/share/doc/doqsheley/{name}": it for name, it in docs.items()})
    needs = {"Depends": f"libc6 (>= {glibc_of(of_debian.values())})", "Recommends": "python3"}
    add("doqsheley", "misc", "desk of instruments whose prices are never stale", files, needs)
    if shared is None:
        return found
    files = {f"{where}/{SONAME}.{version}": Entry(shared), f"{where}/{SONAME}": Entry(b"", False, f"{SONAME}.{version}")}
    needs = {"Multi-Arch": "same", "Depends": f"libc6 (>= {glibc_of([shared])})"}
    add("libdoqsheley0", "libs", "proved pricing session, the shared library", files, needs,
        shlibs=f"libdoqsheley 0 libdoqsheley0 (>= {version})\n".encode(), triggers=b"activate-noawait ldconfig\n")
    files = {f"{where}/libdoqsheley.so": Entry(b"", False, SONAME), f"{where}/libdoqsheley.a": Entry(held),
             "usr/include/doqsheley.h": header(clone),
             f"{where}/pkgconfig/doqsheley.pc": Entry(pkg_config(version, "/usr", f"${{prefix}}/lib/{TRIPLET}"))}
    files.update({name: it for name, it in zipped.items() if "/man3/" in name})
    needs = {"Multi-Arch": "same", "Depends": f"libdoqsheley0 (= {full})"}
    add("libdoqsheley-dev", "libdevel", "proved pricing session, header and static library", files, needs)
    return found


def metadata(clone):
    """What pip shows of the package, from the table [project] of pyproject.toml."""
    project = (clone / "python/pyproject.toml").read_text().split("\n[project]\n")[1].split("\n[")[0]
    said = {key: ast.literal_eval(value) for key, value in re.findall(r'(?m)^([a-z-]+) = ("[^"]*"|\[[^]]*\])$', project)}
    lines = ["Metadata-Version: 2.1", f"Name: {said['name']}", f"Version: {said['version']}", f"Summary: {said['description']}",
             *(f"Classifier: {it}" for it in said["classifiers"]), f"Requires-Python: {said['requires-python']}",
             "Description-Content-Type: text/markdown", "", libraries.TERMS_UNDECIDED, ""]
    return ("\n".join(lines) + "\n" + pages.adapted("python/README.md", (clone / "python" / said["readme"]).read_text(), ())).encode()


def wheel(source, extension, doqs, notices):
    """The wheel: its name and its bytes."""
    files = {"doqsheley/_desk.abi3.so": Entry(extension, True), "doqsheley/doqs": Entry(doqs, True)}
    top = source.clone / "python/src"
    for it in sorted(top.rglob("*")):
        if it.suffix in (".py", ".pyi") or it.name == "py.typed":
            files[str(it.relative_to(top))] = Entry(it.read_bytes())
    name = f"doqsheley-{source.version}"
    tag = f"cp39-abi3-manylinux_{glibc_of([extension]).replace('.', '_')}_x86_64"
    files[f"{name}.data/scripts/doqs"] = Entry(SHIM, True)
    said = f"Wheel-Version: 1.0\nGenerator: doqsheley tools/release\nRoot-Is-Purelib: false\nTag: {tag}\n"
    for path, data in (("METADATA", metadata(source.clone)), ("WHEEL", said.encode()), ("top_level.txt", b"doqsheley\n"),
                       ("licenses/NOTICES.txt", notices)):
        files[f"{name}.dist-info/{path}"] = Entry(data)
    return f"{name}-{tag}.whl", packing.wheel(files, f"{name}.dist-info", source.when)


def objects(source):
    """The objects of the programs, from which they can be linked with another C library."""
    found = {"relink": Entry(RELINK, True)}
    for name in PROGRAMS:
        found[f"{name}.o"] = Entry((source.clone / f"crates/{name}/out/{name}.o").read_bytes())
    for name in ("libos_c.a", "liblibc_c.a"):
        found[name] = Entry((source.kit / "c" / name).read_bytes())
    return found
