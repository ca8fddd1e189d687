"""Builds the package: pip calls this (`pip install ./python`), and so may you. It takes a C compiler and Python's headers, and no other package.

    python3 python/build_package.py DIR              # puts a wheel into DIR, and writes its name
    python3 python/build_package.py --package DIR    # puts the package itself into DIR

The extension is built over the static library that DOQSHELEY_ARCHIVE names, else over crates/desk_c/out/libdesk_c.a, which `rt lib` proves
and makes, else over out/unverified/lib/libdesk_c.a, which `tools/unverified --library` makes without a proof. DOQSHELEY_LINK has the words
that it is linked with, else these name the C part of the kit's runtime where the library is proved. The program that is put beside it is the
one of DOQS, else of crates/doqs/out, else of out/unverified/bin; where there is none, the package has none.

The same files, Python and compiler give the same bytes. A wheel is tagged by the version of glibc that it needs.
"""
import base64
import hashlib
import os
import re
import shlex
import shutil
import subprocess
import sys
import sysconfig
import tempfile
import zipfile
from pathlib import Path

HERE = Path(__file__).resolve().parent
TOP = HERE.parent
NAME, TAG = "doqsheley", "cp39-abi3"


def found(name, *places):
    """The file that a variable names, else the first that is there."""
    named = os.environ.get(name)
    if named:
        return Path(shutil.which(named) or named).resolve()
    return next((TOP / it for it in places if (TOP / it).is_file()), None)


def of_the_kit():
    """The C part of the kit's runtime."""
    if shutil.which("rt") is None:
        sys.exit("build_package.py: DOQSHELEY_LINK names no words to link with, and there is no rt on the path")
    page = subprocess.run(["rt", "doc"], stdout=subprocess.PIPE, universal_newlines=True, check=True).stdout.strip()
    return str(Path(page).parent / "c" / "liblibc_c.a")


def compile_extension(target):
    """Builds the extension."""
    if sys.version_info < (3, 9) or sys.implementation.name != "cpython" or sysconfig.get_config_var("Py_GIL_DISABLED"):
        sys.exit("build_package.py: it takes CPython 3.9 or later, with its lock")
    archive = found("DOQSHELEY_ARCHIVE", "crates/desk_c/out/libdesk_c.a", "out/unverified/lib/libdesk_c.a")
    if archive is None or not archive.is_file():
        sys.exit(
            "build_package.py: there is no libdesk_c.a: (cd crates/desk_c && rt lib) proves and makes it, and tools/unverified --library makes "
            "it without a proof"
        )
    logic = re.search(rb"rattle logic=([0-9a-f]{16})", archive.read_bytes())
    build = "logic " + logic[1].decode() if logic else "unverified build"
    words = os.environ.get("DOQSHELEY_LINK")
    link = shlex.split(words) if words is not None else [of_the_kit()] if logic else []
    subprocess.run([
        *shlex.split(os.environ.get("CC") or "cc"), "-shared", "-fPIC", "-std=c11", "-O2", "-Wall", "-Wextra", "-fvisibility=hidden",
        "-DPy_LIMITED_API=0x03090000", f'-DDOQSHELEY_BUILD="{build}"', f"-I{sysconfig.get_path('include')}",
        f"-I{TOP / 'examples' / 'c'}", str(HERE / "src" / NAME / "_desk.c"), str(archive), *link, "-Wl,--exclude-libs,ALL", "-Wl,--gc-sections,-s",
        "-o", str(target),
    ], check=True)  # fmt: skip


def put_package(folder):
    """Puts the package into a folder."""
    target = Path(folder, NAME)
    shutil.copytree(HERE / "src" / NAME, target, ignore=shutil.ignore_patterns("*.c", "__pycache__", "*.so"))
    compile_extension(target / "_desk.abi3.so")
    program = found("DOQS", "crates/doqs/out/doqs", "out/unverified/bin/doqs")
    if program is not None:
        shutil.copyfile(program, target / "doqs")
        (target / "doqs").chmod(0o755)


def field(name):
    """A text of pyproject.toml."""
    return re.search(rf'^{name} = "(.*)"$', (HERE / "pyproject.toml").read_text(), re.M)[1]


def metadata():
    listed = re.search(r"^classifiers = \[\n(.*?)^\]", (HERE / "pyproject.toml").read_text(), re.M | re.S)[1]
    lines = [
        "Metadata-Version: 2.1", f"Name: {NAME}", f"Version: {field('version')}", f"Summary: {field('description')}",
        f"Requires-Python: {field('requires-python')}", *(f"Classifier: {it}" for it in re.findall('"(.*)"', listed)),
        "Description-Content-Type: text/markdown", "", (HERE / "README.md").read_text(),
    ]  # fmt: skip
    return "\n".join(lines)


def platform_of(folder):
    """The platform: the newest glibc that the programs in a folder name."""
    programs = b"".join(it.read_bytes() for it in [*folder.glob("*.so"), *folder.glob("doqs")])
    major, minor = max((int(it[0]), int(it[1])) for it in re.findall(rb"GLIBC_(\d+)\.(\d+)", programs))
    return f"manylinux_{major}_{minor}_{os.uname().machine}"


def build_wheel(wheel_directory, config_settings=None, metadata_directory=None):
    """Puts a wheel into a folder, and returns its name."""
    with tempfile.TemporaryDirectory() as room:
        put_package(room)
        platform = platform_of(Path(room, NAME))
        info = f"{NAME}-{field('version')}.dist-info"
        texts = {
            "METADATA": metadata(),
            "WHEEL": f"Wheel-Version: 1.0\nGenerator: build_package.py\nRoot-Is-Purelib: false\nTag: {TAG}-{platform}\n",
            "entry_points.txt": f"[console_scripts]\ndoqs = {NAME}.programs:main\n",
            "licenses/LICENSE": (TOP / "LICENSE").read_text() if (TOP / "LICENSE").is_file() else "",
        }
        files = {str(it.relative_to(room)): it.read_bytes() for it in sorted(Path(room, NAME).rglob("*")) if it.is_file()}
        files.update((f"{info}/{name}", text.encode()) for name, text in texts.items())
        record = "".join(
            f"{name},sha256={base64.urlsafe_b64encode(hashlib.sha256(text).digest()).decode().rstrip('=')},{len(text)}\n"
            for name, text in files.items()
        )
        files[f"{info}/RECORD"] = f"{record}{info}/RECORD,,\n".encode()
        wheel = f"{NAME}-{field('version')}-{TAG}-{platform}.whl"
        with zipfile.ZipFile(Path(wheel_directory, wheel), "w", zipfile.ZIP_DEFLATED) as out:
            for name, text in files.items():
                entry = zipfile.ZipInfo(name, (1980, 1, 1, 0, 0, 0))
                entry.external_attr = (0o100755 if name.endswith(("/doqs", ".so")) else 0o100644) << 16
                entry.compress_type = zipfile.ZIP_DEFLATED
                out.writestr(entry, text)
    return wheel


if __name__ == "__main__":
    if sys.argv[1:2] == ["--package"] and len(sys.argv) == 3:
        put_package(sys.argv[2])
    elif len(sys.argv) == 2 and not sys.argv[1].startswith("-"):
        print(build_wheel(sys.argv[1]))
    else:
        sys.exit(__doc__.strip())
