"""Links the programs and libraries of a release from the objects that CI built."""
import re
import shutil
import sysconfig
from pathlib import Path

import elf
from common import ARCHIVE, PROGRAMS, SONAME, Stop, call

MARK = ".doqsheley"
FUNCTION = 2


def is_proved(data, logic):
    """Whether an ELF file says that it was built of what was proved in this logic."""
    try:
        return re.search(rf"\brattle logic={logic}", elf.Elf(data).comment()) is not None
    except elf.NoElf:
        return False


def mark_of(data):
    """The version and the commit that a program names."""
    return (elf.Elf(data).section(MARK) or b"").decode(errors="replace").strip()


def mark(version, commit, trial):
    return f"doqsheley {version} {'trial of ' if trial else ''}commit {commit}"


def marked(path, source, work):
    """A program or shared library without what no one needs at run time, and with a section that names version and commit."""
    text = work / "mark"
    text.write_text(mark(source.version, source.commit, source.trial) + "\n")
    call("strip", "--strip-unneeded", path)
    call("objcopy", "--add-section", f"{MARK}={text}", "--set-section-flags", f"{MARK}=noload,readonly", path)
    return Path(path).read_bytes()


def parts_of(kit):
    """The parts in C that each program is linked with."""
    return [kit / "c" / "libos_c.a", kit / "c" / "liblibc_c.a"]


def linked(kit, made, object_file):
    """Links a program as CI does."""
    words = ["--target", "x86_64-unknown-linux-gnu", "--toolchain", kit / "toolchain", "-o", made]
    call(kit / "bin" / "rattle-link", *words, object_file, *parts_of(kit))


def static(made, object_file, parts):
    """Links a program that needs no library and no fixed place in memory."""
    call("gcc", "-static-pie", "-o", made, object_file, *parts)


def programs(source, work):
    """The programs for Debian, which load the C library, and those for any Linux, which hold it. Each is linked from its object,
    which has to give the very program that CI built and tried."""
    of_debian, of_any = {}, {}
    for name in PROGRAMS:
        made, out = work / name, source.clone / "crates" / name / "out"
        if source.trial:
            shutil.copyfile(Path(source.programs) / name, made)
            made.chmod(0o755)
            of_debian[name] = of_any[name] = marked(made, source, work)
            continue
        for end in ("", ".by-rattle"):
            linked(source.kit, made, out / f"{name}{end}.o")
            if made.read_bytes() != (out / f"{name}{end}").read_bytes():
                raise Stop(f"crates/{name}/out/{name}{end} is not what its object links to: tools/release_parts/ci_from_scratch builds both")
        shutil.copyfile(out / name, made)
        of_debian[name] = marked(made, source, work)
        static(made, out / f"{name}.o", parts_of(source.kit))
        of_any[name] = marked(made, source, work)
    return of_debian, of_any


def exported(data):
    """The functions that a shared library offers."""
    return sorted({it.name for it in elf.Elf(data).symbols(elf.DYNSYM) if it.is_defined and it.kind == FUNCTION})


def library(source, work):
    """The shared and the static library, or two times None where none is built. Both offer the interface alone."""
    archive, kit = source.clone / ARCHIVE, source.kit
    if not archive.is_file() or not kit:
        return None, None
    heap, shared, whole = kit / "c" / "liblibc_c.a", work / SONAME, work / "doqsheley.o"
    all_of_it = ["--whole-archive", archive, "--no-whole-archive"]
    call("cc", "-shared", "-o", shared, f"-Wl,-soname,{SONAME}", f"-Wl,--version-script,{source.clone}/examples/c/doqsheley.map",
         "-Wl,-z,relro,-z,now", *(f"-Wl,{it}" if it != archive else it for it in all_of_it), heap)
    call("ld", "-r", "-o", whole, *all_of_it, heap)
    call("objcopy", "--wildcard", "--keep-global-symbol=desk_c_*", whole)
    call("strip", "--strip-unneeded", whole)
    held = work / "libdoqsheley.a"
    if held.exists():
        held.unlink()
    call("ar", "rcD", held, whole)
    found = exported(shared.read_bytes())
    beyond = [it for it in found if not it.startswith("desk_c_")]
    if beyond or not found:
        raise Stop(f"{SONAME} offers {', '.join(beyond) or 'nothing'}, and not the interface alone")
    return marked(shared, source, work), held.read_bytes()


def extension(source, work):
    """The extension for Python, of the stable interface of 3.9: one for each later version. None where no library is built."""
    archive = source.clone / ARCHIVE
    if not archive.is_file() or not source.kit:
        return None
    include = Path(sysconfig.get_path("include"))
    if not (include / "Python.h").is_file():
        raise Stop(f"there is no {include}/Python.h, for the wheel")
    offers, made = work / "python.map", work / "_desk.abi3.so"
    offers.write_text("{ global: PyInit__desk; local: *; };\n")
    call("cc", "-shared", "-fPIC", "-O2", "-std=c11", "-DPy_LIMITED_API=0x03090000", f"-I{include}", "-Iexamples/c",
         "python/src/doqsheley/_desk.c", archive, source.kit / "c" / "liblibc_c.a", f"-Wl,--version-script,{offers}",
         "-Wl,-z,relro,-z,now", "-o", made, cwd=source.clone)
    return marked(made, source, work)


def glibc_of(files):
    """The least version of the C library that these files need, such as 2.34."""
    found = {(2, 17)}
    for data in files:
        for it in elf.Elf(data).needed_versions():
            number = re.fullmatch(r"GLIBC_(\d+)\.(\d+)(?:\.\d+)?", it)
            if number:
                found.add((int(number[1]), int(number[2])))
    return ".".join(map(str, max(found)))
