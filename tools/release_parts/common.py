"""What all parts of a release share: its source, its names, and calls of other programs."""
import os
import re
import shutil
import subprocess
from collections import namedtuple
from pathlib import Path

from packing import sum_of

PROGRAMS = ("doqs", "desk", "desk_bump", "desk_grid", "desk_yield")
ENDS = ("", ".o", ".by-rattle", ".by-rattle.o")
ARCHIVE = "crates/desk_c/out/libdesk_c.a"
SONAME = "libdoqsheley.so.0"
# What a release is made of. `trial` has the reasons why it is only a trial, and `programs` the folder of that trial's programs.
Source = namedtuple("Source", "clone commit tree version when maker log kit trial programs")


class Stop(Exception):
    """Why no release is made."""


def call(*words, **how):
    """What a program writes. Stops where it ends with another code than 0."""
    words = [str(it) for it in words]
    ran = subprocess.run(words, stdin=subprocess.DEVNULL, stdout=subprocess.PIPE, stderr=subprocess.STDOUT, **how)
    if ran.returncode:
        said = ran.stdout.decode(errors="replace").strip()[-600:]
        raise Stop(f"{' '.join(words[:2])} ended with {ran.returncode}: {said}")
    return ran.stdout


def git(clone, *words):
    return call("git", *words, cwd=clone).decode().strip()


def kit_folder():
    """The folder of Rattle's kit, or None."""
    found = shutil.which("rt")
    return Path(os.path.realpath(found)).parent.parent if found else None


def to_build():
    """The files that CI builds for a release, by their path in the clone."""
    return [*(f"crates/{name}/out/{name}{end}" for name in PROGRAMS for end in ENDS), ARCHIVE]


def built(clone):
    """Of each file that CI has built for a release its sum, by its path in the clone."""
    return {it: sum_of((clone / it).read_bytes()) for it in to_build() if (clone / it).is_file()}


def logic_of(clone):
    """The logic that `doqs --version` names."""
    found = re.search(r'BUILD: &str = "logic ([0-9a-f]+)"', (clone / "crates/tool_front/src/version.rt").read_text())
    if not found:
        raise Stop("crates/tool_front/src/version.rt names no logic")
    return found[1]


def machine():
    """The compiler, the linker and the C library of this machine: with the same ones a release can be made again."""
    first = [call(it, "--version").decode().split("\n")[0] for it in ("gcc", "ld")]
    return [*first, " ".join(os.confstr("CS_GNU_LIBC_VERSION").split())]
