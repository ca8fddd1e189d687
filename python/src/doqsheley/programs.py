"""Commands of `doqs` over a market and a script."""

from __future__ import annotations

import os
import sys
from typing import List, NoReturn, Optional, Sequence

from .errors import ProgramFailed


def program(name: "Optional[os.PathLike[str] | str]" = None) -> str:
    """The program `doqs`: the one named, else that of DOQS, else the one of this package, else that of the path."""
    if name is not None:
        return os.fspath(name)
    own = os.path.join(os.path.dirname(__file__), "doqs")
    return os.environ.get("DOQS") or (own if os.path.isfile(own) else "doqs")


def main() -> NoReturn:
    """Becomes the program."""
    try:
        os.execvp(program(), ["doqs", *sys.argv[1:]])
    except OSError as error:
        sys.exit(f"doqs: {program()}: {error.strerror}")


def run(words: Sequence[str], doqs: "Optional[os.PathLike[str] | str]" = None, folder: Optional[str] = None) -> str:
    """What a command writes. Raises ProgramFailed where its exit status is not 0."""
    import subprocess

    call: List[str] = [program(doqs), *words]
    try:
        ran = subprocess.run(call, stdin=subprocess.DEVNULL, stdout=subprocess.PIPE, stderr=subprocess.PIPE, cwd=folder)
    except FileNotFoundError:
        raise ProgramFailed(127, f"there is no program {call[0]}: DOQS names one") from None
    if ran.returncode:
        # (of a wrong name the command has written more lines to standard output)
        wrong = [it for it in ran.stdout.splitlines(True) if b"refused" in it] if ran.returncode == 10 else []
        raise ProgramFailed(ran.returncode, b"".join([*wrong, ran.stderr]).decode(errors="replace").strip())
    return ran.stdout.decode()
