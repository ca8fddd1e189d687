#!/usr/bin/env python3
"""Compares joined grids with the bytes that an independent model writes of the whole: each case `grid_*` of crates/script_vectors/data that ends
well, with its script cut into parts of 1, 7 and 100 blocks. DESK_GRID is the program, as for grid.sh. Prints what differs, and how many
agree. The two cases of a thousand blocks or asks are not cut into single blocks.
"""
import os
import subprocess
import sys
import tempfile

here = os.path.dirname(os.path.abspath(__file__))
data = os.path.join(here, "../../crates/script_vectors/data")
grid = os.path.abspath(os.environ.get("DESK_GRID", os.path.join(here, "../../crates/desk_grid/out/desk_grid")))


def cases():
    for name in ("grid_by_hand", "grid_markets", "grid_version_two"):
        with open(os.path.join(data, name)) as file:
            for text in file.read().split("==\n"):
                given, shown = text.split("-- shown\n")
                head, *parts = given.split("-- ")
                words = head.split("\n")[1].split(" ")
                files = dict(part.split("\n", 1) for part in parts)
                if len(words) == 2 and shown.startswith("scenario base\n"):
                    yield words, files, shown


agree = differ = 0
with tempfile.TemporaryDirectory() as work:
    for at, (words, files, shown) in enumerate(cases()):
        folder = os.path.join(work, str(at))
        os.mkdir(folder)
        for path, text in files.items():
            file = os.path.join(folder, path)
            os.makedirs(os.path.dirname(file), exist_ok=True)
            open(file, "w").write(text)
        for blocks in (1, 7, 100):
            if blocks == 1 and len(files[words[1]]) > 10000:
                continue
            ended = subprocess.run([os.path.join(here, "grid.sh"), words[0], words[1], str(blocks), "joined", "4"], cwd=folder,
                                   env=dict(os.environ, DESK_GRID=grid), capture_output=True, text=True)
            out = os.path.join(folder, "joined")
            if ended.returncode == 0 and open(out).read() == shown:
                agree += 1
            else:
                differ += 1
                print(f"case {at}, parts of {blocks}: {ended.stderr.strip() or 'other bytes'}")
print(f"{agree} joined grids agree, {differ} differ")
sys.exit(differ > 0)
