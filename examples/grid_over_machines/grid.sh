#!/usr/bin/env bash
# One grid of scenarios over several processes, by GNU parallel:
#
#   grid.sh MARKET SCRIPT BLOCKS OUT [PROCESSES]
#
# It cuts the script into parts of at most BLOCKS blocks, runs `desk_grid` on each, as many at a time as there are PROCESSES
# (2 where none are given), runs once more the parts that were not done, and joins what was written into OUT: byte for byte what
# one run of `desk_grid` writes of the whole script. Where a part fails again, it is named, and OUT is not there.
#
# DESK_GRID is the program, `desk_grid` of the path where nothing is said. GRID_PARALLEL holds further words for
# parallel, as `--sshlogin :,other` for another host that has the same files at the same paths. GRID_FOLDER is where the parts
# stand, and are kept; a folder of its own, which is deleted, where nothing is said.
set -euo pipefail
[ $# -ge 4 ] || { echo "usage: grid.sh MARKET SCRIPT BLOCKS OUT [PROCESSES]" >&2; exit 2; }
here=$(cd "$(dirname "$0")" && pwd)
[ -n "${DESK_GRID-}" ] || [ ! -x "$here/../../crates/desk_grid/out/desk_grid" ] || DESK_GRID=$(realpath "$here/../../crates/desk_grid/out/desk_grid") # clone
export DESK_GRID=${DESK_GRID:-$(command -v desk_grid || echo desk_grid)}
market=$1 script=$2 blocks=$3 out=$4 processes=${5:-2}
if [ ! -x "$DESK_GRID" ]; then
    echo "grid.sh: there is no program $DESK_GRID: DESK_GRID names one" >&2
    exit 2
fi
command -v parallel > /dev/null || { echo "grid.sh: no command parallel: it takes GNU parallel (apt-get install parallel)" >&2; exit 2; }
for file in "$market" "$script"; do
    [ -f "$file" ] && [ -r "$file" ] || { echo "grid.sh: $file is no file that can be read" >&2; exit 2; }
done
if [ -n "${GRID_FOLDER:-}" ]; then
    folder=$GRID_FOLDER
else
    folder=$(mktemp -d)
    trap 'rm -rf "$folder"' EXIT
fi
rm -f "$out"
"$here/parts.py" cut "$script" "$blocks" "$folder"

# The parts that were not done.
left() {
    local part
    for part in "$folder"/*.txt; do
        [ "$(cat "${part%.txt}.status" 2> /dev/null || true)" = 0 ] || echo "$part"
    done
}

for _ in 1 2; do
    left > "$folder/left"
    [ -s "$folder/left" ] || break
    parallel --will-cite ${GRID_PARALLEL:-} -j "$processes" "$here/run_part.sh" "$DESK_GRID" "$market" {} \
        < "$folder/left" || true
done
left > "$folder/left"
if [ -s "$folder/left" ]; then
    while read -r part; do
        echo "grid.sh: $part was not done: $(cat "${part%.txt}.err" 2> /dev/null || true)" >&2
    done < "$folder/left"
    exit 1
fi
"$here/parts.py" join "$script" "$folder" "$out"
