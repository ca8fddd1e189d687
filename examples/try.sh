#!/usr/bin/env bash
# Runs markets and scripts, whether or not anything is proved. Each FOLDER, anywhere, has a market.toml and a script.txt, and the program runs in it:
#
#   examples/try.sh examples/desk                # writes its transcript
#   examples/try.sh examples/stale/* ~/my_desk   # compares each with its transcript.txt, where it has one, and writes the others
#
# The program is the proved `desk` where it is built and no source is newer, else the unverified build (tools/try). It ends with 1 where a
# transcript differs or a program ends otherwise than with 0, and with 2 where no folder has both files.
set -euo pipefail
[ $# -gt 0 ] || { echo "usage: examples/try.sh FOLDER.." >&2; exit 2; }
program=$("$(dirname "$0")/../tools/try" --path desk)
folders=()
for folder in "$@"; do
    [ -d "$folder" ] || continue
    if [ -f "$folder/market.toml" ] && [ -f "$folder/script.txt" ]; then
        folders+=("$folder")
    else
        echo "try.sh: $folder has not both market.toml and script.txt, and is left out" >&2
    fi
done
[ ${#folders[@]} != 0 ] || { echo "try.sh: no folder among these has a market.toml and a script.txt" >&2; exit 2; }
if [ ${#folders[@]} = 1 ]; then
    cd "${folders[0]}"
    exec "$program" run market.toml script.txt
fi
work=$(mktemp)
trap 'rm -f "$work"' EXIT
wrong=0
for folder in "${folders[@]}"; do
    (cd "$folder" && "$program" run market.toml script.txt) > "$work" || wrong=1
    if [ ! -f "$folder/transcript.txt" ]; then
        echo "== $folder"
        cat "$work"
    elif cmp -s "$work" "$folder/transcript.txt"; then
        echo "$folder: as its transcript"
    else
        echo "$folder: not as its transcript"
        wrong=1
    fi
done
exit "$wrong"
