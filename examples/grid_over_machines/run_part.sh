#!/usr/bin/env bash
# Runs `desk_grid` on one part: run_part.sh DESK_GRID MARKET FOLDER/0001.txt writes FOLDER/0001.out, what it wrote, 0001.err, its
# line on standard error, and then 0001.status, its exit status. Without a status the part was not done.
set -u
part=${3%.txt}
rm -f "$part.status" "$part.out"
"$1" "$2" "$3" > "$part.out" 2> "$part.err"
status=$?
echo "$status" > "$part.status.new" && mv "$part.status.new" "$part.status"
exit "$status"
