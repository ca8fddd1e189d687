#!/usr/bin/env bash
# An example, outside the proofs: plays the log of a live day by `doqs run`, and compares what it
# writes with what `doqs live` wrote on that day.
#
#   examples/live/replay.sh                                         # makes a day over the example desk, and plays it
#   examples/live/replay.sh MARKET LOG WRITTEN [SCRIPT] [--order=ORDER]
#
# LOG has the lines that `doqs live` was given, WRITTEN what it wrote, with --ready or without, as
#
#   tee LOG | doqs live MARKET [SCRIPT] > WRITTEN
#
# keeps them. A line with a fault, which WRITTEN names, was not done and is left out, and an action that was left open
# is ended. What is left is a script of at most 8 MiB. Where WRITTEN has been compared and is the same the status is 0,
# where it differs 1.
set -euo pipefail
here=$(cd "$(dirname "$0")" && pwd)
top=$(cd "$here/../.." && pwd)
export PATH="$top/crates/doqs/out:$PATH" # clone
work=$(mktemp -d)
trap 'rm -rf "$work"' EXIT

if [ $# = 0 ]; then
    cd "$top/examples/desk"
    set -- market.toml "$work/day" "$work/out"
    # A tick each 2 ms, an ask behind each tenth, a faulty line behind each three hundredth, and at last an action
    # without an end.
    { "$here/ticks.py" quotes.csv 1000 0.002; echo 'action rest'; } |
        awk '{ print } NR % 10 == 0 { print "ask book" } NR % 300 == 0 { print "sell book" } { fflush() }' |
        tee "$2" | "${DOQS:-doqs}" live "$1" > "$3"
    echo "a day of $(wc -l < "$2") lines, of which $(grep -c '^fault' "$3") have a fault"
fi
[ $# -ge 3 ] || { sed -n '5,6s/^# \{0,1\}//p' "$0" >&2; exit 2; }
market=$1 log=$2 written=$3 script=/dev/null order=
shift 3
for word in "$@"; do
    case $word in
        --order=*) order=$word ;;
        *) script=$word ;;
    esac
done

awk 'NF == 3 && $1 == "fault" && $3 != "unclosed" { print $2 "d" }' "$written" > "$work/faults"
{ cat "$script"; echo; LC_ALL=C sed -f "$work/faults" "$log"; echo; } > "$work/script"
! grep -q '^fault [0-9]* unclosed$' "$written" || echo end >> "$work/script"
# (no other line has so few words: one of an object has four at least, a refused command begins with `refused`)
grep -v -e '^ready [0-9]*$' -e '^fault [0-9]* [a-z]*$' "$written" > "$work/shown" || true
"${DOQS:-doqs}" run "$market" "$work/script" $order > "$work/replayed"
cmp "$work/shown" "$work/replayed" && echo "the same: $(wc -l < "$work/replayed") lines"
