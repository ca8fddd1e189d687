#!/usr/bin/env bash
# Tries how the program `desk` ends: files that are not there or cannot be read, files that are too
# long, outputs that take nothing, words that ask for nothing. Prints a line a case, with the exit status and what stands on
# standard error, and fails where one is not as expected. It works in a folder of its own.
#
#   examples/system_answers.sh              # by the proved `desk` where it is built, else by the unverified build (tools/try)
#   examples/system_answers.sh PROGRAM
set -euo pipefail
desk=$(realpath -m "${1:-$("$(dirname "$0")/../tools/try" --path desk)}")
[ -x "$desk" ] || { echo "system_answers.sh: $desk is no program" >&2; exit 2; }
work=$(mktemp -d)
trap 'rm -rf "$work"' EXIT
cd "$work"
differ=0

# A case: what it tries, the status, the line on standard error and the output that are expected, then the words. The output
# goes to the file that OUT names, and is compared where that is the usual one.
try() {
    local title=$1 status=$2 line=$3 output=$4 got=0
    shift 4
    rm -f out
    "$desk" "$@" > "${OUT:-out}" 2> err || got=$?
    local said as=as
    said=$(cat err)
    if [ "$got" != "$status" ] || [ "$said" != "$line" ] || { [ -z "${OUT:-}" ] && [ "$(cat out)" != "$output" ]; }; then
        as="NOT AS"
        differ=$((differ + 1))
    fi
    printf '%-48s %s  %-32s %s expected\n' "$title" "$got" "$said" "$as"
}

printf 'version = 1\ntoday = "2024-01-02"\n' > two
printf 'quote q 1.5\nstock s q\nask s\n' > script
: > nothing
mkdir folder
line='s 1.500000 fresh 1'

# A market of the two lines and these keys.
market() {
    cat two
    printf '%s\n' "$@"
}

try 'no words' 2 'desk: usage' ''
try '--help' 2 'desk: usage' '' --help
try 'help' 2 'desk: usage' '' help
try 'a word too few' 2 'desk: usage' '' run two
try 'a word too many' 2 'desk: usage' '' run two script script
try 'an empty path' 2 'desk: usage' '' run two ''
try 'a path that begins with -' 2 'desk: usage' '' run two -script
try 'a word that is no UTF-8' 2 'desk: usage' '' run two $'s\xff'
try 'a run' 0 '' "$line" run two script
try 'a check' 0 '' 'market ok objects 0 fixings 0' check two
try 'a check with a script' 2 'desk: usage' '' check two script
try 'a run in an order' 0 '' "$line" run two --order=last script
try 'an order that is none' 2 'desk: usage' '' run two script --order 01
try 'an order that is too large' 2 'desk: usage' '' run two script --order 18446744073709551616
try 'two orders' 2 'desk: usage' '' run --order first two script --order=last

try 'a load' 0 '' 'load 2 lines 2 bytes 40
c2 7.000000 fresh 3' load 2
try 'a load of nothing' 2 'desk: usage' '' load 0
try 'a load that is too large' 2 'desk: usage' '' load 1001

try 'no market' 8 'desk: no file market' '' run none script
try 'a market that is a folder' 5 'desk: read fault' '' run folder script
try 'a market through a file' 5 'desk: read fault' '' run two/market script
try 'a market that opens and cannot be read' 5 'desk: read fault' '' run /proc/self/mem script
if [ "$(id -u)" != 0 ]; then
    market > locked && chmod 000 locked
    try 'a market that may not be read' 5 'desk: read fault' '' run locked script
fi
try 'a market of no bytes' 3 'desk: market top 0 key' '' run nothing script
try 'a market without end' 3 'desk: market top 0 toolong' '' run /dev/zero script
head -c 8388608 /dev/zero | tr '\0' '#' > long
try 'a market of 8 MiB' 3 'desk: market top 0 key' '' run long script
printf '#' >> long
try 'a market of a byte more' 3 'desk: market top 0 toolong' '' run long script

market 'quotes = "none"' > m
try 'no quotes' 8 'desk: no file quotes' '' run m script
market 'quotes = "folder"' > m
try 'quotes that are a folder' 5 'desk: read fault' '' run m script
market 'quotes = "two/quotes"' > m
try 'quotes through a file' 5 'desk: read fault' '' run m script
market 'quotes = "nothing"' > m
try 'quotes of no bytes' 3 'desk: market quotes 0 header' '' run m script
market 'quotes = "long"' 'fixings = "none"' > m
try 'quotes that are too long, and no fixings' 3 'desk: market quotes 0 toolong' '' run m script
market 'fixings = "none"' > m
try 'no fixings' 8 'desk: no file fixings' '' run m script
market 'fixings = "folder/none"' > m
try 'no fixings in a folder that is there' 8 'desk: no file fixings' '' check m
market 'fixings = "long"' > m
try 'fixings that are too long' 3 'desk: market fixings 0 toolong' '' run m script
{ printf 'name,value\n'; seq -f 'n%g,1' 4095; } > most
market 'quotes = "most"' > m
try 'as many quotes as a session has objects' 0 '' 'market ok objects 4095 fixings 0' check m
try 'a command that makes one more' 0 '' 'refused quote toomany
refused stock unknown q
refused ask unknown s' run m script
printf 'n4096,1\n' >> most
try 'a quote more' 3 'desk: market quotes 4096 limit' '' check m

try 'no script' 8 'desk: no file script' '' run two none
try 'a script that is a folder' 5 'desk: read fault' '' run two folder
try 'a script of no bytes' 0 '' '' run two nothing
try 'a script without end' 4 'desk: script 0 toolong' '' run two /dev/zero
try 'a script that is too long' 4 'desk: script 0 toolong' '' run two long
try 'a faulty script' 4 'desk: script 1 word' '' run two most

OUT=/dev/full try 'a run, and a full device' 6 'desk: write fault' '' run two script
printf 'quote q 1\nstock s q\naction a\nask s\nset q 2\nset q 3\nend\nwatch w a\nregister w q\nset q 4\n' > watched
OUT=/dev/full try 'a round of many lines, and a full device' 6 'desk: write fault' '' run two watched
OUT=/dev/full try 'a load, and a full device' 6 'desk: write fault' '' load 2
OUT=/dev/full try 'a check, and a full device' 6 'desk: write fault' '' check two
OUT=/dev/full try 'a script that writes nothing, and a full device' 0 '' '' run two nothing
OUT=/dev/full try 'a faulty script, and a full device' 4 'desk: script 1 word' '' run two most

echo "$differ not as expected"
[ "$differ" = 0 ]
