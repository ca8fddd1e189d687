#!/usr/bin/env bash
# Counts the instructions of the built program, or of the one that is given, in a folder of its own. It checks no figure.
#
#   alone    a stock on a quote of its own is moved and asked 20,000 times
#   among    the same among 4,000 watchers that are registered with another quote, which nobody moves
#   told     that quote is moved once, and all of them run
#
# The instructions of making the objects are counted apart, and taken off.
#
#   cd crates/desk && rt run -- run data/market.toml data/script     # builds the program
#   benchmarks/idle_watchers.sh
set -euo pipefail
desk=$(realpath "${1:-$(dirname "$0")/../crates/desk/out/desk}")
work=$(mktemp -d)
trap 'rm -rf "$work"' EXIT
cd "$work"
printf 'version = 1\ntoday = "2024-01-02"\n' > market.toml
python3 - <<'MAKE'
made = "quote q 1\nquote r 1\nstock s q\nask s\naction a\nend\n"
watched = made + "".join(f"watch w{k} a\nregister w{k} r\n" for k in range(4000))
moves = "".join(f"set q {k + 2}\nask s\n" for k in range(20_000))
scripts = {"alone_made": made, "alone": made + moves, "among_made": watched, "among": watched + moves, "told": watched + "set r 2\n"}
for name, text in scripts.items():
    open(name, "w").write(text)
MAKE

# The instructions of a script's run.
count() {
    valgrind --tool=callgrind --callgrind-out-file="$1.calls" "$desk" run market.toml "$1" 2> "$1.log" > "$1.out"
    sed -n 's/.*Collected : \([0-9]*\).*/\1/p' "$1.log"
}

made=$(count alone_made) moved=$(count alone)
echo "alone: $(( (moved - made) / 20000 )) instructions a set and ask"
made=$(count among_made) moved=$(count among)
echo "among 4,000 watchers: $(( (moved - made) / 20000 )) instructions a set and ask"
echo "4,000 watchers told and run: $(( ($(count told) - made) / 4000 )) instructions a watcher"
