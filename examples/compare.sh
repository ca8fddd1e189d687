#!/usr/bin/env bash
# Runs each example that has a market, in its folder, and compares the output with transcript.txt; then compares the test cases of
# crates/script_vectors/data/examples with the examples. It ends with 1 where something differs.
#
#   examples/compare.sh              # by the proved `desk` where it is built, else by the unverified build (tools/try)
#   examples/compare.sh PROGRAM      # by this `desk` or `doqs`
set -euo pipefail
cd "$(dirname "$0")/.."
program=$(realpath -m "${1:-$(tools/try --path desk)}")
[ -x "$program" ] || { echo "compare.sh: $program is no program" >&2; exit 2; }
agree=0 differ=0
for script in examples/*/script.txt examples/stale/*/script.txt; do
    folder=${script%/script.txt}
    [ -e "$folder/market.toml" ] || continue
    if (cd "$folder" && "$program" run market.toml script.txt) | cmp -s - "$folder/transcript.txt"; then
        agree=$((agree + 1))
    else
        differ=$((differ + 1))
        echo "$folder: this differs"
    fi
done
if ! examples/rows.sh | cmp -s - crates/script_vectors/data/examples; then
    differ=$((differ + 1))
    echo "crates/script_vectors/data/examples: not what examples/rows.sh prints"
fi
echo "$agree agree, $differ differ"
[ "$differ" = 0 ]
