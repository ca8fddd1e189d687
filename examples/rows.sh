#!/usr/bin/env bash
# Prints the examples that have a market as test cases of crates/script_vectors/data/examples, which CI runs too:
#
#   examples/rows.sh > crates/script_vectors/data/examples
set -euo pipefail
cd "$(dirname "$0")/.."
export LC_ALL=C
between=
for script in examples/*/script.txt examples/stale/*/script.txt; do
    folder=${script%/script.txt}
    [ -e "$folder/market.toml" ] || continue
    printf '%s# %s\nrun market.toml script.txt\n' "$between" "$folder"
    for file in market.toml fixings.csv quotes.csv script.txt; do
        if [ -e "$folder/$file" ]; then
            printf -- '-- %s\n' "$file"
            cat "$folder/$file"
        fi
    done
    printf -- '-- shown\n'
    cat "$folder/transcript.txt"
    between=$'==\n'
done
