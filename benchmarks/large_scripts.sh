#!/usr/bin/env bash
# Makes the two largest scripts that a run takes (8,388,608 bytes of asks; 65,535 new names beside `today`) in a folder of
# its own, runs the built program on them, and prints the seconds and the peak memory of each. It checks no figure.
#
#   cd crates/desk && rt run -- run data/market.toml data/script     # builds the program
#   benchmarks/large_scripts.sh
set -euo pipefail
desk=$(cd "$(dirname "$0")/.." && pwd)/crates/desk/out/desk
work=$(mktemp -d)
trap 'rm -rf "$work"' EXIT
cd "$work"
printf 'version = 1\ntoday = "2024-01-02"\n' > market.toml
python3 - <<'MAKE'
head = "quote q 1.5\nstock s q\n"
asks = head + "ask s\n" * ((8_388_608 - len(head)) // 6)
open("asks", "w").write(asks + "#" * (8_388_608 - len(asks)))
open("names", "w").write("".join(f"quote n{k} 1\n" for k in range(65_535)))
MAKE
for script in asks names; do
    /usr/bin/time -f "$script: %e s, %M KB" "$desk" run market.toml "$script" > "$script.out"
    wc -l < "$script.out"
done
