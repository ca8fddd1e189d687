#!/usr/bin/env bash
# Runs the pricing service of crates/tick_service on this folder's market and feed, or on those of the folder that is named, and compares
# what it answers with answers.txt.
#
#   (cd crates/tick_service && rt run -- data/two_lines.toml data/script)     # builds the program
#   examples/pricing_service/run.sh
set -euo pipefail
here=$(cd "$(dirname "$0")" && pwd)
service=$(realpath -m "$here/../../crates/tick_service/out/tick_service")
if [ ! -x "$service" ]; then
    echo "run.sh: $service is not built:" >&2
    echo "run.sh: (cd crates/tick_service && rt run -- data/two_lines.toml data/script) proves and builds it" >&2
    exit 2
fi
folder=${1:-$here}
for file in market.toml feed.txt answers.txt; do
    [ -f "$folder/$file" ] || { echo "run.sh: $folder has no $file" >&2; exit 2; }
done
cd "$folder"
"$service" market.toml feed.txt discounting rate | diff - answers.txt && echo "as answers.txt"
