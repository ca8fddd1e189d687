#!/usr/bin/env bash
# An example, outside the proofs: the board of the example desk, with a tick each half second.
#
#   examples/live/board/run.sh [--port PORT] [--log FILE] ..
set -euo pipefail
here=$(cd "$(dirname "$0")" && pwd)
cd "$here/../../desk"
export PATH="$here/../../../crates/doqs/out:$PATH" # clone
"$here/../ticks.py" quotes.csv 100000 0.5 | "$here/board.py" market.toml "$@"
