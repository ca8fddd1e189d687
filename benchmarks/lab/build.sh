#!/usr/bin/env bash
# Converts the sources, as tools/unverified does, and builds the lab's programs: rust/target/release/desk, with checked indices and little
# inlining, which counts within some 10 per cent of what a proved build counts. PLAIN=1 builds rust/plain/release/desk without checks,
# which counts 1 to 20 per cent less. Words are programs to build, where they are others than desk and desk_grid.
cd "$(dirname "$0")" && python3 ../../tools/unverified_parts/convert.py ../.. rust \
    'opt-level = 3' 'codegen-units = 1' 'lto = "fat"' 'debug = 1' 'panic = "abort"' 'overflow-checks = false' && cd rust || exit 1
export RUSTFLAGS="-Cllvm-args=-inline-threshold=100" CARGO_TARGET_DIR=target
[ -n "$PLAIN" ] && export RUSTFLAGS="--cfg plain" CARGO_TARGET_DIR=plain
[ $# = 0 ] && set -- desk desk_grid
cargo build --release --offline -q "${@/#/-p}" 2> ../build.log || { grep -E '^error' -A12 ../build.log | head -"${LINES_SHOWN:-60}"; exit 1; }
