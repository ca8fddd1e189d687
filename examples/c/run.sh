#!/usr/bin/env bash
# A session in a C program, by the library as the gate builds it:
#
#   (cd crates/desk_c && rt lib); (cd crates/doqs && rt run)     # prove and build
#   examples/c/run.sh                                            # or DESK_C_LIB=.. DOQS=.. examples/c/run.sh
#
# It runs the example under valgrind, linked with the static library and with the shared one. It takes the steps of answers.txt, whose
# numbers and texts come from the second implementation. It runs a session in each of four threads, also under helgrind, which looks for
# data that they share. It refuses each allocation of a session in turn, and does that under valgrind
# too, for a shorter one. It times a pair of `set` and `ask`. It fails where one of these fails; the times are those of this machine. The
# gate runs it by checks/c_library. DESK_C_LINK has the words to link the library with, where these are not the kit's. It needs cc and valgrind.
set -euo pipefail
here=$(realpath "$(dirname "$0")")
top=$(realpath "$here/../..")
kit=$(dirname "$(dirname "$(realpath "$(command -v rt || echo /none/none/rt)")")")
lib=$(realpath "${DESK_C_LIB:-$top/crates/desk_c/out/libdesk_c.a}")
more=(${DESK_C_LINK:-"$kit/c/liblibc_c.a"})
libs=("$lib" "${more[@]}")
DOQS=$(realpath "${DOQS:-$top/crates/doqs/out/doqs}")
work=$(mktemp -d)
trap 'rm -rf "$work"' EXIT
cd "$top/examples/desk"
flags=(-std=c11 -O2 -Wall -Wextra -I"$here")
cc "${flags[@]}" "$here/main.c" "${libs[@]}" -o "$work/main"
cc "${flags[@]}" "$here/answers.c" "${libs[@]}" -o "$work/answers"
cc "${flags[@]}" -D_POSIX_C_SOURCE=200809L -Wl,--wrap=malloc,--wrap=realloc "$here/trial.c" "${libs[@]}" -o "$work/trial"
cc "${flags[@]}" -D_POSIX_C_SOURCE=200809L "$here/pairs.c" "${libs[@]}" -o "$work/pairs"
cc "${flags[@]}" -pthread "$here/threads.c" "${libs[@]}" -o "$work/threads"
cc -shared -o "$work/libdoqsheley.so.0" -Wl,-soname,libdoqsheley.so.0 -Wl,--version-script,"$here/doqsheley.map" \
    -Wl,--whole-archive "$lib" -Wl,--no-whole-archive "${more[@]}"
ln -s libdoqsheley.so.0 "$work/libdoqsheley.so"
cc "${flags[@]}" "$here/main.c" -L"$work" -ldoqsheley -Wl,-rpath,"$work" -o "$work/shared"
files=(market.toml quotes.csv fixings.csv)
sound=(valgrind -q --leak-check=full --show-leak-kinds=all --errors-for-leak-kinds=all --error-exitcode=99)

"${sound[@]}" "$work/main" "${files[0]}" book s5 25300000 25400000 > "$work/told"
printf 'ask book\nset s5 0.0253\nask book\nset s5 0.0254\nask book\n' > "$work/script"
"$DOQS" run "${files[0]}" "$work/script" | cmp - <(grep -v '^#' "$work/told") || { echo "the example shows other lines than doqs run"; exit 1; }
"$work/shared" "${files[0]}" book s5 25300000 25400000 | cmp - "$work/told" || { echo "the shared library shows other lines"; exit 1; }
exported=$(nm -D --defined-only "$work/libdoqsheley.so.0" | awk '$2 == "T" { print $3 }' | grep -cv '^desk_c_' || true)
[ "$exported" = 0 ] || { echo "the shared library exports more than desk_c_*"; exit 1; }
echo "the example: no fault and no leak, and the same lines by the shared library"
"${sound[@]}" "$work/answers" "${files[@]}" "$here/answers.txt"
"$work/threads" "${files[@]}" 500
valgrind -q --tool=helgrind --error-exitcode=99 "$work/threads" "${files[@]}" 3 > "$work/told" || { cat "$work/told"; exit 1; }

"$work/trial" "${files[@]}" < "$here/steps.txt"
head -3 "$here/steps.txt" | "${sound[@]}" "$work/trial" ../one_deposit/market.toml ../one_deposit/quotes.csv -

printf 'a pair of set and ask, in C by desk_set and desk_ask: %s microseconds, by desk_say twice: %s\n' \
    $("$work/pairs" ../one_deposit/market.toml ../one_deposit/quotes.csv)
