#!/usr/bin/env bash
# Sends ticks and asks to `doqs live`, by the built program or by the one that is given: 10,000 lines and then
# 1,000,000, and compares the most bytes of heap that each of the two runs held. Fails where the second held more.
#
#   (cd crates/doqs && rt run)     # proves and builds the program
#   benchmarks/live_ticks.sh [PROGRAM]
set -euo pipefail
here=$(cd "$(dirname "$0")/.." && pwd)
program=$(realpath "${1:-$here/crates/doqs/out/doqs}")
work=$(mktemp -d)
trap 'rm -rf "$work"' EXIT
cp "$here/crates/script_vectors/data/market.toml" "$here/crates/script_vectors/data/quotes.csv" "$work"
cd "$work"
python3 - > lines <<'MAKE'
print("action a\nask book\nend\nwatch clerk a\nregister clerk rate")
for k in range(331):
    print(f"set share {12 + k % 7}.{k}\nask acme\nset rate 0.03{k}")
print("action a\nfoo")
MAKE
cat > held.c <<'C'
#define _GNU_SOURCE
#include <errno.h>
#include <malloc.h>
#include <stdio.h>
#include <stdlib.h>
extern void *__libc_malloc(size_t);
extern void *__libc_calloc(size_t, size_t);
extern void *__libc_realloc(void *, size_t);
extern void *__libc_memalign(size_t, size_t);
extern void __libc_free(void *);
static size_t held, most;
static void *kept(void *at) {
    if (at) held += malloc_usable_size(at);
    if (held > most) most = held;
    return at;
}
void free(void *at) {
    if (at) held -= malloc_usable_size(at);
    __libc_free(at);
}
void *malloc(size_t bytes) { return kept(__libc_malloc(bytes)); }
void *calloc(size_t count, size_t bytes) { return kept(__libc_calloc(count, bytes)); }
void *realloc(void *at, size_t bytes) {
    size_t old = at ? malloc_usable_size(at) : 0;
    void *found = __libc_realloc(at, bytes);
    if (found || !bytes) held -= old;
    return kept(found);
}
void *memalign(size_t to, size_t bytes) { return kept(__libc_memalign(to, bytes)); }
void *aligned_alloc(size_t to, size_t bytes) { return memalign(to, bytes); }
int posix_memalign(void **at, size_t to, size_t bytes) {
    void *found = memalign(to, bytes);
    if (!found) return ENOMEM;
    *at = found;
    return 0;
}
/* what the heap held at most, once the program ends */
__attribute__((destructor)) static void tell(void) { fprintf(stderr, "%zu %zu\n", most, held); }
C
cc -shared -fPIC -O1 -o held.so held.c

# The most bytes that the heap of a run held over so many times the lines; how many lines and bytes it wrote goes to standard error. A block
# stands open at the end, so it does not end with 0.
most() {
    for ((k = 0; k < $1; k++)); do cat lines; done > all
    LD_PRELOAD=./held.so "$program" live market.toml < all 2> held > said || true
    wc -lc said >&2
    tail -n 1 held | awk '{ print $1 }'
}

few=$(most 10) many=$(most 1000)
echo "10,000 lines: $few bytes of heap at most; 1,000,000 lines: $many bytes"
if (( few == 0 || many > few )); then
    echo "live_ticks.sh: memory grew, or none was counted" >&2
    exit 1
fi
