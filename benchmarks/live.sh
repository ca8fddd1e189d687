#!/usr/bin/env bash
# `doqs live` on a real pipe, by the built program or by the one named in DOQS:
#
#   (cd crates/doqs && rt run)     # builds the program
#   benchmarks/live.sh [PAIRS]     # a million, or so many
#
# It counts what a pair of `set` and `ask` takes beside `doqs run` on the same lines, in instructions (callgrind), and what it has of
# memory over so many pairs; times a line up to its `ready`, from a client in C, beside an echo in C; and sees how a session goes where lines
# come byte by byte, where the reader stops for a while or goes away, where a writer is killed in the middle of a line, where standard output
# is full or standard input is no file that can be read, and where each allocation in turn is refused. Fails where a bound or an ending is
# missed. Instructions and memory are those of the program whatever else the machine does; the times are not. The gate runs none of this.
# It needs cc, valgrind and Python 3.8 or later.
set -euo pipefail
top=$(realpath "$(dirname "$0")/..")
export DOQS=$(realpath "${DOQS:-$top/crates/doqs/out/doqs}")
work=$(mktemp -d)
trap 'rm -rf "$work"' EXIT
cd "$work"
cat > echo.c <<'C'
#include <unistd.h>
int main(void) {
    static char room[65536];
    for (ssize_t got; (got = read(0, room, sizeof room)) > 0;)
        if (write(1, room, got) != got) return 1;
    return 0;
}
C
# Writes each line of a file to a program, waits for the end of its answer, and prints the microseconds of the middle one, of the 99th of a
# hundred, and of the longest.
cat > client.c <<'C'
#include <stdio.h>
#include <stdlib.h>
#include <string.h>
#include <sys/wait.h>
#include <time.h>
#include <unistd.h>
static int by_size(const void *a, const void *b) { return (*(double *)a > *(double *)b) - (*(double *)a < *(double *)b); }
static double now(void) {
    struct timespec at;
    clock_gettime(CLOCK_MONOTONIC, &at);
    return at.tv_sec * 1e6 + at.tv_nsec / 1e3;
}
/* Whether an answer is whole: it ends with a newline, and its last line begins with the mark. */
static int is_whole(const char *text, size_t length, const char *mark) {
    if (!length || text[length - 1] != '\n') return 0;
    size_t at = length - 1;
    while (at && text[at - 1] != '\n') at--;
    return !strncmp(text + at, mark, strlen(mark));
}
int main(int count, char **words) { /* FILE MARK PROGRAM WORDS.. */
    static char line[65536], answer[1 << 20];
    static double times[1 << 20];
    int to[2], from[2], at = 0;
    FILE *lines = fopen(words[1], "r");
    if (count < 4 || !lines || pipe(to) || pipe(from)) return 1;
    pid_t child = fork();
    if (!child) {
        dup2(to[0], 0), dup2(from[1], 1);
        close(to[0]), close(to[1]), close(from[0]), close(from[1]);
        execv(words[3], words + 3);
        _exit(127);
    }
    close(to[0]), close(from[1]);
    while (fgets(line, sizeof line, lines)) {
        size_t length = strlen(line), have = 0;
        double begun = now();
        if (write(to[1], line, length) != (ssize_t)length) return 1;
        while (!is_whole(answer, have, words[2])) {
            ssize_t got = read(from[0], answer + have, sizeof answer - have);
            if (got <= 0) return 1;
            have += got;
        }
        times[at++] = now() - begun;
    }
    int status;
    close(to[1]);
    waitpid(child, &status, 0);
    qsort(times, at, sizeof *times, by_size);
    printf("%.1f %.1f %.1f\n", times[at / 2], times[at * 99 / 100], times[at - 1]);
    return status != 0;
}
C
cc -O2 -o echo echo.c
cc -O2 -o client client.c
sed -n '/^cat > refuse.c/,/^C$/p' "$top/checks/refused_allocations" | sed '1d;$d' > refuse.c
cc -O1 -shared -fPIC -o refuse.so refuse.c
python3 - "${1:-1000000}" <<'RUN'
import os
import re
import signal
import subprocess
import sys
import threading
import time
from subprocess import PIPE

PAIRS = int(sys.argv[1])
DOQS = os.environ["DOQS"]
LIVE = [DOQS, "live", "market"]
BEGUN = b"quote q 1\nstock s q\n"
open("market", "w").write('version = 1\ntoday = "2024-01-02"\n')
missed = []


def check(what, holds):
    print(("" if holds else "MISSED: ") + what, flush=True)
    missed.extend([] if holds else [what])


def pairs(count):
    return BEGUN + b"".join(b"set q %d.5\nask s\n" % (k % 1000) for k in range(count))


def piped(words, text, **how):
    return subprocess.run(words, input=text, stdout=PIPE, stderr=PIPE, **how)


def instructions(words, text):
    done = piped(["valgrind", "--tool=callgrind", "--callgrind-out-file=/dev/null", *words], text)
    return int(re.search(rb"Collected : (\d+)", done.stderr).group(1))


def script(count):
    with open("script", "wb") as file:
        file.write(pairs(count))
    return [DOQS, "run", "market", "script"]


def opened(*words, **how):
    return subprocess.Popen([*LIVE, *words], **{"stdin": PIPE, "stdout": PIPE, "stderr": PIPE, "bufsize": 0, **how})


def given(child, text):
    """Writes a text to a program from a thread of its own."""
    def write():
        view = memoryview(text)
        while view:
            view = view[os.write(child.stdin.fileno(), view[:1 << 16]):]
    thread = threading.Thread(target=write)
    thread.start()
    return thread


def read_up_to(child, end):
    """What a program writes, up to this end of it."""
    got = bytearray()
    while not got.endswith(end):
        piece = os.read(child.stdout.fileno(), 1 << 16)
        if not piece:
            break
        got += piece
    return bytes(got)


def held(child):
    """KiB of addresses that a program had at most so far, and KiB of memory of its own that it has. What it has of the pages of files, as
    its own, is the system's choice, and differs from call to call."""
    told = open(f"/proc/{child.pid}/status").read()
    return tuple(int(re.search(rf"{it}:\s*(\d+)", told).group(1)) for it in ("VmPeak", "RssAnon"))


def held_over(count):
    """The same of a session over so many pairs."""
    child = opened("--ready")
    writer = given(child, pairs(count))
    read_up_to(child, b"\nready %d\n" % (2 * count + 2))
    writer.join()
    most = held(child)
    child.stdin.close()
    child.wait()
    return most


def is_within(many, few):
    return all(a <= b + 64 for a, b in zip(many, few))


# What a pair takes.
most = min(PAIRS, 50_000)  # a script has 8 MiB at most, and callgrind takes its time
live = (instructions(LIVE, pairs(most)) - instructions(LIVE, BEGUN)) / most
desk = (instructions(script(most), b"") - instructions(script(0), b"")) / most
check(f"a pair takes {live:.0f} instructions, and {desk:.0f} in `doqs run`: {live / desk:.3f} times as many, at most 1.15", live <= 1.15 * desk)
check(f"the same bytes as `doqs run` for {most} pairs", piped(LIVE, pairs(most)).stdout == piped(script(most), b"").stdout)
begun = time.perf_counter()
whole = piped(LIVE, pairs(PAIRS))
took = time.perf_counter() - begun
check(f"{PAIRS} pairs through a pipe took {took:.2f} s, and wrote {PAIRS} lines", whole.returncode == 0 and whole.stdout.count(b"\n") == PAIRS)
few, many = held_over(1000), held_over(PAIRS)
check(f"over {PAIRS} pairs it has {many[0]} KiB of addresses at most, and {many[1]} KiB of its own; over 1000 {few[0]} and {few[1]}: within 64 KiB",
      is_within(many, few))

# How long a line waits.
lines = [b"set q %d\n" % k if k % 2 else b"ask s\n" for k in range(40_000)]
with open("lines", "wb") as file:
    file.write(BEGUN + b"".join(lines))
answered = subprocess.run(["./client", "lines", "ready ", *LIVE, "--ready"], stdout=PIPE, check=True).stdout.split()
echoed = subprocess.run(["./client", "lines", "", "./echo"], stdout=PIPE, check=True).stdout.split()
print("a line is answered in %s us (p50), %s us (p99); an echo in C takes %s us, %s us" % tuple(it.decode() for it in (*answered[:2], *echoed[:2])))

# How it goes.
some = pairs(300)
want = piped([*LIVE, "--ready"], some).stdout
child = opened("--ready")
for byte in some[:-1]:
    os.write(child.stdin.fileno(), bytes([byte]))
got = read_up_to(child, b"\nready 601\n")
os.write(child.stdin.fileno(), some[-1:])
check("byte by byte: the same bytes, and a line is answered before its successor is whole", got + read_up_to(child, b"\nready 602\n") == want)
child.stdin.close()
check("the end of input: status 0", child.wait() == 0)

child = opened()
os.write(child.stdin.fileno(), BEGUN + b"ask s\n")
first = read_up_to(child, b"\n")
os.write(child.stdin.fileno(), b"set q 2\nask")
time.sleep(0.2)
os.set_blocking(child.stdout.fileno(), False)
half = child.stdout.read()
os.set_blocking(child.stdout.fileno(), True)
os.write(child.stdin.fileno(), b" s\n")
check("a line is answered without a further one, and half a line is no line",
      (first, half, read_up_to(child, b"\n")) == (b"s 1.000000 fresh 1\n", None, b"s 2.000000 fresh 1\n"))
child.stdin.close()
child.wait()

count = 100_000
child = opened()
writer = given(child, pairs(count) + b"ask nobody\n")
time.sleep(1)
stopped, before = writer.is_alive(), held(child)
got = read_up_to(child, b"refused ask unknown nobody\n")
writer.join()
check(f"a reader stops for a second: the writer waits too, {before[1]} KiB are held, and then all lines come",
      stopped and got.count(b"\n") == count + 1 and is_within(before, few) and is_within(held(child), few))
child.stdin.close()
child.wait()

child = opened()
child.stdout.close()
try:
    child.stdin.write(pairs(1000))
    child.stdin.close()
except BrokenPipeError:
    pass
said, ended = child.stderr.read(), child.wait()
how = f"status {ended}" if ended >= 0 else f"the signal {-ended}"
check(f"the reader goes away: {how}, and the line {said!r}", (ended, said) in ((6, b"doqs live: write fault\n"), (-signal.SIGPIPE, b"")))

child = opened("--ready")
writer = subprocess.Popen(["sh", "-c", "printf 'quote q 1\\nstock s q\\nask s\\nask'; sleep 60"], stdout=child.stdin)
child.stdin.close()
got = read_up_to(child, b"ready 3\n")
writer.kill()
got += child.stdout.read()
check("a writer is killed in the middle of a line: the part is the last line", got.endswith(b"ready 3\nfault 4 count\nready 4\n") and child.wait() == 0)
writer.wait()

with open("/dev/full", "wb") as full:
    done = subprocess.run(LIVE, input=pairs(10), stdout=full, stderr=PIPE)
check("standard output is full: status 6", (done.returncode, done.stderr) == (6, b"doqs live: write fault\n"))
with open("/dev/null", "wb") as none:  # (open for writing alone)
    done = subprocess.run(LIVE, stdin=none, stdout=PIPE, stderr=PIPE)
check("standard input cannot be read: status 5", (done.returncode, done.stderr) == (5, b"doqs live: read fault\n"))

short = BEGUN + b"action a\nask s\nend\nwatch w a\nregister w s\nset q 2\nask s\nsell\n" + b"x" * 65_540 + b"\naction b\nask s"
open("script", "wb").write(b"quote r 1\nstock t r\nask t\n")
words = [*LIVE, "script", "--ready"]
want = piped(words, short).stdout
env = dict(os.environ, LD_PRELOAD=os.path.abspath("refuse.so"), COUNT=os.path.abspath("count"))
whole = piped(words, short, env=env)
count = int(open("count").read())
ends = [piped(words, short, env=dict(env, NTH=str(nth))) for nth in range(1, count + 1)]
sevens = sum(it.returncode == 7 for it in ends)
check(f"each of {count} allocations is refused in turn: {sevens} runs ended with status 7 and a front of the answers, the others whole",
      whole.stdout == want and sevens > count // 2 and all(
          (it.returncode == 7 and want.startswith(it.stdout) and it.stderr in (b"doqs live: no memory\n", b"doqs: no memory\n"))
          or (it.returncode == 0 and it.stdout == want) for it in ends))
sys.exit(1 if missed else 0)
RUN
