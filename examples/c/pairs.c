/* An example, outside the gate and outside the proofs: what a pair of set and ask takes, a stock that stands on one quote.
 *
 *     pairs MARKET QUOTES        writes the microseconds of a pair by desk_set and desk_ask, and of one by desk_say twice */
#include "doqsheley.h"

#include <stdio.h>
#include <string.h>
#include <time.h>

static char market[1 << 20], quotes[1 << 20], out[4096];

static desk_bytes bytes_of(const char *text) { return (desk_bytes){text, strlen(text)}; }

static desk_bytes read_file(const char *path, char *room) {
    FILE *file = fopen(path, "rb");
    size_t length = file ? fread(room, 1, 1 << 20, file) : 0;
    if (file) fclose(file);
    return (desk_bytes){room, length};
}

static double now(void) {
    struct timespec at;
    clock_gettime(CLOCK_MONOTONIC, &at);
    return (double)at.tv_sec * 1e6 + (double)at.tv_nsec / 1e3;
}

static uint32_t say(desk *d, const char *line) {
    size_t size = 0;
    return desk_say(d, bytes_of(line), (desk_room){out, sizeof out}, &size);
}

int main(int count, char **words) {
    enum { PAIRS = 1000000 };
    desk d = {0};
    desk_price price = {0, 0, 0, 0};
    if (count != 3 || desk_open(&d, read_file(words[1], market), read_file(words[2], quotes), bytes_of(""), bytes_of(""), DESK_FIRST, 0,
                                (desk_room){NULL, 0}, NULL))
        return 1;
    if (say(&d, "quote q 1") || say(&d, "stock t q"))
        return 2;
    double began = now();
    for (int64_t i = 0; i < PAIRS; i++)
        if (desk_set(&d, bytes_of("q"), i * 1000) || desk_ask(&d, bytes_of("t"), &price) || price.low != i)
            return 3;
    double middle = now();
    for (int i = 0; i < PAIRS; i++)
        if (say(&d, i % 2 ? "set q 1" : "set q 2") || say(&d, "ask t"))
            return 4;
    double ended = now();
    desk_close(&d);
    printf("%.2f %.2f\n", (middle - began) / PAIRS, (ended - middle) / PAIRS);
    return 0;
}
