/* An example, outside the gate and outside the proofs: a book is asked for while a quote moves.
 *
 *     main MARKET BOOK QUOTE VALUE..      values in units of 10^-9; the tables that the market names are read as seen from here */
#include "doqsheley.h"

#include <inttypes.h>
#include <stdio.h>
#include <stdlib.h>
#include <string.h>

static desk_bytes text_of(const char *text) { return (desk_bytes){text, strlen(text)}; }

/* The bytes of a file of at most 8 MiB. */
static desk_bytes read_file(const char *path) {
    size_t most = 8u << 20;
    FILE *file = *path ? fopen(path, "rb") : NULL;
    char *bytes = file ? malloc(most) : NULL;
    size_t length = bytes ? fread(bytes, 1, most, file) : 0;
    if (file) fclose(file);
    return (desk_bytes){bytes, length};
}

/* Shows the line of an ask, and the price by its numbers. */
static void show(desk *d, const char *name) {
    char line[4096];
    desk_price price;
    uint32_t ended = desk_ask(d, text_of(name), &price);
    size_t size = desk_text(d, 0, (desk_room){line, sizeof line});
    fwrite(line, 1, size < sizeof line ? size : sizeof line, stdout);
    if (ended == DESK_DONE && price.high == 0)
        printf("# %" PRId64 " units of 10^-6, %" PRIu64 " computations\n", price.low, price.runs);
}

int main(int count, char **words) {
    char message[80] = {0}, paths[2][4096] = {{0}, {0}};
    uint32_t named = 0;
    size_t sizes[2] = {0, 0};
    desk_fault fault = {0, 0, 0};
    desk d = {0};
    if (count < 4) return DESK_USAGE;
    desk_bytes market = read_file(words[1]);
    uint32_t ended = desk_tables(market, &named, (desk_room){paths[0], 4095}, &sizes[0], (desk_room){paths[1], 4095}, &sizes[1],
                                 (desk_room){message, 79}, &fault);
    desk_bytes quotes = read_file(paths[0]), fixings = read_file(paths[1]);
    if (ended == DESK_DONE)
        ended = desk_open(&d, market, quotes, fixings, text_of(""), DESK_FIRST, 0, (desk_room){message, 79}, &fault);
    free((void *)market.bytes);
    free((void *)quotes.bytes);
    free((void *)fixings.bytes);
    fputs(message, stderr);
    if (ended != DESK_DONE) return (int)ended;
    show(&d, words[2]);
    for (int i = 4; i < count; i++)
        if (desk_set(&d, text_of(words[3]), strtoll(words[i], NULL, 10)) == DESK_DONE)
            show(&d, words[2]);
    desk_close(&d);
    return 0;
}
