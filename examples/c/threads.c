/* An example, outside the gate and outside the proofs: a session in each of four threads.
 *
 *     threads MARKET QUOTES FIXINGS PAIRS        asks the book of the example desk in each thread, while the five-year rate moves
 *
 * Each thread has the results of a session alone, or the program ends with 1. */
#include "doqsheley.h"

#include <pthread.h>
#include <stdio.h>
#include <stdlib.h>
#include <string.h>

enum { THREADS = 4 };

static desk_bytes texts[3];
static int pairs;

static desk_bytes text_of(const char *text) { return (desk_bytes){text, strlen(text)}; }

static desk_bytes read_file(const char *path) {
    size_t most = 1u << 20;
    FILE *file = fopen(path, "rb");
    char *bytes = file ? malloc(most) : NULL;
    size_t length = bytes ? fread(bytes, 1, most, file) : 0;
    if (file) fclose(file);
    return (desk_bytes){bytes, length};
}

/* The sum of the prices of the book, in a session of its own: 0 where it does not open. */
static void *work(void *first) {
    int64_t units = 25000000 + 1000 * *(int *)first, *sum = calloc(1, sizeof *sum);
    char message[80];
    desk d = {0};
    desk_price price;
    if (sum && desk_open(&d, texts[0], texts[1], texts[2], text_of(""), DESK_FIRST, 0, (desk_room){message, sizeof message}, NULL) == DESK_DONE)
        for (int i = 0; i < pairs; i++)
            if (desk_set(&d, text_of("s5"), units + i * 100) == DESK_DONE && desk_ask(&d, text_of("book"), &price) == DESK_DONE)
                *sum += price.low % 1000003 * (i + 1);
    desk_close(&d);
    return sum;
}

int main(int count, char **words) {
    pthread_t threads[THREADS];
    int firsts[THREADS], failed = 0;
    if (count < 5) return DESK_USAGE;
    for (int i = 0; i < 3; i++) texts[i] = read_file(words[i + 1]);
    pairs = atoi(words[4]);
    for (int i = 0; i < THREADS; i++) {
        firsts[i] = i;
        if (pthread_create(&threads[i], NULL, work, &firsts[i])) return 1;
    }
    for (int i = 0; i < THREADS; i++) {
        void *together = NULL, *alone = NULL;
        pthread_join(threads[i], &together);
        alone = work(&firsts[i]);
        failed += !together || !alone || !*(int64_t *)alone || *(int64_t *)together != *(int64_t *)alone;
        free(together);
        free(alone);
    }
    for (int i = 0; i < 3; i++) free((void *)texts[i].bytes);
    printf("%d threads with a session each: %s\n", THREADS, failed ? "other results than alone" : "the results of each alone");
    return failed != 0;
}
