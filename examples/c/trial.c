/* An example, outside the gate and outside the proofs: each allocation of a session is refused in turn.
 *
 *     trial MARKET QUOTES FIXINGS < STEPS
 *
 * It is linked with -Wl,--wrap=malloc,--wrap=realloc. A step is a line that is said, `=NAME UNITS`, which sets a quote, `?NAME`,
 * which asks, or `~NAME DAY`, which asks for a discount factor. It plays all steps with ample memory; and then once for each N, until N are not made, with the Nth allocation refused.
 * What is said in docs/reference/c.md of want of memory must hold: else it tells where, and ends with 1. */
#include "doqsheley.h"

#include <stdio.h>
#include <stdlib.h>
#include <string.h>

void *__real_malloc(size_t size);
void *__real_realloc(void *at, size_t size);
void *__wrap_malloc(size_t size);
void *__wrap_realloc(void *at, size_t size);

/* How many allocations a session made, and which is refused: none where 0. */
static long made, refused;

void *__wrap_malloc(size_t size) { return ++made == refused ? NULL : __real_malloc(size); }
void *__wrap_realloc(void *at, size_t size) { return ++made == refused ? NULL : __real_realloc(at, size); }

enum { MOST_STEPS = 1000, MOST_TEXT = 1 << 16 };

/* What a step ended with, and what it wrote. */
typedef struct {
    uint32_t ended;
    size_t size;
    char *text;
} answer;

static char *steps[MOST_STEPS];
static answer known[MOST_STEPS];
static int count;
static char out[MOST_TEXT], earlier[MOST_TEXT];

static void check(bool holds, const char *what, int step) {
    if (holds)
        return;
    fprintf(stderr, "allocation %ld, step %d: %s\n", refused, step, what);
    exit(1);
}

static desk_bytes bytes_of(const char *text) { return (desk_bytes){text, strlen(text)}; }

static bool is_ask(const char *step) { return *step == '?' || *step == '~'; }

static answer take(desk *d, char *step) {
    answer it = {0, 0, out};
    desk_price price = {0, 0, 9, 0};
    if (*step == '=') {
        long before = made;
        char *number = strchr(step, ' ');
        it.ended = desk_set(d, (desk_bytes){step + 1, (size_t)(number - step - 1)}, strtoll(number, NULL, 10));
        check(made == before, "a quote was set, and memory was taken", 0);
    } else if (is_ask(step)) {
        char *day = strchr(step, ' ');
        desk_bytes name = {step + 1, day ? (size_t)(day - step - 1) : strlen(step + 1)};
        desk_factor factor = {0, 9, 0};
        size_t before = desk_text(d, 0, (desk_room){earlier, MOST_TEXT / 2});
        it.ended = day ? desk_df(d, name, (uint32_t)strtoul(day, NULL, 10), &factor) : desk_ask(d, name, &price);
        size_t size = desk_text(d, 0, (desk_room){out, MOST_TEXT / 2});
        check(it.ended != DESK_NO_MEMORY || size == 0, "an ask found no memory, and its text is not empty", 0);
        /* The text of an earlier ask, which has other counts where that was refused memory, stays. */
        if (it.ended == DESK_NO_NAME || it.ended == DESK_RANGE || it.ended == DESK_CLOSED) {
            check(size == before && !memcmp(out, earlier, size), "the text is not as it was", 0);
            size = 0;
        }
        it.size = size + (size_t)snprintf(out + size, MOST_TEXT / 2, "%lld %lld %u %llu %lld %u %llu", (long long)price.high,
                                          (long long)price.low, price.mark, (unsigned long long)price.runs, (long long)factor.units,
                                          factor.mark, (unsigned long long)factor.runs);
    } else {
        it.ended = desk_say(d, bytes_of(step), (desk_room){out, MOST_TEXT}, &it.size);
    }
    return it;
}

static bool is_known(answer it, int step) {
    return it.ended == known[step].ended && it.size == known[step].size && !memcmp(it.text, known[step].text, it.size);
}

static desk_bytes read_file(const char *path) {
    size_t most = 8u << 20;
    FILE *file = strcmp(path, "-") ? fopen(path, "rb") : NULL;
    char *bytes = __real_malloc(most);
    size_t length = file ? fread(bytes, 1, most, file) : 0;
    if (file)
        fclose(file);
    return (desk_bytes){bytes, length};
}

static uint32_t begin(desk *d, desk_bytes *texts) {
    char message[80] = {0};
    uint32_t ended = desk_open(d, texts[0], texts[1], texts[2], bytes_of(""), DESK_FIRST, 0, (desk_room){message, 79}, NULL);
    check(ended == DESK_DONE || !strcmp(message, "no memory") || !*message, message, 0);
    return ended;
}

/* Plays the steps, one of whose allocations is refused, and answers whether the session was stopped by it. */
static bool play(desk *d, desk_bytes *texts) {
    uint32_t ended = begin(d, texts);
    if (ended != DESK_DONE) {
        check(ended == DESK_NO_MEMORY, "it opens for another reason than memory", 0);
        check(desk_set(d, bytes_of("nobody"), 0) == DESK_CLOSED, "it holds a session that it did not open", 0);
        check(begin(d, texts) == DESK_DONE, "it does not open again", 0);
    }
    for (int step = 0; step < count; step++) {
        answer it = take(d, steps[step]);
        if (is_known(it, step))
            continue;
        check(it.ended == DESK_NO_MEMORY, "another answer", step);
        check(is_ask(steps[step]) || (it.size <= known[step].size && !memcmp(it.text, known[step].text, it.size)), "no front", step);
        it = take(d, steps[step]);
        if (it.ended == DESK_STOPPED) {
            check(!is_ask(steps[step]) && it.size == 0, "an ask is stopped, or something is written", step);
            check(take(d, "?nobody").ended == DESK_NO_NAME, "a stopped session does not answer", step);
            return true;
        }
        /* The second time an ask computes what is left. */
        check(is_ask(steps[step]) ? it.ended == known[step].ended : is_known(it, step), "another answer the second time", step);
    }
    return false;
}

int main(int words, char **word) {
    static char line[MOST_TEXT];
    desk d = {0};
    long tried = 0, stopped = 0;
    if (words != 4)
        return DESK_USAGE;
    desk_bytes texts[3] = {read_file(word[1]), read_file(word[2]), read_file(word[3])};
    check(begin(&d, texts) == DESK_DONE, "it does not open", 0);
    for (; count < MOST_STEPS && fgets(line, MOST_TEXT, stdin); count++) {
        line[strcspn(line, "\n")] = 0;
        steps[count] = strdup(line);
        known[count] = take(&d, steps[count]);
        known[count].text = memcpy(__real_malloc(known[count].size + 1), known[count].text, known[count].size);
    }
    desk_close(&d);
    check(desk_text(&d, 0, (desk_room){out, MOST_TEXT}) == 0 && take(&d, "ask x").ended == DESK_CLOSED, "it is not closed", 0);
    check(desk_say(NULL, bytes_of("x"), (desk_room){out, 1}, &(size_t){0}) == DESK_NULL, "no null handle", 0);
    check(desk_set(&d, (desk_bytes){NULL, 1}, 0) == DESK_NULL && desk_set(&d, (desk_bytes){NULL, 0}, 0) == DESK_CLOSED, "no null", 0);
    check(desk_set(&d, (desk_bytes){out, (size_t)-1}, 0) == DESK_NULL, "a length", 0);
    for (refused = 1;; refused++) {
        made = 0;
        stopped += play(&d, texts);
        if (made < refused)
            break;
        tried++;
        desk_close(&d);
        desk_close(&d);
    }
    desk_close(&d);
    printf("%d steps, %ld allocations refused in turn, %ld of them stopped the session\n", count, tried, stopped);
    for (int i = 0; i < 3; i++)
        free((void *)texts[i].bytes);
    for (; count--; free(known[count].text))
        free(steps[count]);
    return 0;
}
