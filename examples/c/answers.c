/* A test, outside the proofs: each step of answers.txt gives the status, the numbers and the text that stand there.
 *
 *     answers MARKET QUOTES FIXINGS answers.txt
 *
 * Statuses, marks and kinds are read by the header's names. It takes the steps by the header's functions, and then by those of the
 * library. It writes each difference, and ends with 1 where there is one. */
#include "doqsheley.h"

#include <inttypes.h>
#include <stdio.h>
#include <stdlib.h>
#include <string.h>

enum { MOST = 1 << 16 };

static struct {
    const char *name;
    long number;
} numbers[] = {
    {"DESK_DONE", DESK_DONE},           {"DESK_NO_NAME", DESK_NO_NAME},         {"DESK_REFUSED", DESK_REFUSED},
    {"DESK_RANGE", DESK_RANGE},         {"DESK_UNPRICED", DESK_UNPRICED},       {"DESK_NOT_MONEY", DESK_NOT_MONEY},
    {"DESK_NOT_CURVE", DESK_NOT_CURVE}, {"DESK_FRESH", DESK_FRESH},             {"DESK_FROZEN", DESK_FROZEN},
    {"DESK_LATE", DESK_LATE},           {"DESK_HELD", DESK_HELD},               {"DESK_TODAY", DESK_TODAY},
    {"DESK_QUOTE", DESK_QUOTE},         {"DESK_DERIVED", DESK_DERIVED},         {"DESK_QUOTE_HANDLE", DESK_QUOTE_HANDLE},
    {"DESK_CURVE", DESK_CURVE},         {"DESK_CURVE_HANDLE", DESK_CURVE_HANDLE}, {"DESK_INDEX", DESK_INDEX},
    {"DESK_ENGINE", DESK_ENGINE},       {"DESK_IMPLIED", DESK_IMPLIED},         {"DESK_STOCK", DESK_STOCK},
    {"DESK_COMPOSITE", DESK_COMPOSITE}, {"DESK_FLOWS", DESK_FLOWS},             {"DESK_WATCHER", DESK_WATCHER},
};

/* A word of answers.txt: a name of the header stands for its number. */
static const char *word_of(const char *word) {
    static char room[8][32];
    static int at;
    for (size_t i = 0; i < sizeof numbers / sizeof *numbers; i++)
        if (!strcmp(word, numbers[i].name)) {
            at = (at + 1) % 8;
            snprintf(room[at], sizeof room[at], "%ld", numbers[i].number);
            return room[at];
        }
    return word;
}

static bool by_library;
static char out[MOST];

static desk_bytes text_of(const char *text) { return (desk_bytes){text, strlen(text)}; }

static desk_bytes read_file(const char *path) {
    size_t most = 8u << 20;
    FILE *file = fopen(path, "rb");
    char *bytes = malloc(most);
    size_t length = file && bytes ? fread(bytes, 1, most, file) : 0;
    if (file)
        fclose(file);
    return (desk_bytes){bytes, length};
}

/* Takes a step, and lays the numbers that it gives into `told`. */
static uint32_t take(desk *d, char *step, char *told) {
    char *word = strtok(step, " "), *name = strtok(NULL, " "), *rest = strtok(NULL, "");
    size_t length = name ? strlen(name) : 0, size = 0, count = 0;
    uint32_t ended, number = 0;
    *told = 0;
    if (!strcmp(word, "say")) {
        char line[200];
        snprintf(line, sizeof line, rest ? "%s %s" : "%s", name, rest);
        return by_library ? desk_c_say(d, line, strlen(line), out, MOST, &size) : desk_say(d, text_of(line), (desk_room){out, MOST}, &size);
    }
    if (!strcmp(word, "set")) {
        int64_t units = strtoll(rest, NULL, 10);
        return by_library ? desk_c_set(d, name, length, units) : desk_set(d, text_of(name), units);
    }
    if (!strcmp(word, "ask")) {
        desk_price it = {0, 0, 0, 0};
        ended = by_library ? desk_c_ask(d, name, length, &it.high, &it.low, &it.mark, &it.runs) : desk_ask(d, text_of(name), &it);
        if (ended == DESK_DONE)
            sprintf(told, "%" PRId64 " %" PRId64 " %" PRIu32 " %" PRIu64, it.high, it.low, it.mark, it.runs);
        return ended;
    }
    if (!strcmp(word, "df")) {
        desk_factor it = {0, 0, 0};
        uint32_t day = (uint32_t)strtoul(rest, NULL, 10);
        ended = by_library ? desk_c_df(d, name, length, day, &it.units, &it.mark, &it.runs) : desk_df(d, text_of(name), day, &it);
        if (ended == DESK_DONE)
            sprintf(told, "%" PRId64 " %" PRIu32 " %" PRIu64, it.units, it.mark, it.runs);
        return ended;
    }
    if (!strcmp(word, "node")) {
        desk_point it = {0, 0};
        size_t at = strtoul(rest, NULL, 10);
        ended = by_library ? desk_c_node(d, name, length, at, &it.day, &it.units, &count) : desk_node(d, text_of(name), at, &it, &count);
        if (ended == DESK_DONE)
            sprintf(told, "%" PRIu32 " %" PRId64 " %zu", it.day, it.units, count);
        else if (ended == DESK_RANGE)
            sprintf(told, "%zu", count);
        return ended;
    }
    if (!strcmp(word, "object")) {
        desk_entry it = {0, 0, 0, 0};
        char text[40] = {0};
        number = (uint32_t)strtoul(name, NULL, 10);
        ended = by_library ? desk_c_object(d, number, text, 39, &it.name_length, &it.kind, &it.is_set, &it.units)
                           : desk_object(d, number, (desk_room){text, 39}, &it);
        if (ended == DESK_DONE)
            sprintf(told, "%.*s %" PRIu32 " %" PRIu32 " %" PRId64, (int)it.name_length, text, it.kind, it.is_set, it.units);
        return ended;
    }
    ended = by_library ? desk_c_count(d, &number) : desk_count(d, &number);
    if (ended == DESK_DONE)
        sprintf(told, "%" PRIu32, number);
    return ended;
}

/* The text of the last call, without its newline. */
static char *text_now(desk *d) {
    size_t size = desk_text(d, 0, (desk_room){out, MOST - 1});
    out[size && out[size - 1] == '\n' ? size - 1 : size] = 0;
    return out;
}

/* Reads a row into its four fields. */
static void part(char *row, char **fields) {
    row[strcspn(row, "\n")] = 0;
    for (int i = 0; i < 4; i++) {
        char *bar = i < 3 ? strstr(row, " | ") : NULL;
        fields[i] = row;
        if (bar) {
            *bar = 0;
            row = bar + 3;
        }
        if (!strcmp(fields[i], "-"))
            fields[i] += 1;
    }
}

/* The numbers of a row, each name of the header by its number. */
static void spell(char *words, char *spelt) {
    *spelt = 0;
    for (char *word = strtok(words, " "); word; word = strtok(NULL, " "))
        strcat(strcat(spelt, *spelt ? " " : ""), word_of(word));
}

static int play(desk_bytes *texts, FILE *rows) {
    static char row[MOST], before[MOST];
    char *fields[4], step[200], told[200], spelt[200];
    int wrong = 0, taken = 0;
    desk d = {0};
    if (desk_open(&d, texts[0], texts[1], texts[2], text_of(""), DESK_FIRST, 0, (desk_room){NULL, 0}, NULL) != DESK_DONE)
        return 1;
    rewind(rows);
    *before = 0;
    while (fgets(row, MOST, rows)) {
        if (*row == '#')
            continue;
        part(row, fields);
        snprintf(step, sizeof step, "%s", fields[0]);
        uint32_t ended = take(&d, fields[0], told);
        spell(fields[2], spelt);
        const char *text = strcmp(fields[3], "=") ? fields[3] : before;
        bool holds = ended == (uint32_t)atol(word_of(fields[1])) && !strcmp(told, spelt) && !strcmp(text_now(&d), text);
        if (!holds)
            printf("%s: %" PRIu32 " | %s | %s, where %s | %s | %s is expected\n", step, ended, told, out, fields[1], spelt, text);
        wrong += !holds;
        taken++;
        strcpy(before, out);
    }
    desk_close(&d);
    printf("%d steps by the %s, %d of them wrong\n", taken, by_library ? "library's functions" : "header's", wrong);
    return wrong;
}

int main(int words, char **word) {
    if (words != 5)
        return DESK_USAGE;
    desk_bytes texts[3] = {read_file(word[1]), read_file(word[2]), read_file(word[3])};
    FILE *rows = fopen(word[4], "r");
    if (!rows || desk_c_version() != DESK_VERSION)
        return 1;
    int wrong = play(texts, rows);
    by_library = true;
    wrong += play(texts, rows);
    fclose(rows);
    for (int i = 0; i < 3; i++)
        free((void *)texts[i].bytes);
    return wrong ? 1 : 0;
}
