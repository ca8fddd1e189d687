/* A pricing session in the process of a C program: the header of libdesk_c. docs/reference/c.md is its page.
 *
 * The library is proved, but for what its functions cannot test. That is tested here: each call returns DESK_NULL, and does
 * nothing, where a pointer is null that must not be, or a length is beyond PTRDIFF_MAX. Bytes of which there are 0 may be null.
 * No call ends the process. Sessions share nothing: each may have a thread of its own. */
#ifndef DOQSHELEY_H
#define DOQSHELEY_H

#include <stdbool.h>
#include <stddef.h>
#include <stdint.h>

#ifdef __cplusplus
extern "C" {
#endif

/* The version of this header, 1,000 for each major version and the minor one. desk_c_version returns that of the library. */
#define DESK_VERSION 18

/* What owns a session. All zeros: it holds none. The program zeroes it and lets it lie where it is: it does not copy it, and
 * neither reads nor writes the two. One thread at a time uses it. desk_close frees the session. */
typedef struct {
    void *at;
    bool is_open;
} desk;

/* How a call ended. */
enum desk_status {
    DESK_DONE = 0,       /* it was carried out */
    DESK_USAGE = 2,      /* the order is none of 0, 1 and 2 */
    DESK_MARKET = 3,     /* the market is refused */
    DESK_SCRIPT = 4,     /* the script is refused */
    DESK_NO_MEMORY = 7,  /* memory ran out */
    DESK_CLOSED = 10,    /* the handle holds no session */
    DESK_STOPPED = 11,   /* memory ran out in an earlier round, or 2^64 - 1 lines were said: no further line is taken */
    DESK_NO_NAME = 12,   /* the session has no such name */
    DESK_REFUSED = 13,   /* nothing has the name, or nothing of the kind that the call takes */
    DESK_RANGE = 14,     /* the number is beyond its limit */
    DESK_UNPRICED = 15,  /* it has no value: after desk_ask and desk_df the text has the cause */
    DESK_NOT_MONEY = 16, /* it was asked, and is worth a curve, whose nodes the text has, and desk_node */
    DESK_NULL = 17,      /* a pointer is null, or a length beyond PTRDIFF_MAX; nothing was done */
    DESK_NOT_CURVE = 18  /* it has a value, which is no curve */
};

/* In what order due watchers run: by creation, the other way round, or by a generator that begins with a seed. */
enum desk_order { DESK_FIRST = 0, DESK_LAST = 1, DESK_SEED = 2 };

/* How an answer stands to the market of its moment. */
enum desk_mark { DESK_FRESH = 0, DESK_FROZEN = 1, DESK_LATE = 2, DESK_HELD = 3, DESK_RECALC = 4 };

/* What an object is. A derived one is a sum or a difference; flows are a bond, a swap or a forward rate agreement. */
enum desk_kind {
    DESK_TODAY = 0,
    DESK_QUOTE = 1,
    DESK_DERIVED = 2,
    DESK_QUOTE_HANDLE = 3,
    DESK_CURVE_HANDLE = 4,
    DESK_INDEX = 5,
    DESK_ENGINE = 6,
    DESK_CURVE = 7,
    DESK_IMPLIED = 8,
    DESK_STOCK = 9,
    DESK_COMPOSITE = 10,
    DESK_FLOWS = 11,
    DESK_WATCHER = 12
};

/* Which tables a market names. */
enum desk_named { DESK_NAMES_QUOTES = 1, DESK_NAMES_FIXINGS = 2 };

/* The section of a market in which a fault is; 0 for a script. */
enum desk_section { DESK_IN_TOP = 1, DESK_IN_CALENDARS = 2, DESK_IN_QUOTES = 3, DESK_IN_OBJECTS = 4, DESK_IN_FIXINGS = 5 };

/* What is wrong with a market. */
enum desk_market_fault {
    DESK_MARKET_TOOLONG = 1,
    DESK_MARKET_TOML = 2,
    DESK_MARKET_KEY = 3,
    DESK_MARKET_NAME = 4,
    DESK_MARKET_TAKEN = 5,
    DESK_MARKET_UNKNOWN = 6,
    DESK_MARKET_KIND = 7,
    DESK_MARKET_NUMBER = 8,
    DESK_MARKET_DATE = 9,
    DESK_MARKET_CHOICE = 10,
    DESK_MARKET_WEEKEND = 11,
    DESK_MARKET_PARTS = 12,
    DESK_MARKET_PLAN = 13,
    DESK_MARKET_RANGE = 14,
    DESK_MARKET_FLOWS = 15,
    DESK_MARKET_EXISTS = 16,
    DESK_MARKET_HEADER = 17,
    DESK_MARKET_RECORD = 18,
    DESK_MARKET_LIMIT = 19
};

/* What is wrong with a script. */
enum desk_script_fault {
    DESK_SCRIPT_TOOLONG = 1,
    DESK_SCRIPT_BYTE = 2,
    DESK_SCRIPT_WORD = 3,
    DESK_SCRIPT_COUNT = 4,
    DESK_SCRIPT_NESTED = 5,
    DESK_SCRIPT_END = 6,
    DESK_SCRIPT_NAME = 7,
    DESK_SCRIPT_TWICE = 8,
    DESK_SCRIPT_NUMBER = 9,
    DESK_SCRIPT_DATE = 10,
    DESK_SCRIPT_CHOICE = 11,
    DESK_SCRIPT_NAMES = 12,
    DESK_SCRIPT_UNCLOSED = 13,
    DESK_SCRIPT_NOACTION = 14
};

/* A text that the caller owns, and that a call only reads: `length` bytes, of any value. */
typedef struct {
    const char *bytes;
    size_t length;
} desk_bytes;

/* Room that the caller owns, and that a call writes: `length` bytes, in which nothing else lies that the call is given. */
typedef struct {
    char *bytes;
    size_t length;
} desk_room;

/* A price: `high * 10^18 + low` units of 10^-6 of the market's money, at most 10^26 units either way, `low` less than
 * 10^18 either way; how it stands to the market, a desk_mark; and how many computations were made for it. */
typedef struct {
    int64_t high, low;
    uint32_t mark;
    uint64_t runs;
} desk_price;

/* A discount factor, in units of 10^-12; mark and runs as of a price. */
typedef struct {
    int64_t units;
    uint32_t mark;
    uint64_t runs;
} desk_factor;

/* A node of a curve: a day as the number YYYYMMDD, and the discount factor there, in units of 10^-12. */
typedef struct {
    uint32_t day;
    int64_t units;
} desk_point;

/* What stands at a number: how many bytes the object's name has; its kind, a desk_kind; of a quote whether it has a value, 1 or
 * 0, and the value, in units of 10^-9. */
typedef struct {
    size_t name_length;
    uint32_t kind, is_set;
    int64_t units;
} desk_entry;

/* The first fault of a market, by section, entry and kind: a desk_section; the number of the table or of the record in it, from 1,
 * 0 for the top table and for a file as a whole; a desk_market_fault. Of a script: 0, the line, a desk_script_fault. */
typedef struct {
    uint32_t section, entry, kind;
} desk_fault;

/* The functions of the library. No pointer is null, each points to as many bytes as the length after it says, or to one number,
 * and a number or a room that is written lies in nothing else that the call is given. */
uint32_t desk_c_version(void);
uint32_t desk_c_tables(const char *market, size_t market_length, uint32_t *named, char *quotes, size_t quotes_length,
                       size_t *quotes_size, char *fixings, size_t fixings_length, size_t *fixings_size, uint32_t *section,
                       uint32_t *entry, uint32_t *kind, char *message, size_t message_length);
uint32_t desk_c_open(desk *d, const char *market, size_t market_length, const char *quotes, size_t quotes_length,
                     const char *fixings, size_t fixings_length, const char *script, size_t script_length, uint32_t order,
                     uint64_t seed, uint32_t *section, uint32_t *entry, uint32_t *kind, char *message, size_t message_length);
uint32_t desk_c_say(desk *d, const char *line, size_t line_length, char *out, size_t out_length, size_t *size);
size_t desk_c_text(desk *d, size_t from, char *out, size_t out_length);
uint32_t desk_c_set(desk *d, const char *name, size_t name_length, int64_t units);
uint32_t desk_c_ask(desk *d, const char *name, size_t name_length, int64_t *high, int64_t *low, uint32_t *mark, uint64_t *runs);
uint32_t desk_c_df(desk *d, const char *name, size_t name_length, uint32_t day, int64_t *units, uint32_t *mark, uint64_t *runs);
uint32_t desk_c_node(desk *d, const char *name, size_t name_length, size_t at, uint32_t *day, int64_t *units, size_t *count);
uint32_t desk_c_count(desk *d, uint32_t *count);
uint32_t desk_c_object(desk *d, uint32_t number, char *name, size_t name_length, size_t *size, uint32_t *kind,
                       uint32_t *is_set, int64_t *units);
void desk_c_close(desk *d);

/* Whether these bytes can be handed on, and the pointer that is handed on. */
static inline bool desk_is_there(const char *bytes, size_t length) { return (bytes || !length) && length <= PTRDIFF_MAX; }
static inline const char *desk_text_of(desk_bytes it) { return it.bytes ? it.bytes : ""; }
static inline char *desk_room_of(desk_room it) { return it.bytes ? it.bytes : (char *)""; }
#define DESK_IS_THERE(it) desk_is_there((it).bytes, (it).length)

/* Lays the paths of the tables that a market names into two rooms, as much of each as fits; their sizes are how many bytes the
 * paths have, and `named` is the sum of the desk_named. A program reads these files, and then calls desk_open.
 *
 * DESK_DONE, or no path is written: DESK_MARKET with the first fault of the top table, DESK_NO_MEMORY, DESK_NULL. The fault may
 * be null. */
static inline uint32_t desk_tables(desk_bytes market, uint32_t *named, desk_room quotes, size_t *quotes_size, desk_room fixings,
                                   size_t *fixings_size, desk_room message, desk_fault *fault) {
    desk_fault none;
    if (!named || !quotes_size || !fixings_size || !DESK_IS_THERE(market) || !DESK_IS_THERE(quotes) || !DESK_IS_THERE(fixings) ||
        !DESK_IS_THERE(message))
        return DESK_NULL;
    fault = fault ? fault : &none;
    return desk_c_tables(desk_text_of(market), market.length, named, desk_room_of(quotes), quotes.length, quotes_size,
                         desk_room_of(fixings), fixings.length, fixings_size, &fault->section, &fault->entry, &fault->kind,
                         desk_room_of(message), message.length);
}

/* Opens the session of a market after the commands of a script. The texts are those of the files: a market file, the tables of
 * quotes and of fixings that it names (one that it does not name is not read), a script, which may be empty. What the
 * commands wrote is then the text that desk_text gives. What the handle held is freed first.
 *
 * DESK_DONE, or the handle holds nothing: DESK_USAGE; DESK_MARKET and DESK_SCRIPT with the first fault, in `fault`, which may be
 * null, and in words in `message`, as much of them as fits, and no byte after them; DESK_NO_MEMORY, with or without such words;
 * DESK_NULL, where it holds what it held. */
static inline uint32_t desk_open(desk *d, desk_bytes market, desk_bytes quotes, desk_bytes fixings, desk_bytes script,
                                 enum desk_order order, uint64_t seed, desk_room message, desk_fault *fault) {
    desk_fault none;
    if (!d || !DESK_IS_THERE(market) || !DESK_IS_THERE(quotes) || !DESK_IS_THERE(fixings) || !DESK_IS_THERE(script) ||
        !DESK_IS_THERE(message))
        return DESK_NULL;
    fault = fault ? fault : &none;
    return desk_c_open(d, desk_text_of(market), market.length, desk_text_of(quotes), quotes.length, desk_text_of(fixings),
                       fixings.length, desk_text_of(script), script.length, (uint32_t)order, seed, &fault->section,
                       &fault->entry, &fault->kind, desk_room_of(message), message.length);
}

/* Says a line, without what ends it: a command, `action NAME`, a command of its block, or `end`, as a script has them. What it
 * writes, `fault LINE KIND` for a line that is none, is laid into `out`, as much of it as fits; `size` is how many bytes it has,
 * and desk_text gives what did not fit. Lines are counted from 1, and one of more than 65,536 bytes has a fault.
 *
 * DESK_DONE: it was taken. DESK_NO_MEMORY: a front of its lines was written, and the session is as it was, but for a front of
 * the line's new names, or it is stopped. DESK_STOPPED and DESK_CLOSED: the session is as it was, the text empty, `size` 0. DESK_NULL. */
static inline uint32_t desk_say(desk *d, desk_bytes line, desk_room out, size_t *size) {
    if (!d || !DESK_IS_THERE(line) || !DESK_IS_THERE(out) || !size)
        return DESK_NULL;
    return desk_c_say(d, desk_text_of(line), line.length, desk_room_of(out), out.length, size);
}

/* Lays what the last desk_open, desk_say, desk_ask or desk_df wrote, from a byte on, into `out`, as much of it as fits, and returns
 * how many bytes the whole of it has: 0 where the handle holds nothing, and where a pointer is null. */
static inline size_t desk_text(desk *d, size_t from, desk_room out) {
    return d && DESK_IS_THERE(out) ? desk_c_text(d, from, desk_room_of(out), out.length) : 0;
}

/* Gives the quote of a name a value, in units of 10^-9, at most 10^18 either way. It takes no memory: nothing is computed and
 * written, no watcher runs, and the notices of the change are forgotten: no later line runs a watcher for it. A program that has
 * watchers of this quote says `set NAME VALUE` as a line, which runs them.
 *
 * DESK_DONE, or no quote is changed: DESK_NO_NAME, DESK_RANGE, DESK_REFUSED, DESK_STOPPED, DESK_CLOSED, DESK_NULL. */
static inline uint32_t desk_set(desk *d, desk_bytes name, int64_t units) {
    if (!d || !DESK_IS_THERE(name))
        return DESK_NULL;
    return desk_c_set(d, desk_text_of(name), name.length, units);
}

/* Asks what the object of a name is worth. It computes what has no current value, and no watcher runs. The text that desk_text
 * gives is then the line that `ask NAME` writes in a script: the price, the nodes of a curve, the cause or the refusal.
 *
 * DESK_DONE, or `price` is not written: DESK_REFUSED, DESK_UNPRICED, DESK_NOT_MONEY; DESK_NO_MEMORY, after which the text is empty
 * and the session goes on; DESK_NO_NAME, DESK_CLOSED and DESK_NULL, after which the text is as it was. A session that is stopped
 * answers still. */
static inline uint32_t desk_ask(desk *d, desk_bytes name, desk_price *price) {
    if (!d || !DESK_IS_THERE(name) || !price)
        return DESK_NULL;
    return desk_c_ask(d, desk_text_of(name), name.length, &price->high, &price->low, &price->mark, &price->runs);
}

/* Asks for the discount factor of a curve at a day, YYYYMMDD as a number. The text is then the line that `df NAME DAY` writes.
 *
 * DESK_DONE, or `factor` is not written: DESK_REFUSED, DESK_UNPRICED; DESK_NO_MEMORY, after which the text is empty and the
 * session goes on; DESK_NO_NAME, DESK_RANGE where the number is no day, DESK_CLOSED and DESK_NULL, after which the text is as it was. */
static inline uint32_t desk_df(desk *d, desk_bytes name, uint32_t day, desk_factor *factor) {
    if (!d || !DESK_IS_THERE(name) || !factor)
        return DESK_NULL;
    return desk_c_df(d, desk_text_of(name), name.length, day, &factor->units, &factor->mark, &factor->runs);
}

/* Gives the node at a place, from 0, of the last value of the curve that has a name, and how many nodes there are. Node 0 is the
 * reference day, with the factor 1. Nothing is computed: desk_ask brings the value up to date. The text stays as it was.
 *
 * DESK_DONE, or `point` is not written: DESK_RANGE where there are no more than `at` nodes, with their count; DESK_UNPRICED where
 * the object has no value yet; DESK_NOT_CURVE; DESK_REFUSED; DESK_NO_NAME; DESK_CLOSED; DESK_NULL. */
static inline uint32_t desk_node(desk *d, desk_bytes name, size_t at, desk_point *point, size_t *count) {
    if (!d || !DESK_IS_THERE(name) || !point || !count)
        return DESK_NULL;
    return desk_c_node(d, desk_text_of(name), name.length, at, &point->day, &point->units, count);
}

/* Tells how many numbers were given to objects, from 0 on; `today` has 0. DESK_DONE, DESK_CLOSED, DESK_NULL. */
static inline uint32_t desk_count(desk *d, uint32_t *count) { return d && count ? desk_c_count(d, count) : (uint32_t)DESK_NULL; }

/* Tells what stands at a number, and lays the object's name into `name`, as much of it as fits.
 *
 * DESK_DONE, or nothing is written: DESK_REFUSED where no live object has the number, DESK_CLOSED, DESK_NULL. */
static inline uint32_t desk_object(desk *d, uint32_t number, desk_room name, desk_entry *entry) {
    if (!d || !DESK_IS_THERE(name) || !entry)
        return DESK_NULL;
    return desk_c_object(d, number, desk_room_of(name), name.length, &entry->name_length, &entry->kind, &entry->is_set,
                         &entry->units);
}

/* Frees the session that the handle holds. A second time, and at null, it does nothing. */
static inline void desk_close(desk *d) {
    if (d)
        desk_c_close(d);
}

#ifdef __cplusplus
}
#endif

#endif
