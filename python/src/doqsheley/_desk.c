/* The session of doqsheley.h as a Python type, the base of Session, over the stable ABI of Python 3.9.
 *
 * `set`, `ask` and `df` are here whole: they read their arguments, call the library, keep the line, and make the result. What they do not
 * take, they hand to `_set`, `_ask` and `_df` of Session, which say the line. A line is kept in the call that does it, so that no signal
 * comes between. Other methods take texts as bytes, and return how the call ended, a number of the header, before what it gives. */
#ifndef _GNU_SOURCE
#define _GNU_SOURCE
#endif
#define PY_SSIZE_T_CLEAN
#include <Python.h>
#include <structmember.h>

#include <errno.h>
#include <fcntl.h>
#include <stdlib.h>
#include <string.h>
#include <unistd.h>

#include "doqsheley.h"

/* In the stable ABI since 3.10, and as it is there in 3.9. */
#ifndef METH_FASTCALL
#define METH_FASTCALL 0x0080
#endif

#ifndef DOQSHELEY_BUILD
#define DOQSHELEY_BUILD ""
#endif

/* Bytes of a text that is read at once; of a line that is put together; of lines in memory, before they go to a file; of a name; and how
 * many names are at hand. */
enum { ROOM = 4096, LINE = 128, SPILL = 1 << 20, NAME = 32, NAMES = 64 };

/* A text that is a name, and its bytes. */
typedef struct {
    PyObject *text;
    uint32_t length;
    char bytes[NAME];
} Name;

typedef struct {
    PyObject_HEAD
    desk held;
    unsigned long thread;
    /* How many lines were said, and the line of the action that is open, or 0. */
    unsigned long long count, action;
    /* Whether the quick calls are taken: a session of the library is open, and no action is. Whether a watcher may be there. */
    char is_quick, has_watchers;
    /* Where accepted lines are kept, and what they write: descriptors of Session, or -1. */
    char is_kept, is_synced;
    int journal, transcript;
    off_t whole; /* how long the journal is */
    /* Lines that no journal keeps: the last in memory, those before in a file without a name. */
    char *lines;
    size_t length, room;
    int spilled;
    /* Names that were given, each at the place of its object. */
    Name names[NAMES];
} Desk;

/* What results are made of. */
static PyObject *price_type, *factor_type, *decimal_type, *date_type, *journal_error, *marks;

static const char *const THREAD = "a Session is used by the thread that made it";

/* Whether the calling thread may use the session: the one that made it. */
static int is_own(Desk *self) {
    if (self->thread == PyThread_get_thread_ident())
        return 1;
    PyErr_SetString(PyExc_RuntimeError, THREAD);
    return 0;
}

static PyObject *again(PyObject *it) {
    Py_INCREF(it);
    return it;
}

/* The bytes of a text, which lie there as long as the object does. */
static int bytes_of(PyObject *text, desk_bytes *found) {
    Py_ssize_t length = 0;
    char *bytes = NULL;
    if (PyBytes_AsStringAndSize(text, &bytes, &length) < 0)
        return 0;
    found->bytes = bytes;
    found->length = (size_t)length;
    return 1;
}

static PyObject *new_desk(PyTypeObject *type, PyObject *args, PyObject *named) {
    allocfunc make = (allocfunc)PyType_GetSlot(type, Py_tp_alloc);
    Desk *self = (Desk *)make(type, 0);
    (void)args;
    (void)named;
    if (self) {
        self->held = (desk){0};
        self->thread = PyThread_get_thread_ident();
        self->journal = self->transcript = self->spilled = -1;
    }
    return (PyObject *)self;
}

static void free_desk(PyObject *it) {
    Desk *self = (Desk *)it;
    PyTypeObject *type = Py_TYPE(it);
    freefunc give_back = (freefunc)PyType_GetSlot(type, Py_tp_free);
    desk_close(&self->held);
    for (int i = 0; i < NAMES; i++)
        Py_XDECREF(self->names[i].text);
    free(self->lines);
    if (self->spilled >= 0)
        close(self->spilled);
    give_back(it);
    Py_DECREF(type);
}

/* Lines that are kept. */

static int write_all(int file, const char *bytes, size_t length) {
    while (length) {
        ssize_t count = write(file, bytes, length);
        if (count < 0 && errno != EINTR)
            return 0;
        if (count > 0) {
            bytes += count;
            length -= (size_t)count;
        }
    }
    return 1;
}

/* The lines in memory go to a file, where one can be made. */
static void spill(Desk *self) {
    if (self->spilled < 0) {
        const char *folder = getenv("TMPDIR");
        self->spilled = open(folder && *folder ? folder : "/tmp", O_TMPFILE | O_RDWR | O_CLOEXEC, 0600);
    }
    off_t whole = self->spilled < 0 ? -1 : lseek(self->spilled, 0, SEEK_END);
    if (whole < 0)
        return;
    if (write_all(self->spilled, self->lines, self->length))
        self->length = 0;
    else if (ftruncate(self->spilled, whole) < 0)
        self->spilled = -1;
}

static int keep_in_memory(Desk *self, const char *bytes, size_t length) {
    if (self->length + length > self->room) {
        size_t room = self->room * 2 > self->length + length ? self->room * 2 : self->length + length + LINE;
        char *lines = realloc(self->lines, room);
        if (!lines)
            return 0;
        self->lines = lines;
        self->room = room;
    }
    memcpy(self->lines + self->length, bytes, length);
    self->length += length;
    if (self->length >= SPILL)
        spill(self);
    return 1;
}

/* A line that cannot be kept ends the session: what is kept would no longer be what was done. */
static int not_kept(Desk *self, const char *what) {
    int error = errno;
    self->is_quick = 0;
    desk_close(&self->held);
    PyErr_Format(journal_error, "the session ended: a line was done and cannot be kept in the %s: %s", what, strerror(error));
    return 0;
}

/* The text of the last call. */
static PyObject *text_now(desk *held) {
    char room[ROOM];
    size_t size = desk_text(held, 0, (desk_room){room, ROOM});
    if (size <= ROOM)
        return PyBytes_FromStringAndSize(room, (Py_ssize_t)size);
    PyObject *text = PyBytes_FromStringAndSize(NULL, (Py_ssize_t)size);
    if (text)
        desk_text(held, 0, (desk_room){PyBytes_AsString(text), size});
    return text;
}

/* Keeps a line, with its newline, that was done, and what it wrote. */
static int keep(Desk *self, const char *line, size_t length, int has_text) {
    self->count++;
    if (!self->is_kept)
        return 1;
    if (self->journal < 0) {
        if (!keep_in_memory(self, line, length)) {
            errno = ENOMEM;
            return not_kept(self, "memory");
        }
    } else {
        if (!write_all(self->journal, line, length) || (self->is_synced && fdatasync(self->journal) < 0)) {
            int error = errno;
            int is_cut = self->whole >= 0 && ftruncate(self->journal, self->whole) == 0;
            errno = error;
            return not_kept(self, is_cut ? "journal" : "journal, which has a part of it");
        }
        self->whole += (off_t)length;
    }
    if (self->transcript >= 0 && has_text) {
        PyObject *text = text_now(&self->held);
        int is_written = text && write_all(self->transcript, PyBytes_AsString(text), (size_t)PyBytes_Size(text));
        Py_XDECREF(text);
        if (!is_written)
            return text ? not_kept(self, "transcript") : 0;
    }
    return 1;
}

/* Words of a line. */

typedef struct {
    char bytes[LINE];
    size_t length;
} Line;

static void add(Line *line, const char *bytes, size_t length) {
    memcpy(line->bytes + line->length, bytes, length);
    line->length += length;
}

/* The name that a text is, 1 to 32 letters, digits and `_`, or null. */
static const Name *name_of(Desk *self, PyObject *text) {
    Name *name = &self->names[((uintptr_t)text >> 4) % NAMES];
    char *bytes = NULL;
    Py_ssize_t length = 0;
    if (name->text == text)
        return name;
    PyObject *shown = PyUnicode_CheckExact(text) ? PyUnicode_AsUTF8String(text) : NULL;
    int is_name = shown && PyBytes_AsStringAndSize(shown, &bytes, &length) == 0 && length >= 1 && length <= NAME;
    for (Py_ssize_t i = 0; is_name && i < length; i++)
        is_name = (bytes[i] >= 'a' && bytes[i] <= 'z') || (bytes[i] >= 'A' && bytes[i] <= 'Z') || (bytes[i] >= '0' && bytes[i] <= '9') ||
                  bytes[i] == '_';
    if (is_name) {
        Py_XDECREF(name->text);
        name->text = again(text);
        name->length = (uint32_t)length;
        memcpy(name->bytes, bytes, (size_t)length);
    }
    PyErr_Clear();
    Py_XDECREF(shown);
    return is_name ? name : NULL;
}

/* Writes `high * 10^18 + low` units of 10^-places, with all places, or without the zeros at its end. */
static void add_units(Line *line, int is_negative, uint64_t high, uint64_t low, int places, int is_short) {
    char digits[48];
    int at = sizeof digits, count = 0, is_digit = !is_short;
    for (; high || low || count <= places; count++) {
        if (count == 18 && high) {
            low = high;
            high = 0;
        }
        if (count == places && places && is_digit)
            digits[--at] = '.';
        is_digit |= low % 10 != 0 || count >= places;
        if (is_digit)
            digits[--at] = (char)('0' + low % 10);
        low /= 10;
        if (count >= places && !low && !high)
            break;
    }
    if (is_negative)
        digits[--at] = '-';
    add(line, digits + at, sizeof digits - (size_t)at);
}

/* The units of 10^-9 of a decimal in the language's form, at most 10^18. */
static int read_units(const char *bytes, Py_ssize_t length, int64_t *units) {
    int64_t total = 0;
    Py_ssize_t at = length && bytes[0] == '-', whole = 0, places = -1;
    for (; at < length; at++) {
        if (bytes[at] == '.' && places < 0 && whole)
            places = 0;
        else if (bytes[at] < '0' || bytes[at] > '9')
            return 0;
        else {
            total = total * 10 + (bytes[at] - '0');
            places < 0 ? whole++ : places++;
        }
        if (whole > 9 || places > 9)
            return 0;
    }
    if (!whole || places == 0)
        return 0;
    for (Py_ssize_t left = places < 0 ? 9 : 9 - places; left; left--)
        total *= 10;
    *units = bytes[0] == '-' ? -total : total;
    return 1;
}

/* Adds a value as a decimal: a text, an integer, a float of at most nine places, a Decimal. 0 for all that Session has to look at. */
static int add_value(Line *line, PyObject *value, int64_t *units) {
    PyObject *text = NULL;
    int is_text = PyUnicode_CheckExact(value);
    if (PyLong_CheckExact(value)) {
        int overflow = 0;
        long long whole = PyLong_AsLongLongAndOverflow(value, &overflow);
        if (overflow || whole > 1000000000 || whole < -1000000000)
            return 0;
        *units = whole * 1000000000;
        add_units(line, whole < 0, 0, (uint64_t)(whole < 0 ? -whole : whole), 0, 0);
        return 1;
    }
    if (PyFloat_CheckExact(value)) {
        double given = PyFloat_AsDouble(value);
        /* Both operands are exact below 2^53, so the quotient is the nearest float to the decimal. */
        if (!(given > -1e6 && given < 1e6))
            return 0;
        *units = (int64_t)(given * 1e9 + (given < 0 ? -0.5 : 0.5));
        if ((double)*units / 1e9 != given)
            return 0;
        add_units(line, *units < 0, 0, (uint64_t)(*units < 0 ? -*units : *units), 9, 1);
        return 1;
    }
    if (is_text)
        text = PyUnicode_AsUTF8String(value);
    else if ((PyObject *)Py_TYPE(value) == decimal_type) {
        PyObject *shown = PyObject_Str(value);
        text = shown ? PyUnicode_AsUTF8String(shown) : NULL;
        Py_XDECREF(shown);
    } else
        return 0;
    char *bytes = NULL;
    Py_ssize_t length = 0;
    int is_read = text && PyBytes_AsStringAndSize(text, &bytes, &length) == 0 && length <= 24 && read_units(bytes, length, units);
    if (is_read)
        add(line, bytes, (size_t)length);
    PyErr_Clear();
    Py_XDECREF(text);
    return is_read;
}

/* Results. */

static PyObject *decimal(int64_t high, int64_t low, int places) {
    const uint64_t most = 1000000000000000000;
    Line line = {.length = 0};
    if (high) {
        __int128 total = (__int128)high * (int64_t)most + low;
        unsigned __int128 size = (unsigned __int128)(total < 0 ? -total : total);
        add_units(&line, total < 0, (uint64_t)(size / most), (uint64_t)(size % most), places, 0);
    } else
        add_units(&line, low < 0, 0, low < 0 ? 0 - (uint64_t)low : (uint64_t)low, places, 0);
    PyObject *text = PyUnicode_FromStringAndSize(line.bytes, (Py_ssize_t)line.length);
    PyObject *made = text ? PyObject_CallFunctionObjArgs(decimal_type, text, NULL) : NULL;
    Py_XDECREF(text);
    return made;
}

/* An amount of two parts as one integer. */
static PyObject *whole(int64_t high, int64_t low) {
    if (!high)
        return PyLong_FromLongLong(low);
    PyObject *unit = PyLong_FromLongLong(1000000000000000000), *first = PyLong_FromLongLong(high), *second = PyLong_FromLongLong(low);
    PyObject *product = unit && first ? PyNumber_Multiply(first, unit) : NULL;
    PyObject *sum = product && second ? PyNumber_Add(product, second) : NULL;
    Py_XDECREF(unit);
    Py_XDECREF(first);
    Py_XDECREF(second);
    Py_XDECREF(product);
    return sum;
}

/* A named tuple of these fields, which it takes. */
static PyObject *record(PyObject *type, PyObject **fields, int count) {
    allocfunc make = (allocfunc)PyType_GetSlot((PyTypeObject *)type, Py_tp_alloc);
    PyObject *made = make((PyTypeObject *)type, count);
    for (int i = 0; i < count; i++) {
        if (!fields[i] || !made) {
            Py_CLEAR(made);
            Py_XDECREF(fields[i]);
        } else
            PyTuple_SetItem(made, i, fields[i]);
    }
    return made;
}

static PyObject *mark_of(uint32_t mark) { return again(PyTuple_GetItem(marks, mark)); }

/* The method of Session that takes what a quick one does not. `words` are the names of the last arguments, or null. */
static PyObject *slowly(PyObject *it, const char *name, PyObject *const *args, Py_ssize_t count, PyObject *words) {
    Py_ssize_t named = words ? PyTuple_Size(words) : 0;
    PyObject *method = PyObject_GetAttrString(it, name), *made = NULL;
    PyObject *given = PyTuple_New(count), *others = named ? PyDict_New() : NULL;
    int is_there = method && given && (others || !named);
    for (Py_ssize_t i = 0; is_there && i < count; i++)
        is_there = PyTuple_SetItem(given, i, again(args[i])) == 0;
    for (Py_ssize_t i = 0; is_there && i < named; i++)
        is_there = PyDict_SetItem(others, PyTuple_GetItem(words, i), args[count + i]) == 0;
    if (is_there)
        made = PyObject_Call(method, given, others);
    Py_XDECREF(method);
    Py_XDECREF(given);
    Py_XDECREF(others);
    return made;
}

/* What an ask wrote that has no value of its sort: Session raises it. */
static PyObject *told(Desk *self, PyObject *name) {
    PyObject *text = text_now(&self->held);
    PyObject *made = text ? PyObject_CallMethod((PyObject *)self, "_told", "OO", text, name) : NULL;
    Py_XDECREF(text);
    return made;
}

static int has_no_value(uint32_t ended) { return ended == DESK_UNPRICED || ended == DESK_NOT_MONEY || ended == DESK_REFUSED; }

/* A price as a Price, or as its units alone. */
static PyObject *asked(PyObject *it, PyObject *const *args, Py_ssize_t count, PyObject *words, int is_units) {
    Desk *self = (Desk *)it;
    Line line = {.length = 0};
    desk_price price = {0, 0, 0, 0};
    const char *slow = is_units ? "_ask_units" : "_ask";
    const Name *name = self->is_quick && count == 1 && !words ? name_of(self, args[0]) : NULL;
    if (!name)
        return slowly(it, slow, args, count, words);
    if (!is_own(self))
        return NULL;
    uint32_t ended = desk_ask(&self->held, (desk_bytes){name->bytes, name->length}, &price);
    if (ended == DESK_NO_MEMORY)
        return PyErr_NoMemory();
    if (ended != DESK_DONE && !has_no_value(ended))
        return slowly(it, slow, args, count, words);
    add(&line, "ask ", 4);
    add(&line, name->bytes, name->length);
    add(&line, "\n", 1);
    if (!keep(self, line.bytes, line.length, 1))
        return NULL;
    if (ended != DESK_DONE)
        return told(self, args[0]);
    if (is_units)
        return whole(price.high, price.low);
    PyObject *fields[4] = {again(args[0]), decimal(price.high, price.low, 6), mark_of(price.mark), PyLong_FromUnsignedLongLong(price.runs)};
    return record(price_type, fields, 4);
}

static PyObject *ask(PyObject *it, PyObject *const *args, Py_ssize_t count, PyObject *words) { return asked(it, args, count, words, 0); }

static PyObject *ask_units(PyObject *it, PyObject *const *args, Py_ssize_t count, PyObject *words) {
    return asked(it, args, count, words, 1);
}

/* A day of the form YYYY-MM-DD as the number YYYYMMDD, 0 where it is of another form. */
static uint32_t day_number(const char *bytes, Py_ssize_t length) {
    uint32_t day = 0;
    if (length != 10 || bytes[4] != '-' || bytes[7] != '-')
        return 0;
    for (int i = 0; i < 10; i++) {
        if (i == 4 || i == 7)
            continue;
        if (bytes[i] < '0' || bytes[i] > '9')
            return 0;
        day = day * 10 + (uint32_t)(bytes[i] - '0');
    }
    return day;
}

/* Adds a day, a text or a date. */
static uint32_t add_day(Line *line, PyObject *day) {
    PyObject *shown = NULL, *text = NULL;
    uint32_t number = 0;
    if (PyUnicode_CheckExact(day))
        shown = again(day);
    else if ((PyObject *)Py_TYPE(day) == date_type)
        shown = PyObject_CallMethod(day, "isoformat", NULL);
    text = shown ? PyUnicode_AsUTF8String(shown) : NULL;
    char *bytes = NULL;
    Py_ssize_t length = 0;
    if (text && PyBytes_AsStringAndSize(text, &bytes, &length) == 0 && (number = day_number(bytes, length)))
        add(line, bytes, (size_t)length);
    PyErr_Clear();
    Py_XDECREF(shown);
    Py_XDECREF(text);
    return number;
}

static PyObject *date_of(uint32_t day) {
    return PyObject_CallFunction(date_type, "III", day / 10000, day / 100 % 100, day % 100);
}

static PyObject *df(PyObject *it, PyObject *const *args, Py_ssize_t count, PyObject *words) {
    Desk *self = (Desk *)it;
    Line line = {.length = 0};
    desk_factor factor = {0, 0, 0};
    const Name *name = self->is_quick && count == 2 && !words ? name_of(self, args[0]) : NULL;
    if (!name)
        return slowly(it, "_df", args, count, words);
    PyObject *day = args[1];
    add(&line, "df ", 3);
    add(&line, name->bytes, name->length);
    add(&line, " ", 1);
    uint32_t number = add_day(&line, day);
    if (!number)
        return slowly(it, "_df", args, count, words);
    if (!is_own(self))
        return NULL;
    uint32_t ended = desk_df(&self->held, (desk_bytes){name->bytes, name->length}, number, &factor);
    if (ended == DESK_NO_MEMORY)
        return PyErr_NoMemory();
    if (ended != DESK_DONE && !has_no_value(ended))
        return slowly(it, "_df", args, count, words);
    add(&line, "\n", 1);
    if (!keep(self, line.bytes, line.length, 1))
        return NULL;
    if (ended != DESK_DONE)
        return told(self, args[0]);
    PyObject *fields[5] = {again(args[0]), PyUnicode_CheckExact(day) ? date_of(number) : again(day), decimal(0, factor.units, 12),
                           mark_of(factor.mark), PyLong_FromUnsignedLongLong(factor.runs)};
    return record(factor_type, fields, 5);
}

static PyObject *set(PyObject *it, PyObject *const *args, Py_ssize_t count, PyObject *words) {
    Desk *self = (Desk *)it;
    Line line = {.length = 0};
    int64_t units = 0;
    const Name *name = self->is_quick && !self->has_watchers && count == 2 && !words ? name_of(self, args[0]) : NULL;
    if (!name)
        return slowly(it, "_set", args, count, words);
    add(&line, "set ", 4);
    add(&line, name->bytes, name->length);
    add(&line, " ", 1);
    if (!add_value(&line, args[1], &units))
        return slowly(it, "_set", args, count, words);
    if (!is_own(self))
        return NULL;
    if (desk_set(&self->held, (desk_bytes){name->bytes, name->length}, units) != DESK_DONE)
        return slowly(it, "_set", args, count, words);
    add(&line, "\n", 1);
    return keep(self, line.bytes, line.length, 0) ? PyList_New(0) : NULL;
}

/* The calls of Session. */

static PyObject *open_desk(PyObject *it, PyObject *args) {
    Desk *self = (Desk *)it;
    PyObject *given[4];
    desk_bytes texts[4];
    unsigned int order = 0;
    unsigned long long seed = 0;
    char message[96] = {0};
    desk_fault fault = {0, 0, 0};
    if (!PyArg_ParseTuple(args, "OOOOIK", &given[0], &given[1], &given[2], &given[3], &order, &seed) || !is_own(self))
        return NULL;
    for (int i = 0; i < 4; i++)
        if (!bytes_of(given[i], &texts[i]))
            return NULL;
    uint32_t ended;
    Py_BEGIN_ALLOW_THREADS
    ended = desk_open(&self->held, texts[0], texts[1], texts[2], texts[3], (enum desk_order)order, seed,
                      (desk_room){message, sizeof message - 1}, &fault);
    Py_END_ALLOW_THREADS
    self->is_quick = ended == DESK_DONE;
    return Py_BuildValue("IsIII", ended, message, fault.section, fault.entry, fault.kind);
}

static int begins_with(const char *bytes, size_t length, const char *word) {
    size_t size = strlen(word);
    return length >= size && !memcmp(bytes, word, size) && (length == size || strchr(" \t#", bytes[size]));
}

/* Whether a text is the line of a fault. That of an object called fault has more words. */
static int is_fault(const char *bytes, size_t length) {
    int spaces = 0;
    for (size_t i = 0; i < length; i++)
        spaces += bytes[i] == ' ';
    return length > 6 && !memcmp(bytes, "fault ", 6) && spaces == 2;
}

/* Says a line, keeps it where it is none with a fault, and marks whether an action is open. */
static PyObject *say(PyObject *it, PyObject *line) {
    Desk *self = (Desk *)it;
    desk_bytes bytes;
    char room[ROOM];
    size_t size = 0;
    if (!is_own(self) || !bytes_of(line, &bytes))
        return NULL;
    uint32_t ended;
    Py_BEGIN_ALLOW_THREADS
    ended = desk_say(&self->held, bytes, (desk_room){room, ROOM}, &size);
    Py_END_ALLOW_THREADS
    if (ended == DESK_DONE && is_fault(room, size < ROOM ? size : ROOM))
        self->count++;
    else if (ended == DESK_DONE) {
        PyObject *whole = PyBytes_FromStringAndSize(NULL, (Py_ssize_t)bytes.length + 1);
        if (!whole)
            return NULL;
        char *text = PyBytes_AsString(whole);
        memcpy(text, bytes.bytes, bytes.length);
        text[bytes.length] = '\n';
        int is_kept = keep(self, text, bytes.length + 1, 1);
        Py_DECREF(whole);
        if (!is_kept)
            return NULL;
        size_t at = 0;
        while (at < bytes.length && (bytes.bytes[at] == ' ' || bytes.bytes[at] == '\t'))
            at++;
        const char *word = bytes.bytes + at;
        if (begins_with(word, bytes.length - at, "action")) {
            self->action = self->count;
            self->is_quick = 0;
        } else if (begins_with(word, bytes.length - at, "end")) {
            self->action = 0;
            self->is_quick = 1;
        } else if (begins_with(word, bytes.length - at, "watch"))
            self->has_watchers = 1;
    }
    PyObject *text = size <= ROOM ? PyBytes_FromStringAndSize(room, (Py_ssize_t)size) : text_now(&self->held);
    return text ? Py_BuildValue("IN", ended, text) : NULL;
}

/* Keeps lines from here on: in the journal of a descriptor, or in memory after these; and what they write. */
static PyObject *keep_lines(PyObject *it, PyObject *args) {
    Desk *self = (Desk *)it;
    PyObject *lines;
    desk_bytes bytes;
    int journal = -1, is_synced = 0, transcript = -1;
    if (!PyArg_ParseTuple(args, "Oiii", &lines, &journal, &is_synced, &transcript) || !bytes_of(lines, &bytes))
        return NULL;
    self->journal = journal;
    self->whole = journal < 0 ? 0 : lseek(journal, 0, SEEK_END);
    self->is_synced = is_synced != 0;
    self->transcript = transcript;
    self->is_kept = 1;
    if (bytes.length && !keep_in_memory(self, bytes.bytes, bytes.length))
        return PyErr_NoMemory();
    Py_RETURN_NONE;
}

/* The lines that no journal keeps. */
static PyObject *kept_lines(PyObject *it, PyObject *none) {
    Desk *self = (Desk *)it;
    (void)none;
    off_t spilled = self->spilled < 0 ? 0 : lseek(self->spilled, 0, SEEK_END);
    PyObject *text = spilled < 0 ? PyErr_SetFromErrno(PyExc_OSError) : PyBytes_FromStringAndSize(NULL, spilled + (Py_ssize_t)self->length);
    if (!text)
        return NULL;
    char *bytes = PyBytes_AsString(text);
    for (off_t at = 0; at < spilled;) {
        ssize_t count = pread(self->spilled, bytes + at, (size_t)(spilled - at), at);
        if (count <= 0 && (count == 0 || errno != EINTR)) {
            Py_DECREF(text);
            return PyErr_SetFromErrno(PyExc_OSError);
        }
        at += count > 0 ? count : 0;
    }
    if (self->length)
        memcpy(bytes + spilled, self->lines, self->length);
    return text;
}

static PyObject *text(PyObject *it, PyObject *none) {
    (void)none;
    return is_own((Desk *)it) ? text_now(&((Desk *)it)->held) : NULL;
}

static PyObject *node(PyObject *it, PyObject *args) {
    PyObject *name;
    desk_bytes bytes;
    Py_ssize_t at = 0;
    desk_point point = {0, 0};
    size_t count = 0;
    if (!PyArg_ParseTuple(args, "On", &name, &at) || !is_own((Desk *)it) || !bytes_of(name, &bytes))
        return NULL;
    uint32_t ended = desk_node(&((Desk *)it)->held, bytes, (size_t)at, &point, &count);
    if (ended != DESK_DONE)
        return Py_BuildValue("IOO", ended, Py_None, Py_None);
    return Py_BuildValue("INN", ended, date_of(point.day), decimal(0, point.units, 12));
}

static PyObject *count(PyObject *it, PyObject *none) {
    uint32_t found = 0;
    (void)none;
    if (!is_own((Desk *)it))
        return NULL;
    uint32_t ended = desk_count(&((Desk *)it)->held, &found);
    return Py_BuildValue("II", ended, found);
}

/* The object of a number: name, kind, and a quote's value, or none. */
static PyObject *object(PyObject *it, PyObject *number) {
    char name[64];
    desk_entry entry = {0, 0, 0, 0};
    unsigned long at = PyLong_AsUnsignedLong(number);
    if (PyErr_Occurred() || !is_own((Desk *)it))
        return NULL;
    uint32_t ended = desk_object(&((Desk *)it)->held, (uint32_t)at, (desk_room){name, sizeof name}, &entry);
    size_t length = entry.name_length < sizeof name ? entry.name_length : sizeof name;
    PyObject *value = ended == DESK_DONE && entry.is_set ? decimal(0, entry.units, 9) : again(Py_None);
    return value ? Py_BuildValue("Is#IN", ended, name, (Py_ssize_t)length, entry.kind, value) : NULL;
}

static PyObject *close_desk(PyObject *it, PyObject *none) {
    (void)none;
    if (!is_own((Desk *)it))
        return NULL;
    ((Desk *)it)->is_quick = 0;
    desk_close(&((Desk *)it)->held);
    Py_RETURN_NONE;
}

/* Functions of the module. */

static PyObject *tables(PyObject *module, PyObject *market) {
    desk_bytes bytes;
    char message[96] = {0};
    uint32_t named = 0;
    size_t sizes[2] = {0, 0};
    desk_fault fault = {0, 0, 0};
    (void)module;
    if (!bytes_of(market, &bytes))
        return NULL;
    /* A path is no longer than the text that names it: an escape is longer than what it stands for. */
    PyObject *paths[2] = {PyBytes_FromStringAndSize(NULL, (Py_ssize_t)bytes.length), PyBytes_FromStringAndSize(NULL, (Py_ssize_t)bytes.length)};
    PyObject *made = NULL;
    if (paths[0] && paths[1]) {
        uint32_t ended = desk_tables(bytes, &named, (desk_room){PyBytes_AsString(paths[0]), bytes.length}, &sizes[0],
                                     (desk_room){PyBytes_AsString(paths[1]), bytes.length}, &sizes[1],
                                     (desk_room){message, sizeof message - 1}, &fault);
        for (int i = 0; i < 2; i++)
            sizes[i] = sizes[i] < bytes.length ? sizes[i] : bytes.length;
        made = Py_BuildValue("IIy#y#sIII", ended, named, PyBytes_AsString(paths[0]), (Py_ssize_t)sizes[0], PyBytes_AsString(paths[1]),
                             (Py_ssize_t)sizes[1], message, fault.section, fault.entry, fault.kind);
    }
    Py_XDECREF(paths[0]);
    Py_XDECREF(paths[1]);
    return made;
}

static PyObject *version(PyObject *module, PyObject *none) {
    (void)module;
    (void)none;
    return PyLong_FromUnsignedLong(desk_c_version());
}

static PyObject *build(PyObject *module, PyObject *none) {
    (void)module;
    (void)none;
    return PyUnicode_FromString(DOQSHELEY_BUILD);
}

/* The types of results, the marks by number, and the error of what cannot be kept. */
static PyObject *set_up(PyObject *module, PyObject *args) {
    (void)module;
    if (!PyArg_ParseTuple(args, "OOOOOO", &price_type, &factor_type, &decimal_type, &date_type, &journal_error, &marks))
        return NULL;
    Py_INCREF(price_type), Py_INCREF(factor_type), Py_INCREF(decimal_type), Py_INCREF(date_type), Py_INCREF(journal_error), Py_INCREF(marks);
    Py_RETURN_NONE;
}

#define QUICK (METH_FASTCALL | METH_KEYWORDS)

static PyMethodDef methods[] = {
    {"set", (PyCFunction)(void (*)(void))set, QUICK,
     "set($self, /, quote, value)\n--\n\nGives the quote a value of at most nine places, within 1,000,000,000 either way, and returns what\n"
     "watchers' runs wrote. A float is taken where it is the nearest one to a decimal of nine places, else InexactValue is raised."},
    {"ask", (PyCFunction)(void (*)(void))ask, QUICK,
     "ask($self, /, name)\n--\n\nThe instrument's price. Raises Unpriced where it has none, Rejected where nothing that is priced has the\n"
     "name, and TypeError for a curve."},
    {"ask_units", (PyCFunction)(void (*)(void))ask_units, QUICK,
     "ask_units($self, /, name)\n--\n\nThe instrument's price as a whole number of units of 10^-6. It raises what `ask` raises."},
    {"df", (PyCFunction)(void (*)(void))df, QUICK,
     "df($self, /, curve, day)\n--\n\nThe curve's discount factor at a day. Raises Unpriced where there is none, and Rejected where no curve\n"
     "has the name."},
    {"_open_desk", open_desk, METH_VARARGS, NULL},
    {"_say_line", say, METH_O, NULL},
    {"_keep_lines", keep_lines, METH_VARARGS, NULL},
    {"_kept_lines", kept_lines, METH_NOARGS, NULL},
    {"_last_text", text, METH_NOARGS, NULL},
    {"_node_at", node, METH_VARARGS, NULL},
    {"_number_count", count, METH_NOARGS, NULL},
    {"_object_at", object, METH_O, NULL},
    {"_close_desk", close_desk, METH_NOARGS, NULL},
    {NULL, NULL, 0, NULL}};

static PyMemberDef members[] = {{"_count", T_ULONGLONG, offsetof(Desk, count), 0, NULL},
                                {"_action", T_ULONGLONG, offsetof(Desk, action), 0, NULL},
                                {"_is_quick", T_BOOL, offsetof(Desk, is_quick), 0, NULL},
                                {"_has_watchers", T_BOOL, offsetof(Desk, has_watchers), 0, NULL},
                                {NULL, 0, 0, 0, NULL}};

static PyType_Slot slots[] = {{Py_tp_new, (void *)new_desk},
                              {Py_tp_dealloc, (void *)free_desk},
                              {Py_tp_methods, (void *)methods},
                              {Py_tp_members, (void *)members},
                              {Py_tp_doc, (void *)"A session in this process: the calls of doqsheley.h."},
                              {0, NULL}};

static PyType_Spec spec = {"doqsheley._desk.Desk", sizeof(Desk), 0, Py_TPFLAGS_DEFAULT | Py_TPFLAGS_BASETYPE, slots};

static PyMethodDef functions[] = {{"tables", tables, METH_O, NULL},
                                  {"version", version, METH_NOARGS, NULL},
                                  {"build", build, METH_NOARGS, NULL},
                                  {"set_up", set_up, METH_VARARGS, NULL},
                                  {NULL, NULL, 0, NULL}};

static struct PyModuleDef module = {PyModuleDef_HEAD_INIT, "doqsheley._desk", NULL, -1, functions, NULL, NULL, NULL, NULL};

PyMODINIT_FUNC PyInit__desk(void) {
#if defined(__x86_64__) && defined(__GNUC__)
    /* The library is built for these. */
    if (!__builtin_cpu_supports("sse4.2") || !__builtin_cpu_supports("popcnt")) {
        PyErr_SetString(PyExc_ImportError, "doqsheley needs an x86-64-v2 processor, with SSE 4.2 and popcnt");
        return NULL;
    }
#endif
    PyObject *made = PyModule_Create(&module), *type = PyType_FromSpec(&spec);
    if (!made || !type || PyModule_AddObject(made, "Desk", type) < 0) {
        Py_XDECREF(type);
        Py_XDECREF(made);
        return NULL;
    }
    return made;
}
