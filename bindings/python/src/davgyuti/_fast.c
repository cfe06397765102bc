/* SPDX-License-Identifier: Apache-2.0 */
/* Reads and writes packets. Whether bytes are a packet is said by the proved calls of dcsctp.h. The fields are read and written here, by what
   _kinds.h says of each kind: it is generated, and nothing else here names a kind. None of that is proved. What reads is total, whatever
   the bytes are: a value whose size isn't one of its kind is none.

   Each call of a packet's builder is one step, since it holds Python's lock (GIL), and what may run code of Python's, as to ask an object for
   its number, writes into memory that nobody else has. So it is alone, and a chunk that can't be written leaves all as it was. */
#define PY_SSIZE_T_CLEAN
#include <Python.h>
#include <structmember.h>
#include <string.h>
#include "dcsctp_processor.h"
#if defined(DCSCTP_PROCESSOR_TARGET) && defined(__x86_64__)
#include <cpuid.h>
#endif

/* What a value is made of, in order, but that flags come first, which are in its header, and the type of what is of no kind. */
enum what { END, NUMBER, RESERVED, BIT, RESULT, COUNT, EITHER, OR_ELSE, LIST, RECORDS, OPTIONAL, REST, ITEMS, FLAG, HEAD };
enum level { CHUNK, PARAMETER, CAUSE, RECORD };
enum { MOST_STEPS = 12, MOST_FIELDS = 3, LARGEST_CHUNK = 0xFFFF, HEADER_SIZE = 4, MOST_BYTES = 65532 };
struct step {
    uint8_t what;
    uint8_t size; /* of a number or an item, in bytes */
    uint8_t more; /* the bit of a flag, the kind of a record, the level of a list, a place in the header */
    const char *name;
};
struct layout {
    const char *name;
    uint16_t number;
    uint16_t size, step, most; /* a value has `size` bytes, and at most `most` times `step` more; a step of 0: as its counts say */
    struct step steps[MOST_STEPS];
    uint8_t fields; /* of a record: how many it has */
};
/* What a method is given. */
enum otherwise { NEEDED, ZERO, NO, YES, NOTHING };
struct words {
    uint8_t count, plain; /* how many, and how many of these need not be named */
    struct {
        uint8_t step, otherwise;
    } all[MOST_STEPS];
};
#include "_kinds.h"

/* ---- the CRC32c: the library's, or the processor's, where that was asked for and is there. ctypes calls these two too. */

static bool is_by_processor;

uint32_t chosen_word(const uint8_t *bytes, size_t length)
{
#ifdef DCSCTP_PROCESSOR_TARGET
    if (is_by_processor && length >= DCSCTP_FIRST_CHUNK)
        return dcsctp_processor_word_12(bytes, length);
#endif
    return dcsctp_word(bytes, length);
}

uint32_t chosen_seal(uint8_t *packet, size_t length)
{
    if (!is_by_processor || length < DCSCTP_FIRST_CHUNK)
        return dcsctp_seal(packet, length);
    const uint32_t word = chosen_word(packet, length);
    for (int i = 0; i < 4; i++)
        packet[8 + i] = (uint8_t)(word >> (24 - 8 * i));
    return DCSCTP_OK;
}

static PyObject *fast_use_processor_crc32c(PyObject *module, PyObject *is_used)
{
    const int is_true = PyObject_IsTrue(is_used);
    bool is_there = false;
    (void)module;
#if defined(DCSCTP_PROCESSOR_TARGET) && defined(__x86_64__)
    /* (__builtin_cpu_supports needs a part of libgcc) */
    unsigned a, b, c = 0, d;
    is_there = __get_cpuid(1, &a, &b, &c, &d) && c & bit_SSE4_2 && c & bit_PCLMUL;
#elif defined(DCSCTP_PROCESSOR_TARGET)
    is_there = DCSCTP_PROCESSOR_HAS;
#endif
    if (is_true < 0)
        return NULL;
    is_by_processor = is_true && is_there;
    return PyBool_FromLong(is_by_processor);
}

static const char *const LEVEL_NAMES[] = {"chunk", "parameter", "error cause"};

struct state {
    PyTypeObject *types[KINDS];
    PyObject *slots[KINDS][MOST_STEPS], *names[KINDS][MOST_STEPS], *offsets[KINDS]; /* of a kind a slot for each step that has a name */
    PyObject *results[RESULTS], *error_of, *policy, *encoded; /* (a policy that was made before, by which nothing is set) */
    PyObject *defaults[NOTHING + 1];
    PyObject *unfilled; /* a tuple */
    size_t begin; /* how many bytes it has before its fields, after its size */
    PyTypeObject *word, *writer;
    descrgetfunc get;
    descrsetfunc set;
};

static PyObject *error(const struct state *state, uint32_t code, PyObject *detail)
{
    PyObject *it = detail ? PyObject_CallFunction(state->error_of, "IO", (unsigned)code, detail) : NULL;
    if (it)
        PyErr_SetObject((PyObject *)Py_TYPE(it), it);
    Py_XDECREF(it);
    Py_XDECREF(detail);
    return NULL;
}

static PyObject *too_long(const struct state *state)
{
    return error(state, DCSCTP_BAD_VALUE, PyUnicode_FromString("a chunk of more than 65,535 bytes"));
}

/* ---- reading */

/* Bytes that are read, and what is added to the offsets in them; they are None where it is NOWHERE. */
struct bytes {
    const uint8_t *at;
    size_t length;
    Py_ssize_t base;
};
enum { NOWHERE = -1 };

static inline uint32_t number_at(const uint8_t *at, int size)
{
    const uint32_t two = (uint32_t)at[0] << 8 | at[size > 1];
    return size == 4 ? two << 16 | (uint32_t)at[2] << 8 | at[3] : size == 2 ? two : at[0];
}

/* A size with its padding. */
static size_t padded(size_t size)
{
    return (size + 3) & ~(size_t)3;
}

/* The size of the chunk, parameter or error cause that begins at an offset, before an end; 0 where no whole one does. */
static size_t whole(const struct bytes *bytes, size_t at, size_t end)
{
    const size_t size = at < end && end - at >= HEADER_SIZE ? number_at(bytes->at + at + 2, 2) : 0;
    return size >= HEADER_SIZE && size <= end - at ? size : 0;
}

/* Sets a slot to a value, and gives that up; false where there is none. */
static inline bool set(const struct state *state, PyObject *slot, PyObject *it, PyObject *value)
{
    const bool is_set = value && state->set(slot, it, value) == 0;
    Py_XDECREF(value);
    return is_set;
}

/* A record whose fields aren't filled, as a tuple begins: from CPython 3.14 on with no hash. The collector of garbage isn't told of it. */
static PyObject *unfilled(const struct state *state, int kind)
{
    const Py_ssize_t count = LAYOUTS[kind].fields;
    PyVarObject *const it = PyObject_GC_NewVar(PyVarObject, state->types[kind], count);
    if (it)
        memcpy(it + 1, (PyVarObject *)state->unfilled + 1, state->begin + (size_t)count * sizeof(PyObject *));
    return (PyObject *)it;
}

/* A record: a tuple of its numbers, after which come its bits. */
static PyObject *record_at(const struct state *state, int kind, const uint8_t *at)
{
    const Py_ssize_t count = LAYOUTS[kind].fields;
    const struct step *const steps = LAYOUTS[kind].steps;
    Py_ssize_t place = 0;
    PyObject *it = unfilled(state, kind); /* (numbers lead to nothing) */
    for (const struct step *step = steps; it && step->what; at += step->size, step++) {
        const uint32_t number = number_at(at, step->size);
        PyObject *value = step->what == BIT ? PyBool_FromLong(number & 1) : PyLong_FromUnsignedLong(number);
        if (!value || PyTuple_SetItem(it, step->what == BIT ? count - 1 : place++, value) < 0)
            Py_CLEAR(it);
    }
    return it;
}

static PyObject *list_at(const struct state *state, const struct step *step, const uint8_t *at, size_t count)
{
    PyObject *list = PyTuple_New((Py_ssize_t)count);
    for (size_t i = 0; list && i < count; i++, at += step->size) {
        PyObject *it = step->what == RECORDS ? record_at(state, step->more, at) : PyLong_FromUnsignedLong(number_at(at, step->size));
        if (!it || PyTuple_SetItem(list, (Py_ssize_t)i, it) < 0)
            Py_CLEAR(list);
    }
    return list;
}

/* Whether lists that are counted have as many bytes. */
static bool fill(const struct step *step, const uint32_t *counts, size_t size)
{
    uint64_t all = 0;
    for (; step->what; step++)
        if (step->what == LIST || step->what == RECORDS)
            all += (uint64_t)*counts++ * step->size;
    return all == size;
}

static PyObject *parts_at(const struct state *state, const struct bytes *bytes, size_t at, size_t end, enum level level, bool is_raw,
                          Py_ssize_t most);

/* A value of a kind, between two offsets: NULL, without an exception, where it isn't one of the kind. */
static PyObject *value_at(const struct state *state, int kind, const struct bytes *bytes, size_t at, size_t end)
{
    const struct layout *const layout = &LAYOUTS[kind];
    const size_t more = end - at - layout->size;
    if (end - at < layout->size || (layout->step ? more % layout->step || more / layout->step > layout->most : more && !layout->most))
        return NULL;
    const uint8_t *const header = bytes->at + (at ? at - HEADER_SIZE : 0); /* (of a part: the common header has none) */
    const unsigned flags = header[1];
    uint32_t counts[2] = {0, 0};
    size_t counted = 0, used = 0, count;
    PyObject *it = PyType_GenericAlloc(state->types[kind], 0);
    const Py_ssize_t place = bytes->base + (Py_ssize_t)at - HEADER_SIZE;
    if (it && state->offsets[kind] && !set(state, state->offsets[kind], it, bytes->base == NOWHERE ? Py_NewRef(Py_None) : PyLong_FromSsize_t(place)))
        Py_CLEAR(it);
    for (const struct step *step = layout->steps; it && step->what; step++) {
        const uint8_t *const from = bytes->at + at;
        const uint32_t number = step->size && step->what < LIST ? number_at(from, step->size) : 0;
        PyObject *value = NULL;
        at += step->what == EITHER || step->what >= LIST ? 0 : step->size;
        switch ((enum what)step->what) {
        case NUMBER: value = PyLong_FromUnsignedLong(number); break;
        case RESERVED:
            if (!*step->name)
                continue;
            value = PyLong_FromUnsignedLong(number);
            break;
        case RESULT: value = number < RESULTS ? Py_NewRef(state->results[number]) : NULL; break;
        case COUNT: counts[counted++] = number; continue;
        case EITHER: value = PyLong_FromUnsignedLong(flags & step->more ? number : 0); break;
        case OR_ELSE: value = PyLong_FromUnsignedLong(flags & step->more ? 0 : number); break;
        case FLAG: value = Py_NewRef(flags & step->more ? Py_True : Py_False); break;
        case HEAD: value = PyLong_FromUnsignedLong(number_at(header + step->more, step->size)); break;
        case REST: value = PyBytes_FromStringAndSize((const char *)from, (Py_ssize_t)(end - at)); break;
        case ITEMS: value = parts_at(state, bytes, at, end, step->more, false, LARGEST_CHUNK); break;
        case OPTIONAL: value = more ? record_at(state, step->more, from) : Py_NewRef(Py_None); break;
        case LIST:
        case RECORDS:
            if (counted && !used && !fill(step, counts, more))
                break;
            count = counted ? counts[used++] : more / step->size;
            value = list_at(state, step, from, count);
            at += count * step->size;
            break;
        default: continue;
        }
        if (!set(state, state->slots[kind][step - layout->steps], it, value))
            Py_CLEAR(it);
    }
    return it;
}

/* The chunks, parameters or error causes from an offset on, at most as many, up to an end, or to the first that isn't whole. */
static PyObject *parts_at(const struct state *state, const struct bytes *bytes, size_t at, size_t end, enum level level, bool is_raw,
                          Py_ssize_t most)
{
    Py_ssize_t count = 0;
    for (size_t next = at, size; count < most && (size = whole(bytes, next, end)); next += padded(size))
        count++;
    PyObject *list = PyTuple_New(count);
    for (Py_ssize_t i = 0; list && i < count; i++) {
        const size_t size = whole(bytes, at, end);
        const int kind = is_raw ? -1 : kind_of_number(level, number_at(bytes->at + at, level == CHUNK ? 1 : 2));
        PyObject *it = kind < 0 ? NULL : value_at(state, kind, bytes, at + HEADER_SIZE, at + size);
        if (!it && !PyErr_Occurred())
            it = value_at(state, RAW_CHUNK + (int)level, bytes, at + HEADER_SIZE, at + size);
        if (!it || PyTuple_SetItem(list, i, it) < 0)
            Py_CLEAR(list);
        at += padded(size);
    }
    return list;
}

/* ---- what is passed */

/* Bytes, of which those that may change are copied; NULL with an exception for what holds none. */
static PyObject *bytes_of(PyObject *object, struct bytes *bytes)
{
    PyObject *view = PyBytes_CheckExact(object) ? NULL : PyMemoryView_FromObject(object);
    PyObject *found = PyBytes_CheckExact(object) ? Py_NewRef(object) : view ? PyObject_CallMethod(view, "tobytes", NULL) : NULL;
    Py_XDECREF(view);
    if (found)
        *bytes = (struct bytes){(const uint8_t *)PyBytes_AsString(found), (size_t)PyBytes_Size(found), 0};
    return found;
}

/* A number that isn't plain: any object that has an index; an exception names what has no place, and the list that it is an item of. */
static bool index_of(PyObject *object, uint32_t most, uint32_t *number, const char *name, const char *list, size_t index)
{
    PyErr_Clear();
    PyObject *exact = PyNumber_Index(object);
    if (!exact)
        return false;
    const unsigned long long found = PyLong_AsUnsignedLongLong(exact);
    const bool has_place = found <= most;
    if (!has_place) {
        PyErr_Clear();
        PyObject *item = list ? PyUnicode_FromFormat("%s[%zu]%s%s", list, index, *name ? "." : "", name) : PyUnicode_FromString(name);
        if (item)
            PyErr_Format(PyExc_ValueError, "%U has to be 0 to %u, and is %S", item, (unsigned)most, exact);
        Py_XDECREF(item);
    }
    Py_DECREF(exact);
    *number = (uint32_t)found;
    return has_place;
}

/* A number that is plain, and has a place; -1 of another, perhaps with an exception. */
static inline int64_t plain(PyObject *object, uint32_t most)
{
    const unsigned long found = PyLong_CheckExact(object) ? PyLong_AsUnsignedLong(object) : (unsigned long)-1;
    /* (all bits are set where it has none) */
    return found <= most && (sizeof found > 4 || found != (unsigned long)-1) ? (int64_t)found : -1;
}

/* Any number. */
static bool number_of(PyObject *object, uint32_t most, uint32_t *number, const char *name)
{
    const int64_t found = plain(object, most);
    *number = (uint32_t)found;
    return found >= 0 || index_of(object, most, number, name, NULL, 0);
}

static inline uint32_t most_of(int size)
{
    return size == 4 ? 0xFFFFFFFF : size == 2 ? 0xFFFF : 0xFF;
}

/* The value of a slot. */
static PyObject *got(const struct state *state, int class, ptrdiff_t slot, PyObject *object)
{
    return state->get(state->slots[class][slot], object, (PyObject *)Py_TYPE(object));
}

static bool has_count(Py_ssize_t count, Py_ssize_t wanted)
{
    if (count != wanted)
        PyErr_Format(PyExc_TypeError, "it takes %zd arguments, and got %zd", wanted, count);
    return count == wanted;
}

/* ---- writing: what follows writes behind `size` bytes, and is false with an exception */

struct out {
    const struct state *state;
    uint8_t *at;
    size_t size, room;
    bool as_read; /* so are reserved bytes, and else zeros */
    uint8_t few[2048];
};

/* Place for so many bytes more; NULL with an exception. */
static uint8_t *place_for(struct out *out, size_t count)
{
    if (count > LARGEST_CHUNK - out->size)
        return (uint8_t *)too_long(out->state);
    if (count > out->room - out->size) {
        uint8_t *const at = PyMem_Malloc(LARGEST_CHUNK);
        if (!at)
            return (uint8_t *)PyErr_NoMemory();
        memcpy(at, out->at, out->size);
        out->at = at, out->room = LARGEST_CHUNK;
    }
    out->size += count;
    return out->at + out->size - count;
}

static inline void put(uint8_t *at, uint32_t number, int size)
{
    if (size == 4)
        at[0] = (uint8_t)(number >> 24), at[1] = (uint8_t)(number >> 16), at += 2;
    if (size > 1)
        *at++ = (uint8_t)(number >> 8);
    *at = (uint8_t)number;
}

static bool put_bytes(struct out *out, PyObject *object)
{
    struct bytes bytes;
    PyObject *found = object ? bytes_of(object, &bytes) : NULL;
    uint8_t *const at = found ? place_for(out, bytes.length) : NULL;
    if (at)
        memcpy(at, bytes.at, bytes.length);
    Py_XDECREF(found);
    return at;
}

/* Writes a record, which a list has at an index. */
static bool put_record(const struct state *state, uint8_t *at, PyObject *object, const struct step *list, size_t index)
{
    const Py_ssize_t count = LAYOUTS[list->more].fields;
    const struct step *const steps = LAYOUTS[list->more].steps;
    const bool is_plain = Py_TYPE(object) == state->types[list->more] || PyTuple_CheckExact(object);
    PyObject *const fields = is_plain ? object : PySequence_Tuple(object);
    bool is_put = fields && PyTuple_Size(fields) == count;
    if (fields && !is_put)
        PyErr_Format(PyExc_ValueError, "%s[%zu] has to have %zd fields", list->name, index, count);
    for (Py_ssize_t i = 0, place = 0; is_put && i < count; at += steps[i++].size) {
        const bool is_bit = steps[i].what == BIT;
        PyObject *const field = PyTuple_GetItem(fields, is_bit ? count - 1 : place++);
        int64_t number = is_bit ? PyObject_IsTrue(field) : plain(field, most_of(steps[i].size));
        if (number < 0) {
            uint32_t other = 0;
            is_put = !is_bit && index_of(field, most_of(steps[i].size), &other, steps[i].name, list->name, index);
            number = other;
        }
        put(at, (uint32_t)number, steps[i].size);
    }
    if (!is_plain)
        Py_XDECREF(fields);
    return is_put;
}

static bool put_part(struct out *out, PyObject *part, enum level level);

/* A list of numbers, records, parameters or error causes, of any iterable; `count` is where it is counted, or NULL. */
static bool put_list(struct out *out, PyObject *list, const struct step *step, const struct step *counted, size_t count_at)
{
    PyObject *items = list ? PySequence_Tuple(list) : NULL;
    const size_t count = items ? (size_t)PyTuple_Size(items) : 0;
    bool is_put = items != NULL;
    if (step->what == ITEMS) {
        for (size_t i = 0; is_put && i < count; i++)
            is_put = (i == 0 || put_part(out, NULL, step->more)) && put_part(out, PyTuple_GetItem(items, (Py_ssize_t)i), step->more);
    } else if (is_put) {
        uint8_t *at = count > LARGEST_CHUNK ? (uint8_t *)too_long(out->state) : place_for(out, count * step->size);
        is_put = at != NULL;
        const Py_ssize_t fields = step->what == LIST ? 0 : LAYOUTS[step->more].fields;
        for (size_t i = 0; is_put && i < count; i++, at += step->size) {
            PyObject *const item = PyTuple_GetItem(items, (Py_ssize_t)i);
            /* (most records are pairs of shorts) */
            const bool is_pair = fields == 2 && step->size == 4 && Py_TYPE(item) == out->state->types[step->more];
            const int64_t one = is_pair ? plain(PyTuple_GetItem(item, 0), 0xFFFF) : -1, other = is_pair ? plain(PyTuple_GetItem(item, 1), 0xFFFF) : -1;
            const int64_t plainly = fields ? 0 : plain(item, most_of(step->size));
            uint32_t number = (uint32_t)plainly;
            if (one >= 0 && other >= 0)
                put(at, (uint32_t)(one << 16 | other), 4);
            else if (fields)
                is_put = put_record(out->state, at, item, step, i);
            else if (plainly >= 0 || (is_put = index_of(item, most_of(step->size), &number, "", step->name, i)))
                put(at, number, step->size);
        }
        if (counted)
            put(out->at + count_at, (uint32_t)count, counted->size);
    }
    Py_XDECREF(items);
    return is_put;
}

/* The value of a kind, whose header is before it: of a part, or of a value for each step. */
static bool put_value(struct out *out, int kind, PyObject *part, PyObject *const *values)
{
    const struct state *const state = out->state;
    const struct step *const steps = LAYOUTS[kind].steps, *counts[2] = {NULL, NULL};
    const size_t header = out->size - HEADER_SIZE;
    size_t counts_at[2] = {0, 0}, counted = 0, used = 0;
    uint32_t number = 0, other;
    bool is_put = true;
    for (const struct step *step = steps; is_put && step->what; step++) {
        PyObject *const of_step = values ? values[step - steps] : Py_None;
        PyObject *value = part && *step->name ? got(state, kind, step - steps, part) : Py_NewRef(of_step ? of_step : Py_None);
        uint8_t *at = NULL;
        int bit;
        is_put = value != NULL;
        switch (is_put ? (enum what)step->what : END) {
        case FLAG:
            bit = PyObject_IsTrue(value);
            is_put = bit >= 0;
            out->at[header + 1] |= bit > 0 ? step->more : 0;
            break;
        case NUMBER:
        case EITHER:
        case RESULT:
        case HEAD: is_put = number_of(value, most_of(step->size), &number, step->name); break;
        case OR_ELSE:
            is_put = number_of(value, most_of(step->size), &other, step->name);
            number = out->at[header + 1] & step->more ? number : other;
            break;
        case COUNT:
            counts[counted] = step;
            counts_at[counted++] = out->size;
            number = 0;
            break;
        case RESERVED:
            number = 0;
            is_put = !out->as_read || number_of(value, most_of(step->size), &number, step->name);
            break;
        case REST: is_put = put_bytes(out, value); break;
        case OPTIONAL:
            is_put = value == Py_None || ((at = place_for(out, step->size)) && put_record(state, at, value, step, 0));
            break;
        case ITEMS:
        case LIST:
        case RECORDS:
            is_put = put_list(out, value, step, used < counted ? counts[used] : NULL, used < counted ? counts_at[used] : 0);
            used++;
            break;
        default: break;
        }
        if (is_put && step->what == RESULT && number >= RESULTS)
            is_put = error(state, DCSCTP_BAD_VALUE, PyUnicode_FromFormat("no %s is %u", step->name, (unsigned)number));
        if (is_put && step->what < LIST && step->what != EITHER && (is_put = (at = place_for(out, step->size)) != NULL))
            put(at, number, step->size);
        if (is_put && step->what == HEAD)
            put(out->at + header + step->more, number, step->size);
        Py_XDECREF(value);
    }
    return is_put;
}

/* The kind that an object is of; HEADER of what is of none. */
static int class_of(const struct state *state, PyObject *object)
{
    PyTypeObject *const type = Py_TYPE(object);
    int kind = 0, base = 0;
    while (kind < HEADER && state->types[kind] != type)
        kind++;
    while (kind == HEADER && base < HEADER && !PyType_IsSubtype(type, state->types[base]))
        base++;
    return kind < HEADER ? kind : base;
}

static enum level level_of(int kind)
{
    enum level level = CHUNK;
    if (kind >= RAW_CHUNK)
        return (kind - RAW_CHUNK) % RECORD;
    while (level < RECORD && kind >= (int)FIRST[level + 1])
        level++;
    return level;
}

/* What is of a kind, with its header. */
static bool put_kind(struct out *out, int kind, enum level level, PyObject *part, PyObject *const *values)
{
    const size_t start = out->size;
    uint8_t *const at = place_for(out, HEADER_SIZE);
    if (!at)
        return false;
    put(at, level == CHUNK ? (uint32_t)LAYOUTS[kind].number << 8 : LAYOUTS[kind].number, 2);
    if (!put_value(out, kind, part, values))
        return false;
    put(out->at + start + 2, (uint32_t)(out->size - start), 2);
    return true;
}

/* A chunk, a parameter or an error cause, with its header; or, where there is none, the padding of the one before. */
static bool put_part(struct out *out, PyObject *part, enum level level)
{
    const struct state *const state = out->state;
    const size_t start = out->size;
    if (!part) {
        uint8_t *const at = place_for(out, padded(start) - start);
        return at && memset(at, 0, padded(start) - start);
    }
    const int class = class_of(state, part);
    if (class == HEADER || level_of(class) != level) {
        /* (Python's cache of attributes keeps each name that isn't interned) */
        PyObject *attribute = PyUnicode_InternFromString("__name__");
        PyObject *name = attribute ? PyObject_GetAttr((PyObject *)Py_TYPE(part), attribute) : NULL;
        if (name)
            PyErr_Format(PyExc_TypeError, "%U is no %s", name, LEVEL_NAMES[level]);
        Py_XDECREF(attribute);
        Py_XDECREF(name);
        return false;
    }
    if (class >= REGISTERED_CHUNK) {
        PyObject *encoded = PyObject_CallFunctionObjArgs(state->encoded, part, NULL);
        const bool is_put = put_bytes(out, encoded);
        Py_XDECREF(encoded);
        return is_put;
    }
    return put_kind(out, class, level, part, NULL);
}

/* Begins to write, and ends it. */
static struct out *begun(struct out *out, const struct state *state)
{
    out->state = state, out->at = out->few, out->size = 0, out->room = sizeof out->few, out->as_read = false;
    return out;
}

static bool ended(struct out *out, bool is_put)
{
    if (out->at != out->few)
        PyMem_Free(out->at);
    return is_put;
}

/* ---- a packet's builder */

struct builder {
    PyObject_HEAD
    const struct state *state;
    uint8_t *packet;
    size_t size, room, start; /* where the last chunk begins */
    Py_ssize_t limit;
    uint64_t chunks, last; /* how many were begun in all; and which of these is the last one that can be added to, or 0 */
};

/* Makes the memory as large; false with an exception where the packet may not be. */
static bool grow(struct builder *it, size_t size)
{
    size_t room = 2 * it->room > 2048 ? 2 * it->room : 2048;
    if (size > (size_t)it->limit)
        return error(it->state, DCSCTP_NO_ROOM,
                     PyUnicode_FromFormat("no room: %zu bytes more, after %zu of at most %zd", size - it->size, it->size, it->limit));
    if (size <= it->room)
        return true;
    room = room < size ? size : room > (size_t)it->limit ? (size_t)it->limit : room;
    uint8_t *const packet = PyMem_Realloc(it->packet, room);
    if (!packet)
        return PyErr_NoMemory();
    it->packet = packet, it->room = room;
    return true;
}

static PyMethodDef METHODS[];

static PyObject *builder_new(PyTypeObject *type, PyObject *arguments, PyObject *words)
{
    (void)arguments, (void)words;
    struct builder *it = (struct builder *)PyType_GenericAlloc(type, 0);
    /* (the module's class is among those that a class of Python's is made of) */
    while (PyType_GetSlot(type, Py_tp_methods) != METHODS)
        type = PyType_GetSlot(type, Py_tp_base);
    if (it)
        it->state = PyType_GetModuleState(type);
    return (PyObject *)it;
}

static bool begin(struct builder *it, PyObject *source_port, PyObject *destination_port, PyObject *verification_tag)
{
    uint32_t source, destination, tag;
    if (!number_of(source_port, 0xFFFF, &source, "source_port") || !number_of(destination_port, 0xFFFF, &destination, "destination_port")
        || !number_of(verification_tag, 0xFFFFFFFF, &tag, "verification_tag") || !grow(it, DCSCTP_FIRST_CHUNK))
        return false;
    dcsctp_begin(it->packet, it->room, &it->size, (uint16_t)source, (uint16_t)destination, tag);
    it->last = 0;
    return true;
}

static int builder_init(struct builder *it, PyObject *arguments, PyObject *words)
{
    static char *NAMES[] = {"source_port", "destination_port", "verification_tag", "limit", NULL};
    PyObject *given[4] = {NULL};
    if (!words && PyTuple_Size(arguments) == 3) /* (so it takes less time) */
        for (int i = 0; i < 3; i++)
            given[i] = PyTuple_GetItem(arguments, i);
    else if (!PyArg_ParseTupleAndKeywords(arguments, words, "OOO|$O:PacketBuilder", NAMES, &given[0], &given[1], &given[2], &given[3]))
        return -1;
    const Py_ssize_t limit = given[3] ? PyNumber_AsSsize_t(given[3], NULL) : MOST_BYTES;
    if (PyErr_Occurred())
        return -1;
    it->limit = limit < 0 ? 0 : limit > MOST_BYTES ? MOST_BYTES : limit;
    return begin(it, given[0], given[1], given[2]) ? 0 : -1;
}

static PyObject *builder_reset(struct builder *it, PyObject *const *arguments, Py_ssize_t count)
{
    return has_count(count, 3) && begin(it, arguments[0], arguments[1], arguments[2]) ? Py_NewRef(Py_None) : NULL;
}

/* Puts bytes behind the packet, and their padding. */
static bool append(struct builder *it, const struct out *out)
{
    const size_t end = it->size + padded(out->size);
    if (!grow(it, end))
        return false;
    memset(it->packet + end - 4, 0, 4);
    memcpy(it->packet + it->size, out->at, out->size);
    it->size = end;
    return true;
}

/* What writes the list of a builder's chunk with a number. */
struct writer {
    PyObject_HEAD
    struct builder *builder;
    uint64_t chunk;
};

/* Adds a chunk that was put; and returns what writes its list, or None where it isn't listed. */
static PyObject *added(struct builder *it, struct out *out, bool is_put, bool is_listed)
{
    PyObject *const found = !is_put ? NULL : is_listed ? PyType_GenericAlloc(it->state->writer, 0) : Py_NewRef(Py_None);
    if (!ended(out, found && append(it, out))) {
        Py_XDECREF(found);
        return NULL;
    }
    it->start = it->size - padded(out->size), it->chunks++;
    it->last = is_listed ? it->chunks : 0;
    if (is_listed) {
        struct writer *const writer = (struct writer *)found;
        writer->builder = (struct builder *)Py_NewRef((PyObject *)it), writer->chunk = it->last;
    }
    return found;
}

static PyObject *add(struct builder *it, PyObject *chunk, bool is_listed)
{
    struct out out;
    const bool is_put = put_part(begun(&out, it->state), chunk, CHUNK);
    return added(it, &out, is_put, is_listed);
}

static PyObject *builder_add(struct builder *it, PyObject *chunk)
{
    return add(it, chunk, false);
}

static PyObject *builder_listed(struct builder *it, PyObject *chunk)
{
    return add(it, chunk, true);
}

/* Which of a method's words has this name; -1 of none. */
static int word_of(const struct state *state, enum kind kind, PyObject *name)
{
    const struct words *const words = &WORDS[kind];
    for (int i = 0; i < words->count; i++)
        if (state->names[kind][words->all[i].step] == name)
            return i;
    /* (most names are one with those in the state) */
    for (int i = 0; i < words->count; i++)
        if (PyUnicode_Compare(state->names[kind][words->all[i].step], name) == 0)
            return i;
    return -1;
}

/* Adds a chunk of a kind, of what a method is given. */
static PyObject *builder_chunk(struct builder *it, enum kind kind, PyObject *const *given, Py_ssize_t count, PyObject *names)
{
    const struct state *const state = it->state;
    const struct words *const words = &WORDS[kind];
    const struct step *const steps = LAYOUTS[kind].steps;
    const Py_ssize_t named = names ? PyTuple_Size(names) : 0;
    PyObject *values[MOST_STEPS] = {NULL};
    bool is_listed = false;
    if (count > words->plain)
        return PyErr_Format(PyExc_TypeError, "%s takes %d arguments without a name, and got %zd", LAYOUTS[kind].name, (int)words->plain, count);
    for (Py_ssize_t i = 0; i < count + named; i++) {
        PyObject *const name = i < count ? NULL : PyTuple_GetItem(names, i - count);
        const int word = name ? word_of(state, kind, name) : (int)i;
        PyObject **const value = word < 0 ? NULL : &values[words->all[word].step];
        if (!value || *value)
            return PyErr_Format(PyExc_TypeError, value ? "%s got %U twice" : "%s has no %U", LAYOUTS[kind].name, name);
        *value = given[i];
    }
    for (int i = 0; i < words->count; i++) {
        const int step = words->all[i].step;
        if (!values[step] && !(values[step] = state->defaults[words->all[i].otherwise]))
            return PyErr_Format(PyExc_TypeError, "%s needs %s", LAYOUTS[kind].name, steps[step].name);
    }
    for (int i = 0; steps[i].what; i++)
        if (steps[i].what == ITEMS)
            is_listed = true, values[i] = state->defaults[NOTHING];
    struct out out;
    const bool is_put = put_kind(begun(&out, state), kind, CHUNK, NULL, values);
    return added(it, &out, is_put, is_listed);
}

#define CHUNK_METHOD(name, kind, doc) \
    static PyObject *add_##name(struct builder *it, PyObject *const *given, Py_ssize_t count, PyObject *names) \
    { \
        return builder_chunk(it, kind, given, count, names); \
    }
CHUNK_METHODS(CHUNK_METHOD)

/* Writes the HMAC of the AUTH at an offset; false where it can't be. */
static PyObject *builder_sign(struct builder *it, PyObject *const *arguments, Py_ssize_t count)
{
    struct bytes key;
    const size_t at = has_count(count, 2) ? PyLong_AsSize_t(arguments[1]) : 0;
    PyObject *object = PyErr_Occurred() ? NULL : bytes_of(arguments[0], &key);
    const bool is_signed = object && at <= it->size && dcsctp_sign_auth(key.at, key.length, it->packet + at, it->size - at);
    Py_XDECREF(object);
    return object ? PyBool_FromLong(is_signed) : NULL;
}

static PyObject *builder_bytes(struct builder *it, PyObject *none)
{
    (void)none;
    return PyBytes_FromStringAndSize((const char *)it->packet, (Py_ssize_t)it->size);
}

static PyObject *builder_seal(struct builder *it, PyObject *none)
{
    PyObject *packet = builder_bytes(it, none);
    /* (it is nobody's yet, and so may be written) */
    if (packet)
        chosen_seal((uint8_t *)PyBytes_AsString(packet), it->size);
    return packet;
}

static Py_ssize_t builder_length(struct builder *it)
{
    return (Py_ssize_t)it->size;
}

static void builder_free(struct builder *it)
{
    PyTypeObject *const type = Py_TYPE(it);
    PyMem_Free(it->packet);
    ((freefunc)PyType_GetSlot(type, Py_tp_free))(it);
    Py_DECREF(type);
}

#define METHOD(name, function, flags, doc) {name, (PyCFunction)(void (*)(void))function, flags, doc}
#define CHUNK_ENTRY(name, kind, doc) METHOD(#name, add_##name, METH_FASTCALL | METH_KEYWORDS, doc),
static PyMethodDef METHODS[] = {
    CHUNK_METHODS(CHUNK_ENTRY)
    METHOD("reset", builder_reset, METH_FASTCALL,
           "reset($self, source_port, destination_port, verification_tag, /)\n--\n\nBegins another packet in the memory of the one before, "
           "which is gone, as is what was written to it; with the same\nlimit. One builder for many packets takes less time than one for each."),
    METHOD("add", builder_add, METH_O,
           "add($self, chunk, /)\n--\n\nAdds a chunk of any kind, with its parameters or error causes: all of it, or nothing."),
    METHOD("_listed", builder_listed, METH_O, NULL),
    METHOD("_sign", builder_sign, METH_FASTCALL, NULL),
    METHOD("__bytes__", builder_bytes, METH_NOARGS,
           "__bytes__($self, /)\n--\n\nThe packet with a checksum field of zero, as RFC 9653 has it sent where that was negotiated."),
    METHOD("seal", builder_seal, METH_NOARGS,
           "seal($self, /)\n--\n\nReturns the packet, with its CRC32c (RFC 9260 section 6.8). More may be added, and sealed again."),
    {NULL, NULL, 0, NULL},
};
static PyMemberDef FIELDS[] = {
    {"limit", T_PYSSIZET, offsetof(struct builder, limit), READONLY, "The most bytes that the packet may have."},
    {NULL, 0, 0, 0, NULL},
};
static PyType_Slot BUILDER_SLOTS[] = {
    {Py_tp_new, builder_new}, {Py_tp_init, builder_init}, {Py_tp_methods, METHODS}, {Py_tp_members, FIELDS},
    {Py_sq_length, builder_length}, {Py_tp_dealloc, builder_free},
    {Py_tp_doc, "Builder(source_port, destination_port, verification_tag, *, limit=65532)\n--\n\nWhat a PacketBuilder is."},
    {0, NULL},
};
static PyType_Spec BUILDER = {
    .name = "davgyuti._fast.Builder", .basicsize = sizeof(struct builder), .flags = Py_TPFLAGS_DEFAULT | Py_TPFLAGS_BASETYPE, .slots = BUILDER_SLOTS};

/* ---- what writes the list of a chunk */

/* Where its chunk begins, which has to be the last one; 0 where it isn't any more. */
static size_t start_of(const struct writer *it)
{
    return it->chunk == it->builder->last ? it->builder->start : 0;
}

/* Adds parameters or error causes: all of them, or nothing. */
static bool add_items(const struct writer *it, struct out *out, bool is_put)
{
    struct builder *const builder = it->builder;
    const size_t start = is_put ? start_of(it) : 0, size = builder->size - start + out->size;
    if (is_put && !start)
        error(builder->state, DCSCTP_BAD_PLACE, PyUnicode_FromString("the chunk isn't the packet's last one any more"));
    else if (is_put && size > LARGEST_CHUNK)
        too_long(builder->state);
    else if (is_put && out->size && append(builder, out))
        put(builder->packet + start + 2, (uint32_t)size, 2);
    return ended(out, !PyErr_Occurred());
}

static PyObject *writer_add(struct writer *it, PyObject *part, enum level level)
{
    struct out out;
    const bool is_put = put_part(begun(&out, it->builder->state), part, level);
    return add_items(it, &out, is_put) ? Py_NewRef((PyObject *)it) : NULL;
}

static PyObject *writer_parameter(struct writer *it, PyObject *parameter)
{
    return writer_add(it, parameter, PARAMETER);
}

static PyObject *writer_cause(struct writer *it, PyObject *cause)
{
    return writer_add(it, cause, CAUSE);
}

static PyObject *writer_items(struct writer *it, PyObject *const *arguments, Py_ssize_t count)
{
    static const struct step LISTS[] = {[PARAMETER] = {ITEMS, 0, PARAMETER, ""}, [CAUSE] = {ITEMS, 0, CAUSE, ""}};
    struct out out;
    const long level = has_count(count, 2) ? PyLong_AsLong(arguments[0]) : -1;
    if (level != PARAMETER && level != CAUSE)
        return PyErr_Occurred() ? NULL : PyErr_Format(PyExc_ValueError, "it is no level: %ld", level);
    const bool is_put = put_list(begun(&out, it->builder->state), arguments[1], &LISTS[level], NULL, 0);
    return add_items(it, &out, is_put) ? Py_NewRef(Py_None) : NULL;
}

/* Takes the chunk back; false where it isn't the last one any more. */
static PyObject *writer_back(struct writer *it, PyObject *none)
{
    (void)none;
    const size_t start = start_of(it);
    if (start)
        it->builder->size = start, it->builder->last = 0;
    return PyBool_FromLong(start != 0);
}

static PyObject *writer_enter(PyObject *it, PyObject *none)
{
    (void)none;
    return Py_NewRef(it);
}

static PyObject *writer_exit(PyObject *it, PyObject *const *arguments, Py_ssize_t count)
{
    if (!has_count(count, 3))
        return NULL;
    return arguments[0] == Py_None ? Py_NewRef(Py_None) : PyObject_CallMethod(it, "_raised", "O", arguments[1]);
}

static PyObject *writer_new(PyTypeObject *type, PyObject *arguments, PyObject *words)
{
    (void)type, (void)arguments, (void)words;
    return PyErr_Format(PyExc_TypeError, "a PacketBuilder makes it");
}

static void writer_free(struct writer *it)
{
    PyTypeObject *const type = Py_TYPE(it);
    Py_XDECREF((PyObject *)it->builder);
    ((freefunc)PyType_GetSlot(type, Py_tp_free))(it);
    Py_DECREF(type);
}

static PyMethodDef WRITER_METHODS[] = {
    METHOD("parameter", writer_parameter, METH_O,
           "parameter($self, parameter, /)\n--\n\nAdds a parameter (RFC 9260 section 3.2.1), and returns this."),
    METHOD("cause", writer_cause, METH_O, "cause($self, cause, /)\n--\n\nAdds an error cause (RFC 9260 section 3.3.10), and returns this."),
    METHOD("_items", writer_items, METH_FASTCALL, NULL),
    METHOD("_back", writer_back, METH_NOARGS, NULL),
    METHOD("__enter__", writer_enter, METH_NOARGS, NULL),
    METHOD("__exit__", writer_exit, METH_FASTCALL, NULL),
    {NULL, NULL, 0, NULL},
};
static PyType_Slot WRITER_SLOTS[] = {{Py_tp_new, writer_new}, {Py_tp_methods, WRITER_METHODS}, {Py_tp_dealloc, writer_free}, {0, NULL}};
static PyType_Spec WRITER = {
    .name = "davgyuti._fast.Writer", .basicsize = sizeof(struct writer), .flags = Py_TPFLAGS_DEFAULT | Py_TPFLAGS_BASETYPE, .slots = WRITER_SLOTS};

/* ---- a whole packet */

static bool needs_checksum(const struct bytes *bytes)
{
    size_t at = DCSCTP_FIRST_CHUNK;
    for (size_t size; (size = whole(bytes, at, bytes->length)); at += padded(size))
        switch (bytes->at[at]) {
        case DCSCTP_CHUNK_INIT:
        case DCSCTP_CHUNK_COOKIE_ECHO:
        case DCSCTP_CHUNK_ASCONF: return true;
        case DCSCTP_CHUNK_ABORT:
        case DCSCTP_CHUNK_SHUTDOWN_COMPLETE:
            if (bytes->at[at + 1] & DCSCTP_TAG_REFLECTED)
                return true;
        }
    return false;
}

/* Returns the word, or None where none is needed, and how many chunks there are; or raises the first fault. */
static PyObject *fast_read(PyObject *module, PyObject *const *arguments, Py_ssize_t count)
{
    const struct state *const state = PyModule_GetState(module);
    struct dcsctp_packet packet;
    struct bytes bytes;
    bool is_set[4] = {false};
    uint32_t word = 0;
    if (!has_count(count, 3))
        return NULL;
    PyObject *const policy = arguments[1];
    bool has_word = arguments[2] != Py_None;
    if (policy != state->policy && !PyType_IsSubtype(Py_TYPE(policy), state->types[POLICY]))
        return PyErr_Format(PyExc_TypeError, "policy has to be a Policy, and is %R", policy);
    if (has_word && !PyType_IsSubtype(Py_TYPE(arguments[2]), state->word))
        return PyErr_Format(PyExc_TypeError, "word has to be a Word, and is %R", arguments[2]);
    if (has_word && !number_of(arguments[2], 0xFFFFFFFF, &word, "word"))
        return NULL;
    for (int i = 0; policy != state->policy && i < 4; i++) {
        PyObject *value = got(state, POLICY, i, policy);
        is_set[i] = value == Py_True;
        Py_XDECREF(value);
    }
    PyObject *data = bytes_of(arguments[0], &bytes);
    if (!data)
        return NULL;
    /* (what has another size is no packet, and is refused before it is gone through) */
    const bool has_size = bytes.length >= 16 && bytes.length <= 0xFFFF;
    if (is_set[2] && has_size && number_at(bytes.at + 8, 4) == 0)
        is_set[1] |= !needs_checksum(&bytes);
    if (!has_word && !is_set[0] && has_size) {
        word = chosen_word(bytes.at, bytes.length);
        has_word = true;
    }
    const struct dcsctp_policy asked = {.any_checksum = is_set[0], .zero_checksum = is_set[1], .strict_padding = is_set[3]};
    const uint32_t code = dcsctp_read(bytes.at, bytes.length, word, &asked, NULL, 0, &packet);
    Py_DECREF(data);
    if (code)
        return error(state, code, PyLong_FromSize_t(packet.fault_offset));
    return has_word ? Py_BuildValue("kn", (unsigned long)word, (Py_ssize_t)packet.chunk_count)
                    : Py_BuildValue("On", Py_None, (Py_ssize_t)packet.chunk_count);
}

static PyObject *fast_needs_checksum(PyObject *module, PyObject *data)
{
    struct bytes bytes;
    PyObject *object = bytes_of(data, &bytes);
    (void)module;
    const bool needs = object && needs_checksum(&bytes);
    Py_XDECREF(object);
    return object ? PyBool_FromLong(needs) : NULL;
}

static PyObject *fast_header(PyObject *module, PyObject *data)
{
    const struct state *const state = PyModule_GetState(module);
    struct bytes bytes;
    PyObject *object = bytes_of(data, &bytes), *header = NULL;
    if (object && bytes.length < DCSCTP_FIRST_CHUNK)
        error(state, DCSCTP_FAULT_SIZE, PyLong_FromSize_t(bytes.length));
    else if (object)
        header = value_at(state, HEADER, &bytes, 0, DCSCTP_FIRST_CHUNK);
    Py_XDECREF(object);
    return header;
}

/* ---- parts of any bytes */

static PyObject *fast_chunks(PyObject *module, PyObject *data)
{
    struct bytes bytes;
    PyObject *object = bytes_of(data, &bytes);
    PyObject *list =
        object ? parts_at(PyModule_GetState(module), &bytes, DCSCTP_FIRST_CHUNK, bytes.length, CHUNK, false, PY_SSIZE_T_MAX) : NULL;
    Py_XDECREF(object);
    return list;
}

/* The chunks, parameters or error causes from an offset on: bytes, the offset, the level, whether they stay as they are, the most of them, and
   what is added to their offsets, or None. */
static PyObject *fast_parts(PyObject *module, PyObject *const *arguments, Py_ssize_t count)
{
    struct bytes bytes;
    if (!has_count(count, 6))
        return NULL;
    const size_t at = PyLong_AsSize_t(arguments[1]);
    const long level = PyLong_AsLong(arguments[2]);
    const Py_ssize_t most = PyLong_AsSsize_t(arguments[4]), base = arguments[5] == Py_None ? NOWHERE : PyLong_AsSsize_t(arguments[5]);
    PyObject *data = PyErr_Occurred() ? NULL : bytes_of(arguments[0], &bytes), *list = NULL;
    bytes.base = base;
    if (data && (level == CHUNK || level == PARAMETER || level == CAUSE))
        list = parts_at(PyModule_GetState(module), &bytes, at, bytes.length, (enum level)level, arguments[3] == Py_True, most);
    else if (data)
        PyErr_Format(PyExc_ValueError, "it is no level: %ld", level);
    Py_XDECREF(data);
    return list;
}

/* A part from an offset on, as it is written, or a parameter as it was read. */
static PyObject *encoded(PyObject *module, PyObject *part, size_t from, bool as_read)
{
    const struct state *const state = PyModule_GetState(module);
    struct out out;
    const enum level level = level_of(class_of(state, part));
    begun(&out, state)->as_read = as_read && level != CHUNK;
    const bool is_put = put_part(&out, part, level);
    PyObject *data = is_put ? PyBytes_FromStringAndSize((const char *)out.at + from, (Py_ssize_t)(out.size - from)) : NULL;
    ended(&out, is_put);
    return data;
}

static PyObject *fast_encoded(PyObject *module, PyObject *part)
{
    return encoded(module, part, 0, false);
}

static PyObject *fast_value(PyObject *module, PyObject *part)
{
    return encoded(module, part, HEADER_SIZE, true);
}

/* ---- the module */

/* Is told of the classes and functions by their names, and of what writes by field. */
static PyObject *fast_prepare(PyObject *module, PyObject *const *arguments, Py_ssize_t count)
{
    struct state *const state = PyModule_GetState(module);
    if (!has_count(count, 3) || state->encoded)
        return PyErr_Occurred() ? NULL : PyErr_Format(PyExc_TypeError, "it is prepared");
    for (int kind = 0; kind < KINDS; kind++) {
        PyObject *const class = PyMapping_GetItemString(arguments[0], LAYOUTS[kind].name);
        const struct step *const steps = LAYOUTS[kind].steps;
        state->types[kind] = (PyTypeObject *)class;
        if (!class)
            return NULL;
        if (!(state->offsets[kind] = PyObject_GetAttrString(class, "offset")))
            PyErr_Clear();
        for (int i = 0; steps[i].what; i++)
            if (*steps[i].name && (!(state->slots[kind][i] = PyObject_GetAttrString(class, steps[i].name))
                                   || !(state->names[kind][i] = PyUnicode_InternFromString(steps[i].name))))
                return NULL;
    }
    PyObject *const begin = PyObject_GetAttrString((PyObject *)&PyTuple_Type, "__basicsize__");
    if (!begin || !(state->unfilled = PyTuple_New(MOST_FIELDS)))
        return NULL;
    state->begin = PyLong_AsSize_t(begin) - sizeof(PyVarObject);
    Py_DECREF(begin);
    PyTypeObject *const of_slot = Py_TYPE(state->offsets[0]);
    state->get = (descrgetfunc)PyType_GetSlot(of_slot, Py_tp_descr_get);
    state->set = (descrsetfunc)PyType_GetSlot(of_slot, Py_tp_descr_set);
    PyObject *results = PyMapping_GetItemString(arguments[0], "ReConfigResult");
    for (int i = 0; results && i < RESULTS; i++)
        if (!(state->results[i] = PyObject_CallFunction(results, "i", i)))
            return NULL;
    state->error_of = PyMapping_GetItemString(arguments[0], "error_of");
    state->policy = PyMapping_GetItemString(arguments[0], "DEFAULT");
    state->word = (PyTypeObject *)PyMapping_GetItemString(arguments[0], "Word");
    PyObject *const defaults[] = {[ZERO] = PyLong_FromLong(0), [NO] = Py_NewRef(Py_False), [YES] = Py_NewRef(Py_True), [NOTHING] = PyTuple_New(0)};
    memcpy(state->defaults, defaults, sizeof defaults);
    state->writer = (PyTypeObject *)Py_NewRef(arguments[2]);
    state->encoded = Py_NewRef(arguments[1]);
    return PyErr_Occurred() ? NULL : Py_NewRef(Py_None);
}

static PyMethodDef FUNCTIONS[] = {
    METHOD("prepare", fast_prepare, METH_FASTCALL, NULL),
    METHOD("read", fast_read, METH_FASTCALL, NULL),
    METHOD("needs_checksum", fast_needs_checksum, METH_O, NULL),
    METHOD("use_processor_crc32c", fast_use_processor_crc32c, METH_O, NULL),
    METHOD("header", fast_header, METH_O, NULL),
    METHOD("chunks", fast_chunks, METH_O, NULL),
    METHOD("parts", fast_parts, METH_FASTCALL, NULL),
    METHOD("encoded", fast_encoded, METH_O, NULL),
    METHOD("value", fast_value, METH_O, NULL),
    {NULL, NULL, 0, NULL},
};

static int fast_exec(PyObject *module)
{
    PyObject *builder = PyType_FromModuleAndSpec(module, &BUILDER, NULL), *writer = PyType_FromModuleAndSpec(module, &WRITER, NULL);
    const int failed = !builder || !writer || PyModule_AddObjectRef(module, "Builder", builder) < 0
                       || PyModule_AddObjectRef(module, "Writer", writer) < 0 || PyModule_AddIntMacro(module, CHUNK) < 0
                       || PyModule_AddIntMacro(module, PARAMETER) < 0 || PyModule_AddIntMacro(module, CAUSE) < 0;
    Py_XDECREF(builder);
    Py_XDECREF(writer);
    return failed ? -1 : 0;
}

static PyModuleDef_Slot SLOTS[] = {{Py_mod_exec, fast_exec}, {0, NULL}};
static struct PyModuleDef MODULE = {
    PyModuleDef_HEAD_INIT, .m_name = "_fast", .m_size = sizeof(struct state), .m_methods = FUNCTIONS, .m_slots = SLOTS};

PyMODINIT_FUNC PyInit__fast(void)
{
    return PyModuleDef_Init(&MODULE);
}
