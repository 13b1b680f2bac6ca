/* librtfilter for Python, by the limited API: one build serves Python 3.11 and later.
 *
 * Regions and orders are tuples of the classes that `know` receives. Arrays come in by the buffer protocol and go out as
 * bytearrays, so that nothing here depends on numpy. The interpreter's lock is released while the library is called. */
#define Py_LIMITED_API 0x030B0000
#define PY_SSIZE_T_CLEAN
#include <Python.h>
#include <errno.h>
#include <rtfilter.h>
#include <stddef.h>
#include <stdlib.h>
#include <string.h>
#include <time.h>

enum {
    FEW = 256,            /* answers that a session has a buffer for at first */
    FIRST = 1 << 13,      /* and many queries */
    MANY = 1 << 20,       /* answers, and bytes of a reply, that it keeps a buffer for */
    STEP = 64,            /* queries of one call of the library, or pairs, between two looks at the clock, at most */
    SLICE_NS = 10000000,  /* nanoseconds after which a signal is looked for */
    AHEAD = 12,           /* answers between the one that is filtered and the one whose box is fetched */
    MOST_VERTICES = 16,
};

#define CLOSED "the table was closed"
static PyObject *table_error, *query_error, *layer_bits; /* exceptions, and the function that reads layers: from Python */

/* ---- Tables and their sessions */

/* A session, which one call at a time uses, and buffers for its answers. */
typedef struct worker {
    struct worker *next;
    rtfilter_session session;
    size_t capacity;
    int64_t *ids;
    rtfilter_score *scores;
} worker;

typedef struct {
    PyObject_HEAD
    rtfilter_session first; /* no query uses it, so that it can be shared at any time */
    worker *idle;           /* a stack, guarded by the interpreter's lock, as `first` is */
} Table;

/* Raises an exception that was made, if it could be made. What raises returns null, as functions of Python do: false, for a caller
 * that returns a bool. */
static PyObject *raise_made(PyObject *class, PyObject *error)
{
    if (error)
        PyErr_SetObject(class, error);
    Py_XDECREF(error);
    return NULL;
}

static PyObject *failed(int code)
{
    if (code == RTFILTER_NO_MEMORY)
        return PyErr_NoMemory();
    return PyErr_Format(code == RTFILTER_BAD_PROCESSOR ? PyExc_RuntimeError : PyExc_SystemError, "%s", rtfilter_message(code));
}

static void end_worker(worker *it)
{
    rtfilter_close(&it->session);
    free(it->ids);
    free(it->scores);
    free(it);
}

/* Resizes the buffers. The old ones stay if there is no memory. */
static bool resize(worker *it, size_t capacity)
{
    int64_t *ids = realloc(it->ids, capacity * sizeof *ids);
    rtfilter_score *scores = ids ? realloc(it->scores, capacity * sizeof *scores) : NULL;
    it->ids = ids ? ids : it->ids;
    it->scores = scores ? scores : it->scores;
    if (scores || (ids && capacity < it->capacity))
        it->capacity = capacity;
    return scores;
}

static worker *new_worker(Table *table)
{
    worker *it = calloc(1, sizeof *it);
    const int code = it && resize(it, FEW) ? rtfilter_share(&table->first, &it->session) : RTFILTER_NO_MEMORY;
    if (code == RTFILTER_OK)
        return it;
    if (it)
        end_worker(it);
    failed(code);
    return NULL;
}

/* A session for one call: an idle one, or one more. */
static worker *take(Table *table)
{
    worker *it = table->idle;
    if (!table->first.at) {
        PyErr_SetString(PyExc_ValueError, CLOSED);
        return NULL;
    }
    if (!it)
        return new_worker(table);
    table->idle = it->next;
    return it;
}

static void give_back(Table *table, worker *it)
{
    if (!table->first.at) { /* closed during the call */
        end_worker(it);
        return;
    }
    if (it->capacity > MANY)
        resize(it, FEW);
    it->next = table->idle;
    table->idle = it;
}

static PyObject *table_close(Table *self, PyObject *Py_UNUSED(unused))
{
    for (worker *it; (it = self->idle);) {
        self->idle = it->next;
        end_worker(it);
    }
    rtfilter_close(&self->first);
    return Py_NewRef(Py_None);
}

static void table_free(PyObject *self)
{
    PyTypeObject *type = Py_TYPE(self);
    Py_DECREF(table_close((Table *)self, NULL));
    ((freefunc)PyType_GetSlot(type, Py_tp_free))(self);
    Py_DECREF(type);
}

/* ---- Buffers */

static void release(Py_buffer *views, int count)
{
    while (count > 0)
        PyBuffer_Release(views + --count);
}

/* Views contiguous buffers of items of these sizes, or none of them. With *len, which is set, all have as many items. */
static bool view_all(int count, PyObject *const *from, const Py_ssize_t *sizes, Py_buffer *views, Py_ssize_t *len)
{
    for (int at = 0; at < count; at++) {
        if (PyObject_GetBuffer(from[at], views + at, PyBUF_C_CONTIGUOUS) < 0) {
            release(views, at);
            return false;
        }
        const Py_ssize_t bytes = views[at].len, items = bytes / sizes[at];
        if (bytes % sizes[at] != 0 || (len && at > 0 && items != *len)) {
            release(views, at + 1);
            return PyErr_Format(PyExc_TypeError, "a buffer of %zd bytes, and not as many items of %zd bytes", bytes, sizes[at]);
        }
        if (len)
            *len = items;
    }
    return true;
}

/* ---- Opening */

/* A whole number, or what Python takes for an index. A new reference. */
static PyObject *whole(PyObject *number, PyObject *of)
{
    PyObject *found = PyLong_Check(number) ? Py_NewRef(number) : PyNumber_Index(number);
    if (!found && PyErr_ExceptionMatches(PyExc_TypeError)) {
        if (of)
            PyErr_Format(PyExc_TypeError, "%.200R isn't a whole number: %.200R", number, of);
        else
            PyErr_Format(PyExc_TypeError, "%.200R isn't a whole number", number);
    }
    return found;
}

static PyObject *opened(Table *self, int code, const rtfilter_fault *fault)
{
    if (code == RTFILTER_OK)
        return (PyObject *)self;
    Py_DECREF(self);
    if (code == RTFILTER_BAD_TABLE)
        return raise_made(table_error, PyObject_CallFunction(table_error, "IIK", (unsigned)fault->kind, (unsigned)fault->record,
                                                             (unsigned long long)fault->field));
    if (code == RTFILTER_BAD_SETTING)
        return PyErr_Format(PyExc_ValueError, "fanout is 2 to 64, and max_entries 1 to 16777216");
    return failed(code);
}

/* Reads a setting, for PyArg_ParseTuple. A number that doesn't fit becomes 0, which the library refuses. */
static int read_setting(PyObject *number, void *setting)
{
    int overflow;
    PyObject *found = whole(number, NULL);
    if (!found)
        return 0;
    const long long value = PyLong_AsLongLongAndOverflow(found, &overflow);
    *(uint32_t *)setting = overflow || value < 0 || value > UINT32_MAX ? 0 : (uint32_t)value;
    Py_DECREF(found);
    return 1;
}

static rtfilter_settings settings_of(int header, uint32_t fanout, uint32_t most)
{
    return (rtfilter_settings){header, fanout > UINT8_MAX ? 0 : (uint8_t)fanout, most, {0}};
}

static PyObject *open_file(PyTypeObject *type, PyObject *args)
{
    PyObject *name, *path, *table = NULL;
    int header;
    uint32_t fanout, most;
    if (!PyArg_ParseTuple(args, "OpO&O&", &name, &header, read_setting, &fanout, read_setting, &most) ||
        !PyUnicode_FSConverter(name, &path))
        return NULL;
    const rtfilter_settings settings = settings_of(header, fanout, most);
    Table *self = (Table *)PyType_GenericAlloc(type, 0);
    if (self) {
        rtfilter_fault fault;
        const char *chars = PyBytes_AsString(path);
        int code, cause;
        Py_BEGIN_ALLOW_THREADS
        code = rtfilter_open_file(&self->first, chars, &settings, &fault);
        cause = errno;
        Py_END_ALLOW_THREADS
        if (code == RTFILTER_BAD_FILE) {
            Py_DECREF(self);
            errno = cause;
            PyErr_SetFromErrnoWithFilenameObject(PyExc_OSError, name);
        } else
            table = opened(self, code, &fault);
    }
    Py_DECREF(path);
    return table;
}

static PyObject *open_arrays(PyTypeObject *type, PyObject *args)
{
    enum { COLUMNS = 6, LAYERS = 5 };
    static const Py_ssize_t sizes[COLUMNS] = {8, 4, 4, 4, 4, 1};
    PyObject *from[COLUMNS], *table = NULL;
    uint32_t fanout, most;
    if (!PyArg_ParseTuple(args, "(OOOOOO)O&O&", from, from + 1, from + 2, from + 3, from + 4, from + LAYERS, read_setting,
                          &fanout, read_setting, &most))
        return NULL;
    const bool has_layers = from[LAYERS] != Py_None;
    const int columns = has_layers ? COLUMNS : LAYERS;
    Py_buffer of[COLUMNS] = {0};
    Py_ssize_t len;
    if (!view_all(columns, from, sizes, of, &len))
        return NULL;
    Table *self = (Table *)PyType_GenericAlloc(type, 0);
    if (self) {
        const rtfilter_settings settings = settings_of(0, fanout, most);
        const uint8_t *layers = has_layers && len > 0 ? of[LAYERS].buf : NULL;
        rtfilter_fault fault;
        int code;
        Py_BEGIN_ALLOW_THREADS
        code = rtfilter_open_arrays(&self->first, (size_t)len, of[0].buf, of[1].buf, of[2].buf, of[3].buf, of[4].buf, layers,
                                    &settings, &fault);
        Py_END_ALLOW_THREADS
        table = opened(self, code, &fault);
    }
    release(of, columns);
    return table;
}

/* ---- A query */

typedef struct {
    rtfilter_query query;
    rtfilter_point vertices[MOST_VERTICES];
    PyObject *part; /* borrowed: the region or the order that an error names */
    bool has_scores;
} request;

#define TURNED "minimum above maximum"
#define AT(member) offsetof(rtfilter_query, member)
#define BOX {AT(min_x), AT(max_x), AT(min_y), AT(max_y)}
enum { ORDERS = 6, KINDS = 8 };

/* Regions and orders by their classes: the code, and where each number goes. */
static struct kind {
    PyObject *class;
    uint32_t code;
    int numbers;
    size_t at[4];
} kinds[KINDS] = {
    {NULL, RTFILTER_ALL, 0, {0}},
    {NULL, RTFILTER_WINDOW, 4, BOX},
    {NULL, RTFILTER_INSIDE, 4, BOX},
    {NULL, RTFILTER_COVERS, 4, BOX},
    {NULL, RTFILTER_CIRCLE, 3, {AT(x), AT(y), AT(radius)}},
    {NULL, RTFILTER_POLYGON, 0, {0}},
    {NULL, RTFILTER_NEAR, 2, {AT(near_x), AT(near_y)}},
    {NULL, RTFILTER_SMALLEST, 0, {0}},
};

/* Raises QueryError. A query that is one of many has a place; `at` is negative for one by itself. */
static PyObject *raise_query(PyObject *part, Py_ssize_t at, const char *code, const char *text)
{
    PyObject *place = at < 0 ? Py_NewRef(Py_None) : PyLong_FromSsize_t(at);
    return place ? raise_made(query_error, PyObject_CallFunction(query_error, "ONss", part ? part : Py_None, place, code, text)) : NULL;
}

static bool put_number(const request *it, PyObject *number, PyObject *of, void *field, bool is_unsigned)
{
    int overflow;
    PyObject *found = whole(number, of);
    if (!found)
        return false;
    const long long value = PyLong_AsLongLongAndOverflow(found, &overflow);
    Py_DECREF(found);
    if (overflow || value < (is_unsigned ? 0 : INT32_MIN) || value > (is_unsigned ? (long long)UINT32_MAX : INT32_MAX))
        return raise_query(it->part, -1, "Q6", "out of range");
    const uint32_t bits = (uint32_t)value;
    memcpy(field, &bits, sizeof bits);
    return true;
}

/* Whether it is one: a named tuple that is made by `tuple.__new__` holds anything. */
static bool is_tuple(PyObject *it, PyObject *polygon)
{
    return PyTuple_Check(it) || PyErr_Format(PyExc_TypeError, "vertices aren't a tuple of pairs (x, y): %.200R", polygon);
}

static bool put_vertices(request *it, PyObject *polygon)
{
    PyObject *pairs = PyTuple_GetItem(polygon, 0), *pair, *x, *y;
    if (!pairs || !is_tuple(pairs, polygon))
        return false;
    const Py_ssize_t count = PyTuple_Size(pairs);
    if (count < 3 || count > MOST_VERTICES)
        raise_query(polygon, -1, "Q8", "vertex count");
    for (Py_ssize_t at = 0; at < count && !PyErr_Occurred(); at++)
        if ((pair = PyTuple_GetItem(pairs, at)) && is_tuple(pair, polygon) &&
            PyArg_ParseTuple(pair, "OO;a vertex is a pair (x, y)", &x, &y) &&
            put_number(it, x, polygon, &it->vertices[at].x, false))
            put_number(it, y, polygon, &it->vertices[at].y, false);
    it->query.vertices = (uint32_t)count;
    const rtfilter_queries queries = {&it->query, 1, it->vertices, it->query.vertices};
    if (!PyErr_Occurred() && strcmp(rtfilter_query_message(&queries, 0), "valid query"))
        raise_query(polygon, -1, "Q9", "polygon not strictly convex");
    return !PyErr_Occurred();
}

static const struct kind *kind_of(PyObject *class, int from, int to)
{
    for (int at = from; at < to; at++)
        if (kinds[at].class == class)
            return kinds + at;
    return NULL;
}

/* Puts the code and the numbers of a region or an order. */
static bool put_kind(request *it, const struct kind *kind, PyObject *value, uint32_t *code)
{
    it->part = value;
    *code = kind->code;
    for (int at = 0; at < kind->numbers; at++) {
        PyObject *number = PyTuple_GetItem(value, at);
        if (!number || !put_number(it, number, value, (char *)&it->query + kind->at[at], kind->at[at] == AT(radius)))
            return false;
    }
    return true;
}

static bool put_region(request *it, PyObject *value)
{
    const struct kind *kind = kind_of((PyObject *)Py_TYPE(value), 0, ORDERS);
    if (!kind)
        return PyErr_Format(PyExc_TypeError, "%.200R is no region", value);
    if (!put_kind(it, kind, value, &it->query.region))
        return false;
    if (kind->code == RTFILTER_POLYGON)
        return put_vertices(it, value);
    if (kind->code == RTFILTER_CIRCLE) {
        it->query.order = RTFILTER_NEAR;
        it->query.near_x = it->query.x;
        it->query.near_y = it->query.y;
    }
    const bool is_turned = it->query.min_x > it->query.max_x || it->query.min_y > it->query.max_y;
    return !is_turned || raise_query(value, -1, "Q7", TURNED);
}

static bool put_order(request *it, PyObject *value)
{
    const struct kind *kind = kind_of((PyObject *)Py_TYPE(value), ORDERS, KINDS);
    if (!kind)
        return PyErr_Format(PyExc_TypeError, "%.200R is no order", value);
    return put_kind(it, kind, value, &it->query.order);
}

/* Raises that a number is out of range. Takes the words that an error names; null if Python doesn't print as many digits. */
static void refuse_words(PyObject *words)
{
    if (!words)
        PyErr_Clear();
    raise_query(words, -1, "Q6", "out of range");
    Py_XDECREF(words);
}

static bool put_limit(request *it, PyObject *number)
{
    PyObject *found = whole(number, NULL);
    if (!found)
        return false;
    it->query.limit = PyLong_AsUnsignedLongLong(found);
    Py_DECREF(found);
    if (PyErr_Occurred() && PyErr_ExceptionMatches(PyExc_OverflowError)) {
        PyErr_Clear();
        refuse_words(PyUnicode_FromFormat("first %S", number));
    }
    return !PyErr_Occurred();
}

/* Puts layers as bits: a number that is one is read here, all else in Python. */
static bool put_layers(request *it, PyObject *on)
{
    int overflow;
    const long layer = PyLong_CheckExact(on) ? PyLong_AsLongAndOverflow(on, &overflow) : -1;
    if (layer >= 0 && layer < 64) {
        it->query.layers = UINT64_C(1) << layer;
        return true;
    }
    PyObject *bits = PyObject_CallFunctionObjArgs(layer_bits, on, NULL);
    if (bits)
        it->query.layers = PyLong_AsUnsignedLongLong(bits);
    Py_XDECREF(bits);
    return bits;
}

/* Puts the arguments after the region, as words of a query line come: the first fault is raised. */
static bool put_rest(request *it, PyObject *order, PyObject *first, PyObject *on)
{
    return (on == Py_None || put_layers(it, on)) && (order == Py_None || put_order(it, order)) && (first == Py_None || put_limit(it, first));
}

/* Arguments by place, as many as are allowed, and those by their known names. */
static bool put_arguments(PyObject **given, const char *const *known, int most, int by_place, PyObject *const *args,
                          Py_ssize_t count, PyObject *names)
{
    const Py_ssize_t named = names ? PyTuple_Size(names) : 0;
    if (count > by_place)
        return PyErr_Format(PyExc_TypeError, "%zd arguments by place, of at most %d", count, by_place);
    for (Py_ssize_t at = 0; at < count; at++)
        given[at] = args[at];
    for (Py_ssize_t at = 0; at < named; at++) {
        PyObject *name = PyTuple_GetItem(names, at);
        int place = 0;
        while (place < most && PyUnicode_CompareWithASCIIString(name, known[place]))
            place++;
        if (place == most || place < count)
            return PyErr_Format(PyExc_TypeError, place == most ? "no argument is called %R" : "argument %R twice", name);
        given[place] = args[count + at];
    }
    return true;
}

static bool put_all(request *it, PyObject *region, PyObject *order, PyObject *first, PyObject *on)
{
    it->query = rtfilter_all();
    it->part = NULL;
    if (!region)
        return PyErr_Format(PyExc_TypeError, "no region");
    return put_region(it, region) && put_rest(it, order, first, on);
}

/* The request of a find: region, order and first by place or name, on and scores by name. */
static bool find_of(request *it, PyObject *const *args, Py_ssize_t count, PyObject *names)
{
    static const char *const known[] = {"region", "order", "first", "on", "scores"};
    PyObject *given[] = {NULL, Py_None, Py_None, Py_None, Py_False};
    if (!put_arguments(given, known, 5, 3, args, count, names))
        return false;
    const int has_scores = PyObject_IsTrue(given[4]);
    it->has_scores = has_scores > 0;
    return has_scores >= 0 && put_all(it, given[0], given[1], given[2], given[3]);
}

/* The request of a count: a region by place or name, and layers by name. */
static bool count_of(request *it, PyObject *const *args, Py_ssize_t count, PyObject *names)
{
    static const char *const known[] = {"region", "on"};
    PyObject *given[] = {NULL, Py_None};
    return put_arguments(given, known, 2, 1, args, count, names) && put_all(it, given[0], Py_None, Py_None, given[1]);
}

/* ---- Answers to one query, as lists */

static PyObject *score_of(const rtfilter_score *score)
{
    if (!score->high)
        return PyLong_FromUnsignedLongLong(score->low);
    char digits[40];
    PyOS_snprintf(digits, sizeof digits, "%llx%016llx", (unsigned long long)score->high, (unsigned long long)score->low);
    return PyLong_FromString(digits, NULL, 16);
}

static PyObject *pair_of(int64_t id, const rtfilter_score *score)
{
    PyObject *first = PyLong_FromLongLong(id), *second = score_of(score);
    PyObject *pair = first && second ? PyTuple_Pack(2, first, second) : NULL;
    Py_XDECREF(first);
    Py_XDECREF(second);
    return pair;
}

static PyObject *list_of(const int64_t *ids, const rtfilter_score *scores, Py_ssize_t count)
{
    PyObject *list = PyList_New(count);
    for (Py_ssize_t at = 0; list && at < count; at++) {
        PyObject *item = scores ? pair_of(ids[at], scores + at) : PyLong_FromLongLong(ids[at]);
        if (!item || PyList_SetItem(list, at, item) < 0)
            Py_CLEAR(list);
    }
    return list;
}

/* Finds all answers to a query into the buffers of a session: their number, or -1 with an exception. */
static Py_ssize_t find_all(worker *by, const request *it)
{
    rtfilter_queries queries = {&it->query, 1, it->vertices, it->query.vertices};
    size_t skip = 0, count = 0;
    int code = RTFILTER_FULL;
    while (code == RTFILTER_FULL) {
        if (count == by->capacity && !resize(by, 4 * by->capacity)) {
            PyErr_NoMemory();
            return -1;
        }
        rtfilter_answers part = {by->ids + count, it->has_scores ? by->scores + count : NULL, by->capacity - count, NULL, 0, 0};
        Py_BEGIN_ALLOW_THREADS
        code = rtfilter_find(&by->session, &queries, skip, &part);
        rtfilter_continue(&queries, &skip, &part);
        Py_END_ALLOW_THREADS
        count += part.found;
    }
    if (code == RTFILTER_OK)
        return (Py_ssize_t)count;
    failed(code);
    return -1;
}

static PyObject *found(Table *self, const request *it)
{
    worker *by = take(self);
    if (!by)
        return NULL;
    const Py_ssize_t count = find_all(by, it);
    PyObject *list = count < 0 ? NULL : list_of(by->ids, it->has_scores ? by->scores : NULL, count);
    give_back(self, by);
    return list;
}

static PyObject *table_find(Table *self, PyObject *const *args, Py_ssize_t count, PyObject *names)
{
    request it;
    return find_of(&it, args, count, names) ? found(self, &it) : NULL;
}

static PyObject *table_nearest(Table *self, PyObject *const *args, Py_ssize_t count, PyObject *names)
{
    static const char *const known[] = {"k", "x", "y"};
    PyObject *given[3] = {NULL};
    request it = {.query = rtfilter_nearest(0, 0, 0), .has_scores = true};
    if (!put_arguments(given, known, 3, 3, args, count, names))
        return NULL;
    if (!given[0] || !given[1] || !given[2])
        return PyErr_Format(PyExc_TypeError, "nearest takes k, x and y");
    if (put_limit(&it, given[0]) && put_number(&it, given[1], NULL, &it.query.near_x, false) &&
        put_number(&it, given[2], NULL, &it.query.near_y, false))
        return found(self, &it);
    if (PyErr_ExceptionMatches(query_error)) {
        PyErr_Clear();
        refuse_words(PyUnicode_FromFormat("nearest %S %S %S", given[0], given[1], given[2]));
    }
    return NULL;
}

typedef int measure(rtfilter_session *, const rtfilter_queries *, uint64_t *, size_t *);

static PyObject *measured(measure *call, Table *self, const request *it)
{
    worker *by = take(self);
    if (!by)
        return NULL;
    const rtfilter_queries queries = {&it->query, 1, it->vertices, it->query.vertices};
    uint64_t number;
    int code;
    Py_BEGIN_ALLOW_THREADS
    code = call(&by->session, &queries, &number, NULL);
    Py_END_ALLOW_THREADS
    give_back(self, by);
    return code == RTFILTER_OK ? PyLong_FromUnsignedLongLong(number) : failed(code);
}

static PyObject *table_count(Table *self, PyObject *const *args, Py_ssize_t count, PyObject *names)
{
    request it;
    return count_of(&it, args, count, names) ? measured(rtfilter_count, self, &it) : NULL;
}

static PyObject *cost_of_find(Table *self, PyObject *const *args, Py_ssize_t count, PyObject *names)
{
    request it;
    return find_of(&it, args, count, names) ? measured(rtfilter_cost_of_find, self, &it) : NULL;
}

static PyObject *cost_of_count(Table *self, PyObject *const *args, Py_ssize_t count, PyObject *names)
{
    request it;
    return count_of(&it, args, count, names) ? measured(rtfilter_cost_of_count, self, &it) : NULL;
}

/* ---- Many queries, packed as the library has them */

/* query_of(region's class, order, first, on): the bytes of a query whose region has no numbers yet. */
static PyObject *query_of(PyObject *Py_UNUSED(module), PyObject *args)
{
    PyObject *class, *order, *first, *on;
    request it = {.query = rtfilter_all()};
    if (!PyArg_ParseTuple(args, "OOOO", &class, &order, &first, &on))
        return NULL;
    const struct kind *kind = kind_of(class, 0, ORDERS);
    if (!kind || kind->code == RTFILTER_POLYGON)
        return PyErr_Format(PyExc_TypeError, "%R is no region whose numbers are as many in each row", class);
    it.query.region = kind->code;
    it.query.order = kind->code == RTFILTER_CIRCLE ? RTFILTER_NEAR : RTFILTER_BY_ID;
    return put_rest(&it, order, first, on) ? PyBytes_FromStringAndSize((char *)&it.query, sizeof it.query) : NULL;
}

static int64_t nanoseconds(void)
{
    struct timespec now;
    clock_gettime(CLOCK_MONOTONIC, &now);
    return (int64_t)now.tv_sec * 1000000000 + now.tv_nsec;
}

/* Queries under way, and where their answers go. */
typedef struct {
    rtfilter_queries left; /* those that aren't answered yet */
    size_t skip;           /* how many answers of the first of them were taken */
    Py_ssize_t place;      /* the index of the first of them, among `total` */
    Py_ssize_t total;
    uint64_t *counts;      /* the next count goes here; null if answers are found */
    int64_t *places, *ids;
    rtfilter_score *scores; /* null if there are to be none */
    size_t capacity, kept;
    const double *boxes, *windows; /* by id and by place; null if nothing is filtered */
    Py_ssize_t box_count, window_count;
} finding;

/* Whether two boxes in floats, of min_x, min_y, max_x, max_y, share a point. */
static bool meet(const double *one, const double *other)
{
    return one[0] <= other[2] && other[0] <= one[2] && one[1] <= other[3] && other[1] <= one[3];
}

/* Whether the filter keeps an answer. */
static bool is_kept(const finding *it, int64_t id)
{
    return id >= 0 && id < it->box_count && it->place < it->window_count && meet(it->boxes + 4 * id, it->windows + 4 * it->place);
}

/* Puts answers, which stand behind those that are kept, with their places. Those that the filter refuses are dropped. */
static void keep(finding *it, const rtfilter_answers *part)
{
    int64_t *ids = part->ids, *places = it->places;
    size_t at = 0, kept = it->kept;
    for (size_t query = 0; query <= part->done; query++) {
        const size_t end = query < part->done ? part->ends[query] : part->found;
        const int64_t place = it->place;
        for (; !it->windows && at < end; at++)
            places[kept++] = place;
        for (; at < end; at++) {
            if (at + AHEAD < part->found)
                __builtin_prefetch(it->boxes + 4 * ids[at + AHEAD]);
            if (is_kept(it, ids[at])) {
                places[kept] = place;
                it->ids[kept++] = ids[at];
            }
        }
        it->place += query < part->done;
    }
    it->kept = kept;
}

/* Answers a number of queries, or counts: the library's code. */
static int answer(finding *it, worker *by, size_t len)
{
    size_t ends[STEP];
    rtfilter_queries some = {it->left.queries, len, NULL, 0};
    rtfilter_answers part = {it->ids + it->kept, it->scores ? it->scores + it->kept : NULL, it->capacity - it->kept, ends, 0, 0};
    int code;
    if (it->counts) {
        code = rtfilter_count(&by->session, &some, it->counts, &part.done);
        part.done = code == RTFILTER_OK ? len : part.done;
        it->counts += part.done;
        it->place += (Py_ssize_t)part.done;
    } else {
        code = rtfilter_find(&by->session, &some, it->skip, &part);
        keep(it, &part);
        rtfilter_continue(&some, &it->skip, &part);
    }
    it->left.queries += part.done;
    it->left.len -= part.done;
    return code;
}

/* Answers queries until all are answered, the arrays are full, or it is time to look for a signal. A step with twice as many queries
 * takes no longer than all steps before, if queries are alike. */
static int answer_slice(finding *it, worker *by)
{
    const int64_t begun = nanoseconds();
    int code = RTFILTER_OK;
    for (size_t step = 1; code == RTFILTER_OK && it->left.len > 0 && nanoseconds() - begun < SLICE_NS; step = step < STEP ? 2 * step : STEP)
        code = answer(it, by, it->left.len < step ? it->left.len : step);
    return code;
}

/* Grows the bytearrays of places, ids and scores if they are full, and sets their addresses: for as many answers to the queries that
 * are left as those so far had, within bounds. */
static bool grow(finding *it, bool is_full, PyObject *places, PyObject *ids, PyObject *scores)
{
    const Py_ssize_t kept = (Py_ssize_t)it->kept, most = kept > MANY ? kept : MANY;
    if (is_full || PyByteArray_Size(ids) / 8 - kept < FEW) {
        const double expected = it->place > 0 ? 1.125 * (double)kept / (double)it->place * (double)(it->total - it->place) : 0;
        const Py_ssize_t items = kept + FIRST + (expected > (double)most ? most : expected > (double)kept ? (Py_ssize_t)expected : kept);
        if (PyByteArray_Resize(places, 8 * items) < 0 || PyByteArray_Resize(ids, 8 * items) < 0 ||
            (scores != Py_None && PyByteArray_Resize(scores, 16 * items) < 0))
            return false;
    }
    it->capacity = (size_t)PyByteArray_Size(ids) / 8;
    it->places = (int64_t *)PyByteArray_AsString(places);
    it->ids = (int64_t *)PyByteArray_AsString(ids);
    it->scores = scores == Py_None ? NULL : (rtfilter_score *)PyByteArray_AsString(scores);
    return true;
}

/* Answers all queries. Counts have no bytearrays. */
static bool answer_all(worker *by, finding *it, PyObject *places, PyObject *ids, PyObject *scores)
{
    int code = RTFILTER_OK;
    while (it->left.len > 0) {
        if (!it->counts && !grow(it, code == RTFILTER_FULL, places, ids, scores))
            return false;
        Py_BEGIN_ALLOW_THREADS
        code = answer_slice(it, by);
        Py_END_ALLOW_THREADS
        if (code == RTFILTER_BAD_QUERY)
            raise_query(NULL, it->place, "Q7", TURNED);
        else if (code != RTFILTER_OK && code != RTFILTER_FULL)
            failed(code);
        if (PyErr_Occurred() || PyErr_CheckSignals() < 0)
            return false;
    }
    return true;
}

/* _find_each(queries, place, total, places, ids, scores, count[, boxes, windows]): adds the answers to queries, of which the first has
 * this place among so many, to bytearrays, behind the first `count` answers there, and returns how many there are then. Scores may be None. With
 * boxes by id and windows by place, in floats, the answers that don't meet are left out; there are no scores then. */
static PyObject *find_each(Table *self, PyObject *args)
{
    PyObject *from[3] = {NULL}, *places, *ids, *scores;
    Py_buffer of[3] = {0};
    Py_ssize_t count;
    const Py_ssize_t sizes[3] = {sizeof(rtfilter_query), 4 * sizeof(double), 4 * sizeof(double)};
    finding it = {0};
    if (!PyArg_ParseTuple(args, "OnnO!O!On|OO", from, &it.place, &it.total, &PyByteArray_Type, &places, &PyByteArray_Type, &ids, &scores,
                          &count, from + 1, from + 2))
        return NULL;
    if (it.place < 0 || count < 0 || !(scores == Py_None || PyByteArray_Check(scores)))
        return PyErr_Format(PyExc_TypeError, "a negative place or number, or scores that are no bytearray");
    const int views = from[2] ? 3 : 1;
    if (!view_all(views, from, sizes, of, NULL))
        return NULL;
    worker *by = take(self);
    bool is_done = false;
    if (by) {
        it.left = (rtfilter_queries){of[0].buf, (size_t)(of[0].len / sizes[0]), NULL, 0};
        it.kept = (size_t)count;
        it.boxes = of[1].buf;
        it.windows = of[2].buf;
        it.box_count = of[1].len / sizes[1];
        it.window_count = of[2].len / sizes[2];
        is_done = answer_all(by, &it, places, ids, scores);
        give_back(self, by);
    }
    release(of, views);
    return is_done ? PyLong_FromSize_t(it.kept) : NULL;
}

/* _count_each(queries, place): numbers of 8 bytes; the first query has this index. */
static PyObject *count_each(Table *self, PyObject *args)
{
    PyObject *from, *all = NULL;
    Py_buffer view;
    Py_ssize_t len, place;
    const Py_ssize_t size = sizeof(rtfilter_query);
    if (!PyArg_ParseTuple(args, "On", &from, &place) || !view_all(1, &from, &size, &view, &len))
        return NULL;
    worker *by = take(self);
    if (by) {
        all = PyByteArray_FromStringAndSize(NULL, len * (Py_ssize_t)sizeof(uint64_t));
        finding it = {.left = {view.buf, (size_t)len, NULL, 0}, .place = place};
        if (all) {
            it.counts = (uint64_t *)PyByteArray_AsString(all);
            if (!answer_all(by, &it, NULL, NULL, NULL))
                Py_CLEAR(all);
        }
        give_back(self, by);
    }
    PyBuffer_Release(&view);
    return all;
}

/* ---- Query lines */

static PyObject *reply_of(worker *by, size_t len)
{
    size_t copied;
    PyObject *reply = PyBytes_FromStringAndSize(NULL, (Py_ssize_t)len);
    char *into = reply ? PyBytes_AsString(reply) : NULL;
    Py_BEGIN_ALLOW_THREADS
    if (into)
        rtfilter_reply(&by->session, 0, into, len, &copied);
    if (len > MANY)
        rtfilter_forget(&by->session);
    Py_END_ALLOW_THREADS
    return reply;
}

/* _text(lines): what the program would write for these bytes. */
static PyObject *table_text(Table *self, PyObject *lines)
{
    Py_buffer view;
    PyObject *reply = NULL;
    if (PyObject_GetBuffer(lines, &view, PyBUF_SIMPLE) < 0)
        return NULL;
    worker *by = take(self);
    if (by) {
        size_t len;
        int code;
        Py_BEGIN_ALLOW_THREADS
        code = rtfilter_ask(&by->session, view.buf, (size_t)view.len, NULL, 0, &len);
        Py_END_ALLOW_THREADS
        reply = code == RTFILTER_OK || code == RTFILTER_FAULTY_LINE ? reply_of(by, len) : failed(code);
        give_back(self, by);
    }
    PyBuffer_Release(&view);
    return reply;
}

/* _info(): the number of boxes, the number of nodes of each level, and min_x, min_y, max_x, max_y. */
static PyObject *table_info(Table *self, PyObject *Py_UNUSED(unused))
{
    rtfilter_info info = {0};
    if (rtfilter_info_of(&self->first, &info) != RTFILTER_OK)
        return PyErr_Format(PyExc_ValueError, CLOSED);
    PyObject *levels = PyTuple_New(info.levels);
    for (uint32_t at = 0; levels && at < info.levels; at++) {
        PyObject *size = PyLong_FromUnsignedLong(info.level_sizes[at]);
        if (!size || PyTuple_SetItem(levels, at, size) < 0)
            Py_CLEAR(levels);
    }
    return levels ? Py_BuildValue("IN(iiii)", (unsigned)info.boxes, levels, info.min_x, info.min_y, info.max_x, info.max_y) : NULL;
}

/* ---- Points in polygons */

/* Polygons in whole numbers: lists with items of 8 bytes. Corners have x and y of 32 bits, and the last one of a ring is its first one.
 * Rings and parts have where each ring begins, and each part, and one more for the last end. */
enum { CORNERS, RINGS, PARTS, LISTS };
static const Py_ssize_t EIGHT[LISTS] = {8, 8, 8};

/* Whether there is such a part, all of whose rings have corners. */
static bool is_part(const Py_buffer *polygons, int64_t part)
{
    const int64_t *rings = polygons[RINGS].buf, *parts = polygons[PARTS].buf;
    bool is_sound = part >= 0 && part < polygons[PARTS].len / 8 - 1 && parts[part] >= 0 && parts[part + 1] < polygons[RINGS].len / 8;
    for (int64_t ring = is_sound ? parts[part] : 0; is_sound && ring < parts[part + 1]; ring++)
        is_sound = rings[ring] >= 0 && rings[ring + 1] <= polygons[CORNERS].len / 8;
    return is_sound || PyErr_Format(PyExc_IndexError, "no such part");
}

/* Whether a point is on the rings of a part, or a ray from it crosses them an odd number of times. Exact: 66 bits suffice. */
static bool holds(const Py_buffer *polygons, int64_t part, int64_t x, int64_t y)
{
    __extension__ typedef __int128 wide;
    const int32_t *corners = polygons[CORNERS].buf;
    const int64_t *rings = polygons[RINGS].buf, *parts = polygons[PARTS].buf;
    bool is_odd = false;
    for (int64_t ring = parts[part]; ring < parts[part + 1]; ring++)
        for (int64_t at = rings[ring]; at + 1 < rings[ring + 1]; at++) {
            const int64_t ax = corners[2 * at], ay = corners[2 * at + 1], bx = corners[2 * at + 2], by = corners[2 * at + 3];
            if ((ay > y && by > y) || (ay < y && by < y))
                continue;
            const wide side = (wide)(bx - ax) * (y - ay) - (wide)(by - ay) * (x - ax);
            if (side == 0 && (ax < bx ? ax : bx) <= x && x <= (ax < bx ? bx : ax))
                return true;
            if ((ay > y) != (by > y) && (side > 0) == (by > ay))
                is_odd = !is_odd;
        }
    return is_odd;
}

/* holding(corners, rings, parts, some, x, y): those of some parts, a list, that hold a point. */
static PyObject *holding(PyObject *Py_UNUSED(module), PyObject *args)
{
    PyObject *from[LISTS], *some;
    Py_buffer polygons[LISTS];
    int x, y;
    if (!PyArg_ParseTuple(args, "OOOO!ii", from, from + 1, from + 2, &PyList_Type, &some, &x, &y) ||
        !view_all(LISTS, from, EIGHT, polygons, NULL))
        return NULL;
    PyObject *held = PyList_New(0);
    for (Py_ssize_t at = 0; held && at < PyList_Size(some); at++) {
        PyObject *part = PyList_GetItem(some, at);
        const int64_t number = PyLong_CheckExact(part) ? PyLong_AsLongLong(part) : -1; /* (another type's code could change the list) */
        if (PyErr_Occurred() || !is_part(polygons, number) || (holds(polygons, number, x, y) && PyList_Append(held, part) < 0))
            Py_CLEAR(held);
    }
    release(polygons, LISTS);
    return held;
}

/* Decides pairs from a place on until all are decided, or it is time to look for a signal: where the next one stands. */
static Py_ssize_t hold_slice(const Py_buffer *polygons, const int64_t *parts, const int32_t *points, char *into, Py_ssize_t at, Py_ssize_t len)
{
    const int64_t begun = nanoseconds();
    for (Py_ssize_t step = 1; at < len && nanoseconds() - begun < SLICE_NS; step = step < STEP ? 2 * step : STEP)
        for (const Py_ssize_t end = len - at < step ? len : at + step; at < end; at++)
            into[at] = holds(polygons, parts[at], points[2 * at], points[2 * at + 1]);
    return at;
}

/* holds_each(corners, rings, parts, some, points): a byte for each pair of some part, in 64 bits, and a point, as x and y of 32 bits. */
static PyObject *holds_each(PyObject *Py_UNUSED(module), PyObject *args)
{
    PyObject *from[LISTS], *pairs[2], *all = NULL;
    Py_buffer polygons[LISTS], of[2];
    Py_ssize_t len;
    if (!PyArg_ParseTuple(args, "OOOOO", from, from + 1, from + 2, pairs, pairs + 1) || !view_all(LISTS, from, EIGHT, polygons, NULL))
        return NULL;
    if (view_all(2, pairs, EIGHT, of, &len)) {
        const int64_t *some = of[0].buf;
        bool is_sound = true;
        for (Py_ssize_t at = 0; is_sound && at < len; at++)
            is_sound = is_part(polygons, some[at]);
        char *into = is_sound && (all = PyByteArray_FromStringAndSize(NULL, len)) ? PyByteArray_AsString(all) : NULL;
        for (Py_ssize_t at = 0; all && at < len;) {
            Py_BEGIN_ALLOW_THREADS
            at = hold_slice(polygons, some, of[1].buf, into, at, len);
            Py_END_ALLOW_THREADS
            if (PyErr_CheckSignals() < 0)
                Py_CLEAR(all);
        }
        release(of, 2);
    }
    release(polygons, LISTS);
    return all;
}

/* ---- The module */

#define CALL(function) ((PyCFunction)(void (*)(void))(function))
#define FAST (METH_FASTCALL | METH_KEYWORDS)
static PyMethodDef table_methods[] = {
    {"_open_file", CALL(open_file), METH_VARARGS | METH_CLASS, NULL},
    {"_open_arrays", CALL(open_arrays), METH_VARARGS | METH_CLASS, NULL},
    {"close", CALL(table_close), METH_NOARGS,
     "close($self)\n--\n\nFrees the table. Later calls raise ValueError; calls of other threads that are under way end normally."},
    {"find", CALL(table_find), FAST,
     "find($self, region, order=None, first=None, *, on=None, scores=False)\n--\n\n"
     "The ids of the boxes that a region accepts, in order, or with `scores` pairs (id, score).\n\n"
     "`order` is Near or Smallest; without one, answers come by id, and for a circle by distance. `first` is the most answers.\n"
     "`on` is a layer, or an iterable of layers."},
    {"nearest", CALL(table_nearest), FAST,
     "nearest($self, k, x, y)\n--\n\nThe k boxes nearest to a point: pairs of an id and the square of the distance."},
    {"count", CALL(table_count), FAST, "count($self, region, *, on=None)\n--\n\nHow many boxes a region accepts."},
    {"cost_of_find", CALL(cost_of_find), FAST,
     "cost_of_find($self, region, order=None, first=None, *, on=None)\n--\n\nHow many nodes of the tree such a find opens."},
    {"cost_of_count", CALL(cost_of_count), FAST,
     "cost_of_count($self, region, *, on=None)\n--\n\nHow many nodes of the tree such a count opens."},
    {"_find_each", CALL(find_each), METH_VARARGS, NULL},
    {"_count_each", CALL(count_each), METH_VARARGS, NULL},
    {"_text", CALL(table_text), METH_O, NULL},
    {"_info", CALL(table_info), METH_NOARGS, NULL},
    {0},
};
static PyType_Slot table_slots[] = {{Py_tp_methods, table_methods}, {Py_tp_dealloc, table_free}, {0}};
static PyType_Spec table_spec = {"rtfilter._engine.Table", sizeof(Table), 0,
                                 Py_TPFLAGS_DEFAULT | Py_TPFLAGS_BASETYPE | Py_TPFLAGS_DISALLOW_INSTANTIATION, table_slots};

/* know(classes, TableError, QueryError, layer_bits): the classes of regions and orders, in the order of `kinds`. They stand for the
 * whole process, so that one interpreter of it has them. */
static PyObject *know(PyObject *Py_UNUSED(module), PyObject *args)
{
    static int64_t owner = -1;
    const int64_t interpreter = PyInterpreterState_GetID(PyInterpreterState_Get());
    PyObject *classes, *one, *other, *reader;
    if (owner >= 0 && owner != interpreter)
        return PyErr_Format(PyExc_ImportError, "another interpreter of this process has imported rtfilter");
    if (!PyArg_ParseTuple(args, "O!OOO", &PyTuple_Type, &classes, &one, &other, &reader))
        return NULL;
    if (PyTuple_Size(classes) != KINDS)
        return PyErr_Format(PyExc_ValueError, "another number of classes");
    owner = interpreter;
    for (int at = 0; at < KINDS; at++)
        kinds[at].class = Py_NewRef(PyTuple_GetItem(classes, at));
    table_error = Py_NewRef(one);
    query_error = Py_NewRef(other);
    layer_bits = Py_NewRef(reader);
    return Py_NewRef(Py_None);
}

static PyMethodDef functions[] = {
    {"know", know, METH_VARARGS, NULL},
    {"query_of", query_of, METH_VARARGS, NULL},
    {"holding", holding, METH_VARARGS, NULL},
    {"holds_each", holds_each, METH_VARARGS, NULL},
    {0},
};
static struct PyModuleDef definition = {PyModuleDef_HEAD_INIT, "rtfilter._engine", NULL, -1, functions, NULL, NULL, NULL, NULL};

/* The members of a query that an array of queries sets: names, formats of numpy, and offsets. */
static PyObject *layout(void)
{
#define MEMBER(name, format) #name, format, (Py_ssize_t)AT(name)
    return Py_BuildValue("[(ssn)(ssn)(ssn)(ssn)(ssn)(ssn)(ssn)(ssn)(ssn)]", MEMBER(min_x, "i4"), MEMBER(max_x, "i4"),
                         MEMBER(min_y, "i4"), MEMBER(max_y, "i4"), MEMBER(x, "i4"), MEMBER(y, "i4"), MEMBER(radius, "u4"),
                         MEMBER(near_x, "i4"), MEMBER(near_y, "i4"));
}

static int add(PyObject *module, const char *name, PyObject *value)
{
    const int status = value ? PyModule_AddObjectRef(module, name, value) : -1;
    Py_XDECREF(value);
    return status;
}

PyMODINIT_FUNC PyInit__engine(void)
{
    PyObject *module = PyModule_Create(&definition);
    if (module && (add(module, "Table", PyType_FromSpec(&table_spec)) < 0 || add(module, "layout", layout()) < 0 ||
                   PyModule_AddIntConstant(module, "query_size", sizeof(rtfilter_query)) < 0 ||
                   PyModule_AddStringConstant(module, "version", rtfilter_version()) < 0))
        Py_CLEAR(module);
    return module;
}
