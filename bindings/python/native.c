/* The searches of the Python module: the extension module regress._regress, in the limited API of Python 3.9. The module
   makes all other calls by ctypes, and these too where there is no extension module: its classes Pattern and Match say
   what the methods here do.

   Positions are those of the text, code points of a str and bytes of a bytes, and -1 for a group that is unset. */

#define PY_SSIZE_T_CLEAN
#define Py_LIMITED_API 0x03090000
#include <Python.h>
#include <structmember.h>

#include <regress.h>
#include <stdlib.h>

/* Other threads run while texts of this size and more are searched, in bytes: for shorter ones that takes more time
   than it saves. */
#define LONG_TEXT 1024

/* The numbers for which no memory is allocated, and which are counted one by one. */
#define FEW 16

/* The most groups of a pattern. */
#define MOST_GROUPS 65535

/* What the module has given to `setup`: the function that returns a text for a pattern in the pattern's own type, the one
   that returns a text in UTF-8, both of which raise exceptions, and the type of matches. */
static PyObject *same_type, *utf8;
static PyTypeObject *match_type, *searcher_type, *iterator_type;

/* -- Texts */

/* A text that is searched. `own` is a str or a bytes, and `data` the bytes that the library gets. */
struct text {
    PyObject *string, *own, *data;
    const char *bytes;
    Py_ssize_t length, start; /* in bytes */
    Py_ssize_t pos, endpos;
    int is_same; /* positions are byte offsets */
};

static void release(struct text *text) {
    Py_CLEAR(text->string);
    Py_CLEAR(text->own);
    Py_CLEAR(text->data);
}

/* Returns the number of characters that begin in bytes. */
static Py_ssize_t characters(const char *bytes, Py_ssize_t length) {
    Py_ssize_t count = 0;
    for (Py_ssize_t i = 0; i < length; i++) {
        count += ((unsigned char)bytes[i] & 0xC0) != 0x80;
    }
    return count;
}

/* Returns the position of a byte offset, counted from another one. */
static Py_ssize_t counted(const char *bytes, Py_ssize_t offset, Py_ssize_t from, Py_ssize_t position) {
    return offset >= from ? position + characters(bytes + from, offset - from)
                          : position - characters(bytes + offset, from - offset);
}

static int by_offset(const void *one, const void *other) {
    Py_ssize_t a = **(Py_ssize_t *const *)one, b = **(Py_ssize_t *const *)other;
    return (a > b) - (a < b);
}

/* Replaces byte offsets by positions: all are counted in one pass. */
static int count_sorted(const char *bytes, Py_ssize_t *numbers, Py_ssize_t count, Py_ssize_t from,
                        Py_ssize_t position) {
    Py_ssize_t **sorted = PyMem_Malloc((size_t)count * sizeof *sorted);
    if (!sorted) {
        PyErr_NoMemory();
        return 0;
    }
    for (Py_ssize_t i = 0; i < count; i++) {
        sorted[i] = &numbers[i];
    }
    qsort(sorted, (size_t)count, sizeof *sorted, by_offset);
    for (Py_ssize_t i = 0; i < count; i++) {
        Py_ssize_t offset = *sorted[i];
        if (offset >= 0) {
            position = counted(bytes, offset, from, position);
            from = offset;
            *sorted[i] = position;
        }
    }
    PyMem_Free(sorted);
    return 1;
}

/* Where the last match of an iteration starts, as a byte offset and as a position. */
struct place {
    Py_ssize_t offset, position;
};

/* Replaces the byte offsets of a match by positions, and sets `place` to its start. */
static int to_positions(const struct text *text, Py_ssize_t *numbers, Py_ssize_t count, struct place *place) {
    if (text->is_same) {
        return 1;
    }
    Py_ssize_t start = numbers[0];
    place->position = counted(text->bytes, start, place->offset, place->position);
    place->offset = start;
    if (count > FEW) {
        return count_sorted(text->bytes, numbers, count, start, place->position);
    }
    for (Py_ssize_t i = 0; i < count; i++) {
        if (numbers[i] >= 0) {
            numbers[i] = counted(text->bytes, numbers[i], start, place->position);
        }
    }
    return 1;
}

/* Returns the part of a text between two positions. */
static PyObject *part(PyObject *own, Py_ssize_t start, Py_ssize_t end) {
    if (PyUnicode_Check(own)) {
        return PyUnicode_Substring(own, start, end);
    }
    return PyBytes_FromStringAndSize(PyBytes_AsString(own) + start, end - start);
}

/* -- Matches */

typedef struct {
    PyVarObject head;
    PyObject *re, *string;
    PyObject *own; /* the text in the type of the pattern */
    Py_ssize_t pos, endpos;
    Py_ssize_t spans[1]; /* two positions for the match and for each group: the size is their number */
} match_object;

static match_object *new_match(PyObject *re, PyObject *string, PyObject *own, Py_ssize_t pos, Py_ssize_t endpos,
                               Py_ssize_t count) {
    match_object *match = (match_object *)PyType_GenericAlloc(match_type, count);
    if (match) {
        Py_INCREF(re);
        Py_INCREF(string);
        Py_INCREF(own);
        match->re = re;
        match->string = string;
        match->own = own;
        match->pos = pos;
        match->endpos = endpos;
    }
    return match;
}

static void match_dealloc(PyObject *self) {
    match_object *match = (match_object *)self;
    PyTypeObject *type = Py_TYPE(self);
    Py_XDECREF(match->re);
    Py_XDECREF(match->string);
    Py_XDECREF(match->own);
    ((freefunc)PyType_GetSlot(type, Py_tp_free))(self);
    Py_DECREF(type);
}

/* Returns the number that an object denotes, if it is that of a group; -1 with an exception. */
static Py_ssize_t checked(const match_object *match, PyObject *object) {
    Py_ssize_t number = object ? PyNumber_AsSsize_t(object, NULL) : -1;
    if (number == -1 && PyErr_Occurred()) {
        return -1;
    }
    if (number < 0 || number >= Py_SIZE(match) / 2) {
        PyErr_SetString(PyExc_IndexError, "no such group");
        return -1;
    }
    return number;
}

/* Returns the tuple of the numbers of the groups with a name; NULL with an exception. */
static PyObject *numbers_of(const match_object *match, PyObject *name) {
    PyObject *numbers = PyObject_GetAttrString(match->re, "_numbers");
    PyObject *same = numbers ? PyObject_GetItem(numbers, name) : NULL;
    Py_XDECREF(numbers);
    if (numbers && !same && PyErr_ExceptionMatches(PyExc_KeyError)) {
        PyErr_SetString(PyExc_IndexError, "no such group");
    }
    return same;
}

/* Returns the number of the group that is set of those with a name, of the first if none is; -1 with an exception. What
   is read here other code may have replaced: so each number is checked. */
static Py_ssize_t named(const match_object *match, PyObject *name) {
    PyObject *same = numbers_of(match, name);
    Py_ssize_t count = same ? PyTuple_Size(same) : -1;
    Py_ssize_t first = count < 0 ? -1 : checked(match, PyTuple_GetItem(same, 0)), number = first;
    for (Py_ssize_t i = 1; number >= 0 && match->spans[2 * number] < 0; i++) {
        if (i == count) {
            number = first;
            break;
        }
        number = checked(match, PyTuple_GetItem(same, i));
    }
    Py_XDECREF(same);
    return number;
}

/* Returns the number of a group; -1 with an exception. */
static Py_ssize_t number_of(const match_object *match, PyObject *group) {
    return PyUnicode_Check(group) ? named(match, group) : checked(match, group);
}

/* Returns the text of a group, and `unset` if it is unset. */
static PyObject *capture(const match_object *match, Py_ssize_t number, PyObject *unset) {
    const Py_ssize_t *span = match->spans + 2 * number;
    if (span[0] < 0) {
        Py_INCREF(unset);
        return unset;
    }
    return part(match->own, span[0], span[1]);
}

static PyObject *match_item(PyObject *self, PyObject *group) {
    Py_ssize_t number = number_of((match_object *)self, group);
    return number < 0 ? NULL : capture((match_object *)self, number, Py_None);
}

static PyObject *match_group(PyObject *self, PyObject *arguments) {
    Py_ssize_t count = PyTuple_Size(arguments);
    if (count == 0) {
        return capture((match_object *)self, 0, Py_None);
    }
    if (count == 1) {
        return match_item(self, PyTuple_GetItem(arguments, 0));
    }
    PyObject *texts = PyTuple_New(count);
    for (Py_ssize_t i = 0; texts && i < count; i++) {
        PyObject *text = match_item(self, PyTuple_GetItem(arguments, i));
        if (!text || PyTuple_SetItem(texts, i, text)) {
            Py_CLEAR(texts);
        }
    }
    return texts;
}

static PyObject *groups_of(const match_object *match, PyObject *unset) {
    Py_ssize_t count = Py_SIZE(match) / 2 - 1;
    PyObject *texts = PyTuple_New(count);
    for (Py_ssize_t i = 0; texts && i < count; i++) {
        PyObject *text = capture(match, i + 1, unset);
        if (!text || PyTuple_SetItem(texts, i, text)) {
            Py_CLEAR(texts);
        }
    }
    return texts;
}

static PyObject *match_groups(PyObject *self, PyObject *arguments, PyObject *keywords) {
    static char *names[] = {"default", NULL};
    PyObject *unset = Py_None;
    if (!PyArg_ParseTupleAndKeywords(arguments, keywords, "|O", names, &unset)) {
        return NULL;
    }
    return groups_of((match_object *)self, unset);
}

/* Returns the span of the group that arguments name, of the match if there are none. */
static const Py_ssize_t *span_of(PyObject *self, PyObject *arguments, PyObject *keywords) {
    static char *names[] = {"group", NULL};
    PyObject *group = NULL;
    const match_object *match = (match_object *)self;
    if (!keywords && PyTuple_Size(arguments) == 0) {
        return match->spans;
    }
    if (!PyArg_ParseTupleAndKeywords(arguments, keywords, "|O", names, &group)) {
        return NULL;
    }
    Py_ssize_t number = group ? number_of(match, group) : 0;
    return number < 0 ? NULL : match->spans + 2 * number;
}

static PyObject *match_span(PyObject *self, PyObject *arguments, PyObject *keywords) {
    const Py_ssize_t *span = span_of(self, arguments, keywords);
    return span ? Py_BuildValue("nn", span[0], span[1]) : NULL;
}

static PyObject *match_start(PyObject *self, PyObject *arguments, PyObject *keywords) {
    const Py_ssize_t *span = span_of(self, arguments, keywords);
    return span ? PyLong_FromSsize_t(span[0]) : NULL;
}

static PyObject *match_end(PyObject *self, PyObject *arguments, PyObject *keywords) {
    const Py_ssize_t *span = span_of(self, arguments, keywords);
    return span ? PyLong_FromSsize_t(span[1]) : NULL;
}

#define WITH_KEYWORDS(function) (PyCFunction)(void (*)(void))(function), METH_VARARGS | METH_KEYWORDS

static PyMethodDef match_methods[] = {
    {"group", match_group, METH_VARARGS, NULL},
    {"groups", WITH_KEYWORDS(match_groups), NULL},
    {"span", WITH_KEYWORDS(match_span), NULL},
    {"start", WITH_KEYWORDS(match_start), NULL},
    {"end", WITH_KEYWORDS(match_end), NULL},
    {NULL, NULL, 0, NULL},
};

static PyMemberDef match_members[] = {
    {"re", T_OBJECT_EX, offsetof(match_object, re), READONLY, NULL},
    {"string", T_OBJECT_EX, offsetof(match_object, string), READONLY, NULL},
    {"_own", T_OBJECT_EX, offsetof(match_object, own), READONLY, NULL},
    {"pos", T_PYSSIZET, offsetof(match_object, pos), READONLY, NULL},
    {"endpos", T_PYSSIZET, offsetof(match_object, endpos), READONLY, NULL},
    {NULL, 0, 0, 0, NULL},
};

static PyObject *no_new(PyTypeObject *type, PyObject *arguments, PyObject *keywords) {
    (void)type, (void)arguments, (void)keywords;
    PyErr_SetString(PyExc_TypeError, "the methods of Pattern make matches");
    return NULL;
}

static PyType_Slot match_slots[] = {
    {Py_tp_dealloc, match_dealloc}, {Py_tp_methods, match_methods}, {Py_tp_members, match_members},
    {Py_mp_subscript, match_item},  {Py_tp_new, no_new},            {0, NULL},
};

static PyType_Spec match_spec = {
    "regress.Match", offsetof(match_object, spans), sizeof(Py_ssize_t), Py_TPFLAGS_DEFAULT, match_slots,
};

/* -- Searches */

/* The name of a capsule that owns a pattern of the library. */
#define OWNER "regress._regress.owner"

static void free_owned(PyObject *capsule) {
    regress_regex regex = {PyCapsule_GetPointer(capsule, OWNER)};
    regress_free(&regex);
}

/* owner(address): a capsule that owns the pattern there, which is freed with the last reference to it. It is none of the
   objects that the garbage collector finalizes, so that the finalizers of objects in a cycle may still search. */
static PyObject *owner_of(PyObject *module, PyObject *address) {
    (void)module;
    void *inside = PyLong_AsVoidPtr(address);
    return PyErr_Occurred() ? NULL : PyCapsule_New(inside, OWNER, free_owned);
}

/* A pattern that is searched for: the one of `pattern`, whose program is `program`, which `owner` owns. */
typedef struct {
    PyObject_HEAD
    PyObject *pattern, *program, *owner;
    regress_regex regex;
    Py_ssize_t count; /* the number of numbers of a match */
    int is_bytes;
} searcher_object;

static int searcher_traverse(PyObject *self, visitproc visit, void *arg) {
    Py_VISIT(((searcher_object *)self)->pattern);
    Py_VISIT(((searcher_object *)self)->program);
    Py_VISIT(Py_TYPE(self));
    return 0;
}

static int searcher_clear(PyObject *self) {
    Py_CLEAR(((searcher_object *)self)->pattern);
    Py_CLEAR(((searcher_object *)self)->program);
    return 0;
}

static void searcher_dealloc(PyObject *self) {
    PyTypeObject *type = Py_TYPE(self);
    PyObject_GC_UnTrack(self);
    searcher_clear(self);
    Py_XDECREF(((searcher_object *)self)->owner);
    ((freefunc)PyType_GetSlot(type, Py_tp_free))(self);
    Py_DECREF(type);
}

/* Searcher(pattern, program, owner, groups, is_bytes) */
static PyObject *searcher_new(PyTypeObject *type, PyObject *arguments, PyObject *keywords) {
    PyObject *pattern, *program, *owner;
    Py_ssize_t groups;
    int is_bytes;
    (void)keywords;
    if (!PyArg_ParseTuple(arguments, "OOOnp", &pattern, &program, &owner, &groups, &is_bytes)) {
        return NULL;
    }
    void *inside = PyCapsule_GetPointer(owner, OWNER);
    if (!inside) {
        return NULL;
    }
    if (groups < 0 || groups > MOST_GROUPS) {
        PyErr_SetString(PyExc_ValueError, "no pattern has so many groups");
        return NULL;
    }
    searcher_object *searcher = (searcher_object *)PyType_GenericAlloc(type, 0);
    if (searcher) {
        Py_INCREF(pattern);
        Py_INCREF(program);
        searcher->pattern = pattern;
        Py_INCREF(owner);
        searcher->program = program;
        searcher->owner = owner;
        searcher->regex.inside = inside;
        searcher->count = 2 * (groups + 1);
        searcher->is_bytes = is_bytes;
    }
    return (PyObject *)searcher;
}

/* Returns NULL with the exception of a status. */
static PyObject *failed(const searcher_object *searcher, uint32_t status) {
    PyObject *exception = PyObject_CallMethod(searcher->program, "failure", "I", (unsigned)status);
    if (exception) {
        PyErr_SetObject((PyObject *)Py_TYPE(exception), exception);
        Py_DECREF(exception);
    }
    return NULL;
}

/* Lets other threads run, if a text of this length is searched. */
static PyThreadState *drop_gil(Py_ssize_t length) {
    return length < LONG_TEXT ? NULL : PyEval_SaveThread();
}

static void take_gil(PyThreadState *state) {
    if (state) {
        PyEval_RestoreThread(state);
    }
}

/* Returns whether an object is of the type of the texts of a pattern. */
static int is_text(const searcher_object *searcher, PyObject *object) {
    return searcher->is_bytes ? PyBytes_CheckExact(object) : PyUnicode_CheckExact(object);
}

/* Returns an object; NULL with an exception if it is not of the type that it has to be. */
static PyObject *expected(PyObject *object, int has_type) {
    if (object && !has_type) {
        Py_DECREF(object);
        PyErr_SetString(PyExc_TypeError, "a text is of another type than the pattern");
        return NULL;
    }
    return object;
}

/* Returns a text of the type that the pattern has, which may be another object; NULL with an exception. */
static PyObject *typed(const searcher_object *searcher, PyObject *string) {
    if (is_text(searcher, string)) {
        Py_INCREF(string);
        return string;
    }
    PyObject *text = PyObject_CallFunctionObjArgs(same_type, searcher->pattern, string, NULL);
    return expected(text, text && is_text(searcher, text));
}

/* Returns a str or bytes in UTF-8; NULL with an exception. */
static PyObject *in_utf8(PyObject *string) {
    if (PyUnicode_CheckExact(string)) {
        PyObject *data = PyUnicode_AsUTF8String(string);
        if (data) {
            return data;
        }
        PyErr_Clear();
    }
    /* The function raises the exception of this module. */
    PyObject *data = PyObject_CallFunctionObjArgs(utf8, string, NULL);
    return expected(data, data && PyBytes_Check(data));
}

/* Sets the bytes of a str. */
static int encode(struct text *text) {
    Py_ssize_t length = PyUnicode_GetLength(text->own);
    if (text->endpos < length) {
        PyObject *whole = text->own;
        text->own = PyUnicode_Substring(whole, 0, text->endpos);
        Py_DECREF(whole);
        if (!text->own) {
            return 0;
        }
    }
    text->data = in_utf8(text->own);
    if (!text->data) {
        return 0;
    }
    text->bytes = PyBytes_AsString(text->data);
    text->length = PyBytes_Size(text->data);
    text->is_same = text->length == text->endpos;
    if (text->is_same) {
        return 1;
    }
    /* Past the end if the search ends before it begins. */
    text->start = text->pos <= text->endpos ? 0 : text->length + 1;
    for (Py_ssize_t i = 0; i < text->pos && text->start < text->length; i++) {
        do {
            text->start++;
        } while (text->start < text->length && ((unsigned char)text->bytes[text->start] & 0xC0) == 0x80);
    }
    return 1;
}

/* Reads the arguments string, pos and endpos. */
static int reads(const searcher_object *searcher, PyObject *arguments, PyObject *keywords, struct text *text) {
    static char *names[] = {"string", "pos", "endpos", NULL};
    PyObject *string;
    text->endpos = PY_SSIZE_T_MAX;
    if (!keywords && PyTuple_Size(arguments) == 1) {
        string = PyTuple_GetItem(arguments, 0);
    } else if (!PyArg_ParseTupleAndKeywords(arguments, keywords, "O|nn", names, &string, &text->pos, &text->endpos)) {
        return 0;
    }
    text->string = string;
    Py_INCREF(string);
    text->own = typed(searcher, string);
    if (!text->own) {
        return 0;
    }
    Py_ssize_t length = searcher->is_bytes ? PyBytes_Size(text->own) : PyUnicode_GetLength(text->own);
    text->pos = text->pos < 0 ? 0 : text->pos > length ? length : text->pos;
    text->endpos = text->endpos < 0 ? 0 : text->endpos > length ? length : text->endpos;
    text->start = text->pos;
    if (!searcher->is_bytes) {
        return encode(text);
    }
    text->is_same = 1;
    text->data = text->own;
    Py_INCREF(text->data);
    text->bytes = PyBytes_AsString(text->own);
    text->length = text->endpos;
    return 1;
}

static uint32_t find(const searcher_object *searcher, const struct text *text, size_t *spans) {
    size_t needed;
    return regress_find(&searcher->regex, (const uint8_t *)text->bytes, (size_t)text->length, (size_t)text->start,
                        spans, (size_t)searcher->count, &needed);
}

/* Returns the leftmost match; None if there is none, or if it has to start at pos and does not. */
static PyObject *found(PyObject *self, PyObject *arguments, PyObject *keywords, int is_at_pos) {
    const searcher_object *searcher = (searcher_object *)self;
    struct text text = {0};
    PyObject *result = NULL;
    if (!reads(searcher, arguments, keywords, &text)) {
        release(&text);
        return NULL;
    }
    Py_ssize_t few[FEW];
    Py_ssize_t *spans = searcher->count <= FEW ? few : PyMem_Malloc((size_t)searcher->count * sizeof *spans);
    if (!spans) {
        release(&text);
        return PyErr_NoMemory();
    }
    uint32_t status = REGRESS_NO_MATCH;
    if (text.start <= text.length) {
        PyThreadState *state = drop_gil(text.length);
        status = find(searcher, &text, (size_t *)spans);
        take_gil(state);
    }
    if (status == REGRESS_NO_MATCH || (status == REGRESS_OK && is_at_pos && spans[0] != text.start)) {
        Py_INCREF(Py_None);
        result = Py_None;
    } else if (status != REGRESS_OK) {
        failed(searcher, status);
    } else {
        struct place place = {0, 0};
        match_object *match = NULL;
        if (to_positions(&text, spans, searcher->count, &place)) {
            match = new_match(searcher->pattern, text.string, text.own, text.pos, text.endpos, searcher->count);
        }
        if (match) {
            memcpy(match->spans, spans, (size_t)searcher->count * sizeof *spans);
        }
        result = (PyObject *)match;
    }
    if (spans != few) {
        PyMem_Free(spans);
    }
    release(&text);
    return result;
}

static PyObject *searcher_search(PyObject *self, PyObject *arguments, PyObject *keywords) {
    return found(self, arguments, keywords, 0);
}

static PyObject *searcher_match(PyObject *self, PyObject *arguments, PyObject *keywords) {
    return found(self, arguments, keywords, 1);
}

static uint32_t find_all(const searcher_object *searcher, const struct text *text, regress_matches *matches) {
    return regress_matches_new(&searcher->regex, (const uint8_t *)text->bytes, (size_t)text->length,
                               (size_t)text->start, matches);
}

/* Finds all matches. Returns 0 with an exception. */
static int finds(const searcher_object *searcher, const struct text *text, regress_matches *matches) {
    if (text->start > text->length) {
        return 1;
    }
    PyThreadState *state = drop_gil(text->length);
    uint32_t status = find_all(searcher, text, matches);
    take_gil(state);
    return status == REGRESS_OK || failed(searcher, status);
}

/* Returns what findall has for a match. */
static PyObject *listed(const searcher_object *searcher, const struct text *text, Py_ssize_t *spans,
                        struct place *place, PyObject *empty) {
    if (!to_positions(text, spans, searcher->count, place)) {
        return NULL;
    }
    if (searcher->count == 2) {
        return part(text->own, spans[0], spans[1]);
    }
    Py_ssize_t groups = searcher->count / 2 - 1;
    PyObject *tuple = groups == 1 ? NULL : PyTuple_New(groups);
    for (Py_ssize_t i = 1; i <= groups; i++) {
        PyObject *group = empty;
        if (spans[2 * i] < 0) {
            Py_INCREF(group);
        } else {
            group = part(text->own, spans[2 * i], spans[2 * i + 1]);
        }
        if (groups == 1) {
            return group;
        }
        if (!tuple || !group || PyTuple_SetItem(tuple, i - 1, group)) {
            Py_XDECREF(tuple);
            return NULL;
        }
    }
    return tuple;
}

static PyObject *searcher_findall(PyObject *self, PyObject *arguments, PyObject *keywords) {
    const searcher_object *searcher = (searcher_object *)self;
    struct text text = {0};
    struct place place = {0, 0};
    regress_matches matches = {NULL};
    Py_ssize_t few[FEW], *spans = few;
    PyObject *list = NULL, *empty = NULL;
    if (reads(searcher, arguments, keywords, &text) && finds(searcher, &text, &matches)) {
        empty = part(text.own, 0, 0);
        list = empty ? PyList_New((Py_ssize_t)regress_matches_left(&matches) / searcher->count) : NULL;
        if (searcher->count > FEW) {
            spans = PyMem_Malloc((size_t)searcher->count * sizeof *spans);
            if (!spans) {
                Py_CLEAR(list);
                PyErr_NoMemory();
            }
        }
    }
    for (Py_ssize_t i = 0; list; i++) {
        size_t needed;
        if (regress_matches_next(&matches, (size_t *)spans, (size_t)searcher->count, &needed) != REGRESS_OK) {
            break;
        }
        PyObject *item = listed(searcher, &text, spans, &place, empty);
        if (!item || PyList_SetItem(list, i, item)) {
            Py_CLEAR(list);
        }
    }
    if (spans != few) {
        PyMem_Free(spans);
    }
    regress_matches_free(&matches);
    Py_XDECREF(empty);
    release(&text);
    return list;
}

/* An iterator over matches. */
typedef struct {
    PyObject_HEAD
    PyObject *searcher;
    struct text text;
    struct place place;
    regress_matches matches;
} iterator_object;

static PyObject *searcher_finditer(PyObject *self, PyObject *arguments, PyObject *keywords) {
    iterator_object *iterator = (iterator_object *)PyType_GenericAlloc(iterator_type, 0);
    if (!iterator) {
        return NULL;
    }
    iterator->searcher = self;
    Py_INCREF(self);
    if (!reads((searcher_object *)self, arguments, keywords, &iterator->text)
        || !finds((searcher_object *)self, &iterator->text, &iterator->matches)) {
        Py_DECREF(iterator);
        return NULL;
    }
    return (PyObject *)iterator;
}

static void iterator_dealloc(PyObject *self) {
    iterator_object *iterator = (iterator_object *)self;
    PyTypeObject *type = Py_TYPE(self);
    regress_matches_free(&iterator->matches);
    Py_XDECREF(iterator->searcher);
    release(&iterator->text);
    ((freefunc)PyType_GetSlot(type, Py_tp_free))(self);
    Py_DECREF(type);
}

static PyObject *iterator_next(PyObject *self) {
    iterator_object *iterator = (iterator_object *)self;
    const searcher_object *searcher = (searcher_object *)iterator->searcher;
    const struct text *text = &iterator->text;
    size_t needed;
    if (regress_matches_left(&iterator->matches) == 0) {
        return NULL;
    }
    match_object *match =
        new_match(searcher->pattern, text->string, text->own, text->pos, text->endpos, searcher->count);
    if (match
        && (regress_matches_next(&iterator->matches, (size_t *)match->spans, (size_t)searcher->count, &needed)
                != REGRESS_OK
            || !to_positions(text, match->spans, searcher->count, &iterator->place))) {
        Py_CLEAR(match);
    }
    return (PyObject *)match;
}

static PyObject *iterator_self(PyObject *self) {
    Py_INCREF(self);
    return self;
}

static PyType_Slot iterator_slots[] = {
    {Py_tp_dealloc, iterator_dealloc}, {Py_tp_iter, iterator_self}, {Py_tp_iternext, iterator_next},
    {Py_tp_new, no_new},               {0, NULL},
};

static PyType_Spec iterator_spec = {
    "regress._regress.Matches", sizeof(iterator_object), 0, Py_TPFLAGS_DEFAULT, iterator_slots,
};

/* Returns a text or a template in UTF-8. */
static PyObject *encoded(const searcher_object *searcher, PyObject *string) {
    PyObject *own = typed(searcher, string);
    PyObject *data = own ? in_utf8(own) : NULL;
    Py_XDECREF(own);
    return data;
}

/* A text in which the first matches are replaced by a template. */
struct replacement {
    const uint8_t *text, *template;
    size_t length, template_length, limit;
};

/* Returns bytes that are UTF-8 in the type of the pattern. */
static PyObject *decoded(const searcher_object *searcher, const char *bytes, size_t length) {
    return searcher->is_bytes ? PyBytes_FromStringAndSize(bytes, (Py_ssize_t)length)
                              : PyUnicode_FromStringAndSize(bytes, (Py_ssize_t)length);
}

/* Returns the text with its first match replaced. It is searched for in linear time with more patterns than several
   matches are. If more room is needed than usually, the search is made again. */
static PyObject *first_replaced(const searcher_object *searcher, const struct replacement *by) {
    PyObject *result = NULL;
    uint8_t *out = NULL;
    size_t needed = 2 * by->length + by->template_length + 64;
    uint32_t status = REGRESS_ROOM;
    for (int call = 0; call < 2 && status == REGRESS_ROOM; call++) {
        size_t room = needed;
        PyMem_Free(out);
        out = PyMem_Malloc(room);
        if (!out) {
            break;
        }
        PyThreadState *state = drop_gil((Py_ssize_t)by->length);
        status = regress_replace(&searcher->regex, by->text, by->length, by->template, by->template_length, out, room,
                                 &needed);
        take_gil(state);
    }
    if (!out) {
        PyErr_NoMemory();
    } else if (status != REGRESS_OK) {
        failed(searcher, status);
    } else {
        result = decoded(searcher, (const char *)out, needed);
    }
    PyMem_Free(out);
    return result;
}

/* Returns the text with its first matches replaced, and their number in `count`. */
static PyObject *several_replaced(const searcher_object *searcher, const struct replacement *by, Py_ssize_t *count) {
    PyObject *result = NULL;
    regress_replaced replaced = {NULL};
    PyThreadState *state = drop_gil((Py_ssize_t)by->length);
    uint32_t status = regress_replaced_new(&searcher->regex, by->text, by->length, by->template, by->template_length,
                                           by->limit, &replaced);
    take_gil(state);
    if (status != REGRESS_OK) {
        failed(searcher, status);
        return NULL;
    }
    size_t length;
    regress_replaced_write(&replaced, NULL, 0, &length);
    uint8_t *out = PyMem_Malloc(length + 1);
    if (!out) {
        PyErr_NoMemory();
    } else {
        regress_replaced_write(&replaced, out, length, NULL);
        result = decoded(searcher, (const char *)out, length);
        *count = (Py_ssize_t)regress_replaced_count(&replaced);
    }
    PyMem_Free(out);
    regress_replaced_free(&replaced);
    return result;
}

/* replaced(template, string, limit, is_counted): the text with its first matches replaced; with is_counted the tuple of
   that and of their number */
static PyObject *searcher_replaced(PyObject *self, PyObject *arguments) {
    const searcher_object *searcher = (searcher_object *)self;
    PyObject *template, *string, *result;
    Py_ssize_t limit, count = 0;
    int is_counted;
    struct replacement by = {0};
    if (!PyArg_ParseTuple(arguments, "OOnp", &template, &string, &limit, &is_counted)) {
        return NULL;
    }
    PyObject *text = encoded(searcher, string), *template_bytes = text ? encoded(searcher, template) : NULL;
    if (!template_bytes) {
        Py_XDECREF(text);
        return NULL;
    }
    by.text = (const uint8_t *)PyBytes_AsString(text);
    by.length = (size_t)PyBytes_Size(text);
    by.template = (const uint8_t *)PyBytes_AsString(template_bytes);
    by.template_length = (size_t)PyBytes_Size(template_bytes);
    by.limit = (size_t)limit;
    if (!is_counted && limit == 1) {
        result = first_replaced(searcher, &by);
    } else {
        result = several_replaced(searcher, &by, &count);
    }
    if (result && is_counted) {
        result = Py_BuildValue("Nn", result, count);
    }
    Py_DECREF(text);
    Py_DECREF(template_bytes);
    return result;
}

/* Returns the list of the parts of a text, of which the last of as many as the limit is the rest of the text. */
static PyObject *listed_parts(const searcher_object *searcher, const char *bytes, size_t length, size_t limit,
                              regress_matches *parts) {
    size_t count = regress_matches_left(parts) / 2, span[2], needed;
    PyObject *list = PyList_New((Py_ssize_t)count);
    for (size_t i = 0; list && i < count; i++) {
        PyObject *item = Py_None;
        if (regress_matches_next(parts, span, 2, &needed) == REGRESS_OK && span[0] != REGRESS_UNSET) {
            size_t end = i + 1 == limit ? length : span[1];
            item = decoded(searcher, bytes + span[0], end - span[0]);
        } else {
            Py_INCREF(item);
        }
        if (!item || PyList_SetItem(list, (Py_ssize_t)i, item)) {
            Py_CLEAR(list);
        }
    }
    return list;
}

static PyObject *searcher_split(PyObject *self, PyObject *arguments, PyObject *keywords) {
    static char *names[] = {"string", "maxsplit", NULL};
    const searcher_object *searcher = (searcher_object *)self;
    PyObject *string, *result = NULL;
    Py_ssize_t most = 0;
    if (!PyArg_ParseTupleAndKeywords(arguments, keywords, "O|n", names, &string, &most)) {
        return NULL;
    }
    PyObject *text = encoded(searcher, string);
    if (!text) {
        return NULL;
    }
    const uint8_t *bytes = (const uint8_t *)PyBytes_AsString(text);
    size_t length = (size_t)PyBytes_Size(text), limit = SIZE_MAX, each = (size_t)searcher->count / 2;
    if (most != 0 && most < PY_SSIZE_T_MAX / searcher->count) {
        limit = (most > 0 ? (size_t)most * each : 0) + 1;
    }
    regress_matches parts = {NULL};
    PyThreadState *state = drop_gil((Py_ssize_t)length);
    uint32_t status = regress_split(&searcher->regex, bytes, length, limit, &parts);
    take_gil(state);
    if (status == REGRESS_OK) {
        result = listed_parts(searcher, (const char *)bytes, length, limit, &parts);
    } else {
        failed(searcher, status);
    }
    regress_matches_free(&parts);
    Py_DECREF(text);
    return result;
}

static PyMethodDef searcher_methods[] = {
    {"search", WITH_KEYWORDS(searcher_search), NULL},
    {"match", WITH_KEYWORDS(searcher_match), NULL},
    {"findall", WITH_KEYWORDS(searcher_findall), NULL},
    {"finditer", WITH_KEYWORDS(searcher_finditer), NULL},
    {"replaced", searcher_replaced, METH_VARARGS, NULL},
    {"split", WITH_KEYWORDS(searcher_split), NULL},
    {NULL, NULL, 0, NULL},
};

static PyType_Slot searcher_slots[] = {
    {Py_tp_dealloc, searcher_dealloc}, {Py_tp_traverse, searcher_traverse}, {Py_tp_clear, searcher_clear},
    {Py_tp_methods, searcher_methods}, {Py_tp_new, searcher_new},           {0, NULL},
};

static PyType_Spec searcher_spec = {
    "regress._regress.Searcher", sizeof(searcher_object), 0, Py_TPFLAGS_DEFAULT | Py_TPFLAGS_HAVE_GC, searcher_slots,
};

/* -- The module */

static PyObject *setup(PyObject *module, PyObject *arguments) {
    (void)module;
    if (!PyArg_ParseTuple(arguments, "OO", &same_type, &utf8)) {
        return NULL;
    }
    Py_INCREF(same_type);
    Py_INCREF(utf8);
    Py_RETURN_NONE;
}

static PyMethodDef methods[] = {
    {"setup", setup, METH_VARARGS, NULL},
    {"owner", owner_of, METH_O, NULL},
    {NULL, NULL, 0, NULL},
};

static struct PyModuleDef definition = {
    PyModuleDef_HEAD_INIT, "regress._regress", "The searches of the module regress.", -1, methods, NULL, NULL, NULL, NULL,
};

/* Makes a type, and adds it to the module. */
static PyTypeObject *add(PyObject *module, const char *name, PyType_Spec *spec) {
    PyObject *type = PyType_FromSpec(spec);
    if (type) {
        Py_INCREF(type);
        if (PyModule_AddObject(module, name, type)) {
            Py_DECREF(type);
            Py_CLEAR(type);
        }
    }
    return (PyTypeObject *)type;
}

PyMODINIT_FUNC PyInit__regress(void) {
    PyObject *module = PyModule_Create(&definition);
    if (!module) {
        return NULL;
    }
    match_type = add(module, "Match", &match_spec);
    searcher_type = match_type ? add(module, "Searcher", &searcher_spec) : NULL;
    iterator_type = searcher_type ? add(module, "Matches", &iterator_spec) : NULL;
    if (!iterator_type) {
        Py_CLEAR(module);
    }
    return module;
}
