/* The calls of libsmithy_transcode.so, for __init__.py. _ctypes.py has the same names, and is used where this file wasn't compiled.
   A refusal is returned as its number. An exception is raised only for a closed table, a wrong type or a failed allocation. */
#define PY_SSIZE_T_CLEAN
#define Py_LIMITED_API 0x03090000
#include <Python.h>

#include <dlfcn.h>
#include <stdlib.h>
#include <string.h>

#include "smithy_transcode.h"

/* Python's lock is kept during a call over fewer bytes, which takes some microseconds. */
enum { SHORT = 4096 };

/* The library's functions, with the types that the header declares. */
static struct {
    __typeof__(smithy_transcode_accept) *accept;
    __typeof__(smithy_transcode_free) *free;
    __typeof__(smithy_transcode_prepare) *prepare;
    __typeof__(smithy_transcode_task) *task;
    __typeof__(smithy_transcode_bodies) *bodies;
    __typeof__(smithy_transcode_compare) *compare;
    __typeof__(smithy_transcode_findings) *findings;
    __typeof__(smithy_transcode_form) *form;
} library;

typedef struct {
    PyObject_HEAD
    smithy_table accepted;
    PyThread_type_lock lock;
} Table;

typedef struct {
    PyObject_HEAD
    Table *table;
    PyObject *arguments;    /* what the pointers of `asked` point into */
    smithy_task asked;
    size_t number;          /* of the task that the table prepared */
    uint8_t *room;
    size_t room_len;
} Task;

static PyTypeObject *table_type, *task_type;

/* ---- tables */

/* Takes the table's lock. Another thread that has it may wait for Python's. */
static void lock(Table *self)
{
    if (PyThread_acquire_lock(self->lock, NOWAIT_LOCK) == 0) {
        Py_BEGIN_ALLOW_THREADS
        PyThread_acquire_lock(self->lock, WAIT_LOCK);
        Py_END_ALLOW_THREADS
    }
}

static void unlock(Table *self)
{
    PyThread_release_lock(self->lock);
}

/* Takes the table's lock, unless the table is closed. */
static int enter(Table *self)
{
    lock(self);
    if (self->accepted.pointer != NULL) {
        return 1;
    }
    unlock(self);
    PyErr_SetString(PyExc_ValueError, "the table is closed");
    return 0;
}

static PyObject *accept(PyObject *Py_UNUSED(module), PyObject *text)
{
    char *bytes;
    Py_ssize_t len;
    if (PyBytes_AsStringAndSize(text, &bytes, &len) < 0) {
        return NULL;
    }
    Table *self = (Table *)PyType_GenericAlloc(table_type, 0);
    if (self == NULL) {
        return NULL;
    }
    self->lock = PyThread_allocate_lock();
    uint8_t status = self->lock == NULL ? SMITHY_OUT_OF_MEMORY : library.accept((uint8_t *)bytes, (size_t)len, &self->accepted);
    if (status == SMITHY_DONE) {
        return (PyObject *)self;
    }
    Py_DECREF(self);
    return PyLong_FromLong(status);
}

static void free_accepted(Table *self)
{
    if (self->accepted.pointer != NULL) {
        library.free(self->accepted);
        self->accepted.pointer = NULL;
    }
}

static PyObject *table_close(Table *self, PyObject *Py_UNUSED(nothing))
{
    lock(self);
    free_accepted(self);
    unlock(self);
    Py_RETURN_NONE;
}

static void table_dealloc(Table *self)
{
    PyTypeObject *type = Py_TYPE(self);
    free_accepted(self);
    if (self->lock != NULL) {
        PyThread_free_lock(self->lock);
    }
    PyObject_Free(self);
    Py_DECREF(type);
}

/* ---- tasks: a root of a table and two wires, prepared once */

static PyObject *table_task(Table *self, PyObject *arguments)
{
    smithy_task asked;
    Py_ssize_t root_len, action_len, version_len;
    if (!PyArg_ParseTuple(arguments, "y#IIy#y#", &asked.root, &root_len, &asked.from, &asked.to, &asked.action, &action_len,
            &asked.version, &version_len)) {
        return NULL;
    }
    asked.root_len = (size_t)root_len;
    asked.action_len = (size_t)action_len;
    asked.version_len = (size_t)version_len;
    size_t number = 0;
    if (!enter(self)) {
        return NULL;
    }
    uint8_t status = library.prepare(self->accepted, &self->accepted, (const uint8_t *)asked.root, asked.root_len, asked.from, asked.to,
        (const uint8_t *)asked.action, asked.action_len, (const uint8_t *)asked.version, asked.version_len, &number);
    unlock(self);
    if (status != SMITHY_DONE) {
        return PyLong_FromLong(status);
    }
    Task *task = (Task *)PyType_GenericAlloc(task_type, 0);
    if (task == NULL) {
        return NULL;
    }
    Py_INCREF(self);
    Py_INCREF(arguments);
    task->table = self;
    task->arguments = arguments;
    task->asked = asked;
    task->number = number;
    return (PyObject *)task;
}

static void task_dealloc(Task *self)
{
    PyTypeObject *type = Py_TYPE(self);
    free(self->room);
    Py_DECREF(self->arguments);
    Py_DECREF(self->table);
    PyObject_Free(self);
    Py_DECREF(type);
}

/* ---- one body */

/* Gives a task more room. The library asks for memory that holds something. */
static int has_grown(Task *self, size_t room_len)
{
    uint8_t *room = calloc(room_len, 1);
    if (room == NULL) {
        return 0;
    }
    free(self->room);
    self->room = room;
    self->room_len = room_len;
    return 1;
}

static uint8_t transcode(Task *self, const char *input, size_t len, size_t *body_len)
{
    if (self->room_len < len + 64 && !has_grown(self, 2 * len + 4096)) {
        return SMITHY_OUT_OF_MEMORY;
    }
    for (;;) {
        uint8_t status = library.task(self->table->accepted, &self->table->accepted, self->number, (const uint8_t *)input, len, self->room,
            self->room_len, body_len);
        if (status != SMITHY_NO_ROOM) {
            return status;
        }
        if (!has_grown(self, 2 * *body_len)) {
            return SMITHY_OUT_OF_MEMORY;
        }
    }
}

static PyObject *task_one(Task *self, PyObject *body)
{
    char *input;
    Py_ssize_t len;
    size_t body_len = 0;
    if (PyBytes_AsStringAndSize(body, &input, &len) < 0 || !enter(self->table)) {
        return NULL;
    }
    PyThreadState *thread = len < SHORT ? NULL : PyEval_SaveThread();
    uint8_t status = transcode(self, input, (size_t)len, &body_len);
    if (thread != NULL) {
        PyEval_RestoreThread(thread);
    }
    PyObject *answer = status == SMITHY_DONE ? PyBytes_FromStringAndSize((char *)self->room, (Py_ssize_t)body_len) : PyLong_FromLong(status);
    unlock(self->table);
    return answer;
}

/* ---- many bodies */

typedef struct {
    size_t count;
    size_t *ends;
    uint8_t *input;
    size_t input_len;
    uint8_t *out;
    size_t out_room;
    size_t *out_ends;
    uint8_t *statuses;
    size_t done;
} Batch;

static void batch_free(Batch *it)
{
    free(it->ends);
    free(it->input);
    free(it->out);
    free(it->out_ends);
    free(it->statuses);
}

/* Copies a list of bodies, as it may be changed while Python's lock is released. */
static int batch_fill(Batch *it, PyObject *bodies)
{
    Py_ssize_t count = PyList_Size(bodies);
    if (count < 0) {
        return 0;
    }
    it->count = (size_t)count;
    it->ends = calloc(it->count + 1, sizeof *it->ends);
    it->out_ends = calloc(it->count + 1, sizeof *it->out_ends);
    it->statuses = calloc(it->count + 1, 1);
    if (it->ends == NULL || it->out_ends == NULL || it->statuses == NULL) {
        PyErr_NoMemory();
        return 0;
    }
    char *bytes;
    Py_ssize_t len;
    for (Py_ssize_t n = 0; n < count; n++) {
        if (PyBytes_AsStringAndSize(PyList_GetItem(bodies, n), &bytes, &len) < 0) {
            return 0;
        }
        it->input_len += (size_t)len;
        it->ends[n] = it->input_len;
    }
    it->out_room = it->input_len + 64;
    it->input = calloc(it->input_len + 1, 1);
    it->out = calloc(it->out_room, 1);
    if (it->input == NULL || it->out == NULL) {
        PyErr_NoMemory();
        return 0;
    }
    for (Py_ssize_t n = 0; n < count; n++) {
        PyBytes_AsStringAndSize(PyList_GetItem(bodies, n), &bytes, &len);
        memcpy(it->input + it->ends[n] - len, bytes, (size_t)len);
    }
    return 1;
}

/* Does one body of a batch at least, unless there is nothing to do. */
static uint8_t transcode_many(Task *self, Batch *it)
{
    const smithy_task *asked = &self->asked;
    for (;;) {
        uint8_t status = library.bodies(self->table->accepted, &self->table->accepted, (const uint8_t *)asked->root, asked->root_len,
            asked->from, asked->to, (const uint8_t *)asked->action, asked->action_len, (const uint8_t *)asked->version,
            asked->version_len, it->ends, it->count, it->input, it->input_len, it->out, it->out_room, it->out_ends, it->count,
            it->statuses, it->count, &it->done);
        if (status != SMITHY_NO_ROOM) {
            return status;
        }
        if (it->done > 0) {
            return SMITHY_DONE;
        }
        free(it->out);
        it->out_room = 2 * it->out_room + it->input_len;
        it->out = calloc(it->out_room, 1);
        if (it->out == NULL) {
            return SMITHY_OUT_OF_MEMORY;
        }
    }
}

static PyObject *batch_answers(const Batch *it)
{
    PyObject *answers = PyList_New((Py_ssize_t)it->done);
    size_t begin = 0;
    for (size_t n = 0; answers != NULL && n < it->done; n++) {
        PyObject *answer = it->statuses[n] != SMITHY_DONE
            ? PyLong_FromLong(it->statuses[n])
            : PyBytes_FromStringAndSize((char *)it->out + begin, (Py_ssize_t)(it->out_ends[n] - begin));
        begin = it->out_ends[n];
        if (answer == NULL || PyList_SetItem(answers, (Py_ssize_t)n, answer) < 0) {
            Py_CLEAR(answers);
        }
    }
    return answers;
}

static PyObject *task_many(Task *self, PyObject *bodies)
{
    Batch batch = {0};
    PyObject *answers = NULL;
    if (batch_fill(&batch, bodies) && enter(self->table)) {
        PyThreadState *thread = PyEval_SaveThread();
        uint8_t status = transcode_many(self, &batch);
        PyEval_RestoreThread(thread);
        unlock(self->table);
        answers = status == SMITHY_DONE ? batch_answers(&batch) : PyLong_FromLong(status);
    }
    batch_free(&batch);
    return answers;
}

/* ---- two bodies compared, findings and forms: the calls of a table that name their root */

typedef struct {
    const char *bytes;
    Py_ssize_t len;
} Text;

static const uint8_t *read_as(const Text *it)
{
    return (const uint8_t *)it->bytes;
}

/* Memory that holds something, as the library asks for, or an exception. */
static void *room_of(size_t count, size_t size)
{
    void *room = calloc(count == 0 ? 1 : count, size);
    if (room == NULL) {
        PyErr_NoMemory();
    }
    return room;
}

static PyObject *bytes_of(const uint8_t *bytes, size_t len)
{
    return PyBytes_FromStringAndSize((const char *)bytes, (Py_ssize_t)len);
}

static PyObject *table_compare(Table *self, PyObject *arguments)
{
    Text root, first, second;
    unsigned int first_wire, second_wire;
    if (!PyArg_ParseTuple(arguments, "y#Iy#Iy#", &root.bytes, &root.len, &first_wire, &first.bytes, &first.len, &second_wire,
            &second.bytes, &second.len) || !enter(self)) {
        return NULL;
    }
    PyObject *answer = NULL;
    uint8_t *path;
    size_t room = 256, len = 0;
    uint8_t status = SMITHY_NO_ROOM;
    while (status == SMITHY_NO_ROOM && (path = room_of(room, 1)) != NULL) {
        PyThreadState *thread = first.len + second.len < SHORT ? NULL : PyEval_SaveThread();
        status = library.compare(self->accepted, &self->accepted, read_as(&root), (size_t)root.len, first_wire, read_as(&first),
            (size_t)first.len, second_wire, read_as(&second), (size_t)second.len, path, room, &len);
        if (thread != NULL) {
            PyEval_RestoreThread(thread);
        }
        if (status != SMITHY_NO_ROOM) {
            answer = status == SMITHY_DIFFERS ? bytes_of(path, len) : PyLong_FromLong(status);
        }
        room = len;
        free(path);
    }
    unlock(self);
    return answer;
}

/* The caller's memory for findings. */
typedef struct {
    size_t most;
    size_t texts_room;
    size_t *lens;
    uint8_t *kinds;
    uint8_t *texts;
    size_t count;
    size_t texts_len;
} Findings;

static void findings_free(Findings *it)
{
    free(it->lens);
    free(it->kinds);
    free(it->texts);
}

static PyObject *findings_list(const Findings *it)
{
    PyObject *list = PyList_New((Py_ssize_t)it->count);
    const uint8_t *text = it->texts;
    for (size_t n = 0; list != NULL && n < it->count; n++) {
        PyObject *finding = Py_BuildValue("y#i", (const char *)text, (Py_ssize_t)it->lens[n], it->kinds[n]);
        text += it->lens[n];
        if (finding == NULL || PyList_SetItem(list, (Py_ssize_t)n, finding) < 0) {
            Py_CLEAR(list);
        }
    }
    return list;
}

static PyObject *table_findings(Table *self, PyObject *arguments)
{
    Text root, body;
    unsigned int wire;
    if (!PyArg_ParseTuple(arguments, "y#Iy#", &root.bytes, &root.len, &wire, &body.bytes, &body.len) || !enter(self)) {
        return NULL;
    }
    Findings it = {.most = 16, .texts_room = 1024};
    PyObject *answer = NULL;
    uint8_t status = SMITHY_NO_ROOM;
    while (status == SMITHY_NO_ROOM) {
        findings_free(&it);
        it.lens = room_of(it.most, sizeof *it.lens);
        it.kinds = room_of(it.most, 1);
        it.texts = room_of(it.texts_room, 1);
        if (it.lens == NULL || it.kinds == NULL || it.texts == NULL) {
            break;
        }
        PyThreadState *thread = body.len < SHORT ? NULL : PyEval_SaveThread();
        status = library.findings(self->accepted, &self->accepted, read_as(&root), (size_t)root.len, wire, read_as(&body), (size_t)body.len,
            it.lens, it.most, it.kinds, it.most, it.texts, it.texts_room, &it.count, &it.texts_len);
        if (thread != NULL) {
            PyEval_RestoreThread(thread);
        }
        it.most = it.most < it.count ? it.count : it.most;
        it.texts_room = it.texts_room < it.texts_len ? it.texts_len : it.texts_room;
    }
    unlock(self);
    if (status == SMITHY_DONE || status == SMITHY_FOUND) {
        answer = findings_list(&it);
    } else if (status != SMITHY_NO_ROOM) {
        answer = PyLong_FromLong(status);
    }
    findings_free(&it);
    return answer;
}

static PyObject *form_parts(const uint8_t *out, const smithy_form_told *told)
{
    const uint8_t *version = out + told->action_len, *body = version + told->version_len;
    return Py_BuildValue("y#y#y#", (const char *)out, (Py_ssize_t)told->action_len, (const char *)version, (Py_ssize_t)told->version_len,
        (const char *)body, (Py_ssize_t)told->body_len);
}

static PyObject *table_form(Table *self, PyObject *arguments)
{
    Text root, action, version, body;
    unsigned int to;
    if (!PyArg_ParseTuple(arguments, "y#Iy#y#y#", &root.bytes, &root.len, &to, &action.bytes, &action.len, &version.bytes, &version.len,
            &body.bytes, &body.len) || !enter(self)) {
        return NULL;
    }
    PyObject *answer = NULL;
    uint8_t *out;
    size_t room = (size_t)body.len + 256;
    uint8_t status = SMITHY_NO_ROOM;
    while (status == SMITHY_NO_ROOM && (out = room_of(room, 1)) != NULL) {
        smithy_form_told told;
        PyThreadState *thread = body.len < SHORT ? NULL : PyEval_SaveThread();
        status = library.form(self->accepted, &self->accepted, read_as(&root), (size_t)root.len, to, read_as(&action), (size_t)action.len,
            read_as(&version), (size_t)version.len, read_as(&body), (size_t)body.len, out, room, &told);
        if (thread != NULL) {
            PyEval_RestoreThread(thread);
        }
        if (status == SMITHY_DONE) {
            answer = form_parts(out, &told);
        } else if (status != SMITHY_NO_ROOM) {
            answer = Py_BuildValue("iK", status, (unsigned long long)told.pair);
        }
        room = told.action_len + told.version_len + told.body_len;
        free(out);
    }
    unlock(self);
    return answer;
}

/* ---- the module */

/* Loads the library from a file. */
static PyObject *load(PyObject *Py_UNUSED(module), PyObject *path)
{
    const char *name = PyBytes_AsString(path);
    if (name == NULL) {
        return NULL;
    }
    void *file = dlopen(name, RTLD_NOW | RTLD_LOCAL);
    if (file != NULL) {
        *(void **)&library.accept = dlsym(file, "smithy_transcode_accept");
        *(void **)&library.free = dlsym(file, "smithy_transcode_free");
        *(void **)&library.prepare = dlsym(file, "smithy_transcode_prepare");
        *(void **)&library.task = dlsym(file, "smithy_transcode_task");
        *(void **)&library.bodies = dlsym(file, "smithy_transcode_bodies");
        *(void **)&library.compare = dlsym(file, "smithy_transcode_compare");
        *(void **)&library.findings = dlsym(file, "smithy_transcode_findings");
        *(void **)&library.form = dlsym(file, "smithy_transcode_form");
    }
    if (library.accept == NULL || library.free == NULL || library.prepare == NULL || library.task == NULL || library.bodies == NULL || library.compare == NULL
        || library.findings == NULL || library.form == NULL) {
        const char *fault = dlerror();
        PyErr_SetString(PyExc_OSError, fault == NULL ? "the library lacks a function" : fault);
        return NULL;
    }
    Py_RETURN_NONE;
}

static PyObject *refuse_new(PyTypeObject *Py_UNUSED(type), PyObject *Py_UNUSED(arguments), PyObject *Py_UNUSED(names))
{
    PyErr_SetString(PyExc_TypeError, "call accept() for a table, and its task() for a task");
    return NULL;
}

static PyMethodDef table_methods[] = {
    {"task", (PyCFunction)table_task, METH_VARARGS, NULL},
    {"compare", (PyCFunction)table_compare, METH_VARARGS, NULL},
    {"findings", (PyCFunction)table_findings, METH_VARARGS, NULL},
    {"form", (PyCFunction)table_form, METH_VARARGS, NULL},
    {"close", (PyCFunction)table_close, METH_NOARGS, NULL},
    {NULL, NULL, 0, NULL},
};

static PyMethodDef task_methods[] = {
    {"one", (PyCFunction)task_one, METH_O, NULL},
    {"many", (PyCFunction)task_many, METH_O, NULL},
    {NULL, NULL, 0, NULL},
};

static PyType_Slot table_slots[] = {
    {Py_tp_new, refuse_new},
    {Py_tp_dealloc, table_dealloc},
    {Py_tp_methods, table_methods},
    {0, NULL},
};

static PyType_Slot task_slots[] = {
    {Py_tp_new, refuse_new},
    {Py_tp_dealloc, task_dealloc},
    {Py_tp_methods, task_methods},
    {0, NULL},
};

static PyType_Spec table_spec = {"smithy_transcode._native.Table", sizeof(Table), 0, Py_TPFLAGS_DEFAULT, table_slots};
static PyType_Spec task_spec = {"smithy_transcode._native.Task", sizeof(Task), 0, Py_TPFLAGS_DEFAULT, task_slots};

static PyMethodDef functions[] = {
    {"load", load, METH_O, NULL},
    {"accept", accept, METH_O, NULL},
    {NULL, NULL, 0, NULL},
};

static PyModuleDef definition = {PyModuleDef_HEAD_INIT, "_native", NULL, -1, functions, NULL, NULL, NULL, NULL};

PyMODINIT_FUNC PyInit__native(void)
{
    table_type = (PyTypeObject *)PyType_FromSpec(&table_spec);
    task_type = (PyTypeObject *)PyType_FromSpec(&task_spec);
    if (table_type == NULL || task_type == NULL) {
        return NULL;
    }
    return PyModule_Create(&definition);
}
