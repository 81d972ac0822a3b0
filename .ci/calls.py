"""Runs of the built programs with a library of ours before the C library's: its calls of memory and of input and output are counted,
and fail where a run is told so. Wants a C compiler."""
from contextlib import contextmanager, nullcontext
import os
import shutil
import subprocess
import tempfile
import threading

# Held while a program is begun, or a pipe is made of which one end is closed: a program that is being begun holds each end for a moment.
beginning = threading.Lock()

top = os.path.dirname(os.path.dirname(os.path.abspath(__file__)))

# malloc and realloc that answer NULL at the call whose number REFUSED_CALL has, read and write that fail with the error FAILED_WITH
# at the call whose number FAILED_READ or FAILED_WRITE has, and a write that takes one byte where SHORT_WRITES is set. To COUNT_FILE
# goes how many allocations, reads and writes were made, how many bytes were held at once at the most, and how many were asked for.
CALLS = r"""
#define _GNU_SOURCE
#include <dlfcn.h>
#include <errno.h>
#include <malloc.h>
#include <stdio.h>
#include <stdlib.h>
#include <sys/types.h>

static long allocations, reads, writes, held, most, asked, refused, failed_read, failed_write, failed_with, short_writes;
static void *(*next_malloc)(size_t);
static void *(*next_realloc)(void *, size_t);
static void (*next_free)(void *);
static ssize_t (*next_read)(int, void *, size_t);
static ssize_t (*next_write)(int, const void *, size_t);

static long number(const char *name) {
    const char *word = getenv(name);
    return word ? atol(word) : 0;
}

static void __attribute__((constructor)) begin(void) {
    next_malloc = dlsym(RTLD_NEXT, "malloc");
    next_realloc = dlsym(RTLD_NEXT, "realloc");
    next_free = dlsym(RTLD_NEXT, "free");
    next_read = dlsym(RTLD_NEXT, "read");
    next_write = dlsym(RTLD_NEXT, "write");
    failed_with = number("FAILED_WITH");
    failed_read = number("FAILED_READ");
    failed_write = number("FAILED_WRITE");
    short_writes = number("SHORT_WRITES");
    refused = number("REFUSED_CALL");
    allocations = reads = writes = held = most = asked = 0;
}

static void __attribute__((destructor)) end(void) {
    const char *name = getenv("COUNT_FILE");
    FILE *file;
    long counts[] = {allocations, reads, writes, most, asked};
    refused = failed_read = failed_write = short_writes = 0;
    if (name && (file = fopen(name, "w"))) {
        fprintf(file, "%ld %ld %ld %ld %ld\n", counts[0], counts[1], counts[2], counts[3], counts[4]);
        fclose(file);
    }
}

static void *given(void *room, long before, size_t size) {
    if (room) {
        asked += size;
        held += (long)malloc_usable_size(room) - before;
        if (held > most) most = held;
    }
    return room;
}

void *malloc(size_t size) {
    if (!next_malloc) next_malloc = dlsym(RTLD_NEXT, "malloc");
    return ++allocations == refused ? NULL : given(next_malloc(size), 0, size);
}

void *realloc(void *old, size_t size) {
    long before = old ? (long)malloc_usable_size(old) : 0;
    if (!next_realloc) next_realloc = dlsym(RTLD_NEXT, "realloc");
    return ++allocations == refused ? NULL : given(next_realloc(old, size), before, size);
}

void free(void *old) {
    if (old) held -= (long)malloc_usable_size(old);
    if (!next_free) next_free = dlsym(RTLD_NEXT, "free");
    next_free(old);
}

ssize_t read(int file, void *bytes, size_t count) {
    if (++reads == failed_read) {
        errno = failed_with;
        return -1;
    }
    return next_read(file, bytes, count);
}

ssize_t write(int file, const void *bytes, size_t count) {
    if (++writes == failed_write) {
        errno = failed_with;
        return -1;
    }
    return next_write(file, bytes, short_writes && count ? 1 : count);
}
"""


# A run that has not ended after so many seconds has run away.
LONGEST = 120


@contextmanager
def library():
    """Gives the path of the library, which goes when this ends."""
    with tempfile.TemporaryDirectory() as room:
        source, made = f"{room}/calls.c", f"{room}/calls.so"
        with open(source, "w", encoding="utf-8") as it:
            it.write(CALLS)
        subprocess.run([shutil.which("cc") or "clang", "-shared", "-fPIC", "-O1", "-o", made, source, "-ldl"], check=True)
        yield made


def name_of(command):
    return " ".join([os.path.basename(command[0]), *map(str, command[1:])])


def opened(file):
    """Opens a file of the repository, or nothing."""
    return open(os.path.join(top, file) if file else os.devnull, "rb")


def ran(command, source, before=None, **variables):
    """Returns the status of a run and what it writes; what it tells standard error counts as written. The input is a file of the
    repository, bytes, or nothing. `before` is what a shell does first, which then becomes the program."""
    words = ["sh", "-c", f'{before}; exec "$@"', "sh", *command] if before else command
    is_text = isinstance(source, bytes)
    with nullcontext(subprocess.PIPE) if is_text else opened(source) as given:
        with beginning:
            begun = subprocess.Popen(
                words, stdin=given, stdout=subprocess.PIPE, stderr=subprocess.STDOUT, env={**os.environ, **variables},
            )
        with begun:
            try:
                written, _ = begun.communicate(source if is_text else None, timeout=LONGEST)
            except subprocess.TimeoutExpired:
                begun.kill()
                raise
    return begun.returncode, written


class Counts:
    """What a run came to and took: its status and what it wrote, and what the library counted."""

    def __init__(self, made, command, source):
        with tempfile.NamedTemporaryFile() as counts:
            self.answer = ran(command, source, LD_PRELOAD=made, COUNT_FILE=counts.name)
            numbers = list(map(int, counts.read().split()))
        self.allocations, self.reads, self.writes, self.most, self.asked = numbers
