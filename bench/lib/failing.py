"""Runs in which one allocation, read or write fails.

A small library is loaded before the C library. It counts the calls of malloc and realloc, and of read and write, and makes the Nth of a
kind fail, or move one byte alone, where the environment names N. How many of each kind there were it writes to the file SEEN.
"""

import os
import subprocess
import sys

from lib.files import write

KINDS = ["FAIL_ALLOCATION", "FAIL_MOVE", "SHORT_MOVE"]

LIBRARY = r"""
#include <errno.h>
#include <fcntl.h>
#include <stdlib.h>
#include <string.h>
#include <sys/syscall.h>
#include <unistd.h>

extern void *__libc_malloc(size_t);
extern void *__libc_realloc(void *, size_t);

enum kind { ALLOCATION, MOVE, SHORT, KINDS };
static const char *const names[KINDS] = {"FAIL_ALLOCATION", "FAIL_MOVE", "SHORT_MOVE"};
static unsigned long chosen[KINDS], seen[KINDS];

__attribute__((constructor)) static void start(void) {
    for (int i = 0; i < KINDS; i++) {
        const char *text = getenv(names[i]);
        chosen[i] = text ? strtoul(text, NULL, 10) : 0;
        seen[i] = 0;
    }
}

static int is_turn(enum kind kind) { return ++seen[kind] == chosen[kind]; }

void *malloc(size_t size) {
    if (is_turn(ALLOCATION)) { errno = ENOMEM; return NULL; }
    return __libc_malloc(size);
}

void *realloc(void *old, size_t size) {
    if (is_turn(ALLOCATION)) { errno = ENOMEM; return NULL; }
    return __libc_realloc(old, size);
}

#ifdef MOVES
static ssize_t moved(long call, int file, const void *bytes, size_t count) {
    if (is_turn(MOVE)) { errno = EIO; return -1; }
    if (count > 1 && is_turn(SHORT)) count = 1;
    return syscall(call, file, bytes, count);
}

ssize_t read(int file, void *bytes, size_t count) { return moved(SYS_read, file, bytes, count); }
ssize_t write(int file, const void *bytes, size_t count) { return moved(SYS_write, file, bytes, count); }
ssize_t __write(int file, const void *bytes, size_t count) { return moved(SYS_write, file, bytes, count); }
#endif

__attribute__((destructor)) static void finish(void) {
    const char *path = getenv("SEEN");
    if (!path) return;
    int file = open(path, O_WRONLY | O_CREAT | O_TRUNC, 0600);
    if (syscall(SYS_write, file, seen, sizeof seen) < 0) abort();
    close(file);
}
"""


def build_library(folder, has_moves=False):
    """Builds the library in a folder, by which allocations fail, or moves too, and gives its path."""
    source, library = os.path.join(folder, "failing.c"), os.path.join(folder, "failing.so")
    write(source, LIBRARY)
    moves = ["-DMOVES"] if has_moves else []
    subprocess.run(["gcc", "-O1", "-fno-builtin", "-shared", "-fPIC", *moves, "-o", library, source], check=True)
    return library


def run(command, library, environment, seconds, **how):
    """The status, standard output and standard error of a run with the library; the status is None where it has not ended after so many seconds."""
    try:
        done = subprocess.run(command, capture_output=True, env={"LD_PRELOAD": library, **environment}, timeout=seconds, **how)
    except subprocess.TimeoutExpired:
        return None, b"", b""
    return done.returncode, done.stdout, done.stderr


def counts_in(seen):
    """How many calls of each kind a run made, by the file that it wrote."""
    with open(seen, "rb") as file:
        counts = file.read()
    return [int.from_bytes(counts[i : i + 8], sys.byteorder) for i in range(0, len(counts), 8)]
