"""A library that refuses one allocation of the program before which it is loaded. It needs a C compiler, `cc`, and a program
that was built to run, without a sanitizer of its own."""

import os
import shutil
import subprocess

from common import answer

# The allocation with the number REFUSED, counted from 1, gets nothing; COUNTED is the file that tells that there was one.
REFUSING = r"""
#define _GNU_SOURCE
#include <dlfcn.h>
#include <errno.h>
#include <fcntl.h>
#include <stdatomic.h>
#include <stdlib.h>
#include <unistd.h>

static atomic_long count;
static long refused;
static int begun;

__attribute__((constructor)) static void begin(void) {
    char *number = getenv("REFUSED");
    refused = number ? atol(number) : 0;
    begun = 1;
}

static int is_refused(void) {
    if (!begun || atomic_fetch_add(&count, 1) + 1 != refused) return 0;
    char *path = getenv("COUNTED");
    if (path) close(open(path, O_CREAT | O_WRONLY, 0644));
    errno = ENOMEM;
    return 1;
}

extern void *__libc_malloc(size_t), *__libc_calloc(size_t, size_t), *__libc_realloc(void *, size_t);
void *malloc(size_t size) { return is_refused() ? NULL : __libc_malloc(size); }
void *calloc(size_t many, size_t size) { return is_refused() ? NULL : __libc_calloc(many, size); }
void *realloc(void *old, size_t size) { return is_refused() ? NULL : __libc_realloc(old, size); }
"""


def library(folder):
    """The built library; None where there is no compiler."""
    if shutil.which("cc") is None:
        return None
    (folder / "refusing.c").write_text(REFUSING)
    built = folder / "refusing.so"
    subprocess.run(["cc", "-shared", "-fPIC", "-O1", "-o", built, folder / "refusing.c"], check=True)
    return built


def refused_answer(library, number, program, folder, *words, **how):
    """What a call answers of which the allocation with this number is refused, and whether it came to so many."""
    told = folder / "refused"
    told.unlink(missing_ok=True)
    env = {**os.environ, "LD_PRELOAD": str(library), "REFUSED": str(number), "COUNTED": str(told)}
    return answer(program, folder, *words, env=env, **how), told.exists()
