#!/usr/bin/env python3
"""Refuses each allocation of a run in turn, and says what comes of it.

  docs/allocations.py PROGRAM      the built program, as crates/autocorres/out/autocorres

It runs show of a sum, run of a swap, check of a certificate and trial 5 once for each allocation that they make, and has the
system refuse that one. Each run has to end with status 8 and nothing written, or as the run ends that has all its memory.
"""

import os
import subprocess
import sys
import tempfile

REFUSER = """
#define _GNU_SOURCE
#include <dlfcn.h>
#include <errno.h>
#include <stdio.h>
#include <stdlib.h>
#include <unistd.h>

static long made, refused = -1;

static int is_refused(void) {
    if (refused < 0) {
        const char *at = getenv("REFUSED");
        refused = at ? atol(at) : 0;
    }
    return ++made == refused;
}

void *malloc(size_t size) {
    static void *(*real)(size_t);
    if (!real) real = dlsym(RTLD_NEXT, "malloc");
    if (is_refused()) { errno = ENOMEM; return 0; }
    return real(size);
}

void *realloc(void *old, size_t size) {
    static void *(*real)(void *, size_t);
    if (!real) real = dlsym(RTLD_NEXT, "realloc");
    if (is_refused()) { errno = ENOMEM; return 0; }
    return real(old, size);
}

__attribute__((destructor)) static void tell(void) {
    const char *file = getenv("COUNTED");
    FILE *out = file ? fopen(file, "w") : 0;
    if (out) { fprintf(out, "%ld", made - 1); fclose(out); }
}
"""

SUM = "unsigned f(unsigned a, unsigned b){return a+b;}"
SEVEN = "unsigned f(void){return 7;}"
SWAP = "void swap(unsigned *p, unsigned *q){unsigned t=*p; *p=*q; *q=t;}"
MEMORY = (
    "(memory 1 (call swap 4096 4100) (turns 100) (fill 0) (bytes (4096 0100000002000000)) (tags (4096 uint) (4100 uint)) (globals))\n"
)


def write(name, text):
    with open(name, "w", encoding="utf-8") as file:
        file.write(text)


def main():
    program = os.path.abspath(sys.argv[1])
    with tempfile.TemporaryDirectory() as room:
        os.chdir(room)
        write("refuser.c", REFUSER)
        subprocess.run(["cc", "-shared", "-fPIC", "-O2", "-o", "refuser.so", "refuser.c", "-ldl"], check=True)
        for name, text in (("sum.c", SUM), ("seven.c", SEVEN), ("swap.c", SWAP), ("swap.mem", MEMORY)):
            write(name, text)
        for name in ("seven", "swap"):
            with open(f"{name}.cert", "wb") as file:
                subprocess.run([program, "translate", f"{name}.c"], stdout=file, check=True)
        bad = 0
        for words in ("show sum.c", "run swap.c swap.cert swap.mem", "check seven.c seven.cert", "trial 5"):
            bad += refuse_each(program, words.split())
        sys.exit(bad > 0)


def refuse_each(program, words):
    """How many runs end in another way."""

    def run(**more):
        found = subprocess.run([program, *words], capture_output=True, env={"LD_PRELOAD": "./refuser.so", **more})
        return found.returncode, found.stdout

    own = run(COUNTED="count")
    with open("count", encoding="utf-8") as file:
        count = int(file.read())
    ends = [run(REFUSED=str(at)) for at in range(1, count + 1)]
    bad = sum(end not in ((8, b""), own) for end in ends)
    print(f"{' '.join(words)}: {count} allocations; refused, {ends.count((8, b''))} end with status 8, {ends.count(own)} as with all memory, {bad} otherwise")
    return bad


main()
