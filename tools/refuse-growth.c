// SPDX-License-Identifier: MIT OR Apache-2.0
// Stands before malloc, realloc and free (by LD_PRELOAD), for tools/refuse-growth.
//
// REFUSED=N lets the Nth allocation of a run fail, REFUSED_FROM=N each one from the Nth on. At the
// end it writes a line to the file COUNTS: how many allocations there were, how many of these
// failed, how many blocks are still held, and how many were held at once at most.
#include <errno.h>
#include <fcntl.h>
#include <stdio.h>
#include <stdlib.h>
#include <unistd.h>

extern void *__libc_malloc(size_t);
extern void *__libc_realloc(void *, size_t);
extern void __libc_free(void *);

static long asked, refused, held, most;
static long first = -1, last = -1;

__attribute__((constructor)) static void begin(void) {
    const char *one = getenv("REFUSED"), *from = getenv("REFUSED_FROM");
    if (one) first = last = atol(one);
    if (from) first = atol(from), last = __LONG_MAX__;
    // What the C library took before `main` is not the program's.
    asked = held = most = 0;
}

static int refuses(void) {
    asked++;
    if (first < 0 || asked < first || asked > last) return 0;
    refused++;
    errno = ENOMEM;
    return 1;
}

static void hold(void) {
    if (++held > most) most = held;
}

void *malloc(size_t size) {
    if (refuses()) return NULL;
    void *block = __libc_malloc(size);
    if (block) hold();
    return block;
}

void *realloc(void *block, size_t size) {
    if (refuses()) return NULL;
    void *grown = __libc_realloc(block, size);
    if (!block && grown) hold();
    return grown;
}

void free(void *block) {
    if (block) held--;
    __libc_free(block);
}

__attribute__((destructor)) static void end(void) {
    const char *name = getenv("COUNTS");
    int file = name ? open(name, O_WRONLY | O_CREAT | O_TRUNC, 0600) : -1;
    if (file < 0) return;
    dprintf(file, "%ld %ld %ld %ld\n", asked, refused, held, most);
    close(file);
}
