/* SPDX-License-Identifier: Apache-2.0 */
/* Preloaded by refuse.py. The request for memory with the number REFUSE_AT is refused: a call of malloc or realloc, counted
   from 1. If that is 0, the number of requests is written to standard error at the end; if it is `sizes`, the size of each request,
   as it comes. */
#define _GNU_SOURCE
#include <dlfcn.h>
#include <stdio.h>
#include <stdlib.h>
#include <string.h>

static unsigned long requests, refused;
static int shows_sizes;

__attribute__((constructor)) static void begin(void) {
    const char *at = getenv("REFUSE_AT");
    refused = at ? strtoul(at, NULL, 10) : 0;
    shows_sizes = at && strcmp(at, "sizes") == 0;
    requests = 0;
}

__attribute__((destructor)) static void end(void) {
    if (!refused && !shows_sizes)
        fprintf(stderr, "%lu\n", requests);
}

static int is_refused(size_t size) {
    if (shows_sizes)
        fprintf(stderr, "%zu\n", size);
    return ++requests == refused;
}

void *malloc(size_t size) {
    static void *(*next)(size_t);
    if (!next)
        next = (void *(*)(size_t))dlsym(RTLD_NEXT, "malloc");
    return is_refused(size) ? NULL : next(size);
}

void *realloc(void *old, size_t size) {
    static void *(*next)(void *, size_t);
    if (!next)
        next = (void *(*)(void *, size_t))dlsym(RTLD_NEXT, "realloc");
    return is_refused(size) ? NULL : next(old, size);
}
