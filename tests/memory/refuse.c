// Preloaded into a program, refuses the growth of memory with the number that REFUSE has, counted from 1 in
// the order of the calls, and writes the number of calls to the file that COUNT names, if it names one. Calls
// of the C library for itself, before the program begins, aren't counted.
#define _GNU_SOURCE
#include <dlfcn.h>
#include <stdio.h>
#include <stdlib.h>

static void *(*take)(size_t);
static void *(*grow)(void *, size_t);
static unsigned long calls, refused;
static int begun;

__attribute__((constructor)) static void begin(void) {
    const char *number = getenv("REFUSE");
    take = dlsym(RTLD_NEXT, "malloc");
    grow = dlsym(RTLD_NEXT, "realloc");
    refused = number ? strtoul(number, NULL, 10) : 0;
    begun = 1;
}

__attribute__((destructor)) static void end(void) {
    const char *name = getenv("COUNT");
    begun = 0;
    FILE *file = name ? fopen(name, "w") : NULL;
    if (file == NULL) return;
    fprintf(file, "%lu\n", calls);
    fclose(file);
}

static int is_refused(void) { return begun && ++calls == refused; }

void *malloc(size_t bytes) {
    if (take == NULL) take = dlsym(RTLD_NEXT, "malloc");
    return is_refused() ? NULL : take(bytes);
}

void *realloc(void *block, size_t bytes) {
    if (grow == NULL) grow = dlsym(RTLD_NEXT, "realloc");
    return is_refused() ? NULL : grow(block, bytes);
}
