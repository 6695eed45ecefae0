// Refuses the growth of number REFUSE of the memory of the program that it is loaded into (LD_PRELOAD), and writes the count of all growths to the
// file COUNT at the end. Built and used by growths.py.
#define _GNU_SOURCE
#include <dlfcn.h>
#include <stdio.h>
#include <stdlib.h>
#include <sys/syscall.h>
#include <unistd.h>

static unsigned long made, refused;

__attribute__((constructor)) static void begin(void) {
    const char *word = getenv("REFUSE");
    refused = word ? strtoul(word, NULL, 10) : 0;
    made = 0;
}

__attribute__((destructor)) static void end(void) {
    const char *name = getenv("COUNT");
    unsigned long all = made;
    refused = 0;
    FILE *file = name ? fopen(name, "w") : NULL;
    if (!file) return;
    fprintf(file, "%lu\n", all);
    fclose(file);
}

// A program of threads ends so, and then no destructor runs.
void _exit(int status) {
    end();
    for (;;) syscall(SYS_exit_group, status);
}

void *malloc(size_t size) {
    static void *(*next)(size_t);
    if (!next) next = dlsym(RTLD_NEXT, "malloc");
    return ++made == refused ? NULL : next(size);
}

void *realloc(void *old, size_t size) {
    static void *(*next)(void *, size_t);
    if (!next) next = dlsym(RTLD_NEXT, "realloc");
    return ++made == refused ? NULL : next(old, size);
}
