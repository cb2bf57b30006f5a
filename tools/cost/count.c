// Counts the bytes that memcpy, memmove and memset touch, and the allocations, of the program that it is loaded into.
#define _GNU_SOURCE
#include <dlfcn.h>
#include <stddef.h>
#include <stdio.h>
#include <stdlib.h>
#include <unistd.h>

static unsigned long moved, zeroed, taken;

void *memcpy(void *restrict to, const void *restrict from, size_t n) {
    moved += n;
    void *at = to;
    __asm__ volatile("rep movsb" : "+D"(at), "+S"(from), "+c"(n) : : "memory");
    return to;
}

void *memmove(void *to, const void *from, size_t n) {
    moved += n;
    char *t = to;
    const char *f = from;
    if (t < f)
        for (size_t i = 0; i < n; i++) ((volatile char *)t)[i] = f[i];
    else
        while (n--) ((volatile char *)t)[n] = f[n];
    return to;
}

void *memset(void *at, int byte, size_t n) {
    zeroed += n;
    void *to = at;
    __asm__ volatile("rep stosb" : "+D"(to), "+c"(n) : "a"(byte) : "memory");
    return at;
}

extern void *__libc_malloc(size_t);
extern void *__libc_calloc(size_t, size_t);
extern void *__libc_realloc(void *, size_t);

void *malloc(size_t n) { taken++; return __libc_malloc(n); }
void *calloc(size_t n, size_t m) { taken++; zeroed += n * m; return __libc_calloc(n, m); }
void *realloc(void *p, size_t n) { taken++; return __libc_realloc(p, n); }

__attribute__((destructor)) static void tell(void) {
    char line[128];
    int n = snprintf(line, sizeof line, "%lu %lu %lu\n", moved, zeroed, taken);
    if (write(2, line, n) < 0) _exit(9);
}
