// yardstick BYTES TIMES: so many times, copies so many bytes and compares each of them with one byte.
#include <stdio.h>
#include <stdlib.h>
#include <string.h>

static char from[65536], to[65536];

int main(int count, char **words) {
    if (count != 3) return 1;
    size_t bytes = strtoul(words[1], 0, 10) % sizeof from;
    unsigned long times = strtoul(words[2], 0, 10), sum = 0;
    for (size_t i = 0; i < bytes; i++) from[i] = (char)(i * 7);
    for (unsigned long n = 0; n < times; n++) {
        from[n % (bytes + 1)] ^= 1;
        memcpy(to, from, bytes);
        for (size_t i = 0; i < bytes; i++) {
            sum += to[i] == '\n';
            __asm__ volatile("" : "+r"(sum));
        }
    }
    printf("%lu\n", sum);
    return 0;
}
