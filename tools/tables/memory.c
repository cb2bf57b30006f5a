// Says at the end of a program the most memory that it held, in KiB. What a parent counts may be the parent's own, from before exec.
#include <stdio.h>

__attribute__((destructor)) static void say(void) {
    char line[256];
    long held = 0;
    FILE *status = fopen("/proc/self/status", "r");
    while (status && fgets(line, sizeof line, status)) {
        sscanf(line, "VmHWM: %ld", &held);
    }
    fprintf(stderr, "%ld\n", held);
}
