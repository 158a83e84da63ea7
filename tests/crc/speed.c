// Times the proved frame check sequence, a loop with a table and a loop over the bits on the same bytes; writes the bytes to the file named, for others to time.
#include "ways.h"
#include <stdio.h>
#include <stdlib.h>
#include <time.h>

word proved_fcs(const byte *bytes, unsigned long n);

// the best of three, in processor time
static void timed(const char *name, word (*f)(const byte *, unsigned long), const byte *bytes, unsigned long n) {
    double best = 1e9;
    word r = 0;
    for (int turn = 0; turn < 3; turn++) {
        struct timespec a, b;
        clock_gettime(CLOCK_PROCESS_CPUTIME_ID, &a);
        r = f(bytes, n);
        clock_gettime(CLOCK_PROCESS_CPUTIME_ID, &b);
        double s = (b.tv_sec - a.tv_sec) + (b.tv_nsec - a.tv_nsec) / 1e9;
        if (s < best) best = s;
    }
    printf("%-24s %08x %8.3f s %8.1f MB/s\n", name, r, best, n / best / 1e6);
}

int main(int argc, char **argv) {
    unsigned long n = 64ul << 20;
    byte *bytes = malloc(n);
    word x = 1;
    for (unsigned long i = 0; i < n; i++) {
        x = x * 1664525 + 1013904223;
        bytes[i] = x >> 24;
    }
    FILE *f = fopen(argv[1], "wb");
    if (!f || fwrite(bytes, 1, n, f) != n || fclose(f)) return 1;
    fill_table();
    timed("proved", proved_fcs, bytes, n);
    timed("C, 256 entries, -O2", table_driven, bytes, n);
    timed("C, bit by bit, -O2", bitwise, bytes, n);
    return 0;
}
