// Takes the CRC of the same bytes over and over in one of some ways, for its instructions to be counted (tests/crc/count). Standard input has five bytes: which
// way, how often and how many bytes, the lower byte first. Prints the last value. Compiled with PROVED or with ZLIB, or with both.
#include "ways.h"

long read(int, void *, unsigned long);
long write(int, const void *, unsigned long);

// what is in the loop beside the way itself
static word nothing(const byte *bytes, unsigned long n) { return 0; }

#ifdef PROVED
word proved_fcs(const byte *, unsigned long);
word proved_remainder(const byte *, unsigned long);
#else
#define proved_fcs nothing
#define proved_remainder nothing
#endif

#ifdef ZLIB
unsigned long crc32(unsigned long, const byte *, unsigned);
static word zlib(const byte *bytes, unsigned long n) { return crc32(0, bytes, n); }
#else
#define zlib nothing
#endif

static word (*const ways[])(const byte *, unsigned long) = {nothing, proved_fcs, proved_remainder, table_driven, bitwise, zlib};
static byte bytes[65536];

int main(void) {
    byte asked[5];
    if (read(0, asked, 5) != 5) return 1;
    word (*volatile way)(const byte *, unsigned long) = ways[asked[0]];
    unsigned long rounds = asked[1] + 256 * asked[2], n = asked[3] + 256 * asked[4];
    word x = 1;
    fill_table();
    for (unsigned long i = 0; i < n; i++) {
        x = x * 1664525 + 1013904223;
        bytes[i] = x >> 24;
    }
    for (unsigned long i = 0; i < rounds; i++) x = way(bytes, n);
    char digits[9];
    for (int k = 0; k < 8; k++) digits[k] = "0123456789abcdef"[x >> (28 - 4 * k) & 15];
    digits[8] = '\n';
    return write(1, digits, 9) != 9;
}
