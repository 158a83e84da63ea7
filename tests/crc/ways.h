// Two plain ways to the published CRC-32 in C, beside which the proved one is put: no header of the library is needed.
typedef unsigned char byte;
typedef unsigned int word;

static word bitwise(const byte *bytes, unsigned long n) {
    word r = 0xffffffff;
    for (unsigned long i = 0; i < n; i++) {
        r ^= bytes[i];
        for (int k = 0; k < 8; k++) r = r >> 1 ^ (r & 1 ? 0xedb88320 : 0);
    }
    return ~r;
}

static word table[256];

static void fill_table(void) {
    for (word x = 0; x < 256; x++) {
        word r = x;
        for (int k = 0; k < 8; k++) r = r >> 1 ^ (r & 1 ? 0xedb88320 : 0);
        table[x] = r;
    }
}

static word table_driven(const byte *bytes, unsigned long n) {
    word r = 0xffffffff;
    for (unsigned long i = 0; i < n; i++) r = r >> 8 ^ table[(r ^ bytes[i]) & 255];
    return ~r;
}
