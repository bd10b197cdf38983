#include "check.h"

#include <inttypes.h>
#include <math.h>
#include <stdio.h>
#include <string.h>

static uint64_t compared, differing, reported, state = 1;

double from_bits(uint64_t bits) {
    double x;
    memcpy(&x, &bits, sizeof x);
    return x;
}

uint64_t to_bits(double x) {
    uint64_t bits;
    memcpy(&bits, &x, sizeof bits);
    return isnan(x) ? UINT64_C(0x7ff8000000000000) : bits;
}

// splitmix64
uint64_t next_word(void) {
    uint64_t z = (state += UINT64_C(0x9e3779b97f4a7c15));
    z = (z ^ (z >> 30)) * UINT64_C(0xbf58476d1ce4e5b9);
    z = (z ^ (z >> 27)) * UINT64_C(0x94d049bb133111eb);
    return z ^ (z >> 31);
}

size_t next_below(size_t bound) {
    return (size_t)(next_word() % bound);
}

static const double EDGES[] = {
    0.0,       -0.0,      0x1p-1074, -0x1p-1074, 0x1.ffffffffffffep-1023, 0x1p-1022, 1.0,
    -1.0,      2.0,       0.5,       -0.5,       0x1.fffffffffffffp+1023, -0x1.fffffffffffffp+1023,
    INFINITY,  -INFINITY, NAN,       1000.0,     -1000.0,
};

double next_double(void) {
    size_t count = sizeof EDGES / sizeof EDGES[0];
    size_t at = next_below(4 * count);
    return at < count ? EDGES[at] : from_bits(next_word());
}

// Only the first differences are printed.
static bool counted(bool same) {
    compared++;
    if (same) {
        return false;
    }
    differing++;
    return differing <= 20;
}

void same_double(const char *what, double came, double due) {
    if (counted(to_bits(came) == to_bits(due))) {
        printf("%s: %016" PRIX64 " came, %016" PRIX64 " is due\n", what, to_bits(came), to_bits(due));
    }
}

void same_bool(const char *what, bool came, bool due) {
    if (counted(came == due)) {
        printf("%s: %d came, %d is due\n", what, came, due);
    }
}

void same_refusal(const char *what, struct fit_refusal came, uint64_t number, uint64_t detail) {
    if (counted(came.number == number && came.detail == detail)) {
        printf("%s: %" PRIu64 " %" PRIu64 " came, %" PRIu64 " %" PRIu64 " is due\n", what, came.number, came.detail, number,
               detail);
    }
}

void report(const char *part) {
    printf("%s: %" PRIu64 " comparisons\n", part, compared - reported);
    reported = compared;
}

uint64_t differed(void) {
    return differing;
}
