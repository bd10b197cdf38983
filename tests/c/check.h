// What the tests of the C functions share: comparisons that are counted, and pseudo-random words.
#ifndef CHECK_H
#define CHECK_H

#include <stdbool.h>
#include <stddef.h>
#include <stdint.h>

#include "fit.h"

double from_bits(uint64_t bits);
uint64_t to_bits(double x);

// A word of a fixed sequence, and one below `bound`.
uint64_t next_word(void);
size_t next_below(size_t bound);

// A double out of the edges, or with random bits.
double next_double(void);

// Compares bit for bit, every NaN counting as one.
void same_double(const char *what, double came, double due);
void same_bool(const char *what, bool came, bool due);
void same_refusal(const char *what, struct fit_refusal came, uint64_t number, uint64_t detail);

// Prints the count of comparisons since the last call.
void report(const char *part);

// How many comparisons differed.
uint64_t differed(void);

void check_numbers(void);
void check_table(const char *path);
void check_differences(void);
void check_dialogue(const char *path);
void check_lists(void);
void check_simplex(void);
void check_gradient(void);
void check_search(void);
void check_fits(const char *fit, const char *bare);
void check_forged(void);

#endif
