// Numbers: against C's own operations, and against the table that Rust made (crates/test_float/stdin).
#include <inttypes.h>
#include <math.h>
#include <stdio.h>

#include "check.h"

// What C's fmax and fmin leave open is decided: the number beside a NaN, quiet or signalling, and the first of two equal ones.
static double due_of(double a, double b, double (*of)(double, double)) {
    if (isnan(a) || isnan(b)) {
        return isnan(a) ? b : a;
    }
    return a == b ? a : of(a, b);
}

// The total order by value, then by sign; a NaN follows every number, and no NaN another.
static bool due_precedes(double a, double b) {
    if (isnan(a) || isnan(b)) {
        return !isnan(a);
    }
    if (a == b) {
        return signbit(a) && !signbit(b);
    }
    return a < b;
}

static void check_pair(double a, double b) {
    same_double("fit_max", fit_max(a, b), due_of(a, b, fmax));
    same_double("fit_min", fit_min(a, b), due_of(a, b, fmin));
    same_bool("fit_precedes", fit_precedes(a, b), due_precedes(a, b));
}

void check_numbers(void) {
    for (int i = 0; i < 1000000; i++) {
        double x = from_bits(next_word());
        same_double("fit_sqrt", fit_sqrt(x), sqrt(x));
        same_double("fit_sqrt", fit_sqrt(fabs(x)), sqrt(fabs(x)));
        double subnormal = from_bits(next_word() >> 12);
        same_double("fit_sqrt", fit_sqrt(subnormal), sqrt(subnormal));
        double a = next_double(), b = next_double();
        check_pair(a, b);
        check_pair(a, a);
        check_pair(a, -a);
        same_bool("fit_is_finite", fit_is_finite(a), isfinite(a));
        same_double("fit_read", fit_read(a), isfinite(a) ? a : INFINITY);
    }
    report("numbers");
}

// A row's operation, of those that C may call.
static void check_row(char op, double a, double b, uint64_t due) {
    switch (op) {
    case 's':
        same_double("fit_sqrt of the table", fit_sqrt(a), from_bits(due));
        break;
    case 'M':
        same_double("fit_max of the table", fit_max(a, b), from_bits(due));
        break;
    case 'm':
        same_double("fit_min of the table", fit_min(a, b), from_bits(due));
        break;
    case 'f':
        same_bool("fit_is_finite of the table", fit_is_finite(a), due == 1);
        break;
    case 't':
        same_bool("fit_precedes of the table", fit_precedes(a, b), due == 0);
        same_bool("fit_precedes of the table", fit_precedes(b, a), due == 2);
        break;
    }
}

void check_table(const char *path) {
    FILE *table = fopen(path, "r");
    if (table == NULL) {
        same_bool(path, false, true);
        return;
    }
    char op;
    uint64_t a, b, due, rows = 0;
    while (fscanf(table, " %c %" SCNx64 " %" SCNx64 " %" SCNx64, &op, &a, &b, &due) == 4) {
        check_row(op, from_bits(a), from_bits(b), due);
        rows++;
    }
    same_bool("the table was read to its end", rows > 0 && feof(table), true);
    fclose(table);
    report("Rust's table");
}
