// Lists: against the formulas in C. Each list ends where its page does, and the next page cannot be read, so that a function
// that read past its count would end the program.
#define _DEFAULT_SOURCE
#include <math.h>
#include <stdio.h>
#include <stdlib.h>
#include <sys/mman.h>
#include <unistd.h>

#include "check.h"

// The end of a page before one that cannot be read.
static char *page_end(void) {
    size_t size = (size_t)sysconf(_SC_PAGESIZE);
    char *pages = mmap(NULL, 2 * size, PROT_READ | PROT_WRITE, MAP_PRIVATE | MAP_ANONYMOUS, -1, 0);
    if (pages == MAP_FAILED || mprotect(pages + size, size, PROT_NONE) != 0) {
        perror("mmap");
        exit(2);
    }
    return pages + size;
}

// A list of numbers of like size, now and then with an edge in it.
static double *list_before(char *end, size_t count) {
    double *list = (double *)(void *)(end - count * sizeof(double));
    for (size_t i = 0; i < count; i++) {
        list[i] = ldexp((double)(int64_t)next_word(), (int)next_below(60) - 90);
    }
    if (count > 0 && next_below(4) == 0) {
        list[next_below(count)] = next_double();
    }
    return list;
}

static double due_dot(const double *a, size_t m, const double *b, size_t n) {
    double sum = -0.0;
    for (size_t i = 0; i < m && m == n; i++) {
        sum = sum + a[i] * b[i];
    }
    return m > 16 || m != n ? NAN : sum;
}

static double due_norm(const double *a, size_t n) {
    double most = 0.0;
    for (size_t i = 0; i < n; i++) {
        most = isnan(a[i]) ? most : fmax(most, fabs(a[i]));
    }
    return n > 16 ? NAN : most;
}

static bool due_finite(const double *a, size_t n) {
    bool all = n <= 16;
    for (size_t i = 0; i < n; i++) {
        all = all && isfinite(a[i]);
    }
    return all;
}

void check_lists(void) {
    char *ends[2] = {page_end(), page_end()};
    for (int i = 0; i < 300000; i++) {
        size_t m = next_below(19), n = next_below(8) == 0 ? next_below(19) : m;
        const double *a = list_before(ends[0], m), *b = list_before(ends[1], n);
        same_double("fit_dot", fit_dot(a, m, b, n), due_dot(a, m, b, n));
        same_double("fit_dot of one list", fit_dot(a, m, a, m), due_dot(a, m, a, m));
        same_double("fit_inf_norm", fit_inf_norm(a, m), due_norm(a, m));
        same_bool("fit_all_finite", fit_all_finite(a, m), due_finite(a, m));
    }
    report("lists");
}
