// Options: each test of a start by itself, at its bound and past it, and that each refusal precedes the next. What is due is
// 01's, as docs/DECISIONS.md has the order; there is no Rust in it.
#include <math.h>

#include "check.h"

#define MOST UINT64_C(1000000)

static const struct fit_allowances ABSENT = {{false, UINT64_MAX}, {false, UINT64_MAX}};

static struct fit_allowances allowed(uint64_t iter, uint64_t fevals) {
    return (struct fit_allowances){.iter = {true, iter}, .fevals = {true, fevals}};
}

static struct fit_simplex_options simplex_options(void) {
    return (struct fit_simplex_options){.xtol = 1e-8, .ftol = 1e-8, .step = 0.05, .restarts = 2, .adaptive = true};
}

static struct fit_wolfe_options wolfe_options(void) {
    return (struct fit_wolfe_options){.c1 = 1e-4, .c2 = 0.9, .stepmax = 100.0, .evals = 40};
}

static struct fit_gradient_options gradient_options(void) {
    return (struct fit_gradient_options){
        .gradtol = 1e-6, .ftol = 1e-9, .xtol = 0.0, .wolfe = wolfe_options(), .memory = 8, .gradients = true};
}

// What is no tolerance, and what is no positive number.
static const double NOT_TOLERANCES[] = {-1.0, -0x1p-1074, INFINITY, -INFINITY, NAN};
static const double NOT_POSITIVE[] = {-1.0, 0.0, -0.0, INFINITY, -INFINITY, NAN};

#define EACH(i, list) for (size_t i = 0; i < sizeof list / sizeof list[0]; i++)

// One assignment to sound options `o`, and the refusal of the call with them.
#define SIMPLEX(change, count, a, number, detail)                                                                             \
    do {                                                                                                                      \
        struct fit_simplex_options o = simplex_options();                                                                     \
        change;                                                                                                               \
        same_refusal("fit_simplex_refusal: " #change, fit_simplex_refusal(count, o, a), number, detail);                      \
    } while (0)

void check_simplex(void) {
    SIMPLEX(, 1, ABSENT, 0, 0);
    SIMPLEX(, 16, allowed(MOST, MOST), 0, 0);
    SIMPLEX(, 17, ABSENT, 2, 0);
    SIMPLEX(, SIZE_MAX, ABSENT, 2, 0);
    SIMPLEX(, 16, allowed(MOST + 1, MOST), 2, 0);
    SIMPLEX(, 16, allowed(MOST, MOST + 1), 2, 0);
    SIMPLEX(o.restarts = 100, 16, ABSENT, 0, 0);
    SIMPLEX(o.restarts = 101, 16, ABSENT, 2, 0);
    SIMPLEX(o.xtol = -0.0; o.ftol = 0.0, 3, ABSENT, 0, 0);
    SIMPLEX(o.adaptive = false, 3, ABSENT, 0, 0);
    EACH(i, NOT_TOLERANCES) {
        SIMPLEX(o.xtol = NOT_TOLERANCES[i], 3, ABSENT, 4, 1);
        SIMPLEX(o.ftol = NOT_TOLERANCES[i], 3, ABSENT, 4, 2);
    }
    EACH(i, NOT_POSITIVE) {
        SIMPLEX(o.step = NOT_POSITIVE[i], 3, ABSENT, 8, 0);
    }
    SIMPLEX(, 0, ABSENT, 9, 0);
    // the order
    SIMPLEX(o.restarts = 101; o.xtol = -1.0, 3, ABSENT, 2, 0);
    SIMPLEX(o.xtol = -1.0; o.ftol = -1.0, 3, ABSENT, 4, 1);
    SIMPLEX(o.ftol = -1.0; o.step = 0.0, 3, ABSENT, 4, 2);
    SIMPLEX(o.step = 0.0, 0, ABSENT, 8, 0);
    report("simplex options");
}

#define GRADIENT(change, count, a, limited, number, detail)                                                                   \
    do {                                                                                                                      \
        struct fit_gradient_options o = gradient_options();                                                                   \
        change;                                                                                                               \
        same_refusal("fit_gradient_refusal: " #change, fit_gradient_refusal(count, o, a, limited), number, detail);           \
    } while (0)

// What bfgs and lbfgs have in common.
static void check_either(bool limited) {
    GRADIENT(, 1, ABSENT, limited, 0, 0);
    GRADIENT(, 16, allowed(MOST, MOST), limited, 0, 0);
    GRADIENT(, 17, ABSENT, limited, 2, 0);
    GRADIENT(, 16, allowed(MOST + 1, MOST), limited, 2, 0);
    GRADIENT(, 16, allowed(MOST, MOST + 1), limited, 2, 0);
    GRADIENT(o.wolfe.evals = 1000, 3, ABSENT, limited, 0, 0);
    GRADIENT(o.wolfe.evals = 1001, 3, ABSENT, limited, 2, 0);
    GRADIENT(o.wolfe.evals = 0; o.wolfe.stepmax = NAN, 3, ABSENT, limited, 0, 0);
    GRADIENT(o.gradients = false, 3, ABSENT, limited, 0, 0);
    EACH(i, NOT_TOLERANCES) {
        GRADIENT(o.gradtol = NOT_TOLERANCES[i], 3, ABSENT, limited, 4, 1);
        GRADIENT(o.ftol = NOT_TOLERANCES[i], 3, ABSENT, limited, 4, 2);
        GRADIENT(o.xtol = NOT_TOLERANCES[i], 3, ABSENT, limited, 4, 3);
    }
    GRADIENT(o.wolfe.c1 = 0.0, 3, ABSENT, limited, 5, 1);
    GRADIENT(o.wolfe.c1 = o.wolfe.c2, 3, ABSENT, limited, 5, 1);
    GRADIENT(o.wolfe.c2 = 1.0, 3, ABSENT, limited, 5, 1);
    GRADIENT(o.wolfe.c2 = NAN, 3, ABSENT, limited, 5, 1);
    GRADIENT(, 0, ABSENT, limited, 9, 0);
    // the order
    GRADIENT(o.wolfe.evals = 1001; o.gradtol = -1.0, 3, ABSENT, limited, 2, 0);
    GRADIENT(o.gradtol = -1.0; o.ftol = -1.0, 3, ABSENT, limited, 4, 1);
    GRADIENT(o.ftol = -1.0; o.xtol = -1.0, 3, ABSENT, limited, 4, 2);
    GRADIENT(o.xtol = -1.0; o.wolfe.c1 = 0.0, 3, ABSENT, limited, 4, 3);
    GRADIENT(o.wolfe.c1 = 0.0, 0, ABSENT, limited, 5, 1);
}

void check_gradient(void) {
    check_either(false);
    check_either(true);
    GRADIENT(o.memory = 0, 3, ABSENT, false, 0, 0);
    GRADIENT(o.memory = UINT64_MAX, 3, ABSENT, false, 0, 0);
    GRADIENT(o.memory = 16, 3, ABSENT, true, 0, 0);
    GRADIENT(o.memory = 17, 3, ABSENT, true, 2, 0);
    GRADIENT(o.memory = 0, 3, ABSENT, true, 3, 0);
    GRADIENT(o.memory = 0; o.gradtol = -1.0, 3, ABSENT, true, 3, 0);
    report("gradient options");
}

#define SEARCH(change, n, dcount, gcount, number, detail)                                                                     \
    do {                                                                                                                      \
        struct fit_wolfe_options o = wolfe_options();                                                                         \
        change;                                                                                                               \
        same_refusal("fit_search_refusal: " #change, fit_search_refusal(n, dcount, gcount, o), number, detail);               \
    } while (0)

void check_search(void) {
    SEARCH(, 16, 16, 16, 0, 0);
    SEARCH(, 17, 16, 16, 2, 0);
    SEARCH(, 16, 17, 16, 2, 0);
    SEARCH(, 16, 16, 17, 2, 0);
    SEARCH(o.evals = 1000, 3, 3, 3, 0, 0);
    SEARCH(o.evals = 1001, 3, 3, 3, 2, 0);
    SEARCH(o.c1 = 0.0, 3, 3, 3, 5, 1);
    SEARCH(o.c1 = 1.0; o.c2 = 2.0, 3, 3, 3, 5, 1);
    SEARCH(o.c1 = NAN, 3, 3, 3, 5, 1);
    SEARCH(o.c2 = o.c1, 3, 3, 3, 5, 2);
    SEARCH(o.c2 = 1.0, 3, 3, 3, 5, 2);
    SEARCH(o.evals = 0, 3, 3, 3, 6, 0);
    EACH(i, NOT_POSITIVE) {
        SEARCH(o.stepmax = NOT_POSITIVE[i], 3, 3, 3, 7, 0);
    }
    SEARCH(, 0, 0, 0, 9, 0);
    SEARCH(, 3, 2, 3, 10, 0);
    SEARCH(, 3, 3, 4, 11, 0);
    // the order
    SEARCH(o.evals = 1001; o.c1 = 0.0, 3, 3, 3, 2, 0);
    SEARCH(o.c1 = 0.0; o.c2 = 1.0, 3, 3, 3, 5, 1);
    SEARCH(o.c2 = 1.0; o.evals = 0, 3, 3, 3, 5, 2);
    SEARCH(o.evals = 0; o.stepmax = 0.0, 3, 3, 3, 6, 0);
    SEARCH(o.stepmax = 0.0, 0, 0, 0, 7, 0);
    SEARCH(, 0, 1, 1, 9, 0);
    SEARCH(, 3, 2, 2, 10, 0);
    report("search options");
}
