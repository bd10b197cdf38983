/* The fitting engine for C: crates/c_fit/out/libc_fit.a, which `tests/archive.py c_fit` builds for x86-64 Linux with glibc, with the
 * Rattle kit `rattle-kit-13f logic dac8208d650f15bf` (`rt version`). The parts of the engine at this header's end stand in
 * crates/c_api/out/libc_api.a (`tests/archive.py c_api`), which whole fits do not need. The archives need memcpy, memmove and memset,
 * and no heap; they have no global, and call nobody back: the caller holds the loop. At n 16 an answer was seen to take 120,456
 * bytes of stack, a start 41,640; with the kit before this one any other function took less than 4,096.
 *
 * A fit is a `struct fit_record` that the caller holds, and two lists of sixteen beside it, `point` and `slopes`:
 *
 *     struct fit_record r;
 *     double point[16], slopes[16];
 *     struct fit_reply s = fit_start_simplex(&r, x0, n, fit_default_simplex(), fit_default_allowances(), point, slopes);
 *     while (s.what == FIT_QUESTION) {
 *         double f = objective(point, n);
 *         s = fit_answer(&r, s.number, s.kind, &f, 1, point, slopes);
 *     }
 *
 * Then s.what is FIT_RESULT, and `point` the point that was found, or FIT_REFUSED. A gradient fit whose options say so asks for
 * gradients too: where s.kind is 'G' the answer is the gradient's n numbers.
 *
 * Each function is proved to meet its contract (crates/c_fit/src, crates/c_api/src) for every argument that its types allow, and
 * to return. It reads its arguments and the arrays that they lend, writes the record, `point` and `slopes` alone, and keeps
 * nothing. Calls that are lent other memory may run at the same time. A caller in C is checked by nothing. It must ensure that
 *  - each pointer is aligned to 8 bytes, is not null, also where its count is 0, and points to at least as many elements as its
 *    type or the count beside it says, all of them initialised (a record, `point` and `slopes` need not be before a start);
 *  - the record, `point` and `slopes` overlap nothing else that the call is lent, and nothing else reads or writes what is lent
 *    during the call. So an answer is not passed in `slopes`, nor x0 in `point`. Lists that are only read may overlap;
 *  - each bool is 0 or 1;
 *  - the floating-point environment is C's default: rounding to nearest, subnormal numbers neither flushed nor read as
 *    zero. A program that is linked with -ffast-math may start in another.
 *
 * A NaN is one value here: which NaN is passed makes no difference, and the bits of one that is returned are not defined.
 */
#ifndef FIT_H
#define FIT_H

#include <stdbool.h>
#include <stddef.h>
#include <stdint.h>

#ifdef __cplusplus
extern "C" {
#endif

/* ---- the version: it goes up where a type or a function of this header changes, or the layout of a record. A record that was
 * stored under another version is not to be answered. fit_version() is the archive's, which must be this header's. */

#define FIT_VERSION 1

uint64_t fit_version(void);

/* ---- options of a start */

/* An allowance; where `given` is false it is absent, and `count` is not looked at. */
struct fit_allowance {
    bool given;
    uint64_t count;
};

/* max_iter and max_fevals. */
struct fit_allowances {
    struct fit_allowance iter;
    struct fit_allowance fevals;
};

/* x_tol, f_tol, initial_step, restarts and adaptive. */
struct fit_simplex_options {
    double xtol;
    double ftol;
    double step;
    uint64_t restarts;
    bool adaptive;
};

/* c1, c2, step_max and max_evals. */
struct fit_wolfe_options {
    double c1;
    double c2;
    double stepmax;
    uint64_t evals;
};

/* grad_tol, f_tol, x_tol, the options of searches, memory, and whether the objective gives gradients. */
struct fit_gradient_options {
    double gradtol;
    double ftol;
    double xtol;
    struct fit_wolfe_options wolfe;
    uint64_t memory;
    bool gradients;
};

/* The Rust's defaults. Allowances: both are absent. */
struct fit_allowances fit_default_allowances(void);

/* x_tol 1e-8, f_tol 1e-8, initial_step 0.05, no restarts, adaptive. */
struct fit_simplex_options fit_default_simplex(void);

/* c1 1e-4, c2 0.9, step_max 1e10, max_evals 30. */
struct fit_wolfe_options fit_default_wolfe(void);

/* grad_tol 1e-8, f_tol 0, x_tol 0, the options of searches above, and memory 10, which bfgs passes over. `gradients` is false, as
 * the Rust's objective has none unless it says so: set it where 'G' is to be asked for. */
struct fit_gradient_options fit_default_gradient(void);

/* ---- refusals and reasons */

/* What each refusal's number says, and in brackets what its detail does. 1 and 15 to 17 refuse an answer, 2 to 14 a start. 6, 7 and
 * 12 can also end a gradient fit, as 18 and 19 do, and 20 a simplex fit. */
static const char *const FIT_REFUSALS[21] = {
    "none",
    "the record is out of range",
    "a list or memory is above 16, an allowance above 1000000, max_evals above 1000 or restarts above 100",
    "memory is 0",
    "a tolerance is negative or not finite [its place among the tolerances, from 1]",
    "not 0 < c1 < c2 < 1 [1; of a search 2 where 0 < c1 < 1]",
    "max_evals is 0",
    "step_max is not positive and finite",
    "initial_step is not positive and finite",
    "there are no coordinates",
    "the direction's length is not n",
    "the gradient's length is not n",
    "not finite [1 the point, 2 the direction, 3 the gradient, 4 the value]",
    "the search's first step is not positive and finite",
    "the search's slope is 0 or more",
    "the job has ended",
    "the number is not the open question's",
    "the kind or the length is wrong",
    "the first value is not finite",
    "the first gradient is not finite",
    "all values of a new simplex are not finite",
};

/* A fit's reason, by its number. The first four are those of a fit that converged. */
static const char *const FIT_REASONS[10] = {
    "none",          "GradientTolerance", "SimplexTolerance", "StepTolerance",  "FunctionTolerance",
    "MaxIterations", "MaxFevals",         "LineSearchFailed", "GradientFailed", "ObjectiveResolution",
};

/* ---- records and replies */

/* All that the engine keeps between two calls: 11,016 bytes, aligned to 8, with no pointer and no padding in it. It is copied by
 * assignment, and may be stored and answered later. Any bits may stand in it: what is out of range is refused with 1. The places of
 * marks and numbers are those of crates/optim_lists/specs/Layout.antt; a caller need not know them. */
struct fit_record {
    uint64_t marks[36];           /* counts, phases, positions; the last eleven are flags, each 0 or 1 */
    double numbers[28];           /* what is a single number */
    double diff_x[16];            /* differences: the point */
    double diff_g[16];            /* differences: the gradient */
    double simplex_x[16];         /* simplex: the point asked for */
    double best_x[16];            /* simplex: the best point of all runs */
    double centroid[16];          /* simplex: the centroid */
    double reflected_x[16];       /* simplex: the reflected point */
    double points[17][16];        /* simplex: the vertices */
    double values[17];            /* simplex: the value at each */
    double line_x[16];            /* a search: the point that it starts from */
    double line_g[16];            /* a search: the gradient there */
    double line_d[16];            /* a search: the direction */
    double trial_x[16];           /* a search: the best trial's point */
    double trial_g[16];           /* a search: the best trial's gradient */
    double search_diff_x[16];     /* differences at a trial: the point */
    double search_diff_g[16];     /* differences at a trial: the gradient */
    double first_diff_x[16];      /* differences at x0: the point */
    double first_diff_g[16];      /* differences at x0: the gradient */
    double hessian[256];          /* bfgs: the inverse Hessian, row by row */
    double steps[16][16];         /* lbfgs: s of each pair, oldest first */
    double changes[16][16];       /* lbfgs: y of each pair */
    double factors[16];           /* lbfgs: rho of each pair */
};

/* What a reply is. */
enum {
    FIT_QUESTION = 1,    /* number, kind; `point` is the point */
    FIT_RESULT = 2,      /* of a fit: reason, converged, iterations, fevals, gevals, f; `point` is x */
    FIT_SEARCHED = 3,    /* of a search: success, step, f, trials; `point` is x, `slopes` the gradient there */
    FIT_DIFFERENCED = 4, /* of differences: `slopes` is the gradient; `point` is the point */
    FIT_REFUSED = 5      /* refusal, detail; `point` and `slopes` are left as they were */
};

/* A reply. A field that it has no use for is zero. Of `point` and `slopes` the first n numbers count; `slopes` is written by
 * FIT_SEARCHED and FIT_DIFFERENCED alone. */
struct fit_reply {
    uint64_t what;
    uint64_t number;     /* of the question, which the answer repeats: 1, 2, 3, .. */
    uint64_t reason;     /* why the fit stopped: FIT_REASONS */
    uint64_t iterations;
    uint64_t fevals;     /* values and gradients that were answered */
    uint64_t gevals;
    uint64_t trials;     /* of a search */
    uint64_t refusal;    /* FIT_REFUSALS */
    uint64_t detail;
    double f;            /* the value at x */
    double step;         /* of a search */
    uint8_t kind;        /* of the question: 'V' for a value, 'G' for a gradient */
    bool converged;
    bool success;        /* of a search */
};

/* The archive's own functions, which are lent each array of a record: call those below, which lend a whole one. */
#define FIT_ARRAYS                                                                                                        \
    uint64_t *marks, double *numbers, double *diff_x, double *diff_g, double *simplex_x, double *best_x,                  \
    double *centroid, double *reflected_x, double (*points)[16], double *values, double *line_x, double *line_g,          \
    double *line_d, double *trial_x, double *trial_g, double *search_diff_x, double *search_diff_g,                       \
    double *first_diff_x, double *first_diff_g, double *hessian, double (*steps)[16], double (*changes)[16],              \
    double *factors

#define FIT_LEND(r)                                                                                                       \
    (r)->marks, (r)->numbers, (r)->diff_x, (r)->diff_g, (r)->simplex_x, (r)->best_x, (r)->centroid,                       \
    (r)->reflected_x, (r)->points, (r)->values, (r)->line_x, (r)->line_g, (r)->line_d, (r)->trial_x, (r)->trial_g,        \
    (r)->search_diff_x, (r)->search_diff_g, (r)->first_diff_x, (r)->first_diff_g, (r)->hessian, (r)->steps,               \
    (r)->changes, (r)->factors

struct fit_reply fit_record_simplex(
    FIT_ARRAYS, const double *x, size_t n, struct fit_simplex_options o, struct fit_allowances a, double *point,
    double *slopes);
struct fit_reply fit_record_bfgs(
    FIT_ARRAYS, const double *x, size_t n, struct fit_gradient_options o, struct fit_allowances a, double *point,
    double *slopes);
struct fit_reply fit_record_lbfgs(
    FIT_ARRAYS, const double *x, size_t n, struct fit_gradient_options o, struct fit_allowances a, double *point,
    double *slopes);
struct fit_reply fit_record_search(
    FIT_ARRAYS, const double *x, size_t n, const double *d, size_t dcount, double f0, const double *g, size_t gcount,
    double step, struct fit_wolfe_options o, bool gradients, double *point, double *slopes);
struct fit_reply fit_record_differences(FIT_ARRAYS, const double *x, size_t n, double *point, double *slopes);
struct fit_reply fit_record_answer(
    FIT_ARRAYS, uint64_t number, uint8_t kind, const double *words, size_t count, double *point, double *slopes);

/* ---- starts */

/* Starts a fit of n coordinates by the simplex of Nelder and Mead.
 *
 * r        the record that is written; what it held makes no difference. A refused start leaves the record of no job, and every
 *          answer to it is refused with 1
 * x, n     the point x0 that the fit starts from. It is read in this call alone
 * o, a     the options and the allowances, by value
 * point    gets the first question's point; a refusal leaves it
 * slopes   is left; it is lent so that all calls have one form
 *
 * The reply is a question, or a refusal: 2, 4, 8, 9 or 12, looked for in that order. */
static inline struct fit_reply fit_start_simplex(
    struct fit_record *r, const double *x, size_t n, struct fit_simplex_options o, struct fit_allowances a,
    double point[16], double slopes[16]) {
    return fit_record_simplex(FIT_LEND(r), x, n, o, a, point, slopes);
}

/* Starts a fit by bfgs. The arguments are those of fit_start_simplex; the memory of the options is passed over. The reply is a
 * question, or a refusal: 2, 4, 5, 9 or 12, looked for in that order. Where o.gradients is false only values are asked for, at 2n
 * points for a gradient; where it is true an answer to a question of the kind 'G' is the gradient. */
static inline struct fit_reply fit_start_bfgs(
    struct fit_record *r, const double *x, size_t n, struct fit_gradient_options o, struct fit_allowances a,
    double point[16], double slopes[16]) {
    return fit_record_bfgs(FIT_LEND(r), x, n, o, a, point, slopes);
}

/* Starts a fit by lbfgs, whose memory is from 1 to 16. All else is as of fit_start_bfgs; the refusals are 2, 3, 4, 5, 9 or 12. */
static inline struct fit_reply fit_start_lbfgs(
    struct fit_record *r, const double *x, size_t n, struct fit_gradient_options o, struct fit_allowances a,
    double point[16], double slopes[16]) {
    return fit_record_lbfgs(FIT_LEND(r), x, n, o, a, point, slopes);
}

/* Starts a bare line search for the strong Wolfe conditions.
 *
 * r, point, slopes   as of fit_start_simplex; at the end `point` gets the point that was found, `slopes` the gradient there
 * x, n               the point that it starts from
 * d, dcount          the direction
 * f0                 the value at x
 * g, gcount          the gradient at x
 * step               the first step
 * o                  the options
 * gradients          whether 'G' may be asked for; else gradients are by differences
 *
 * The reply is a question, or a refusal: 2, 5, 6, 7, or 9 to 14, looked for in that order. Another count than n of d or of g is
 * refused with 10 or 11. */
static inline struct fit_reply fit_start_search(
    struct fit_record *r, const double *x, size_t n, const double *d, size_t dcount, double f0, const double *g,
    size_t gcount, double step, struct fit_wolfe_options o, bool gradients, double point[16], double slopes[16]) {
    return fit_record_search(FIT_LEND(r), x, n, d, dcount, f0, g, gcount, step, o, gradients, point, slopes);
}

/* Starts central differences at a point x of n coordinates, which ask for 2n values. The arguments are those of fit_start_simplex;
 * at the end `slopes` gets the gradient. The reply is a question; where n is 0, the empty gradient at once; or the refusal 2. A
 * value that is not finite is taken as it is. */
static inline struct fit_reply fit_start_differences(
    struct fit_record *r, const double *x, size_t n, double point[16], double slopes[16]) {
    return fit_record_differences(FIT_LEND(r), x, n, point, slopes);
}

/* ---- answers */

/* Answers the open question of a record.
 *
 * r              the record. An answer that is accepted changes it; any other leaves it bit for bit
 * number, kind   the question's
 * words, count   a value: one number; a gradient: n numbers. In fits a value that is not finite counts as +infinity
 * point          gets the point of the next question or of the result; a refusal leaves it
 * slopes         gets the gradient where a bare search or differences end; else it is left
 *
 * The reply is the next question, the job's result, or a refusal:
 *  - 1 where the record is out of range, before all else;
 *  - 15 after the end, 16 to another number, 17 to another kind or count. The question stands;
 *  - 6, 7, 12, 18, 19 or 20 where the answer was accepted, and the fit has ended so.
 * An answer with the number last accepted is a repeat, whatever its kind and words are: it gets the reply that stands. So an answer
 * may be given again where it is not known whether it came. */
static inline struct fit_reply fit_answer(
    struct fit_record *r, uint64_t number, uint8_t kind, const double *words, size_t count, double point[16],
    double slopes[16]) {
    return fit_record_answer(FIT_LEND(r), number, kind, words, count, point, slopes);
}

#undef FIT_ARRAYS
#undef FIT_LEND

/* ==== parts of the engine, of crates/c_api/out/libc_api.a: each takes less than 4,096 bytes of stack */

/* ---- options */

/* A refusal's number and its detail, 0 and 0 for none. */
struct fit_refusal {
    uint64_t number;
    uint64_t detail;
};

/* Which refusal a start would meet, before its points are looked at. A fit's start then refuses a point for which fit_all_finite
 * is false, with 12 and the detail 1.
 *
 * A simplex fit of `count` coordinates: 2, 4, 8 or 9. */
struct fit_refusal fit_simplex_refusal(size_t count, struct fit_simplex_options o, struct fit_allowances a);

/* bfgs or, where `limited`, lbfgs: 2, 3 (lbfgs), 4, 5 or 9. A start takes max_evals of 0 and any step_max: the first line
 * search refuses them, with 6 and 7. */
struct fit_refusal fit_gradient_refusal(size_t count, struct fit_gradient_options o, struct fit_allowances a, bool limited);

/* A bare search from a point of n coordinates, with so many of the direction and of the gradient: 2, 5, 6, 7, 9, 10 or 11. */
struct fit_refusal fit_search_refusal(size_t n, size_t dcount, size_t gcount, struct fit_wolfe_options o);

/* ---- numbers */

/* The square root, correctly rounded; of -0.0 it is -0.0, of any other negative number NaN. */
double fit_sqrt(double x);

/* The larger and the smaller. A NaN is passed over; of equal operands, as -0.0 and +0.0 are, the first is returned. */
double fit_max(double a, double b);
double fit_min(double a, double b);

/* Whether a comes before b in IEEE 754's total order, by which the engine orders values: -0.0 before +0.0, a NaN last. */
bool fit_precedes(double a, double b);

bool fit_is_finite(double x);

/* How a value told passes into a fit: one that is not finite is read as +infinity. */
double fit_read(double v);

/* ---- central differences, in one coordinate x of a point */

/* The coordinate of the first question and of the second: x + h and x - h, where h is c max(|x|, 1) and c the double
 * nearest the cube root of 2^-52. */
double fit_forward(double x);
double fit_backward(double x);

/* The gradient's coordinate, where fp was told at x + h and fm at x - h: (fp - fm) / ((x + h) - (x - h)). */
double fit_slope(double x, double fp, double fm);

/* ---- lists of at most sixteen */

/* The products' sum, left to right from -0.0. NaN where a has more than sixteen, or b has another count than a. */
double fit_dot(const double *a, size_t a_count, const double *b, size_t b_count);

/* The largest magnitude; a NaN in the list is passed over, and a list of none has 0. NaN where the list has more than
 * sixteen. */
double fit_inf_norm(const double *a, size_t count);

/* Whether all are finite. False where the list has more than sixteen. */
bool fit_all_finite(const double *a, size_t count);

#ifdef __cplusplus
}
#endif

#endif
