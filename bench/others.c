// The same chains from the same start through GSL, NLopt and libLBFGS, those that HAVE_GSL, HAVE_NLOPT and HAVE_LBFGS
// name: nanoseconds of own work an evaluation. They are other algorithms, with other stopping rules. bench/run.sh builds it.
#include <math.h>
#include <stdio.h>
#include <stdlib.h>
#include <time.h>
#ifdef HAVE_GSL
#include <gsl/gsl_errno.h>
#include <gsl/gsl_multimin.h>
#endif
#ifdef HAVE_NLOPT
#include <nlopt.h>
#endif
#ifdef HAVE_LBFGS
#include <lbfgs.h>
#endif

enum { MOST = 16, MEMORY = 10, ROUNDS = 50 };

// Calls of the objective in a fit: of them, those that gave a value and those that gave a gradient.
static size_t calls, values, slopes;

static double value(const double *x, size_t n) {
    double f = 0.0;
    for (size_t i = 1; i < n; i++) {
        double a = x[i - 1], b = x[i] - a * a, c = 1.0 - a;
        f += 100.0 * b * b + c * c;
    }
    return f;
}

static void gradient(const double *x, double *g, size_t n) {
    for (size_t i = 0; i < n; i++) g[i] = 0.0;
    for (size_t i = 1; i < n; i++) {
        double a = x[i - 1], b = x[i] - a * a;
        g[i - 1] -= 400.0 * a * b + 2.0 * (1.0 - a);
        g[i] += 200.0 * b;
    }
}

// A call of the objective: the value, and the gradient where g is given.
static double asked(const double *x, double *g, size_t n) {
    calls++;
    values++;
    if (g) {
        slopes++;
        gradient(x, g, n);
    }
    return value(x, n);
}

static void start(double *x, size_t n) {
    for (size_t i = 0; i < n; i++) x[i] = i % 2 ? 1.0 : -1.2;
}

#ifdef HAVE_GSL
static double gsl_f(const gsl_vector *x, void *p) {
    (void)p;
    return asked(x->data, NULL, x->size);
}

static void gsl_df(const gsl_vector *x, void *p, gsl_vector *g) {
    (void)p;
    calls++;
    slopes++;
    gradient(x->data, g->data, x->size);
}

static void gsl_fdf(const gsl_vector *x, void *p, double *f, gsl_vector *g) {
    (void)p;
    *f = asked(x->data, g->data, x->size);
}

static double gsl_simplex(size_t n) {
    double point[MOST];
    start(point, n);
    gsl_vector_view x = gsl_vector_view_array(point, n);
    gsl_vector *step = gsl_vector_alloc(n);
    for (size_t i = 0; i < n; i++) gsl_vector_set(step, i, 0.05 * fabs(point[i]));
    gsl_multimin_function f = {gsl_f, n, NULL};
    gsl_multimin_fminimizer *s = gsl_multimin_fminimizer_alloc(gsl_multimin_fminimizer_nmsimplex2, n);
    gsl_multimin_fminimizer_set(s, &f, &x.vector, step);
    for (size_t i = 0; i < 200 * n && !gsl_multimin_fminimizer_iterate(s); i++)
        if (gsl_multimin_test_size(gsl_multimin_fminimizer_size(s), 1e-8) == GSL_SUCCESS) break;
    double end = s->fval;
    gsl_multimin_fminimizer_free(s);
    gsl_vector_free(step);
    return end;
}

static double gsl_bfgs(size_t n) {
    double point[MOST];
    start(point, n);
    gsl_vector_view x = gsl_vector_view_array(point, n);
    gsl_multimin_function_fdf f = {gsl_f, gsl_df, gsl_fdf, n, NULL};
    gsl_multimin_fdfminimizer *s = gsl_multimin_fdfminimizer_alloc(gsl_multimin_fdfminimizer_vector_bfgs2, n);
    gsl_multimin_fdfminimizer_set(s, &f, &x.vector, 0.01, 0.1);
    for (size_t i = 0; i < 1000 && !gsl_multimin_fdfminimizer_iterate(s); i++)
        if (gsl_multimin_test_gradient(s->gradient, 1e-8) == GSL_SUCCESS) break;
    double end = s->f;
    gsl_multimin_fdfminimizer_free(s);
    return end;
}
#endif

#ifdef HAVE_NLOPT
static double nlopt_asked(unsigned n, const double *x, double *g, void *p) {
    (void)p;
    return asked(x, g, n);
}

static double nlopt_run(nlopt_algorithm algorithm, size_t n, double tolerance, int most) {
    double x[MOST], end = NAN;
    start(x, n);
    nlopt_opt o = nlopt_create(algorithm, n);
    nlopt_set_min_objective(o, nlopt_asked, NULL);
    nlopt_set_xtol_abs1(o, tolerance);
    nlopt_set_ftol_abs(o, tolerance);
    nlopt_set_maxeval(o, most);
    nlopt_set_vector_storage(o, MEMORY);
    nlopt_optimize(o, x, &end);
    nlopt_destroy(o);
    return end;
}

static double nlopt_simplex(size_t n) {
    return nlopt_run(NLOPT_LN_NELDERMEAD, n, 1e-8, 200 * (int)n);
}

static double nlopt_limited(size_t n) {
    return nlopt_run(NLOPT_LD_LBFGS, n, 1e-16, 100000);
}
#endif

#ifdef HAVE_LBFGS
static lbfgsfloatval_t lbfgs_asked(void *p, const lbfgsfloatval_t *x, lbfgsfloatval_t *g, int n, lbfgsfloatval_t step) {
    (void)p;
    (void)step;
    return asked(x, g, n);
}

static double lbfgs_limited(size_t n) {
    lbfgsfloatval_t *x = lbfgs_malloc(n), end = NAN;
    lbfgs_parameter_t o;
    start(x, n);
    lbfgs_parameter_init(&o);
    o.m = MEMORY;
    o.epsilon = 1e-8;
    lbfgs(n, x, &end, lbfgs_asked, NULL, NULL, &o);
    lbfgs_free(x);
    return end;
}
#endif

static double now(void) {
    struct timespec t;
    clock_gettime(CLOCK_MONOTONIC, &t);
    return t.tv_sec * 1e9 + t.tv_nsec;
}

// The evaluations of a fit alone, each at a point that depends on what the last gave.
static double evaluated(size_t n, size_t ask_values, size_t ask_slopes) {
    double x[MOST], g[MOST], f = 0.0;
    start(x, n);
    for (size_t i = 0; i < ask_values; i++) {
        x[0] += f * 1e-300;
        f = value(x, n);
    }
    for (size_t i = 0; i < ask_slopes; i++) {
        x[0] += f * 1e-300;
        gradient(x, g, n);
        f = g[0];
    }
    return f;
}

static void row(const char *name, double (*fit)(size_t), size_t n) {
    double whole = INFINITY, part = INFINITY, end = 0.0;
    volatile double kept;
    for (int i = 0; i < ROUNDS; i++) {
        calls = values = slopes = 0;
        double t = now();
        end = fit(n);
        whole = fmin(whole, now() - t);
        t = now();
        kept = evaluated(n, values, slopes);
        part = fmin(part, now() - t);
    }
    (void)kept;
    printf("%s %zu %zu %zu %zu %.0f %.0f %.1e\n", name, n, calls, values, slopes, part / calls, (whole - part) / calls, end);
}

int main(void) {
    puts("library n evaluations values gradients objective own f");
    for (size_t n = 2; n <= MOST; n *= 2) {
#ifdef HAVE_GSL
        gsl_set_error_handler_off();
        row("GSL_nmsimplex2", gsl_simplex, n);
        row("GSL_vector_bfgs2", gsl_bfgs, n);
#endif
#ifdef HAVE_NLOPT
        row("NLopt_LN_NELDERMEAD", nlopt_simplex, n);
        row("NLopt_LD_LBFGS", nlopt_limited, n);
#endif
#ifdef HAVE_LBFGS
        row("libLBFGS", lbfgs_limited, n);
#endif
    }
    return 0;
}
