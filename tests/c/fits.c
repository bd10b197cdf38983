// Whole fits through the header, line by line beside the program fit, and bare jobs beside the program test_bare_jobs.
#include <inttypes.h>
#include <string.h>

#include "dialogue.h"

static const struct fit_allowances ABSENT = {{false, UINT64_MAX}, {false, UINT64_MAX}};

static void first_point(double *x, size_t n) {
    for (size_t i = 0; i < n; i++) {
        x[i] = i % 2 == 0 ? -1.2 : 1.0;
    }
}

// 01's sample.
static void check_sample(const char *program) {
    struct dialogue d;
    struct fit_simplex_options o = {.xtol = 1.0, .ftol = 1.0, .step = 0.5, .restarts = 0, .adaptive = true};
    double x = 1.0, two = 2.0, one = 1.0;
    open_dialogue(&d, 1);
    fprintf(d.given, "simplex 1\n3FF0000000000000 3FF0000000000000 3FE0000000000000 - - 0 1\n3FF0000000000000\n");
    print_reply(&d, fit_start_simplex(&d.r, &x, 1, o, ABSENT, d.point, d.slopes));
    give_answer(&d, 1, 'V', &two, 1);
    struct fit_reply s = give_answer(&d, 2, 'V', &one, 1);
    same_bool("the sample ends", s.what == FIT_RESULT && s.converged && s.reason == 2, true);
    same_double("the sample's f", s.f, 1.0);
    same_double("the sample's x", d.point[0], 1.5);
    close_dialogue(&d, program, "a line of the sample");
}

// The Rust's defaults, with a restart.
static void check_simplex_fit(const char *program, size_t n) {
    struct dialogue d;
    double x[16] = {0.0};
    struct fit_simplex_options o = fit_default_simplex();
    o.restarts = 1;
    first_point(x, n);
    open_dialogue(&d, n);
    fprintf(d.given, "simplex %zu\n3E45798EE2308C3A 3E45798EE2308C3A 3FA999999999999A - - 1 1\n", n);
    give_words(&d, x, n);
    struct fit_reply s = run_dialogue(&d, fit_start_simplex(&d.r, x, n, o, fit_default_allowances(), d.point, d.slopes));
    same_bool("a simplex fit ends", s.what == FIT_RESULT, true);
    close_dialogue(&d, program, "a line of a simplex fit");
}

static void check_gradient_fit(const char *program, bool limited, size_t n, bool gradients) {
    struct dialogue d;
    double x[16] = {0.0};
    struct fit_gradient_options o = fit_default_gradient();
    struct fit_allowances a = {.iter = {true, 200}, .fevals = {false, 0}};
    o.gradients = gradients;
    first_point(x, n);
    open_dialogue(&d, n);
    fprintf(d.given, "%s %zu\n3E45798EE2308C3A 0000000000000000 0000000000000000", limited ? "lbfgs" : "bfgs", n);
    fprintf(d.given, " 3F1A36E2EB1C432D 3FECCCCCCCCCCCCD 4202A05F20000000 200 - 30 10 %d\n", gradients);
    give_words(&d, x, n);
    struct fit_reply s = limited ? fit_start_lbfgs(&d.r, x, n, o, a, d.point, d.slopes)
                                 : fit_start_bfgs(&d.r, x, n, o, a, d.point, d.slopes);
    s = run_dialogue(&d, s);
    same_bool("a gradient fit ends", s.what == FIT_RESULT, true);
    close_dialogue(&d, program, "a line of a gradient fit");
}

// A start that is refused says so, leaves `point` and `slopes`, and a record of no job that no answer suits, whatever stood there.
static void check_refused_start(const char *program) {
    static struct dialogue d, before;
    static struct fit_record other;
    double x[17] = {0.0}, f = 1.0;
    struct fit_simplex_options o = fit_default_simplex();
    open_dialogue(&d, 16);
    fprintf(d.given, "simplex 17\n3E45798EE2308C3A 3E45798EE2308C3A 3FA999999999999A - - 0 1\n");
    give_words(&d, x, 17);
    memcpy(&before, &d, sizeof d);
    struct fit_reply s = fit_start_simplex(&d.r, x, 17, o, ABSENT, d.point, d.slopes);
    print_reply(&d, s);
    same_bool("seventeen are refused", s.what == FIT_REFUSED && s.refusal == 2 && s.detail == 0 && s.number == 0, true);
    same_bool("a refused start leaves the point", memcmp(d.point, before.point, sizeof d.point) == 0, true);
    same_bool("and the slopes", memcmp(d.slopes, before.slopes, sizeof d.slopes) == 0, true);
    s = fit_start_bfgs(&other, x, 0, fit_default_gradient(), ABSENT, d.point, d.slopes);
    same_bool("none is refused", s.what == FIT_REFUSED && s.refusal == 9, true);
    same_bool("a refused start leaves one record", memcmp(&other, &d.r, sizeof other) == 0 && other.marks[1] == 0, true);
    s = fit_answer(&d.r, 1, 'V', &f, 1, d.point, d.slopes);
    same_bool("no answer suits it", s.what == FIT_REFUSED && s.refusal == 1, true);
    same_bool("and it stays", memcmp(&other, &d.r, sizeof other) == 0, true);
    close_dialogue(&d, program, "a line of a refused start");
}

static void check_bare_search(const char *program, size_t n, bool gradients) {
    struct dialogue d;
    double x[16] = {0.0}, g[16] = {0.0}, along[16] = {0.0}, step = 0.001;
    first_point(x, n);
    double f0 = rosenbrock(x, n, g);
    for (size_t i = 0; i < n; i++) {
        along[i] = -g[i];
    }
    open_dialogue(&d, n);
    fprintf(d.given, "search %d 30\n3F1A36E2EB1C432D 3FECCCCCCCCCCCCD 4202A05F20000000", gradients);
    fprintf(d.given, " %016" PRIX64 " %016" PRIX64 "\n", to_bits(step), to_bits(f0));
    give_words(&d, x, n);
    give_words(&d, along, n);
    give_words(&d, g, n);
    struct fit_wolfe_options o = fit_default_wolfe();
    struct fit_reply s = fit_start_search(&d.r, x, n, along, n, f0, g, n, step, o, gradients, d.point, d.slopes);
    s = run_dialogue(&d, s);
    same_bool("a search ends", s.what == FIT_SEARCHED && s.success, true);
    close_dialogue(&d, program, "a line of a search");
}

static void check_bare_differences(const char *program, size_t n) {
    struct dialogue d;
    double x[16] = {0.0};
    first_point(x, n);
    open_dialogue(&d, n);
    fprintf(d.given, "differences\n");
    give_words(&d, x, n);
    struct fit_reply s = run_dialogue(&d, fit_start_differences(&d.r, x, n, d.point, d.slopes));
    same_bool("differences end", s.what == FIT_DIFFERENCED, true);
    for (size_t i = 0; i < n; i++) {
        same_double("the point of differences", d.point[i], x[i]);
    }
    close_dialogue(&d, program, "a line of differences");
}

void check_fits(const char *fit, const char *bare) {
    same_bool("the archive is of this header", fit_version() == FIT_VERSION, true);
    check_sample(fit);
    check_refused_start(fit);
    for (size_t n = 2; n <= 16; n *= 2) {
        check_simplex_fit(fit, n);
        for (int k = 0; k < 4; k++) {
            check_gradient_fit(fit, k / 2 == 1, n, k % 2 == 1);
        }
        check_bare_search(bare, n, false);
        check_bare_search(bare, n, true);
        check_bare_differences(bare, n);
    }
    check_bare_differences(bare, 0);
    report("whole fits and bare jobs");
}
