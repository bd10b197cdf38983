// Records that were forged: each is refused with 1 and left bit for bit, with `point` and `slopes`. Any bits may stand in a record.
#include <string.h>

#include "check.h"

// Places of marks that are looked at, as crates/optim_lists/specs/Layout.antt has them.
enum { ACCEPTED, JOB, N, FEVALS, GEVALS, ITER, MOST, RESTARTS, EVALS, MEMORY, DIFF_AT };
enum { SIMPLEX_PHASE = 11, SIMPLEX_AT, ROUNDS, RUNS, DESCENT_PHASE, DESCENTS = 18, SEARCH_PHASE, TRIALS };
enum { SEARCH_DIFF_AT = 21, FIRST_DIFF_AT, MODEL_MEMORY, PAIRS, FLAGS };

static const uint64_t ABOVE = UINT64_C(40000000001);

struct job {
    struct fit_record r;
    double point[16];
    double slopes[16];
};

// A job of two coordinates, just started.
static struct job started(int mark) {
    static const double x[2] = {-1.2, 1.0}, d[2] = {1.0, 0.0}, g[2] = {-1.0, 0.0};
    struct job j;
    struct fit_allowances a = fit_default_allowances();
    memset(&j, 0xA5, sizeof j);
    switch (mark) {
    case 1:
        fit_start_simplex(&j.r, x, 2, fit_default_simplex(), a, j.point, j.slopes);
        break;
    case 2:
        fit_start_bfgs(&j.r, x, 2, fit_default_gradient(), a, j.point, j.slopes);
        break;
    case 3:
        fit_start_lbfgs(&j.r, x, 2, fit_default_gradient(), a, j.point, j.slopes);
        break;
    case 4:
        fit_start_search(&j.r, x, 2, d, 2, 1.0, g, 2, 1.0, fit_default_wolfe(), true, j.point, j.slopes);
        break;
    default:
        fit_start_differences(&j.r, x, 2, j.point, j.slopes);
    }
    return j;
}

static struct fit_reply answered(struct job *j) {
    double f = 1.0;
    return fit_answer(&j->r, 1, 'V', &f, 1, j->point, j->slopes);
}

static void refuses(int mark, size_t place, uint64_t value) {
    struct job j = started(mark);
    j.r.marks[place] = value;
    struct job before = j;
    struct fit_reply s = answered(&j);
    same_bool("a forged record is refused with 1", s.what == FIT_REFUSED && s.refusal == 1 && s.detail == 0, true);
    same_bool("and left, and all beside it", memcmp(&before, &j, sizeof j) == 0, true);
}

// What every job refuses, then what some do.
static void check_marks(void) {
    for (int mark = 1; mark <= 5; mark++) {
        struct job j = started(mark);
        same_bool("an honest record is not refused", answered(&j).what == FIT_QUESTION, true);
        same_bool("and its job is known", j.r.marks[JOB] == (uint64_t)mark, true);
        for (size_t flag = FLAGS; flag < 36; flag++) {
            refuses(mark, flag, 2);
            refuses(mark, flag, UINT64_MAX);
        }
        refuses(mark, JOB, 0);
        refuses(mark, JOB, 6);
        refuses(mark, N, 17);
        refuses(mark, ACCEPTED, ABOVE);
        refuses(mark, FEVALS, ABOVE);
        refuses(mark, GEVALS, ABOVE);
    }
    for (int mark = 1; mark <= 4; mark++) {
        refuses(mark, N, 0);
    }
    refuses(5, DIFF_AT, 3);
}

static void check_jobs(void) {
    refuses(1, SIMPLEX_PHASE, 0);
    refuses(1, SIMPLEX_PHASE, 12);
    refuses(1, SIMPLEX_AT, 3);
    refuses(1, ROUNDS, ABOVE);
    refuses(1, RUNS, ABOVE);
    refuses(1, RESTARTS, 101);
    refuses(1, ITER, 1000001);
    refuses(1, MOST, 1000001);
    for (int mark = 2; mark <= 3; mark++) {
        refuses(mark, DESCENT_PHASE, 0);
        refuses(mark, DESCENT_PHASE, 12);
        refuses(mark, DESCENT_PHASE, 13);
        refuses(mark, DESCENTS, ABOVE);
        refuses(mark, FIRST_DIFF_AT, 3);
        refuses(mark, ITER, 1000001);
        refuses(mark, MEMORY, 17);
        refuses(mark, MODEL_MEMORY, 17);
        refuses(mark, PAIRS, mark == 2 ? 1 : 11);
    }
    for (int mark = 2; mark <= 4; mark++) {
        refuses(mark, SEARCH_PHASE, 6);
        refuses(mark, SEARCH_DIFF_AT, 3);
        refuses(mark, TRIALS, 31);
        refuses(mark, EVALS, 1001);
    }
    refuses(4, DESCENT_PHASE, 5);
}

// Random bits in every array but the marks, and now and then in a mark: a call returns, and what it refuses it leaves.
static void check_random(void) {
    for (int i = 0; i < 200000; i++) {
        struct job j = started(1 + (int)next_below(5));
        double *words = j.r.numbers;
        size_t count = (sizeof j.r - sizeof j.r.marks) / sizeof(double);
        for (size_t k = next_below(8); k < count; k += 1 + next_below(64)) {
            words[k] = next_double();
        }
        j.r.marks[next_below(36)] = next_below(4) == 0 ? next_word() : next_below(20);
        struct job before = j;
        struct fit_reply s = answered(&j);
        bool kept = s.what != FIT_REFUSED || (s.refusal != 1 && s.refusal < 15) || s.refusal > 17;
        same_bool("a refused answer leaves all", kept || memcmp(&before, &j, sizeof j) == 0, true);
        same_bool("a reply is one of five", s.what >= 1 && s.what <= 5, true);
    }
}

void check_forged(void) {
    check_marks();
    check_jobs();
    check_random();
    report("forged records");
}
