#define _POSIX_C_SOURCE 200809L
#include "dialogue.h"

#include <inttypes.h>
#include <math.h>
#include <stdlib.h>
#include <string.h>

#define INPUT "target/test_c.input"

void open_dialogue(struct dialogue *d, size_t n) {
    memset(d, 0xA5, sizeof *d);
    d->n = n;
    d->given = fopen(INPUT, "w");
    d->due = tmpfile();
    if (d->given == NULL || d->due == NULL) {
        perror("the files of a dialogue");
        exit(2);
    }
}

static void print_words(FILE *file, const double *words, size_t count) {
    for (size_t i = 0; i < count; i++) {
        fprintf(file, " %016" PRIX64, to_bits(words[i]));
    }
}

void give_words(struct dialogue *d, const double *words, size_t count) {
    for (size_t i = 0; i < count; i++) {
        fprintf(d->given, "%s%016" PRIX64, i == 0 ? "" : " ", to_bits(words[i]));
    }
    fprintf(d->given, "\n");
}

void print_reply(struct dialogue *d, struct fit_reply s) {
    switch (s.what) {
    case FIT_QUESTION:
        fprintf(d->due, "ask %" PRIu64 " %c", s.number, s.kind);
        print_words(d->due, d->point, d->n);
        break;
    case FIT_RESULT:
        fprintf(d->due, "end %s %s %" PRIu64 " %" PRIu64 " %" PRIu64, FIT_REASONS[s.reason], s.converged ? "yes" : "no",
                s.iterations, s.fevals, s.gevals);
        print_words(d->due, &s.f, 1);
        print_words(d->due, d->point, d->n);
        break;
    case FIT_SEARCHED:
        fprintf(d->due, "searched %s", s.success ? "yes" : "no");
        print_words(d->due, &s.step, 1);
        print_words(d->due, &s.f, 1);
        fprintf(d->due, " %" PRIu64, s.trials);
        print_words(d->due, d->point, d->n);
        print_words(d->due, d->slopes, d->n);
        break;
    case FIT_DIFFERENCED:
        fprintf(d->due, "differenced");
        print_words(d->due, d->slopes, d->n);
        break;
    default:
        fprintf(d->due, "no %" PRIu64 " %" PRIu64, s.refusal, s.detail);
    }
    fprintf(d->due, "\n");
}

struct fit_reply give_answer(struct dialogue *d, uint64_t number, uint8_t kind, const double *words, size_t count) {
    fprintf(d->given, "%" PRIu64 " %c", number, kind);
    print_words(d->given, words, count);
    fprintf(d->given, "\n");
    struct fit_reply s = fit_answer(&d->r, number, kind, words, count, d->point, d->slopes);
    print_reply(d, s);
    return s;
}

void give_idle(struct dialogue *d, uint64_t number, uint8_t kind, const double *words, size_t count) {
    struct fit_record before = d->r;
    give_answer(d, number, kind, words, count);
    same_bool("a refused or repeated answer leaves the record", memcmp(&before, &d->r, sizeof before) == 0, true);
}

double rosenbrock(const double *x, size_t n, double *g) {
    double f = 0.0;
    for (size_t i = 0; i < n; i++) {
        g[i] = 0.0;
    }
    for (size_t i = 0; i + 1 < n; i++) {
        double a = x[i + 1] - x[i] * x[i], b = 1.0 - x[i];
        f += 100.0 * a * a + b * b;
        g[i] -= 400.0 * x[i] * a + 2.0 * b;
        g[i + 1] += 200.0 * a;
    }
    return f;
}

// Wrong answers before the right one: another number, another kind, another count.
static void give_wrong(struct dialogue *d, struct fit_reply s, const double *words, size_t count, uint64_t turn) {
    double more[17] = {0.0};
    if (turn % 7 == 1) {
        give_idle(d, s.number + 1, s.kind, words, count);
    } else if (turn % 7 == 3) {
        give_idle(d, s.number, s.kind == 'V' ? 'G' : 'V', words, s.kind == 'V' ? 1 : count);
    } else if (turn % 7 == 5) {
        give_idle(d, s.number, s.kind, more, count + 1);
        give_idle(d, s.number, s.kind, more, 0);
    }
}

struct fit_reply run_dialogue(struct dialogue *d, struct fit_reply s) {
    double g[16], other = NAN;
    print_reply(d, s);
    uint64_t last = 0;
    for (uint64_t turn = 0; s.what == FIT_QUESTION; turn++) {
        double f = rosenbrock(d->point, d->n, g);
        const double *words = s.kind == 'V' ? &f : g;
        size_t count = s.kind == 'V' ? 1 : d->n;
        give_wrong(d, s, words, count, turn);
        // a record is copied by assignment
        struct fit_record copy = d->r;
        memset(&d->r, 0x5A, sizeof d->r);
        d->r = copy;
        last = s.number;
        s = give_answer(d, last, s.kind, words, count);
        if (turn % 7 == 6) {
            give_idle(d, last, 'V', &other, 1);
        }
    }
    if (last > 0) {
        give_idle(d, last, 'G', &other, 1);
        give_idle(d, last + 1, 'V', &other, 1);
    }
    return s;
}

void close_dialogue(struct dialogue *d, const char *program, const char *what) {
    char command[1000], due[4096], came[4096];
    fclose(d->given);
    rewind(d->due);
    snprintf(command, sizeof command, "%s < %s", program, INPUT);
    FILE *printed = popen(command, "r");
    bool more = printed != NULL;
    while (more) {
        char *a = fgets(due, sizeof due, d->due), *b = fgets(came, sizeof came, printed);
        more = a != NULL && b != NULL;
        same_bool(what, (a == NULL) == (b == NULL) && (!more || strcmp(due, came) == 0), true);
    }
    same_bool(program, printed != NULL && pclose(printed) == 0, true);
    fclose(d->due);
}
