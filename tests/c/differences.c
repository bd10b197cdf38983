// Central differences: against the formula in C, and against the Rust's questions and gradients, which the dialogue of
// crates/test_differences holds (tests/differences_dialogue.rs says what its rows are).
#include <math.h>
#include <stdio.h>
#include <stdlib.h>

#include "check.h"

// The double nearest the cube root of 2^-52.
#define FACTOR 0x1.965fea53d6e3dp-18

static double due_step(double x) {
    return FACTOR * fmax(fabs(x), 1.0);
}

void check_differences(void) {
    for (int i = 0; i < 1000000; i++) {
        double x = next_double(), fp = next_double(), fm = next_double();
        double forward = x + due_step(x), backward = x - due_step(x);
        same_double("fit_forward", fit_forward(x), forward);
        same_double("fit_backward", fit_backward(x), backward);
        same_double("fit_slope", fit_slope(x, fp, fm), (fp - fm) / (forward - backward));
        double y = from_bits(next_word() >> 2 | UINT64_C(0x3f00000000000000));
        same_double("fit_forward", fit_forward(y), y + due_step(y));
        same_double("fit_slope", fit_slope(y, 1.0, -y), (1.0 + y) / ((y + due_step(y)) - (y - due_step(y))));
    }
    report("differences");
}

// How many words a row is read for, and how many it may list, given and replied.
#define WORDS 80
#define MOST 32

// A dialogue as far as it was told, where it is one that nobody forged.
struct run {
    bool clean;
    size_t n;
    size_t told;
    double x[16];
    double v[32];
};

static void check_question(const struct run *r, const uint64_t *point) {
    size_t i = r->told / 2;
    for (size_t j = 0; j < r->n; j++) {
        double probe = r->told % 2 == 0 ? fit_forward(r->x[j]) : fit_backward(r->x[j]);
        same_double("a question of the Rust", j == i ? probe : r->x[j], from_bits(point[j]));
    }
}

// The reply: 0, a question's point, or 1, the gradient.
static void check_reply(const struct run *r, const uint64_t *reply) {
    if (reply[0] == 0) {
        check_question(r, reply + 4);
    }
    for (size_t j = 0; reply[0] == 1 && j < r->n; j++) {
        same_double("a gradient of the Rust", fit_slope(r->x[j], r->v[2 * j], r->v[2 * j + 1]), from_bits(reply[4 + j]));
    }
}

// A row: a start, an answer, or a field that is set.
static void follow(struct run *r, const uint64_t *row) {
    const uint64_t *words = row + 4, *reply = words + row[3];
    if (row[0] == 0) {
        *r = (struct run){.clean = row[3] <= 16, .n = row[3]};
        for (size_t j = 0; r->clean && j < r->n; j++) {
            r->x[j] = from_bits(words[j]);
        }
    } else if (row[0] == 2) {
        r->clean = false;
    } else if (reply[4 + reply[3]] == 1 || !r->clean || r->told == 32) {
        return;
    } else {
        r->v[r->told++] = from_bits(words[0]);
    }
    if (r->clean) {
        check_reply(r, reply);
    }
}

// The words of a line; those past its last are 0. False where it lists more than a row can.
static bool read_row(const char *line, uint64_t *row) {
    const char *at = line;
    char *end;
    for (size_t k = 0; k < WORDS; k++, at = end) {
        row[k] = strtoull(at, &end, 16);
    }
    return row[3] <= MOST && row[4 + row[3] + 3] <= MOST;
}

void check_dialogue(const char *path) {
    FILE *dialogue = fopen(path, "r");
    char line[4096];
    struct run r = {.clean = false};
    uint64_t gradients = 0;
    while (dialogue != NULL && fgets(line, sizeof line, dialogue) != NULL) {
        uint64_t row[WORDS];
        if (!read_row(line, row)) {
            same_bool("a row of the dialogue has its form", false, true);
            break;
        }
        follow(&r, row);
        gradients += r.clean && row[4 + row[3]] == 1;
    }
    same_bool("the dialogue has gradients", gradients > 0, true);
    if (dialogue != NULL) {
        fclose(dialogue);
    }
    report("Rust's differences");
}
