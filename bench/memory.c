// What a fit copies and how deep it goes into the stack. Linked with --wrap=memcpy and --wrap=memmove, so that the bytes
// copied by calls are counted. The fit is run in a thread whose stack was filled with one byte, and what is left of that is
// looked for; an empty thread's depth is taken off. Last, what the contract alone takes: a record copied in and out.
// With JOB (1 to 3), yes or no for gradients, and N: the copies of that fit by their sizes. bench/run.sh builds it.
#include <pthread.h>
#include <stdbool.h>
#include <stdint.h>
#include <stdio.h>
#include <stdlib.h>
#include <string.h>
#include <time.h>

enum { SIZE = 1 << 20, FILL = 0xA5, RECORD = 11016, TURNS = 1000, ROUNDS = 200, LARGEST = 1 << 14 };

uint64_t rosenbrock_fit(uint64_t job, size_t n, bool gradients, double *list, size_t count);

struct row {
    uint64_t job;
    size_t n;
    bool gradients;
};

static size_t copied, questions, calls[LARGEST];

void *__real_memcpy(void *to, const void *from, size_t count);
void *__real_memmove(void *to, const void *from, size_t count);

static void note(size_t count) {
    copied += count;
    if (count < LARGEST) calls[count]++;
}

void *__wrap_memcpy(void *to, const void *from, size_t count) {
    note(count);
    return __real_memcpy(to, from, count);
}

void *__wrap_memmove(void *to, const void *from, size_t count) {
    note(count);
    return __real_memmove(to, from, count);
}

static void *run(void *given) {
    struct row *row = given;
    double none[1];
    copied = 0;
    if (row) questions = rosenbrock_fit(row->job, row->n, row->gradients, none, 0);
    return NULL;
}

static size_t deep(struct row *row) {
    unsigned char *stack = aligned_alloc(4096, SIZE);
    pthread_attr_t how;
    pthread_t thread;
    size_t left = 0;
    memset(stack, FILL, SIZE);
    pthread_attr_init(&how);
    pthread_attr_setstack(&how, stack, SIZE);
    if (pthread_create(&thread, &how, run, row) || pthread_join(thread, NULL)) abort();
    while (left < SIZE && stack[left] == FILL) left++;
    free(stack);
    return SIZE - left;
}

static void print(const char *name, struct row row, size_t empty) {
    size_t bytes = deep(&row) - empty;
    printf("%s %s %zu %zu %zu %zu\n", name, row.gradients ? "yes" : "no", row.n, questions, copied / questions, bytes);
}

static int by_size(struct row row) {
    double none[1];
    questions = rosenbrock_fit(row.job, row.n, row.gradients, none, 0);
    puts("size calls bytes, a question");
    for (size_t size = LARGEST; size-- > 1;) {
        double often = (double)calls[size] / questions;
        if (often * size >= 100) printf("%zu %.2f %.0f\n", size, often, often * size);
    }
    return 0;
}

// ns to copy a record's bytes to another place and on to a third: the least of the rounds.
static double two_copies(void) {
    static unsigned char at[3][RECORD];
    double least = 1e9;
    for (int round = 0; round < ROUNDS; round++) {
        struct timespec from, to;
        clock_gettime(CLOCK_MONOTONIC, &from);
        for (int turn = 0; turn < TURNS; turn++) {
            __real_memcpy(at[1], at[0], RECORD);
            __real_memcpy(at[2], at[1], RECORD);
            __asm__ volatile("" : : "r"(at) : "memory");
        }
        clock_gettime(CLOCK_MONOTONIC, &to);
        double took = ((to.tv_sec - from.tv_sec) * 1e9 + (to.tv_nsec - from.tv_nsec)) / TURNS;
        if (took < least) least = took;
    }
    return least;
}

int main(int count, char **words) {
    if (count == 4) return by_size((struct row){atoi(words[1]), atoi(words[3]), !strcmp(words[2], "yes")});
    size_t empty = deep(NULL);
    puts("job gradients n questions copied stack");
    for (size_t n = 2; n <= 16; n *= 2) print("simplex", (struct row){1, n, false}, empty);
    for (int slopes = 1; slopes >= 0; slopes--)
        for (size_t n = 2; n <= 16; n *= 2) print("bfgs", (struct row){2, n, slopes}, empty);
    for (int slopes = 1; slopes >= 0; slopes--)
        for (size_t n = 2; n <= 16; n *= 2) print("lbfgs", (struct row){3, n, slopes}, empty);
    printf("two copies of a record of %d bytes: %.0f ns\n", RECORD, two_copies());
    return 0;
}
