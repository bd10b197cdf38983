// A job that is run through the header, and its lines as the programs fit and test_bare_jobs have them.
#ifndef DIALOGUE_H
#define DIALOGUE_H

#include <stdio.h>

#include "check.h"

// A job in hand: its record and what is lent beside it, the program's input so far, and the lines that it is to print.
struct dialogue {
    struct fit_record r;
    double point[16];
    double slopes[16];
    size_t n;
    FILE *given;
    FILE *due;
};

// Opens the files, and fills the record and what stands beside it with bytes that mean nothing.
void open_dialogue(struct dialogue *d, size_t n);

// A line of words, one behind each that is written before it.
void give_words(struct dialogue *d, const double *words, size_t count);

// Prints a reply as the programs do.
void print_reply(struct dialogue *d, struct fit_reply s);

// Gives an answer to the record and to the program.
struct fit_reply give_answer(struct dialogue *d, uint64_t number, uint8_t kind, const double *words, size_t count);

// The same of an answer that must leave the record bit for bit.
void give_idle(struct dialogue *d, uint64_t number, uint8_t kind, const double *words, size_t count);

// Rosenbrock's function and its gradient.
double rosenbrock(const double *x, size_t n, double *g);

// Answers Rosenbrock's function until the job ends, with wrong and repeated answers between.
struct fit_reply run_dialogue(struct dialogue *d, struct fit_reply s);

// Runs the program on what was given, and compares line by line what it prints with what is due.
void close_dialogue(struct dialogue *d, const char *program, const char *what);

#endif
