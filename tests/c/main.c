// main TABLE DIALOGUE FIT BARE: all tests of the functions that include/fit.h declares. Its status is 1 where a comparison differs.
#include <inttypes.h>
#include <stdio.h>

#include "check.h"

int main(int argc, char **argv) {
    if (argc != 5) {
        fprintf(stderr, "usage: %s TABLE DIALOGUE FIT BARE, as tests/c/run.sh has them\n", argv[0]);
        return 2;
    }
    check_numbers();
    check_table(argv[1]);
    check_differences();
    check_dialogue(argv[2]);
    check_lists();
    check_simplex();
    check_gradient();
    check_search();
    check_fits(argv[3], argv[4]);
    check_forged();
    printf("%" PRIu64 " differ\n", differed());
    return differed() == 0 ? 0 : 1;
}
