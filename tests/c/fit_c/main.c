// A caller of the header and the archive that the parts of the engine had first: fit_c.h and libfit_c.a. It links nothing else.
#include <math.h>
#include <stdio.h>

#include "fit_c.h"

int main(void) {
    const double a[2] = {3.0, -4.0}, b[2] = {0.5, 2.0};
    const struct fit_simplex_options o = {.xtol = 1e-3, .ftol = 1e-3, .step = 0.5, .restarts = 101, .adaptive = true};
    const struct fit_wolfe_options w = {.c1 = 1e-4, .c2 = 0.9, .stepmax = 10.0, .evals = 20};
    const struct fit_allowances absent = {{.given = false, .count = 7}, {.given = false, .count = 7}};
    const struct fit_refusal past = fit_simplex_refusal(2, o, absent);
    const struct fit_refusal counts = fit_search_refusal(2, 1, 2, w);
    int wrong = 0;
    wrong += fit_sqrt(2.0) != sqrt(2.0);
    wrong += fit_dot(a, 2, b, 2) != -6.5;
    wrong += fit_inf_norm(a, 2) != 4.0;
    wrong += fit_forward(8.0) + fit_backward(8.0) != 16.0;
    wrong += past.number != 2 || past.detail != 0;
    wrong += counts.number != 10 || counts.detail != 0;
    printf("fit_c.h and libfit_c.a: %d wrong\n", wrong);
    return wrong != 0;
}
