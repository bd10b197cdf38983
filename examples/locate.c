// locate.c: the emitter of survey.txt, located from C by bfgs with gradients. The model is that of examples/README.md.
//
//     tests/archive.py c_fit
//     mkdir -p target
//     cc -Iinclude examples/locate.c crates/c_fit/out/libc_fit.a -lm -o target/locate
//     target/locate
#include <math.h>
#include <stdio.h>

#include "fit.h"

// The survey: EIRP in dBm, the antennas' height in m, and each mast with its readings in dBm.
#define EIRP 20.0
#define HEIGHT 10.0
struct mast {
    double east, north, readings[3];
};
static const struct mast MASTS[4] = {
    {0.0, 0.0, {-51.7, -51.7, -52.4}},
    {400.0, 20.0, {-48.2, -48.4, -47.8}},
    {370.0, 310.0, {-50.6, -50.8, -50.0}},
    {-20.0, 280.0, {-53.4, -53.2, -53.9}},
};

// A coordinate's unit: 100 m, 100 m, 10 dB.
static const double UNITS[3] = {100.0, 100.0, 10.0};

// The misfit in dB^2 at a point, and its gradient.
static double misfit(const double point[3], double gradient[3]) {
    double sum = 0.0;
    gradient[0] = gradient[1] = gradient[2] = 0.0;
    for (int k = 0; k < 4; k++) {
        double east = point[0] * UNITS[0] - MASTS[k].east, north = point[1] * UNITS[1] - MASTS[k].north;
        double square = east * east + north * north + HEIGHT * HEIGHT;
        double model = EIRP - 10.0 * log10(square / 0.6) - point[2] * UNITS[2];
        double slope = -20.0 / (log(10.0) * square);
        for (int j = 0; j < 3; j++) {
            double residual = model - MASTS[k].readings[j];
            sum += residual * residual;
            gradient[0] += 2.0 * residual * slope * east * UNITS[0];
            gradient[1] += 2.0 * residual * slope * north * UNITS[1];
            gradient[2] -= 2.0 * residual * UNITS[2];
        }
    }
    return sum;
}

int main(void) {
    struct fit_record r;
    double point[16], slopes[16], x0[3] = {0.6, 2.4, 1.5}, value, gradient[3];
    struct fit_gradient_options o = fit_default_gradient();
    o.gradtol = 1e-6;
    o.gradients = true;
    struct fit_reply s = fit_start_bfgs(&r, x0, 3, o, fit_default_allowances(), point, slopes);
    while (s.what == FIT_QUESTION) {
        value = misfit(point, gradient);
        s = s.kind == 'V' ? fit_answer(&r, s.number, 'V', &value, 1, point, slopes)
                          : fit_answer(&r, s.number, 'G', gradient, 3, point, slopes);
    }
    if (s.what == FIT_REFUSED) {
        printf("refused: %s\n", FIT_REFUSALS[s.refusal]);
        return 1;
    }
    printf("%s: %.2f m east, %.2f m north, antenna factor %.2f dB(1/m), misfit %.4f dB^2\n", FIT_REASONS[s.reason],
           point[0] * UNITS[0], point[1] * UNITS[1], point[2] * UNITS[2], s.f);
    return 0;
}
