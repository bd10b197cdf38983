#!/bin/sh
# run.sh: compiles the header by itself, builds target/test_c out of the tests here and the archives of c_fit and c_api, and runs
# it; and a caller of fit_c.h and libfit_c.a, the names that the parts of the engine had first. At the repository's root, once the
# programs fit and test_bare_jobs are built, and after `tests/archive.py c_api c_fit`. CC names another compiler than cc, CXX another
# than c++; where there is none, the header is not compiled as C++.
set -eu
warnings="-Wall -Wextra -Wpedantic -Werror"
fit=crates/c_fit/out/libc_fit.a
api=crates/c_api/out/libc_api.a
mkdir -p target
echo '#include "fit.h"' | ${CC:-cc} -std=c11 $warnings -Iinclude -x c -c - -o target/test_c.o
if command -v "${CXX:-c++}" >/dev/null; then
    echo '#include "fit.h"' | ${CXX:-c++} -std=c++17 $warnings -Iinclude -x c++ -c - -o target/test_c.o
fi
${CC:-cc} -std=c11 -O2 $warnings -Iinclude tests/c/*.c $fit $api -lm -o target/test_c
${CC:-cc} -std=c11 -O2 $warnings -Iinclude tests/c/fit_c/main.c crates/c_api/out/libfit_c.a -lm -o target/fit_c
target/fit_c
${CC:-cc} -std=c11 -O2 $warnings -Iinclude examples/locate.c $fit -lm -o target/locate
grep -qxF "$(target/locate)" examples/README.md || { echo "examples/locate.c does not print the line of examples/README.md"; exit 1; }
target/test_c crates/test_float/stdin crates/test_differences/stdin crates/fit/out/fit \
    crates/test_bare_jobs/out/test_bare_jobs
