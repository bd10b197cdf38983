#!/bin/sh
# run.sh FOLDER [ROUNDS]: the benchmark in one go, at the repository's root. FOLDER has the six files of the Rust
# (tests/README.md). It proves and builds both sides, and times them by turns; of ROUNDS rounds (50) the least is taken.
set -eu
folder=$1
rounds=${2:-50}
cc=${CC:-cc}
rust="rustc -O --edition 2021 --extern tsecon_optim=target/libtsecon_optim.rlib"
archive=crates/bench_rosenbrock/out/libbench_rosenbrock.a
mkdir -p target
(cd crates/fit && rt run </dev/null) >target/bench.log 2>&1
tests/archive.py bench_rosenbrock >>target/bench.log
tests/optim_crate.sh "$folder"
$rust bench/main.rs -C link-arg=$archive -o target/bench
$rust bench/driver.rs -o target/bench_driver
$cc -std=c11 -D_POSIX_C_SOURCE=200809L -O2 -Wl,--wrap=memcpy,--wrap=memmove bench/memory.c $archive -lpthread \
    -o target/bench_memory

# Those of the other libraries that are here.
names=
libraries=
try() { # NAME HEADER LIBRARY..
    name=$1 header=$2
    shift 2
    printf '#include <%s>\nint main(void) { return 0; }\n' "$header" >target/try.c
    if $cc target/try.c "$@" -lm -o target/try 2>target/try.log; then
        names="$names -DHAVE_$name"
        libraries="$libraries $*"
    fi
}
try GSL gsl/gsl_multimin.h -lgsl -lgslcblas
try NLOPT nlopt.h -lnlopt
try LBFGS lbfgs.h -llbfgs
$cc -std=c11 -D_POSIX_C_SOURCE=200809L -O2 $names bench/others.c $libraries -lm -o target/bench_others

echo "# $(rt version); $(rustc --version)"
echo "# $(uname -sr), $(sed -n 's/^model name[^:]*: //p' /proc/cpuinfo | uniq), load $(cut -d ' ' -f 1-3 /proc/loadavg)"
echo "# in one process: ns of the objective and of own work, a question"
target/bench "$rounds"
# Both ends on one core: to wake another takes longer than all else, and as long as it likes.
pinned=$(command -v taskset >/dev/null && echo "taskset -c 0" || true)
echo "# over a pipe, on one core: ns a question, all that passes"
$pinned target/bench $((rounds / 10 + 1)) crates/fit/out/fit target/bench_driver
echo "# bytes copied a question, and bytes of stack"
target/bench_memory
echo "# other libraries: ns of the objective and of own work, an evaluation"
target/bench_others
echo "# load $(cut -d ' ' -f 1-3 /proc/loadavg)"
