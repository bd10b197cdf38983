#!/bin/sh
# instructions.sh: instructions a question by callgrind, which do not depend on the machine's load: in one process, the
# objective's taken off; then of the whole programs over a pipe. At the repository's root, after bench/run.sh.
set -eu
grind() { # OPTION.. PROGRAM WORD..: what the program prints; its instructions are in target/callgrind.out
    valgrind --tool=callgrind --callgrind-out-file=target/callgrind.out "$@" 2>target/callgrind.log
}
totals() {
    sed -n 's/^totals: //p' target/callgrind.out
}
collected() { # SIDE PART JOB GRADIENTS N: the questions, and the instructions in `collected`
    echo "$(grind --toggle-collect=collected target/bench "$@") $(totals)"
}
piped() { # PROGRAM: the questions that it puts to what it is given, and its instructions
    echo "$(grind "$1" <target/lines.txt | grep -c ask) $(totals)"
}
in_process() { # JOB GRADIENTS N
    echo "$(collected ours fit "$@") $(collected ours objective "$@") $(collected rust fit "$@") $(collected rust objective "$@")" |
        awk '{ print $1, ($2 - $4) / $1, ($6 - $8) / $1 }'
}
over_pipe() { # JOB GRADIENTS N
    target/bench lines "$@" >target/lines.txt
    echo "$(piped crates/fit/out/fit) $(piped target/bench_driver)" | awk '{ print $1, $2 / $1, $4 / $1 }'
}
for way in in_process over_pipe; do
    echo "# $way"
    echo "job gradients n questions ours rust rust/ours"
    for job in "simplex 1 no" "bfgs 2 yes" "bfgs 2 no" "lbfgs 3 yes" "lbfgs 3 no"; do
        set -- $job
        for n in 2 4 8 16; do
            $way "$2" "$3" $n | awk -v row="$1 $3 $n" '{ printf "%s %d %.0f %.0f %.2f\n", row, $1, $2, $3, $3 / $2 }'
        done
    done
done
