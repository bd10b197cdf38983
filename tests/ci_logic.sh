#!/usr/bin/env bash
# ci_logic.sh: whether .ci/run says what it is to say, whatever `rt` and the scripts do. It runs a copy of .ci/run, in a folder of
# its own, over stubs of `rt`, python3 and the scripts: nothing is proved. It fails (status 1) where a last line or a status is wrong.
here=$(cd "$(dirname "$0")/.." && pwd) || exit 1
room=$(mktemp -d) || exit 1
trap 'rm -rf "$room"' EXIT
mkdir -p "$room/repository/.ci" "$room/repository/tests/c" "$room/bin" "$room/bare"
cp "$here/.ci/run" "$room/repository/.ci/run"
cases=0 wrong=0

# A stub fails where WRONG names it, and says that it was run.
for name in ci_logic.sh c/run.sh; do
    printf '#!/bin/sh\necho "ran %s"\ncase " $WRONG " in *" %s "*) exit 3 ;; esac\n' "$name" "$name" >"$room/repository/tests/$name"
    chmod +x "$room/repository/tests/$name"
done
# One that is given a file, which is a log of rt's, prints its lines.
cat >"$room/bin/python3" <<'STUB'
#!/bin/sh
name=$1
shift
for word; do
    case $word in
    /*) while IFS= read -r line; do echo "the log has $line"; done <"$word"; name="$name LOG" ;;
    *) name="$name $word" ;;
    esac
done
echo "ran ${name#tests/}"
case $WRONG in *"[${name#tests/}]"*) exit 4 ;; esac
[ -z "$(cat)" ]
STUB
# The stub of rt: SAYS is what `rt ci` prints, STATUS its status; a status of 9 is a death by that signal.
cat >"$room/bin/rt" <<'STUB'
#!/bin/sh
[ "$*" = ci ] || { echo "rt $*: not the gate's command"; exit 2; }
cat >/dev/null
printf "$SAYS"
[ "$STATUS" != 9 ] || kill -9 $$
exit "$STATUS"
STUB
chmod +x "$room/bin/rt" "$room/bin/python3"
ln -s "$(command -v true)" "$room/bin/cc"

# The tools without python3, a C compiler and timeout.
for tool in bash sh cat chmod dirname mktemp rm tee; do ln -s "$(command -v $tool)" "$room/bare/$tool"; done
ln -s "$room/bin/rt" "$room/bare/rt"

# due CASE LAST STATUS LINE..: runs the gate, and compares its last line and its status, and whether each LINE is there (or, behind
# a !, is not).
due() {
    local came status last
    cases=$((cases + 1))
    came=$(export SAYS STATUS WRONG CI=true CC=${COMPILER:-cc} PATH=${BARE:-$room/bin:$PATH}; bash "$room/repository/.ci/run" </dev/null 2>&1)
    status=$?
    last=${came##*$'\n'}
    if [ "$last" != "$2" ] || [ "$status" != "$3" ] || ! held "$came" "${@:4}"; then
        wrong=$((wrong + 1))
        echo "$1: last line '$last' and status $status, due '$2' and $3, lines ${*:4}; all of it:"
        printf '%s\n' "$came"
    fi
}

held() { # TEXT LINE..
    local text=$1 line
    shift
    for line in "$@"; do
        case $line in
        !*) ! grep -qxF -- "${line#!}" <<<"$text" || return 1 ;;
        *) grep -qxF -- "$line" <<<"$text" || return 1 ;;
        esac
    done
}

PASSES='rt: ok\n7 passed, 0 failed\n' FAILS='rt: FAILED: a b\n5 passed, 2 failed\n'
WRONG='' SAYS=$PASSES STATUS=0
SCRIPTS=(crates.py "crates.py --self-test" "must_fail.py --edits" "must_fail.py --self-test" "claims.py --self-test")
SCRIPTS+=(claims.py "must_fail.py LOG" guide.py examples.py fit_input.py "archive.py c_api c_fit")
due "all pass" "7 passed, 0 failed" 0 "rt: ok" "ran ci_logic.sh" "ran c/run.sh" "${SCRIPTS[@]/#/ran }"
due "the log of rt ci" "7 passed, 0 failed" 0 "the log has rt: ok" "the log has 7 passed, 0 failed" "---- tests/must_fail.py log"
SAYS='7 passed, 0 failed' due "no line feed at the end" "7 passed, 0 failed" 0

for name in "${SCRIPTS[@]}"; do
    WRONG="[$name]" due "$name fails" "7 passed, 1 failed" 1
done
for name in ci_logic.sh c/run.sh; do
    WRONG=$name due "$name fails" "7 passed, 1 failed" 1
done
WRONG="[crates.py] [guide.py] c/run.sh" due "three scripts fail" "7 passed, 3 failed" 1 "ran fit_input.py"

SAYS=$FAILS STATUS=1 due "rt ci fails" "5 passed, 2 failed" 1 "!ran guide.py"
SAYS=$FAILS STATUS=1 WRONG="[crates.py]" due "rt ci and a script fail" "5 passed, 3 failed" 1
SAYS=$FAILS STATUS=0 due "rt ci says that it fails, status 0" "5 passed, 2 failed" 1
SAYS=$PASSES STATUS=1 due "rt ci says that it passes, status 1" "7 passed, 1 failed" 1
SAYS=$PASSES STATUS=9 due "rt ci is killed behind its last line" "7 passed, 1 failed" 1
SAYS='rt: float proved\nrt: vec' STATUS=9 due "rt ci is killed" "0 passed, 1 failed" 1 "rt: vec"
SAYS='' STATUS=2 due "rt ci prints nothing" "0 passed, 1 failed" 1
SAYS='' STATUS=0 due "rt ci prints nothing, status 0" "0 passed, 1 failed" 1
SAYS='rt: ok\n' STATUS=0 due "rt ci has no last line" "0 passed, 1 failed" 1 "rt: ok"
SAYS='rt: ok; must-fail edits: 3 refused, 2 bad; done\n7 passed, 0 failed\n' due "a bad edit" "7 passed, 1 failed" 1 "ran guide.py" "---- rt ci: FAILED, 2 bad edits"
SAYS='rt: ok; must-fail edits: 3 refused, 0 bad; done\n7 passed, 0 failed\n' due "no bad edit" "7 passed, 0 failed" 0
SAYS='7 passed, 0 failed\nrt: cannot go on\n' STATUS=0 due "a tally that is not the last line" "0 passed, 1 failed" 1
SAYS='7 passed, 0 failed, or so\n' STATUS=0 due "no tally" "0 passed, 1 failed" 1

COMPILER=no_such_compiler due "no C compiler" "7 passed, 0 failed" 0 "---- tests/c: skipped, no C compiler (no_such_compiler)"
COMPILER=no_such_compiler SAYS=$FAILS STATUS=1 due "no C compiler, rt ci fails" "5 passed, 2 failed" 1
BARE=$room/bare due "no python3" "7 passed, 0 failed" 0 "---- tests/guide.py: skipped, no python3"
BARE=$room/bare WRONG=ci_logic.sh due "no python3, and a script fails" "7 passed, 1 failed" 1
BARE=$room/bare SAYS=$FAILS STATUS=1 due "no python3, rt ci fails" "5 passed, 2 failed" 1
mv "$room/bare/rt" "$room/bare/no_rt"
BARE=$room/bare due "no rt" "0 passed, 1 failed" 1

echo "$cases cases, $wrong wrong"
[ "$wrong" -eq 0 ]
