#!/bin/sh
# Counts the instructions of a box's calls, as differences between runs of crates/cost/out/cost under callgrind.
# `rt run` in crates/cost builds the program. docs/COST.md says what the numbers mean.
set -eu
root=$(cd "$(dirname "$0")/.." && pwd)
cost=$root/crates/cost/out/cost
out=$(mktemp)
trap 'rm -f "$out"' EXIT

# The instructions of a whole run.
total() {
    valgrind --tool=callgrind --callgrind-out-file="$out" "$cost" "$@" 2>&1 >/dev/null | sed -n 's/.*Collected : //p'
}

# The instructions of a run inside a function and what it calls, after `total`.
inside() {
    callgrind_annotate --inclusive=yes --threshold=100 "$out" |
        awk -v f=":$1" '{ for (i = 2; i <= NF; i++) if (substr($i, length($i) - length(f) + 1) == f) { gsub(",", "", $1); print $1; exit } }'
}

# One question judged and entered, and one amendment: LOAD CENSOR NAMES COUNTERPARTIES SECRETS QUESTIONS WORDS
calls() {
    "$cost" "$1" "$2" "$3" "$4" "$5" "$6" "$7" 1 | grep -x "questions entered: $6" >/dev/null || { echo "$*: not all questions are entered"; exit 1; }
    before=$(total "$1" "$2" "$3" "$4" "$5" $(($6 - 1)) "$7" 0)
    parse0=$(inside sentences::reading::parse) decide0=$(inside censors::builtin::BuiltinCensor::decide)
    after=$(total "$1" "$2" "$3" "$4" "$5" "$6" "$7" 0)
    parse1=$(inside sentences::reading::parse) decide1=$(inside censors::builtin::BuiltinCensor::decide)
    amended=$(total "$1" "$2" "$3" "$4" "$5" "$6" "$7" 1)
    both=$((after - before)) parse=$((parse1 - parse0)) decide=$((decide1 - decide0))
    echo "$*: judge and enter $both (reading the text $parse, decision $decide, the rest $((both - parse - decide))), amend $((amended - after))"
}

for load in usual hardest; do
    for censor in refusing lying combined; do calls $load $censor 8 8 8 512 8; done
    for names in 2 4 8; do calls $load refusing $names 8 8 512 8; done
    for secrets in 1 2 4 8; do calls $load refusing 8 8 $secrets 512 8; done
    for questions in 16 32 64; do calls $load refusing 8 8 8 $((8 * questions)) 8; done
    for counterparties in 1 2 4 8; do calls $load refusing 8 $counterparties 8 $((64 * counterparties)) 8; done
    for words in 1 8 32; do calls $load refusing 8 8 8 512 $words; done
done

# Blocks allocated: the same with and without questions and amendments.
for run in '0 8 0' '512 8 0' '512 8 9'; do
    printf '%s: ' "$run"
    # shellcheck disable=SC2086
    valgrind "$cost" usual refusing 8 8 8 $run 2>&1 >/dev/null | sed -n 's/.*total heap usage: //p'
done
