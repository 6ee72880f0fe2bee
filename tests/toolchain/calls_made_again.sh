#!/usr/bin/env bash
# Refuses each request for memory of bf_tests_refusals in turn: two backfills of which each call is made again where memory was wanting,
# and their journals, let come again to cores. Whichever is refused, they have to come to the same events, and no refused call may have
# changed them. Takes the program that rt built of that crate, or builds it. Needs a C compiler. The last line is the sum, and the status
# is 1 where a run ended otherwise.
set -euo pipefail

source "$(dirname "$(readlink -f "${BASH_SOURCE[0]}")")/../shared/count.sh"
crate=$root/crates/bf_tests_refusals

[[ -n $(command -v cc) ]] || skips_rest 'calls made again, since there is no C compiler'
[[ -x $crate/out/bf_tests_refusals ]] || (cd "$crate" && rt run > "$work/built" 2>&1)
cc -shared -fPIC -O1 -o "$work/refuse.so" "$root/tests/shared/refuse.c"

# Runs the program with this request for memory refused. At number 0 none is, and the requests are counted.
run() {
    status=0
    REFUSED_PROGRAM=bf_tests_refusals REFUSED_CALL=memory REFUSED_NUMBER=$1 CALL_COUNT=$work/count LD_PRELOAD=$work/refuse.so \
        timeout 60 "$crate/out/bf_tests_refusals" > "$work/out" 2> "$work/err" || status=$?
}

run 0
requests=$(< "$work/count")
for ((number = 0; number <= requests; number++)); do
    run "$number"
    rows=$((rows + 1))
    if [[ $status -ne 0 || -s $work/err ]] || ! cmp -s "$work/out" "$crate/stdout"; then
        differs "status $status, of request $number"
        cat "$work/err"
    fi
done
echo "$requests requests for memory"
# A count of 0 would be that of a program that was never reached.
rows=$((rows + 1))
[[ $requests -gt 100 ]] || differs 'so few requests'
sum
