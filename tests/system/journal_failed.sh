#!/usr/bin/env bash
# Failed tries of a journal: what `--stop-after` begins no more, and what `--retry-failed` makes again. The last line is the sum, and the
# status is 1 where something differs.
set -euo pipefail

source "$(dirname "$(readlink -f "${BASH_SOURCE[0]}")")/../shared/journals.sh"

# The names of the tries that ran, in order.
ran() {
    sort ran | xargs
}

# ---- a try a run fails until it is mended

tasks '
    {"id":"a","command":["sh","-c","echo a >> ran"]},
    {"id":"b","upstream":["a"],"command":["sh","-c","echo b >> ran; [ -e mended ]"]},
    {"id":"c","upstream":["b"],"command":["sh","-c","echo c >> ran"]}'
: > ran
goes_on journal --stop-after 2
is_same 'the status behind enough failed tries' 3 "$status"
is_same 'what is told behind enough failed tries' 'fault: stopped after 2 failed tries' "$(< err)"
is_same 'what is printed behind enough failed tries' '' "$(< out)"
is_same 'how many tries failed' 2 "$(grep -c '"failed"' journal)"
is_same 'that all that ran is recorded' "$(wc -l < ran)" "$(($(wc -l < journal) - 1))"
# Those that failed before don't count.
: > ran
goes_on journal --stop-after 2
is_same 'the status behind two more' 3 "$status"
is_same 'how many have failed now' 4 "$(grep -c '"failed"' journal)"
# The last try that is left may be the Nth that fails.
: > ran
goes_on journal --stop-after 1
is_same 'the status where no try is left to begin' 1 "$status"
is_same 'what ran' b "$(grep -v a ran)"
: > ran
goes_on journal
is_same 'that failed tries are kept' 1 "$status"
is_same 'that none is made again' '' "$(ran)"
touch mended
goes_on journal
is_same 'that they are kept where the program is mended' '1 ' "$status $(ran)"
goes_on journal --retry-failed
is_same 'the status of failed tries that are made again' 0 "$status"
is_same 'what ran again' 'b b b b b c c c c c' "$(ran)"
"$program" run "$graph" "${range[@]}" > plain
holds 'the report of failed tries that were made again' cmp plain out
: > ran
for option in '' --retry-failed; do
    goes_on journal $option
    is_same "a journal whose tries were made again, gone on with ${option:-as it is}" '0 ' "$status $(ran)"
    holds "its report, gone on with ${option:-as it is}" cmp plain out
done

# ---- several at once

# Eight programs begin before the first of them fails. All eight are waited for, and recorded.
tasks '
    {"id":"first","command":["sh","-c","until [ $(wc -l < ran) = 7 ]; do sleep 0.01; done; exit 1"]},
    '"$(for number in 1 2 3 4 5 6 7; do
        echo '{"id":"t'$number'","command":["sh","-c","echo t'$number' >> ran; until grep -q failed stopped; do sleep 0.01; done"]},'
    done)"'
    {"id":"late","command":["sh","-c","echo late >> ran"]}'
range=("${day[@]}")
: > stopped
: > ran
goes_on stopped --workers 8 --stop-after 1
is_same 'the status where eight ran' 3 "$status"
is_same 'what is told where eight ran' 'fault: stopped after 1 failed tries' "$(< err)"
is_same 'that the ninth is not begun' 't1 t2 t3 t4 t5 t6 t7' "$(ran)"
is_same 'that eight are recorded' 9 "$(wc -l < stopped)"

# A try that waits an hour for its moment holds nothing up.
tasks '{"id":"a","retries":1,"retry_delay":3600,"command":["sh","-c","echo a$0 >> ran; false",{"context":"try_number"}]}'
for workers in 1 8; do
    : > ran
    goes_on "waits_$workers" --workers "$workers" --stop-after 1
    is_same "the end where a try waits an hour, by $workers" '3 fault: stopped after 1 failed tries' "$status $(< err)"
    is_same "what ran where a try waits an hour, by $workers" a1 "$(ran)"
done

# Where nothing stops it, the delay is waited for.
tasks '{"id":"a","retries":1,"retry_delay":2,"command":["sh","-c","[ $0 = 2 ]",{"context":"try_number"}]}'
for workers in 1 8; do
    began=$(date +%s%N)
    goes_on "delayed_$workers" --workers "$workers" --stop-after 2
    waited=$((($(date +%s%N) - began) / 1000000))
    is_same "the end behind a delay, by $workers" '0 ' "$status $(< err)"
    is_same "that a delay of two seconds is waited for, by $workers" 1 "$((waited >= 1000))"
done

# ---- retries

# The second try of an instance succeeds, or its third is skipped, or all three fail: the last alone are made again, under their numbers.
tasks '
    {"id":"a","retries":2,"command":["sh","-c","echo a$0 >> ran; [ $0 = 2 ]",{"context":"try_number"}]},
    {"id":"b","retries":2,"command":["sh","-c","echo b$0 >> ran; [ $0 != 3 ] || exit 99; false",{"context":"try_number"}]},
    {"id":"c","retries":2,"command":["sh","-c","echo c$0 >> ran; [ -e mended ]",{"context":"try_number"}]}'
rm mended
makes() {
    local name=$1 wanted=$2
    shift 2
    : > ran
    goes_on tries "$@"
    is_same "$name" "$wanted" "$status $(ran)"
}
makes 'all tries' '1 a1 a2 b1 b2 b3 c1 c2 c3'
makes 'failed tries again, of which each fails again' '1 c1 c2 c3' --retry-failed
makes 'none again without the option' '1 '
touch mended
makes 'the first again, which succeeds' '0 c1' --retry-failed
is_same 'the number of that try' 'c -1 success 1 -' "$(grep '^c' out)"
makes 'none again behind that' '0 ' --retry-failed

sum
