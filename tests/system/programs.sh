#!/usr/bin/env bash
# Runs the program with real programs, by 1, 2 and 8 workers, and compares its exit status and all that it prints with
# what stands here, which was worked out by hand from docs/SPECIFICATION.md and docs/FORMATS.md. The last line is the sum, and
# the status is 1 where a row differs.
set -euo pipefail

source "$(dirname "$(readlink -f "${BASH_SOURCE[0]}")")/../shared/compare.sh"

# A list is printed, a task is made for each item, and another is given what they printed.

tasks '{"id":"src","command":["echo","[3,1,2]"]},
  {"id":"m","upstream":["src"],"expand":"src","command":["sh","-c","if [ \"$0\" != 1 ]; then echo \"$0\"; fi",{"item":true}]},
  {"id":"sum","upstream":["m"],"command":["echo",{"pull":"m"}]}'
ends_in success <<'LINES'
src -1 success 1 [3,1,2]
m 0 success 1 3
@item 3
m 1 success 1 -
@item 1
m 2 success 1 2
@item 2
sum -1 success 1 [3,2]
@pull m [3,2]
LINES

# What a try's words see of it.

tasks '{"id":"a","command":["echo",{"context":"dag_id"},{"context":"task_id"},{"context":"data_interval_start"},{"context":"data_interval_end"},{"context":"map_index"},{"context":"try_number"}]}'
ends_in success <<< 'a -1 success 1 "d a 2024-01-01T00:00:00Z 2024-01-02T00:00:00Z -1 1"'

# A program has the environment and the folder of the runner.

tasks '{"id":"a","command":["sh","-c","echo \"$GREETING from ${PWD##*/}\""]}'
mkdir "$work/here"
cd "$work/here"
GREETING=hello ends_in success <<< 'a -1 success 1 "hello from here"'
cd - > /dev/null

# How programs end. A try that failed is made again where its task has retries.

while IFS= read -r row; do
    tasks "{\"id\":\"a\",\"retries\":1,\"command\":${row%% => *}}"
    state=failed
    [[ ${row##* => } != *failed* ]] && state=success
    ends_in "$state" <<< "a -1 ${row##* => }"
done <<'ROWS'
[] => success 1 -
["true"] => success 1 -
["false"] => failed 2 -
["sh","-c","exit 3"] => failed 2 -
["sh","-c","exit 99"] => skipped 1 -
["sh","-c","kill -9 $$"] => failed 2 -
["/no/such/program"] => failed 2 -
[""] => failed 2 -
["echo","\u0000"] => failed 2 -
["printf","\\377"] => failed 2 -
["cat","/dev/zero"] => failed 2 -
["cat"] => success 1 -
["printf","a\\nb\\n"] => success 1 "b"
["printf","a\\n\\n"] => success 1 -
["sh","-c","test \"$0\" = 2",{"context":"try_number"}] => success 2 -
ROWS

# Two programs that wait for each other both run, where there are two workers.

mkfifo "$work/one" "$work/other"
tasks "{\"id\":\"a\",\"command\":[\"sh\",\"-c\",\"echo > $work/one; cat $work/other\"]},
  {\"id\":\"b\",\"command\":[\"sh\",\"-c\",\"cat $work/one; echo > $work/other\"]}"
for workers in 2 8; do
    ends_by "$workers" success <<'LINES'
a -1 success 1 -
b -1 success 1 -
LINES
done

# So they do where a task above them is cleared.

clears_first() {
    local workers=$1
    answers 0 clear "$graph" "$work/report" --task first --run 2024-01-01 "${day[@]}" --workers "$workers" < "$work/report"
}
tasks "{\"id\":\"first\",\"command\":[]},
  {\"id\":\"a\",\"upstream\":[\"first\"],\"command\":[\"sh\",\"-c\",\"echo > $work/one; cat $work/other\"]},
  {\"id\":\"b\",\"upstream\":[\"first\"],\"command\":[\"sh\",\"-c\",\"cat $work/one; echo > $work/other\"]}"
one_day success > "$work/report" <<'LINES'
first -1 success 1 -
a -1 success 1 -
b -1 success 1 -
LINES
for workers in 2 8; do
    clears_first "$workers"
done

# By one worker each program finds that no other runs, where a task above them is cleared too.

alone() {
    echo "[\"sh\",\"-c\",\"mkdir $work/only && sleep 0.05 && rmdir $work/only\"]"
}
tasks "{\"id\":\"first\",\"command\":[]}$(for task in a b c d; do
    echo ",{\"id\":\"$task\",\"upstream\":[\"first\"],\"command\":$(alone)}"
done)"
{
    echo 'first -1 success 1 -'
    printf '%s -1 success 1 -\n' a b c d
} > "$work/instances"
ends_by 1 success < "$work/instances"
one_day success < "$work/instances" > "$work/report"
clears_first 1

# A failed try is made again once its delay has passed. The clock goes by whole seconds, so a delay of 2 takes more than 1.

tasks "{\"id\":\"a\",\"retries\":1,\"retry_delay\":2,\"command\":[\"sh\",\"-c\",\"date +%s%3N >> $work/moments; test \\\"\$0\\\" = 2\",{\"context\":\"try_number\"}]}"
for workers in 1 2 8; do
    rm -f "$work/moments"
    ends_by "$workers" success <<< 'a -1 success 2 -'
    mapfile -t moments < "$work/moments"
    rows=$((rows + 1))
    [[ ${#moments[@]} -eq 2 && $((moments[1] - moments[0])) -gt 1000 ]] || differs "tries at the milliseconds ${moments[*]}, by $workers workers"
done

# Delays go by a clock that nobody sets: in the meantime the wall clock is set back by an hour, by a day, or to before 1970.

if command -v cc > /dev/null; then
    cc -shared -fPIC -O1 -o "$work/refuse.so" "$root/tests/shared/refuse.c"
    preloaded() {
        env REFUSED_PROGRAM=backfill CALL_COUNT="$work/count" LD_PRELOAD="$work/refuse.so" "$@"
    }
    tasks '{"id":"a","retries":1,"retry_delay":2,"command":["test","2","-eq",{"context":"try_number"}]}'
    for seconds in 3600 86400 4000000000; do
        for workers in 1 8; do
            began=$(date +%s%3N)
            preloaded CLOCK_BACK="$seconds" timeout 20 "$program" run "$graph" "${day[@]}" --workers "$workers" > "$work/out" 2>&1 || true
            lasted=$(($(date +%s%3N) - began))
            is_same "a delay while the clock goes back by $seconds s, by $workers workers" "$(one_day success <<< 'a -1 success 2 -')" "$(< "$work/out")"
            rows=$((rows + 1))
            [[ $lasted -gt 1000 && $lasted -lt 6000 ]] || differs "a delay of 2 s took $lasted ms while the clock went back by $seconds s"
        done
    done
else
    skips 'delays while the clock is set back, for want of a C compiler'
fi

# A program for which processes (11, EAGAIN) or memory (12, ENOMEM) are wanting is started again after 1, 2, 4, .. 60 s, up to ten times, and
# that is told once. Its pauses aren't slept here, but written to `sleeps`.

if command -v cc > /dev/null; then
    starts() {
        rm -f "$work/sleeps"
        : > "$work/sleeps"
        preloaded STARTS_REFUSED="$1" START_FAULT="$2" SLEEPS="$work/sleeps" timeout 60 "$program" run "$graph" "${day[@]}" "${@:3}" > "$work/out" 2> "$work/err" || true
    }
    told() {
        grep -v '^runs ' "$work/err" || true
    }
    try='a 2024-01-01T00:00:00Z try 1'
    pauses=(1 2 4 8 16 32 60 60 60 60)
    tasks '{"id":"a","command":["echo","7"]}'
    while read -r number words; do
        for refused in 1 4 10; do
            starts "$refused" "$number" --progress
            is_same "what starts behind $refused refusals" "$(one_day success <<< 'a -1 success 1 7')" "$(< "$work/out")"
            is_same "what is told of $refused refusals" "not started yet: $try: $words" "$(told)"
            is_same "the pauses of $refused refusals" "${pauses[*]:0:refused}" "$(paste -sd ' ' "$work/sleeps")"
        done
        starts 11 "$number" --progress
        is_same 'what never starts' "$(one_day failed <<< 'a -1 failed 1 -')" "$(< "$work/out")"
        is_same 'what is told of what never starts' "not started yet: $try: $words
failed: $try: not started: $words" "$(told)"
        is_same 'its pauses' "${pauses[*]}" "$(paste -sd ' ' "$work/sleeps")"
    done <<'FAULTS'
11 Resource temporarily unavailable
12 Cannot allocate memory
FAULTS
    starts 3 11
    is_same 'what is told unasked' "$(one_day success <<< 'a -1 success 1 7')" "$(cat "$work/out" "$work/err")"
    starts 2 11 --progress --logs "$work/kept"
    is_same 'what is logged of a program that started later' '7 ' "$(cat "$work"/kept/dag=d/run=*/task=a/try=1.out) $(cat "$work"/kept/dag=d/run=*/task=a/try=1.err)"

    # Any other fault counts at once.
    starts 1 7 --progress
    is_same 'what the system takes for too long' "failed: $try: not started: Argument list too long" "$(told)"
    is_same 'its pauses' '' "$(< "$work/sleeps")"

    # A pause is slept through, and ends with the program.
    rows=$((rows + 1))
    began=$(date +%s%3N)
    preloaded STARTS_REFUSED=2 START_FAULT=11 "$program" run "$graph" "${day[@]}" > "$work/out"
    lasted=$(($(date +%s%3N) - began))
    [[ $lasted -ge 3000 && $lasted -lt 8000 ]] || differs "pauses of 1 and 2 s took $lasted ms"
    for signal in TERM INT; do
        status=0
        preloaded STARTS_REFUSED=10 START_FAULT=11 timeout --signal "$signal" 1.5 "$program" run "$graph" "${day[@]}" > "$work/out" 2> "$work/err" || status=$?
        is_same "a pause that is ended by SIG$signal" '124 ' "$status $(cat "$work/out" "$work/err")"
    done
else
    skips 'programs that are started again, for want of a C compiler'
fi

# Progress is told on standard error: the last line when all has ended, and others no more than once a second.

tells_progress() {
    local lines
    timeout 60 "$program" "$@" --from 2024-01-01 --to 2024-01-02 --progress > "$work/out" 2> "$work/err" || true
    lines=$(grep -vc '^failed: ' "$work/err")
    rows=$((rows + 1))
    if [[ $(tail -n 1 "$work/err") != 'runs 2/2 (0 open)  tasks 6/6  running 0  waiting 0  failed 2' || $lines -gt 7 ]] ||
        [[ $(grep -c '^@run .* failed$' "$work/out") -ne 2 ]]; then
        differs "progress, of $*"
        cat "$work/err" "$work/out"
    fi
}
tasks '{"id":"a","command":["false"]},{"id":"b","upstream":["a"],"command":[]},{"id":"c","command":["sleep","2.5"]}'
echo '[{"task":"a","status":1}]' > "$table"
for workers in 1 8; do
    tells_progress run "$graph" --workers "$workers"
    cp "$work/out" "$work/report"
    tells_progress dry "$graph" "$table" --workers "$workers"
    tells_progress clear "$graph" "$work/report" --task a --run 2024-01-01 --workers "$workers"
    tells_progress clear "$graph" "$work/report" --task a --run 2024-01-01 --table "$table" --workers "$workers"
done

# What many programs leave behind: while the last one runs, the runner has no dead child, and as many descriptors and threads as
# where it started no other before.

left_by() {
    local count=$1 task
    tasks "$(for ((task = 0; task < count; task++)); do printf '{"id":"t%d","command":["true"]},' "$task"; done
        )$(printf '{"id":"last","upstream":[%s],"command":["sh","%s"]}' \
            "$(for ((task = 0; task < count; task++)); do printf '"t%d",' "$task"; done | sed 's/,$//')" "$root/tests/shared/look.sh")"
    timeout 120 "$program" run "$graph" "${day[@]}" --workers 8 | sed -n 's/^last -1 success 1 //p'
}
rows=$((rows + 1))
few=$(left_by 0)
many=$(left_by 500)
[[ $few =~ ^\"[0-9]+\ 9\ 0\"$ && $few == "$many" ]] ||
    differs "descriptors, threads and dead children: $few after no program, $many after 500"

# A pool of one slot: each program finds that no other of its pool runs.

tasks "$(for task in a b c d; do
    echo "{\"id\":\"$task\",\"command\":$(alone),\"pool\":\"p\"},"
done | sed '$ s/,$//')"
sed -i 's/"schedule"/"pools":{"p":1},"schedule"/' "$graph"
ends_in success <<'LINES'
a -1 success 1 -
b -1 success 1 -
c -1 success 1 -
d -1 success 1 -
LINES

sum
