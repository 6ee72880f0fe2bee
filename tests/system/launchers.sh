#!/usr/bin/env bash
# Runs the program with the launchers of examples/launchers, and compares what they keep, end, kill and remember with what stands here.
# The last line is the sum, and the status is 1 where a row differs.
set -euo pipefail

source "$(dirname "$(readlink -f "${BASH_SOURCE[0]}")")/../shared/compare.sh"
launchers=$root/examples/launchers

# Requires that a file has just the lines on standard input.
has() {
    rows=$((rows + 1))
    diff - "$1" || differs "other lines stand in ${1##*/}"
}

row() {
    local words=$1
    shift
    rows=$((rows + 1))
    "$@" || differs "$words"
}

# Each has at most ten lines.

for launcher in "$launchers"/*; do
    row "${launcher##*/} has more than ten lines" test "$(wc -l < "$launcher")" -le 10
done

# What each try writes to standard error is kept by itself, and the report is as without.

tasks '{"id":"src","command":["sh","-c","echo \"[1,2]\"; echo looked >&2"]},
  {"id":"m","upstream":["src"],"expand":"src","retries":1,"command":["sh","-c","echo try $1 of $0 >&2; test $1 = 2",{"item":true},{"context":"try_number"}]}'
for workers in 1 8; do
    BACKFILL_LOGS=$work/logs$workers answers 0 run "$graph" "${day[@]}" --workers "$workers" --launcher "$launchers/keep-logs" < <(one_day success <<'LINES'
src -1 success 1 [1,2]
m 0 success 2 -
@item 1
m 1 success 2 -
@item 2
LINES
    )
    (cd "$work/logs$workers" && grep -r . dag=d | LC_ALL=C sort) > "$work/kept"
    has "$work/kept" <<'LINES'
dag=d/run=2024-01-01T00:00:00Z/task=m/index=0,try=1.err:try 1 of 1
dag=d/run=2024-01-01T00:00:00Z/task=m/index=0,try=2.err:try 2 of 1
dag=d/run=2024-01-01T00:00:00Z/task=m/index=1,try=1.err:try 1 of 2
dag=d/run=2024-01-01T00:00:00Z/task=m/index=1,try=2.err:try 2 of 2
dag=d/run=2024-01-01T00:00:00Z/task=src/index=-1,try=1.err:looked
LINES
done

# A program that hangs is ended, and its try failed; others go on.

tasks '{"id":"hangs","command":["sleep","60"]},{"id":"ends","command":["sh","-c","echo two words; exit 0"]},{"id":"fails","command":["sh","-c","exit 3"]}'
for launcher in end-what-hangs end-with-the-runner; do
    SECONDS=0
    BACKFILL_SECONDS=1 answers 1 run "$graph" "${day[@]}" --workers 3 --launcher "$launchers/$launcher" < <(one_day failed <<'LINES'
hangs -1 failed 1 -
ends -1 success 1 "two words"
fails -1 failed 1 -
LINES
    )
    row "$launcher: a program that hangs was not ended" test "$SECONDS" -lt 30
done

# A program is killed where the runner is.

mkfifo "$work/began"
tasks "{\"id\":\"a\",\"command\":[\"sh\",\"-c\",\"echo \$\$ > $work/began; exec sleep 60\"]}"
timeout 60 "$program" run "$graph" "${day[@]}" --launcher "$launchers/die-with-the-runner" > /dev/null 2>&1 &
runner=$!
read -r try < "$work/began"
row 'its program does not run' kill -0 "$try"
pkill -KILL -P "$runner"
wait "$runner" 2> /dev/null || true
# It has ended where there is no such process, or where nobody has asked yet how it ended.
has_ended() {
    ! grep -qs '^State:[[:space:]]*[^Z]' "/proc/$1/status"
}
for _ in {1..100}; do
    ! has_ended "$try" || break
    sleep 0.1
done
row 'its program runs on' has_ended "$try"

# It is ended with all that it has started where the runner ends first, by a signal or killed.

for signal in TERM KILL; do
    tasks "{\"id\":\"a\",\"command\":[\"sh\",\"-c\",\"sleep 60 & echo \$\$ \$! > $work/began; wait\"]}"
    "$program" run "$graph" "${day[@]}" --launcher "$launchers/end-with-the-runner" > /dev/null 2>&1 &
    runner=$!
    read -r try below < "$work/began"
    row "its program does not run, before SIG$signal" kill -0 "$try"
    kill -s "$signal" "$runner"
    wait "$runner" 2> /dev/null || true
    for process in "$try" "$below"; do
        for _ in {1..100}; do
            ! has_ended "$process" || break
            sleep 0.1
        done
        row "a process runs on behind SIG$signal" has_ended "$process"
    done
done

# What succeeded is remembered by task, date, index and words: of two days one is made again, since its try failed, and a task that is
# given something else.

tasks "{\"id\":\"src\",\"command\":[\"sh\",\"-c\",\"echo src \$0 >> $work/starts; cat $work/items\",{\"context\":\"data_interval_start\"}]},
  {\"id\":\"m\",\"upstream\":[\"src\"],\"expand\":\"src\",\"command\":[\"sh\",\"-c\",\"echo \$0 \$1 >> $work/starts; test -e $work/mended || test \$0\$1 != 22024-01-02T00:00:00Z\",{\"item\":true},{\"context\":\"data_interval_start\"}]}"
export BACKFILL_DONE=$work/done
remembered() {
    : > "$work/starts"
    timeout 60 "$program" run "$graph" --from 2024-01-01 --to 2024-01-02 --workers 2 --launcher "$launchers/remember" > "$work/out" || true
    LC_ALL=C sort "$work/starts" > "$work/sorted"
    has "$work/sorted"
}
echo '[1,2]' > "$work/items"
remembered <<'LINES'
1 2024-01-01T00:00:00Z
1 2024-01-02T00:00:00Z
2 2024-01-01T00:00:00Z
2 2024-01-02T00:00:00Z
src 2024-01-01T00:00:00Z
src 2024-01-02T00:00:00Z
LINES
row 'a run did not fail' grep -q 'Z failed$' "$work/out"
touch "$work/mended"
remembered <<< '2 2024-01-02T00:00:00Z'
row 'a run failed' test "$(grep -c 'Z success$' "$work/out")" = 2
remembered < /dev/null

# Nothing is left of a try that fails or is skipped.

tasks '{"id":"a","command":["sh","-c","echo half; exit 3"]},{"id":"b","command":["sh","-c","echo half; exit 99"]}'
BACKFILL_DONE=$work/undone answers 1 run "$graph" "${day[@]}" --launcher "$launchers/remember" < <(one_day failed <<< $'a -1 failed 1 -\nb -1 skipped 1 -')
row 'a file is left of what did not succeed' test -z "$(find "$work/done" -name '*.new*'; find "$work/undone" -type f)"

# Ids that are names of folders stay inside.

for id in . ..; do
    mkdir "$work/in"
    tasks "{\"id\":\"$id\",\"command\":[\"sh\",\"-c\",\"echo looked >&2; echo 7\"]}"
    sed -i "s/\"dag_id\":\"d\"/\"dag_id\":\"$id\"/" "$graph"
    BACKFILL_LOGS=$work/in/logs "$program" run "$graph" "${day[@]}" --launcher "$launchers/keep-logs" > /dev/null
    BACKFILL_DONE=$work/in/done "$program" run "$graph" "${day[@]}" --launcher "$launchers/remember" > /dev/null 2>&1
    (cd "$work/in" && find . -type f | sed 's/-1-[0-9a-f]*$/-1-SUM/' | LC_ALL=C sort) > "$work/kept"
    has "$work/kept" <<LINES
./done/dag=$id/task=$id/run=2024-01-01T00:00:00Z/-1-SUM
./logs/dag=$id/run=2024-01-01T00:00:00Z/task=$id/index=-1,try=1.err
LINES
    rm -r "$work/in"
done

sum
