#!/usr/bin/env bash
# Refuses each call for memory, each open, each read, each write and each look at the clock of runs of the program in turn, and of runs that
# keep logs each look at a file and each removal too. A run has
# to end as if nothing was refused, or by the fault that the refused call is, with nothing (or, of a refused write, a beginning of the
# report) on standard output. A look at the clock that fails is no fault. Of each run ./test refuses each seventh call, and ./test --whole
# all. Needs a C compiler. The last line is the sum, and the status is 1 where a call ended a run otherwise.
set -euo pipefail

source "$(dirname "$(readlink -f "${BASH_SOURCE[0]}")")/../shared/count.sh"

[[ -n $(command -v cc) ]] || skips_rest 'each call refused in turn, since there is no C compiler'
cc -shared -fPIC -O1 -o "$work/refuse.so" "$root/tests/shared/refuse.c"

step=7
[[ ${TEST_SEEDS:-} != whole ]] || step=1

# Runs the program with the call of this kind and number refused. At number 0 none is, and the calls are counted.
run() {
    local call=$1 number=$2
    shift 2
    status=0
    REFUSED_PROGRAM=backfill REFUSED_CALL=$call REFUSED_NUMBER=$number CALL_COUNT=$work/count LD_PRELOAD=$work/refuse.so \
        "$program" "$@" > "$work/out" 2> "$work/err" || status=$?
}

# Whether the run ended as without a refusal.
is_whole() {
    [[ $status -eq $whole ]] && cmp -s "$work/out" "$work/whole_out" && cmp -s "$work/err" "$work/whole_err"
}

# Whether the run ended by the fault of a call of this kind.
is_fault() {
    [[ $status -eq 3 ]] && case $1 in
        memory) [[ ! -s $work/out ]] && grep -qxE 'fault: (out of memory|cannot start workers)' "$work/err" ;;
        open | read) [[ ! -s $work/out ]] && grep -q '^fault: cannot read ' "$work/err" ;;
        write) grep -qx 'fault: cannot write' "$work/err" && cmp -s "$work/out" <(head -c "$(stat -c %s "$work/out")" "$work/whole_out") ;;
    esac
}

# Whether only what standard error was to have is lost.
is_untold() {
    [[ $1 == write && $status -eq $whole && ! -s $work/err ]] && cmp -s "$work/out" "$work/whole_out"
}

# Whether the run ended since a log can't be made.
is_log_fault() {
    [[ $status -eq 3 && ! -s $work/out ]] && grep -qx "fault: cannot write $work/logs/dag=.*" "$work/err"
}

# Whether a try wasn't started, whose program was to have an empty standard input that couldn't be opened.
is_unstarted() {
    [[ $1 == open && $status -eq 1 ]] && grep -q 'try 1: not started: Permission denied, see ' "$work/err"
}

# Whether a program was started again for which memory was wanting, and nothing else has changed.
is_started_again() {
    [[ $1 == memory && $status -eq $whole ]] && cmp -s "$work/out" "$work/whole_out" &&
        cmp -s <(grep -vx 'not started yet: .*: Cannot allocate memory' "$work/err") "$work/whole_err"
}

# Whether a log isn't whole, and nothing else has changed.
is_log_lost() {
    [[ $status -eq $whole && $(< "$work/err") == 'logs: not all could be kept' ]] && cmp -s "$work/out" "$work/whole_out"
}

each() {
    local call=$1 calls faults=0 number
    shift
    run "$call" 0 "$@"
    whole=$status
    calls=$(< "$work/count")
    cp "$work/out" "$work/whole_out"
    cp "$work/err" "$work/whole_err"
    for ((number = 1; number <= calls; number += step)); do
        run "$call" "$number" "$@"
        rows=$((rows + 1))
        if is_fault "$call" || is_log_fault; then
            faults=$((faults + 1))
        elif ! is_whole && ! is_untold "$call" && ! is_unstarted "$call" && ! is_started_again "$call" && ! is_log_lost; then
            differs "status $status, of $call $number of: $*"
            cat "$work/out" "$work/err"
        fi
    done
    echo "$calls calls, $faults ended the run: $call, status $whole: $*"
}

cd "$root/examples"
printf '{"dag_id":"d","schedule":"@daily","tasks":[{"id":"a","upstream":["b"]},{"id":"b","upstream":["a"]}]}' > "$work/cycle"
printf '{"dag_id":"d","schedule":"30 2 * * *","zone":"file","tasks":[]}' > "$work/by_file"
printf '{"dag_id":"d","schedule":"@daily","tasks":[{"id":"a","retries":1,"retry_delay":1,"command":["test","2","-eq",%s]}]}' \
    '{"context":"try_number"}' > "$work/delayed"
# A zone file of one kind of time, an hour ahead of UTC, and a rule for the times to come.
{
    for _ in 1 2; do
        printf 'TZif2\0\0\0\0\0\0\0\0\0\0\0\0\0\0\0'
        printf '\0\0\0\0\0\0\0\0\0\0\0\0\0\0\0\0\0\0\0\1\0\0\0\4'
        printf '\0\0\016\020\0\0CET\0'
    done
    printf '\nCET-1CEST,M3.5.0,M10.5.0/3\n'
} > "$work/zone_file"
# A report of either version to go on from.
"$program" dry every_key/graph.json every_key/table.json --from 2024-01-01 --to 2024-01-02 > "$work/report_2"
sed -e '1s/^@backfill 2 /@backfill 1 /' -e '/^@item /d' -e '/^@pull /d' "$work/report_2" > "$work/report_1"
cleared=(--from 2024-01-01 --to 2024-01-02 --task m --run 2024-01-01T05:00:00Z --table every_key/table.json)
for call in memory open read write; do
    for example in one_task diamond skip; do
        each "$call" single "$example/graph.json" "$example/table.json" --at 2024-01-01
    done
    each "$call" check every_key/graph.json
    each "$call" list clock_change/graph.json --from 2024-03-01 --to 2024-03-31
    each "$call" list "$work/by_file" --zone-file "$work/zone_file" --from 2024-03-01 --to 2024-03-31
    each "$call" list clock_change/graph.json --from 2024-03-31 --to 2024-03-30
    each "$call" single every_key/graph.json every_key/table.json --at 2024-01-01
    each "$call" dry every_key/graph.json every_key/table.json --from 2024-01-01 --to 2024-01-03
    each "$call" dry every_key/graph.json every_key/table.json --from 2024-01-01 --to 2024-01-03 --workers 2
    each "$call" dry every_key/graph.json every_key/table.json --from 2024-01-03 --to 2024-01-01
    each "$call" dry every_key/graph.json every_key/table.json --from 2024-01-02 --to 2024-01-03 --keep "$work/report_2"
    each "$call" clear every_key/graph.json "$work/report_1" "${cleared[@]}"
    each "$call" clear every_key/graph.json "$work/report_2" "${cleared[@]}" --workers 2
    each "$call" clear every_key/graph.json "$work/zone_file" "${cleared[@]}"
    each "$call" single "$work/cycle" one_task/table.json --at 2024-01-01
    each "$call" single one_task/graph.json one_task/table.json --at 2024-02-30
    each "$call" answers "$work/report_2"
    each "$call" schema graph
    each "$call" completions fish
    each "$call" single --help
    each "$call" single
done
each memory run extract_transform_load/graph.json --from 2024-01-01 --to 2024-01-02
each memory run extract_transform_load/graph.json --from 2024-01-01 --to 2024-01-02 --workers 2
for call in memory open write look remove; do
    each "$call" run extract_transform_load/graph.json --from 2024-01-01 --to 2024-01-01 --logs "$work/logs"
done
each clock run "$work/delayed" --from 2024-01-01 --to 2024-01-01
sum
