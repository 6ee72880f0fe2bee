#!/usr/bin/env bash
# Refuses each open, read, write, look, lock, cut and sync, and each request for memory, of backfills that record their tries, in turn, and
# kills the program before and behind each. Then the same line, undisturbed, ends with the report and the status of an untouched backfill,
# makes no try again that was recorded, and records none twice. So does README's own example. ./test takes each seventh call, and ./test --whole
# all. Needs a C compiler. The last line is the sum, and the status is 1 where something differs.
set -euo pipefail

source "$(dirname "$(readlink -f "${BASH_SOURCE[0]}")")/../shared/journals.sh"

[[ -n $(command -v cc) ]] || skips_rest 'calls that are refused, since there is no C compiler'
cc -shared -fPIC -O1 -o refuse.so "$root/tests/shared/refuse.c"

step=7
[[ ${TEST_SEEDS:-} != whole ]] || step=1

# Runs the line with the call of this kind and number refused, or the program killed there.
disturbed() {
    local call=$1 number=$2 killed=$3
    status=0
    {
        env REFUSED_PROGRAM=backfill REFUSED_CALL="$call" REFUSED_NUMBER="$number" ${killed:+KILLED=$killed} CALL_COUNT="$work/count" \
            LD_PRELOAD="$work/refuse.so" "$program" "${words[@]}" > "$work/out" 2> "$work/err" || status=$?
    } 2> "$work/said"
}

undisturbed() {
    status=0
    timeout 120 "$program" "${words[@]}" > "$work/out" 2> "$work/err" || status=$?
}

# What may be told where a call of a kind is refused.
told_at() {
    case $1 in
        memory) echo '^fault: (out of memory|cannot start workers)$' ;;
        lock) echo '^fault: cannot read .*$' ;;
        open | look | read) echo '^fault: cannot (read|write) .*$' ;;
        *) echo '^fault: cannot write.*$' ;;
    esac
}

# How the disturbed line ended: as the untouched one, by the fault of the call, or killed. A file that the report goes to has the old one or
# the new one.
look_at_end() {
    local what=$1 call=$2 killed=$3
    if [[ -n $killed ]]; then
        [[ $status -eq 137 ]] || differs "status $status, of $what"
    elif [[ $status -eq $plain ]]; then
        cmp -s "$work/plain" "$report" || differs "the report of $what"
    elif [[ $status -ne 3 || ! $(tail -n 1 "$work/err") =~ $(told_at "$call") ]]; then
        differs "status $status and $(tail -n 1 "$work/err"), of $what"
    fi
    [[ $report == "$work/out" || $(< "$report") == old ]] || cmp -s "$work/plain" "$report" || differs "the file of the report, of $what"
}

# Notes what is recorded, and that nothing has run since.
look_before() {
    recorded "$journal" > "$work/before"
    : > "$work/ran"
}
none_again() {
    [[ -z $(grep -xFf "$work/before" "$work/ran") ]] || differs "a recorded try ran again, $1"
}

# Each call of a kind, of the line `words`, whose journal is at first the file `begins`. What it holds at the end is `wanted`, and the report goes
# to the file `report`.
each() {
    local call=$1 calls number killed what ways=('' before after)
    # Between the calls below it makes no difference where a kill comes.
    [[ $call != memory && $call != read ]] || ways=('')
    cp "$begins" "$journal"
    echo old > "$report"
    disturbed "$call" 0 ''
    calls=$(< "$work/count")
    is_same "the status where no $call is refused" "$plain" "$status"
    holds "that there are calls of $call" test "$calls" -gt 0
    for ((number = 1; number <= calls; number += step)); do
        for killed in "${ways[@]}"; do
            what="$call $number of $calls ${killed:+killed }${killed:-refused}"
            rows=$((rows + 1))
            cp "$begins" "$journal"
            echo old > "$report"
            look_before
            disturbed "$call" "$number" "$killed"
            look_at_end "$what" "$call" "$killed"
            none_again "$what"
            look_before
            undisturbed
            [[ $status -eq $plain ]] && cmp -s "$work/plain" "$report" || differs "status $status and $(tail -n 1 "$work/err"), behind $what"
            [[ $(records "$journal") == "$wanted" ]] || differs "the journal, behind $what"
            none_again "behind $what"
            rm -f "$report".new*
        done
    done
    echo "$calls calls of $call: ${words[*]:0:1}, from $(wc -l < "$begins") lines"
}

# ---- programs, behind no journal and behind one of which a record was cut short

range=(--from 2024-01-01 --to 2024-01-01)
noting_tasks
plain=0
"$program" run "$graph" "${range[@]}" > plain || plain=$?
goes_on whole
wanted=$(records whole)
: > none
head -c -40 whole > torn
journal=$work/journal
report=$work/out
words=(run "$graph" "${range[@]}" --journal "$journal")
for begins in none torn; do
    for call in write look lock sync; do
        each "$call"
    done
done
begins=torn
each cut

# The report goes to a file.
report=$work/report
words+=(--out "$report")
for call in write look mode sync rename remove; do
    each "$call"
done
report=$work/out

# ---- memory, and what is opened and read, where a table answers

# (A program whose standard input can't be opened isn't started, and its try has failed.)
noting_tasks linked
noting_table
"$program" dry "$graph" "$table" "${range[@]}" > of_table || true
words=(clear "$graph" of_table "${range[@]}" --task src --run 2024-01-01 --table "$table" --journal)
"$program" "${words[@]}" by_table > out || true
wanted=$(records by_table)
head -c -40 by_table > torn
words+=("$journal")
for begins in none torn; do
    each open
    each read
done
each memory
report=$work/report
words+=(--out "$report")
each open
report=$work/out

# ---- a sync, at most once a second and at the end

tasks '{"id":"a","command":["sleep","0.1"]}'
range=(--from 2024-01-01 --to 2024-01-31)
words=(run "$graph" "${range[@]}" --journal "$journal")
rm -f "$journal"
start=$SECONDS
disturbed sync 0 ''
took=$((SECONDS - start))
rows=$((rows + 1))
[[ $(< count) -ge 3 && $(< count) -le $((took + 2)) ]] || differs "$(< count) syncs in $took seconds"

# ---- the last record, and the sync at the end

# The backfill has ended by then. What is lost is told, and the next run records the try where it isn't recorded.
loses_the_end() {
    local call=$1 number=$2 lines=$3
    rm -f "$journal"
    disturbed "$call" "$number" ''
    is_same "the status where $call $number is refused" 0 "$status"
    is_same 'what is told there' "journal: the report is whole, the journal isn't" "$(< err)"
    holds 'that the report is whole there' cmp -s plain out
    is_same 'the lines of the journal there' "$lines" "$(wc -l < "$journal")"
    undisturbed
    is_same 'the status behind it' 0 "$status"
    is_same 'the lines of the journal behind it' 2 "$(wc -l < "$journal")"
}
tasks '{"id":"a","command":["true"]}'
words=(run "$graph" "${day[@]}" --journal "$journal")
"$program" run "$graph" "${day[@]}" > plain
loses_the_end write 2 1
loses_the_end sync 1 2

# ---- README's own example

line=$(sed -n 's|^\./backfill \(run .* --journal [^ ]*\) > .*|\1|p' "$root/README.md")
read -ra words <<< "${line/\/tmp\//$work/}"
journal=${words[-1]}
cd "$root"
undisturbed
plain=$status
is_same "the status of README's example" 1 "$plain"
cp examples/failed_day/report.txt "$work/plain"
wanted=$(records "$journal")
begins=$work/none
for call in write sync lock; do
    each "$call"
done
cd "$work"

# ---- a program that is just being started

# It has the journal open until it becomes another program, though backfill is killed before.
tasks '{"id":"a","command":["true"]}'
rm -f journal
env REFUSED_PROGRAM=backfill CALL_COUNT="$work/count" SLOWLY_STARTED=3 LD_PRELOAD="$work/refuse.so" "$program" run "$graph" "${day[@]}" \
    --journal journal > out 2> err &
process=$!
is_starting() {
    pgrep -P "$process" > said
}
waits_for is_starting
kills "$process"
tells 2 'refused 44 journal in use' run "$graph" "${day[@]}" --journal journal
is_free() {
    goes_on journal
    [[ $status -ne 2 ]]
}
range=("${day[@]}")
waits_for is_free
is_same 'the status once it is started' 0 "$status"

sum
