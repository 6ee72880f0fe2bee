#!/usr/bin/env bash
# Runs `clear` of the program over small graphs and reports of both versions, by tables and by real programs, and compares
# its exit status and all that it prints with what stands here, which was worked out by hand from docs/SPECIFICATION.md and
# docs/FORMATS.md. The last line is the sum, and the status is 1 where a row differs.
set -euo pipefail

source "$(dirname "$(readlink -f "${BASH_SOURCE[0]}")")/../shared/compare.sh"
from=2024-01-01
to=2024-01-01

# What these words tell is cleared, by this table and 1, 2 and 8 workers, in the report of either version: it ends in this status and
# prints the report on standard input.
clears_told() {
    local status=$1 version workers
    echo "$2" > "$table"
    shift 2
    cat > "$work/cleared"
    for version in 1 2; do
        for workers in 1 2 8; do
            answers "$status" clear "$graph" "$work/report_$version" --from "$from" --to "$to" "$@" \
                --table "$table" --workers "$workers" < "$work/cleared"
        done
    done
}

# A task in the run of a date is cleared.
clears() {
    clears_told "$1" "$4" --task "$2" --run "$3"
}

# The same by the programs of the tasks.
told_to_programs() {
    local status=$1 version workers
    shift
    cat > "$work/cleared"
    for version in 1 2; do
        for workers in 1 2 8; do
            : > "$work/ran"
            answers "$status" clear "$graph" "$work/report_$version" --from "$from" --to "$to" "$@" \
                --workers "$workers" < "$work/cleared"
            is_same "what ran, by $workers workers from a report of version $version" "$(sort "$work/wanted_ran")" "$(sort "$work/ran")"
        done
    done
}
clears_by_programs() {
    told_to_programs "$1" --task "$2" --run "$3"
}

# What would be cleared is told, and nothing runs.
plans() {
    local version
    cat > "$work/planned"
    : > "$work/ran"
    for version in 1 2; do
        answers 0 clear "$graph" "$work/report_$version" --from "$from" --to "$to" "$@" --plan < "$work/planned"
    done
    is_same 'that a plan runs nothing' '' "$(< "$work/ran")"
}

# Clearing is refused, or a fault, whichever version the report has.
is_told() {
    local version status=$1 line=$2
    shift 2
    for version in 1 2; do
        tells "$status" "$line" clear "$graph" "$work/report_$version" --from "$from" --to "$to" --table "$table" "$@"
    done
}

# A list, a task for each of its items, and their sum.

mapped='{"id":"src","command":["echo","[3,1,2]"]},
  {"id":"m","upstream":["src"],"expand":"src","command":["sh","-c","if [ \"$0\" != 1 ]; then echo \"$0\"; fi",{"item":true}]},
  {"id":"sum","upstream":["m"],"command":["echo",{"pull":"m"}]}'
was_mapped() {
    was <<'LINES'
@backfill 2 d
@run 2024-01-01T00:00:00Z 2024-01-02T00:00:00Z success
src -1 success 1 [3,1,2]
m 0 success 1 3
@item 3
m 1 success 1 -
@item 1
m 2 success 1 2
@item 2
sum -1 success 1 [3,2]
@pull m [3,2]
@end 1
LINES
}
tasks "$mapped"
was_mapped
clears 0 m 2024-01-01 '[{"task":"m","index":0,"out":"3"},{"task":"m","index":1,"out":"9"},{"task":"m","index":2,"out":"2"}]' <<'LINES'
@backfill 2 d
@run 2024-01-01T00:00:00Z 2024-01-02T00:00:00Z success
src -1 success 1 [3,1,2]
m 0 success 1 3
@item 3
m 1 success 1 9
@item 1
m 2 success 1 2
@item 2
sum -1 success 1 -
@pull m [3,9,2]
@end 1
LINES
# Its last task alone, by the long form of the date: nothing else is answered by the table.
clears 1 sum 2024-01-01T00:00:00Z '[{"status":1}]' <<'LINES'
@backfill 2 d
@run 2024-01-01T00:00:00Z 2024-01-02T00:00:00Z failed
src -1 success 1 [3,1,2]
m 0 success 1 3
@item 3
m 1 success 1 -
@item 1
m 2 success 1 2
@item 2
sum -1 failed 1 -
@pull m [3,2]
@end 1
LINES
# Its first: all that follows is made anew, for another list.
clears 1 src 2024-01-01 '[{"task":"src","out":"[7]"},{"task":"m","status":1}]' <<'LINES'
@backfill 2 d
@run 2024-01-01T00:00:00Z 2024-01-02T00:00:00Z failed
src -1 success 1 [7]
m 0 failed 1 -
@item 7
sum -1 upstream_failed 0 -
@end 1
LINES
clears 0 src 2024-01-01 '[{"task":"src","out":"[]"}]' <<'LINES'
@backfill 2 d
@run 2024-01-01T00:00:00Z 2024-01-02T00:00:00Z success
src -1 success 1 []
m -1 skipped 0 -
sum -1 skipped 0 -
@end 1
LINES
# An instance alone, which leaves the others of its task; and two of them.
anew='[{"task":"src","out":"[7]"},{"task":"m","index":0,"out":"8"},{"task":"m","index":1,"out":"9"},{"task":"m","out":"6"},{"task":"sum","out":"5"}]'
clears_told 0 "$anew" --task m --run 2024-01-01 --index 1 <<'LINES'
@backfill 2 d
@run 2024-01-01T00:00:00Z 2024-01-02T00:00:00Z success
src -1 success 1 [3,1,2]
m 0 success 1 3
@item 3
m 1 success 1 9
@item 1
m 2 success 1 2
@item 2
sum -1 success 1 5
@pull m [3,9,2]
@end 1
LINES
two_instances() {
    clears_told 0 "$anew" "$@" <<'LINES'
@backfill 2 d
@run 2024-01-01T00:00:00Z 2024-01-02T00:00:00Z success
src -1 success 1 [3,1,2]
m 0 success 1 8
@item 3
m 1 success 1 -
@item 1
m 2 success 1 6
@item 2
sum -1 success 1 5
@pull m [8,6]
@end 1
LINES
}
two_instances --task m --run 2024-01-01 --index 0 --task m --run 2024-01-01 --index 2
two_instances --index 2 --index 0 --task m --task m --run 2024-01-01 --run 2024-01-01T00:00:00Z
seeds=$work/seeds
printf '2024-01-01 m 0\r\n\n2024-01-01T00:00:00Z m 2' > "$seeds"
two_instances --seeds "$seeds"
# One that isn't there: its task is kept, and what follows from it is cleared.
for index in 3 2147483647 -1; do
    clears_told 0 "$anew" --task m --run 2024-01-01 "--index=$index" <<'LINES'
@backfill 2 d
@run 2024-01-01T00:00:00Z 2024-01-02T00:00:00Z success
src -1 success 1 [3,1,2]
m 0 success 1 3
@item 3
m 1 success 1 -
@item 1
m 2 success 1 2
@item 2
sum -1 success 1 5
@pull m [3,2]
@end 1
LINES
done
clears_told 0 "$anew" --task src --run 2024-01-01 --index 0 <<'LINES'
@backfill 2 d
@run 2024-01-01T00:00:00Z 2024-01-02T00:00:00Z success
src -1 success 1 [3,1,2]
m 0 success 1 8
@item 3
m 1 success 1 9
@item 1
m 2 success 1 6
@item 2
sum -1 success 1 5
@pull m [8,9,6]
@end 1
LINES
# That of a task that isn't expanded is -1.
clears_told 0 "$anew" --task src --run 2024-01-01 --index=-1 <<'LINES'
@backfill 2 d
@run 2024-01-01T00:00:00Z 2024-01-02T00:00:00Z success
src -1 success 1 [7]
m 0 success 1 8
@item 7
sum -1 success 1 5
@pull m [8]
@end 1
LINES
# Without a seed, and where nothing has failed, the report stands again.
: > "$seeds"
clears_told 0 '[{"status":1}]' --seeds "$seeds" < "$work/report_2"
clears_told 0 '[{"status":1}]' --failed < "$work/report_2"
echo > "$seeds"
clears_told 0 '[{"status":1}]' --seeds "$seeds" < "$work/report_2"
# What would be cleared: an instance has its index, and its task has none where all of it is cleared.
plans --task m --run 2024-01-01 --index 1 <<'LINES'
2024-01-01T00:00:00Z m 1
2024-01-01T00:00:00Z sum
2 tasks in 1 runs
LINES
printf '2024-01-01 m 2\n2024-01-01 sum\n2024-01-01 m 0\n2024-01-01 m 2\n' > "$seeds"
plans --seeds "$seeds" <<'LINES'
2024-01-01T00:00:00Z m 0
2024-01-01T00:00:00Z m 2
2024-01-01T00:00:00Z sum
2 tasks in 1 runs
LINES
echo '2024-01-01 m' >> "$seeds"
plans --seeds "$seeds" <<'LINES'
2024-01-01T00:00:00Z m
2024-01-01T00:00:00Z sum
2 tasks in 1 runs
LINES
plans --task src --run 2024-01-01 <<'LINES'
2024-01-01T00:00:00Z src
2024-01-01T00:00:00Z m
2024-01-01T00:00:00Z sum
3 tasks in 1 runs
LINES
plans --failed <<< '0 tasks in 0 runs'
# Progress is told on standard error, and counts what is kept as well.
echo '[]' > "$table"
for version in 1 2; do
    "$program" clear "$graph" "$work/report_$version" --from "$from" --to "$to" --task sum --run 2024-01-01 --table "$table" --progress \
        > "$work/out" 2> "$work/err"
    is_same 'the last line of progress' 'runs 1/1 (0 open)  tasks 3/3  running 0  waiting 0  failed 0' "$(tail -n 1 "$work/err")"
done

# The past: what depends on the cleared task in the next run is cleared too.

tasks '{"id":"a","depends_on_past":true}'
to=2024-01-03
was <<'LINES'
@backfill 2 d
@run 2024-01-01T00:00:00Z 2024-01-02T00:00:00Z success
a -1 success 1 -
@run 2024-01-02T00:00:00Z 2024-01-03T00:00:00Z success
a -1 success 1 -
@run 2024-01-03T00:00:00Z 2024-01-04T00:00:00Z success
a -1 success 1 -
@end 3
LINES
clears 1 a 2024-01-01 '[{"run":"2024-01-01T00:00:00Z","status":1}]' <<'LINES'
@backfill 2 d
@run 2024-01-01T00:00:00Z 2024-01-02T00:00:00Z failed
a -1 failed 1 -
@run 2024-01-02T00:00:00Z 2024-01-03T00:00:00Z failed
a -1 no_status 0 -
@run 2024-01-03T00:00:00Z 2024-01-04T00:00:00Z failed
a -1 no_status 0 -
@end 3
LINES
# The day before is kept, whatever the table says of it.
clears 1 a 2024-01-02 '[{"status":1}]' <<'LINES'
@backfill 2 d
@run 2024-01-01T00:00:00Z 2024-01-02T00:00:00Z success
a -1 success 1 -
@run 2024-01-02T00:00:00Z 2024-01-03T00:00:00Z failed
a -1 failed 1 -
@run 2024-01-03T00:00:00Z 2024-01-04T00:00:00Z failed
a -1 no_status 0 -
@end 3
LINES
# A report of failures goes on to success: a task without a try has nothing to keep.
was <<'LINES'
@backfill 2 d
@run 2024-01-01T00:00:00Z 2024-01-02T00:00:00Z failed
a -1 failed 1 -
@run 2024-01-02T00:00:00Z 2024-01-03T00:00:00Z failed
a -1 no_status 0 -
@run 2024-01-03T00:00:00Z 2024-01-04T00:00:00Z failed
a -1 no_status 0 -
@end 3
LINES
clears 0 a 2024-01-01 '[{"out":"7"}]' <<'LINES'
@backfill 2 d
@run 2024-01-01T00:00:00Z 2024-01-02T00:00:00Z success
a -1 success 1 7
@run 2024-01-02T00:00:00Z 2024-01-03T00:00:00Z success
a -1 success 1 7
@run 2024-01-03T00:00:00Z 2024-01-04T00:00:00Z success
a -1 success 1 7
@end 3
LINES
to=2024-01-01

# Kept are the tries of what isn't cleared, the failed ones before the last too, and no day is waited for a retry.

tasks '{"id":"a","retries":2,"retry_delay":86400},{"id":"b"}'
was <<'LINES'
@backfill 2 d
@run 2024-01-01T00:00:00Z 2024-01-02T00:00:00Z success
a -1 success 3 7
b -1 success 1 -
@end 1
LINES
clears 0 b 2024-01-01 '[{"out":"8"}]' <<'LINES'
@backfill 2 d
@run 2024-01-01T00:00:00Z 2024-01-02T00:00:00Z success
a -1 success 3 7
b -1 success 1 8
@end 1
LINES
# More retries than there were: the failed tries are kept, and the others are made.
was <<'LINES'
@backfill 2 d
@run 2024-01-01T00:00:00Z 2024-01-02T00:00:00Z failed
a -1 failed 2 -
b -1 skipped 1 -
@end 1
LINES
clears 0 b 2024-01-01 '[{"task":"a","try":3,"out":"7"},{"task":"a","out":"5"}]' <<'LINES'
@backfill 2 d
@run 2024-01-01T00:00:00Z 2024-01-02T00:00:00Z success
a -1 success 3 7
b -1 success 1 -
@end 1
LINES
# Fewer: the last of them that is asked for is a failed one, and the tries behind it are used no more.
tasks '{"id":"a","retries":1},{"id":"b"}'
was <<'LINES'
@backfill 2 d
@run 2024-01-01T00:00:00Z 2024-01-02T00:00:00Z success
a -1 success 3 7
b -1 success 1 -
@end 1
LINES
clears 1 b 2024-01-01 '[]' <<'LINES'
@backfill 2 d
@run 2024-01-01T00:00:00Z 2024-01-02T00:00:00Z failed
a -1 failed 2 -
b -1 success 1 -
@end 1
LINES

# An outcome that doesn't fit the graph any more isn't kept: a branch that named no direct downstream, and a source that pushed no
# list. What follows from it is kept where it is given the same.

tasks '{"id":"choose","kind":"branch","retries":1},{"id":"left","upstream":["choose"]},{"id":"right","upstream":["choose"]},{"id":"z"}'
was <<'LINES'
@backfill 2 d
@run 2024-01-01T00:00:00Z 2024-01-02T00:00:00Z success
choose -1 success 1 7
left -1 success 1 1
right -1 success 1 2
z -1 success 1 3
@end 1
LINES
clears 0 z 2024-01-01 '[{"task":"choose","out":"left"},{"out":"new"}]' <<'LINES'
@backfill 2 d
@run 2024-01-01T00:00:00Z 2024-01-02T00:00:00Z success
choose -1 success 1 "left"
left -1 success 1 1
right -1 skipped 0 -
z -1 success 1 "new"
@end 1
LINES
sed -i 's/^choose -1 success 1/choose -1 success 2/' "$work"/report_[12]
# The failed try before it is kept.
clears 0 z 2024-01-01 '[{"task":"choose","try":2,"out":"right"},{"task":"choose","out":"left"}]' <<'LINES'
@backfill 2 d
@run 2024-01-01T00:00:00Z 2024-01-02T00:00:00Z success
choose -1 success 2 "right"
left -1 skipped 0 -
right -1 success 1 2
z -1 success 1 -
@end 1
LINES
tasks '{"id":"src"},{"id":"m","upstream":["src"],"expand":"src"},{"id":"z"}'
was <<'LINES'
@backfill 2 d
@run 2024-01-01T00:00:00Z 2024-01-02T00:00:00Z success
src -1 success 1 "two"
m -1 success 1 1
z -1 success 1 3
@end 1
LINES
clears 0 z 2024-01-01 '[{"task":"src","out":"[null,5]"},{"out":"new"}]' <<'LINES'
@backfill 2 d
@run 2024-01-01T00:00:00Z 2024-01-02T00:00:00Z success
src -1 success 1 [null,5]
m 0 success 1 "new"
@item null
m 1 success 1 "new"
@item 5
z -1 success 1 "new"
@end 1
LINES
# One that fits is kept, and its task is expanded now.
sed -i 's/"two"/[5]/' "$work"/report_[12]
clears 0 z 2024-01-01 '[{"out":"new"}]' <<'LINES'
@backfill 2 d
@run 2024-01-01T00:00:00Z 2024-01-02T00:00:00Z success
src -1 success 1 [5]
m 0 success 1 "new"
@item 5
z -1 success 1 "new"
@end 1
LINES

# A try that was given something else than is given now is run anew. Here the report lacks an instance, so that the sum pulled less.

tasks "$mapped,{\"id\":\"z\"}"
was <<'LINES'
@backfill 2 d
@run 2024-01-01T00:00:00Z 2024-01-02T00:00:00Z success
src -1 success 1 [3,1,2]
m 0 success 1 3
@item 3
m 1 success 1 -
@item 1
sum -1 success 1 [3]
@pull m [3]
z -1 success 1 -
@end 1
LINES
clears 0 z 2024-01-01 '[{"task":"m","index":2,"out":"8"},{"out":"new"}]' <<'LINES'
@backfill 2 d
@run 2024-01-01T00:00:00Z 2024-01-02T00:00:00Z success
src -1 success 1 [3,1,2]
m 0 success 1 3
@item 3
m 1 success 1 -
@item 1
m 2 success 1 8
@item 2
sum -1 success 1 "new"
@pull m [3,8]
z -1 success 1 "new"
@end 1
LINES

# So is one whose item, as version 2 tells it, is another than the source gives now.
was <<'LINES'
@backfill 2 d
@run 2024-01-01T00:00:00Z 2024-01-02T00:00:00Z success
src -1 success 1 [3,1,2]
m 0 success 1 3
@item 3
m 1 success 1 -
@item [1]
m 2 success 1 2
@item 2
sum -1 success 1 [3,2]
@pull m [3,2]
z -1 success 1 -
@end 1
LINES
echo '[{"task":"m","out":"8"},{"out":"new"}]' > "$table"
answers 0 clear "$graph" "$work/report_2" --from "$from" --to "$to" --task z --run 2024-01-01 --table "$table" <<'LINES'
@backfill 2 d
@run 2024-01-01T00:00:00Z 2024-01-02T00:00:00Z success
src -1 success 1 [3,1,2]
m 0 success 1 3
@item 3
m 1 success 1 8
@item 1
m 2 success 1 2
@item 2
sum -1 success 1 "new"
@pull m [3,8,2]
z -1 success 1 "new"
@end 1
LINES

# All that is success stands again, byte for byte, by the same table.

cp "$root/examples/every_key/graph.json" "$graph"
cp "$root/examples/every_key/table.json" "$table"
to=2024-01-03T23:59:59Z
"$program" dry "$graph" "$table" --from "$from" --to "$to" > "$work/whole"
was < "$work/whole"
for run in 2024-01-01T05:00:00Z 2024-01-02T05:00:00Z 2024-01-03T05:00:00Z; do
    for task in src m sum; do
        clears 0 "$task" "$run" "$(< "$root/examples/every_key/table.json")" < "$work/whole"
    done
done
to=2024-01-03

# Programs: what isn't cleared isn't run, and what is runs once. Each program writes down its task, date, map index and try.

noted() {
    echo "\"command\":[\"sh\",\"-c\",\"echo \$0 \$1 \$2 \$3 >> $work/ran; $1\",{\"context\":\"task_id\"},{\"context\":\"logical_date\"},{\"context\":\"map_index\"},{\"context\":\"try_number\"}${2:-}]"
}
tasks "{\"id\":\"src\",$(noted 'echo [1,2]')},
  {\"id\":\"m\",\"upstream\":[\"src\"],\"expand\":\"src\",\"retries\":1,\"pool\":\"p\",$(noted 'mkdir '"$work"'/only && rmdir '"$work"'/only && test $3 = $4 && echo $4' ',{"item":true}')},
  {\"id\":\"choose\",\"upstream\":[\"m\"],\"kind\":\"branch\",$(noted 'cat '"$work"'/choice')},
  {\"id\":\"left\",\"upstream\":[\"choose\"],$(noted 'true')},
  {\"id\":\"right\",\"upstream\":[\"choose\"],$(noted 'true')},
  {\"id\":\"join\",\"upstream\":[\"left\",\"right\"],\"rule\":\"none_failed_min_one_success\",$(noted 'echo $4' ',{"pull":"m"}')},
  {\"id\":\"daily\",\"upstream\":[\"choose\"],\"rule\":\"all_done\",\"depends_on_past\":true,$(noted 'true')},
  {\"id\":\"other\",$(noted 'true')}"
sed -i 's/"schedule"/"pools":{"p":1},"schedule"/' "$graph"
# One day of its report, in which the branch followed this task and the daily one. The first item's program succeeds at its first
# try, the second one's at its second.
day() {
    local date=$1 next=$2 left='success 1' right='skipped 0'
    [[ $3 == left ]] || { left='skipped 0' right='success 1'; }
    cat <<LINES
@run ${date}T00:00:00Z ${next}T00:00:00Z success
src -1 success 1 [1,2]
m 0 success 1 1
@item 1
m 1 success 2 2
@item 2
choose -1 success 1 ["$3","daily"]
left -1 $left -
right -1 $right -
join -1 success 1 [1,2]
@pull m [1,2]
daily -1 success 1 -
other -1 success 1 -
LINES
}
three_days() {
    echo '@backfill 2 d'
    day 2024-01-01 2024-01-02 "$1"
    day 2024-01-02 2024-01-03 "$2"
    day 2024-01-03 2024-01-04 "$3"
    echo '@end 3'
}
echo '["left","daily"]' > "$work/choice"
for workers in 1 2 8; do
    : > "$work/ran"
    answers 0 run "$graph" --from "$from" --to "$to" --workers "$workers" < <(three_days left left left)
    # In each run a program for all tasks but the one that is skipped, two of the expanded one, and one retry.
    is_same "how many programs ran, by $workers workers" 27 "$(wc -l < "$work/ran")"
done
was < <(three_days left left left)
echo '["right","daily"]' > "$work/choice"
cat > "$work/wanted_ran" <<'LINES'
choose 2024-01-02T00:00:00Z -1 1
right 2024-01-02T00:00:00Z -1 1
join 2024-01-02T00:00:00Z -1 1
daily 2024-01-02T00:00:00Z -1 1
daily 2024-01-03T00:00:00Z -1 1
LINES
clears_by_programs 0 choose 2024-01-02 < <(three_days left right left)
cat > "$work/wanted_ran" <<'LINES'
m 2024-01-03T00:00:00Z 0 1
m 2024-01-03T00:00:00Z 1 1
m 2024-01-03T00:00:00Z 1 2
choose 2024-01-03T00:00:00Z -1 1
right 2024-01-03T00:00:00Z -1 1
join 2024-01-03T00:00:00Z -1 1
daily 2024-01-03T00:00:00Z -1 1
LINES
clears_by_programs 0 m 2024-01-03 < <(three_days left left right)
echo 'other 2024-01-01T00:00:00Z -1 1' > "$work/wanted_ran"
clears_by_programs 0 other 2024-01-01 < <(three_days left left left)
plans --task choose --run 2024-01-02 <<'LINES'
2024-01-02T00:00:00Z choose
2024-01-02T00:00:00Z left
2024-01-02T00:00:00Z right
2024-01-02T00:00:00Z join
2024-01-02T00:00:00Z daily
2024-01-03T00:00:00Z daily
6 tasks in 2 runs
LINES

# Five tasks in one call: the report is that of five calls, and each program starts once, also where one follows from another.

tasks "{\"id\":\"a\",$(noted "cat $work/value")},
  {\"id\":\"b\",\"upstream\":[\"a\"],$(noted "cat $work/value")},
  {\"id\":\"c\",\"upstream\":[\"a\"],$(noted "cat $work/value")}"
valued() {
    local dates=(2024-01-01 2024-01-02 2024-01-03 2024-01-04) run
    echo '@backfill 2 d'
    for run in 0 1 2; do
        echo "@run ${dates[run]}T00:00:00Z ${dates[run + 1]}T00:00:00Z success"
        printf 'a -1 success 1 %s\nb -1 success 1 %s\nc -1 success 1 %s\n' "$1" "$2" "$3"
        shift 3
    done
    echo '@end 3'
}
was < <(valued 1 1 1 1 1 1 1 1 1)
echo 2 > "$work/value"
cat > "$work/wanted_ran" <<'LINES'
a 2024-01-01T00:00:00Z -1 1
b 2024-01-01T00:00:00Z -1 1
c 2024-01-01T00:00:00Z -1 1
c 2024-01-02T00:00:00Z -1 1
a 2024-01-03T00:00:00Z -1 1
b 2024-01-03T00:00:00Z -1 1
c 2024-01-03T00:00:00Z -1 1
LINES
five=('b 2024-01-01' 'a 2024-01-01' 'c 2024-01-02' 'a 2024-01-03' 'b 2024-01-03')
words=()
: > "$seeds"
cp "$work/report_2" "$work/by_five"
for one in "${five[@]}"; do
    words+=(--task "${one% *}" --run "${one#* }")
    echo "${one#* } ${one% *}" >> "$seeds"
    "$program" clear "$graph" "$work/by_five" --from "$from" --to "$to" --task "${one% *}" --run "${one#* }" --out "$work/by_five"
done
is_same 'the report of five calls' "$(valued 2 2 2 1 1 2 2 2 2)" "$(< "$work/by_five")"
told_to_programs 0 "${words[@]}" < <(valued 2 2 2 1 1 2 2 2 2)
told_to_programs 0 --seeds "$seeds" < <(valued 2 2 2 1 1 2 2 2 2)
seven() {
    cat <<'LINES'
2024-01-01T00:00:00Z a
2024-01-01T00:00:00Z b
2024-01-01T00:00:00Z c
2024-01-02T00:00:00Z c
2024-01-03T00:00:00Z a
2024-01-03T00:00:00Z b
2024-01-03T00:00:00Z c
7 tasks in 3 runs
LINES
}
plans "${words[@]}" < <(seven)
plans --seeds "$seeds" < <(seven)
# Its lines are those of a seeds file, but for the last.
seven | head -n -1 > "$seeds"
plans --seeds "$seeds" < <(seven)
# With --out it goes to a file, and what tries are made with is passed over.
answers 0 clear "$graph" "$work/report_2" --from "$from" --to "$to" --seeds "$seeds" --plan --out "$work/plan" \
    --launcher "$work/none" --table "$work/none" --journal "$work/none" --workers 8 < /dev/null
is_same 'a plan in a file' "$(seven)" "$(< "$work/plan")"
is_same 'that no journal is begun' '' "$(ls "$work/none" 2> "$work/said" || true)"
to=2024-01-01

# Fifty parts, one of which failed: that one and what follows from it run again.

parts=$(seq -s, 50)
tasks "{\"id\":\"src\",$(noted "echo [$parts]")},
  {\"id\":\"m\",\"upstream\":[\"src\"],\"expand\":\"src\",$(noted 'echo $4' ',{"item":true}')},
  {\"id\":\"sum\",\"upstream\":[\"m\"],$(noted 'echo $4' ',{"pull":"m"}')}"
fifty() {
    local part
    printf '@backfill 2 d\n@run 2024-01-01T00:00:00Z 2024-01-02T00:00:00Z %s\nsrc -1 success 1 [%s]\n' "$1" "$parts"
    for ((part = 0; part < 50; part++)); do
        if [[ $part -eq 16 ]]; then
            echo "m 16 $2"
        else
            echo "m $part success 1 $((part + 1))"
        fi
        echo "@item $((part + 1))"
    done
    printf '%s\n@end 1\n' "$3"
}
failed() {
    fifty failed 'failed 1 -' 'sum -1 upstream_failed 0 -'
}
mended() {
    fifty success 'success 1 17' "sum -1 success 1 [$parts]"$'\n'"@pull m [$parts]"
}
was < <(failed)
cat > "$work/wanted_ran" <<'LINES'
m 2024-01-01T00:00:00Z 16 1
sum 2024-01-01T00:00:00Z -1 1
LINES
told_to_programs 0 --failed < <(mended)
told_to_programs 0 --task m --run 2024-01-01 --index 16 < <(mended)
clears_told 1 '[{"task":"m","index":16,"status":1},{"out":"9"}]' --failed < <(failed)
plans --failed <<'LINES'
2024-01-01T00:00:00Z m 16
2024-01-01T00:00:00Z sum
2 tasks in 1 runs
LINES
was < <(mended)
: > "$work/wanted_ran"
told_to_programs 0 --failed < <(mended)
plans --failed <<< '0 tasks in 0 runs'

# Seeds and reports that are refused.

tasks "$mapped"
was_mapped
echo '[]' > "$table"
is_told 2 'refused 40 unknown task' --task q --run 2024-01-01
is_told 2 'refused 40 unknown task' --task '' --run 2024-01-01
is_told 2 'refused 41 unknown run' --task m --run 2024-02-01
is_told 2 'refused 41 unknown run' --task m --run 2024-01-02
is_told 2 'refused 41 unknown run' --task m --run 2024-01-01T00:00:01Z
is_told 2 'refused 41 unknown run' --task m --run 1969-12-31
is_told 2 'refused 41 unknown run' --task m --run 2200-01-01
is_told 2 'refused 41 unknown run' --task m --run 0000-01-01
is_told 2 'refused 41 unknown run' --task m --run 9999-12-31T23:59:59Z
is_told 2 'refused 28 bad moment' --task m --run 2024-02-30
is_told 2 'refused 28 bad moment' --task m --run 2024-01-01T24:00:00Z
# An unknown task comes before an unknown run, also of an earlier seed, and both before a report of something else.
is_told 2 'refused 40 unknown task' --task q --run 2024-02-01
is_told 2 'refused 40 unknown task' --task m --run 2024-02-01 --task q --run 2024-01-01
is_told 2 'refused 41 unknown run' --task m --run 2024-01-01 --task m --run 2024-02-01
is_told 2 'refused 28 bad moment' --task q --run 2024-02-01 --task m --run x
# Lines of a seeds file that are of another form; the earliest that is refused is told, whichever number it has.
bad_lines() {
    local line
    while IFS= read -r line; do
        echo "$line" > "$seeds"
        is_told 2 "refused 45 bad seed: $line" --seeds "$seeds"
    done
}
bad_lines <<'LINES'
x
m
2024-01-01
m 2024-01-01
2024-01-01  m
 2024-01-01 m
2024-01-01 m x
2024-01-01 m 01
2024-01-01 m +1
2024-01-01 m -2
2024-01-01 m 2147483648
2024-01-01 m  1
2024-01-01 m 1 2
2024-02-30 m
2024-01-01T24:00:00Z m
LINES
bad_lines <<< ' '
bad_lines <<< '2024-01-01 m '
earliest() {
    local line=$1
    shift
    printf '%s\n' "$@" > "$seeds"
    is_told 2 "$line" --seeds "$seeds"
}
earliest 'refused 40 unknown task' '2024-01-01 q' x '2024-02-01 m'
# What a terminal doesn't show is escaped, and a long line cut.
earliest 'refused 45 bad seed: 2024-01-01\u0009m' $'2024-01-01\tm'
earliest 'refused 45 bad seed: \u001b[31m\u009bx\u202e\udb40\udc41' $'\e[31m\u009bx\u202e\U000e0041'
long_line=$(printf 'x%.0s' {1..200})
earliest "refused 45 bad seed: $long_line" "$long_line"
earliest "refused 45 bad seed: $long_line... (1,201 characters)" "$long_line$long_line$long_line$long_line$long_line${long_line}y"
earliest 'refused 41 unknown run' '2024-02-01 m' '2024-01-01 q' x
earliest 'refused 45 bad seed: x' x '2024-01-01 q' '2024-02-01 m'
earliest 'refused 45 bad seed: x' '2024-01-01 m' '' '2024-01-01 sum -1' x y
earliest 'refused 40 unknown task' '2024-02-01 q'
earliest 'refused 40 unknown task' '2024-01-01 m,'
printf '2024-01-01 m\nx\n\377\n' > "$seeds"
is_told 2 'refused 45 bad seed: file' --seeds "$seeds"
sed -i 's/"dag_id":"d"/"dag_id":"e"/' "$graph"
is_told 2 'refused 40 unknown task' --task q --run 2024-01-01
is_told 2 'refused 41 unknown run' --task m --run 2024-02-01
is_told 2 'refused 42 report mismatch' --task m --run 2024-01-01
is_told 2 'refused 42 report mismatch' --failed
earliest 'refused 45 bad seed: x' x
earliest 'refused 42 report mismatch' '2024-01-01 m'
# Another range, by a run more or less.
tasks "$mapped"
to=2024-01-02
is_told 2 'refused 42 report mismatch' --task m --run 2024-01-02
is_told 2 'refused 42 report mismatch' --task m --run 2024-01-01
to=2024-01-01
# Another end of the data interval.
sed -i 's/"@daily"/"0 0 1,3 * *"/' "$graph"
is_told 2 'refused 42 report mismatch' --task m --run 2024-01-01
# A task more, a task less, another order of the tasks, and another id.
tasks "$mapped,{\"id\":\"z\"}"
is_told 2 'refused 42 report mismatch' --task m --run 2024-01-01
tasks '{"id":"src"},{"id":"m","upstream":["src"],"expand":"src"}'
is_told 2 'refused 42 report mismatch' --task m --run 2024-01-01
tasks '{"id":"m","upstream":["src"],"expand":"src"},{"id":"src"},{"id":"sum","upstream":["m"],"command":[{"pull":"m"}]}'
is_told 2 'refused 42 report mismatch' --task m --run 2024-01-01
tasks "${mapped/\"id\":\"sum\"/\"id\":\"Sum\"}"
is_told 2 'refused 42 report mismatch' --task m --run 2024-01-01
# Other pulls, which version 2 alone tells, of what is cleared too.
tasks "${mapped/\{\"pull\":\"m\"\}/\{\"pull\":\"src\"\}}"
tells 2 'refused 42 report mismatch' clear "$graph" "$work/report_2" --from "$from" --to "$to" --table "$table" --task sum --run 2024-01-01
answers 0 clear "$graph" "$work/report_1" --from "$from" --to "$to" --table "$table" --task sum --run 2024-01-01 <<'LINES'
@backfill 2 d
@run 2024-01-01T00:00:00Z 2024-01-02T00:00:00Z success
src -1 success 1 [3,1,2]
m 0 success 1 3
@item 3
m 1 success 1 -
@item 1
m 2 success 1 2
@item 2
sum -1 success 1 -
@pull src [3,1,2]
@end 1
LINES
# A range without runs has no run to clear.
sed -i 's/"@daily"/"@weekly"/' "$graph"
was <<'LINES'
@backfill 2 d
@end 0
LINES
is_told 2 'refused 40 unknown task' --task q --run 2024-01-01
is_told 2 'refused 41 unknown run' --task m --run 2024-01-01

# Reports that are none.

tasks "$mapped"
was_mapped
grep -v '^@item 1$' "$work/report_2" > "$work/report"
goes_on_from() {
    tells "$1" "$2" clear "$graph" "${3-$work/report}" --from "$from" --to "$to" --table "$table" --task m --run 2024-01-01
}
goes_on_from 2 'refused 30 bad line: 7'
sed '1s/2/1/' "$work/report_2" > "$work/report"
goes_on_from 2 'refused 30 bad line: 5'
sed '1s/2/3/' "$work/report_2" > "$work/report"
goes_on_from 2 'refused 30 bad line: 1'
sed '6s/success 1/success 01/' "$work/report_2" > "$work/report"
goes_on_from 2 'refused 30 bad line: 6'
sed 's/$/\r/' "$work/report_2" > "$work/report"
goes_on_from 2 'refused 30 bad line: 1'
sed 's/^@end 1/@end 2/' "$work/report_2" > "$work/report"
goes_on_from 2 'refused 30 bad line: 12'
{
    head -n 2 "$work/report_2"
    head -c 66001 /dev/zero | tr '\0' 'x'
} > "$work/report"
goes_on_from 2 'refused 31 line too long: 3'
: > "$work/report"
goes_on_from 2 'refused 32 truncated'
goes_on_from 2 'refused 32 truncated' /dev/null
goes_on_from 3 "fault: cannot read $work/none" "$work/none"
goes_on_from 3 "fault: cannot read $work" "$work"
goes_on_from 3 'fault: cannot read ' ''

# Each proper beginning of a report, and a report with one more byte.

cut_of() {
    local bytes count
    bytes=$(wc -c < "$1")
    for ((count = 0; count < bytes; count++)); do
        head -c "$count" "$1" > "$work/report"
        goes_on_from 2 'refused 32 truncated'
    done
    for byte in '\n' '\0' ' ' '@' '\377'; do
        { cat "$1"; printf "$byte"; } > "$work/report"
        goes_on_from 2 "refused 30 bad line: $(($(wc -l < "$1") + 1))"
    done
}
cut_of "$work/report_2"
tasks '{"id":"m"}'
was <<'LINES'
@backfill 2 d
@run 2024-01-01T00:00:00Z 2024-01-02T00:00:00Z success
m -1 success 1 -
@end 1
LINES
cut_of "$work/report_1"

# The order of looking: each of these has all the faults of those below it too.

echo '{' > "$work/bad_graph"
echo '{}' > "$work/bad_table"
echo '@backfill' > "$work/bad_report"
none=$work/none
moments=(--from 2024-01-01 --to 2024-01-01 --run 2024-02-01)
reversed=(--from 2024-01-02 --to 2024-01-01 --run 2024-02-01)
tells 2 'refused 28 bad moment' clear "$none" "$none" --task q --from x --to 2024-01-01 --run 2024-01-01
tells 2 'refused 28 bad moment' clear "$none" "$none" --task q --from 2024-01-01 --to x --run 2024-01-01
tells 2 'refused 28 bad moment' clear "$none" "$none" --task q --from 2024-01-01 --to 2024-01-01 --run x
tells 3 "fault: cannot read $none" clear "$none" "$none.r" "${reversed[@]}" --task q --zone-file "$none.z" --table "$none.t"
tells 3 "fault: cannot read $none.z" clear "$work/bad_graph" "$none.r" "${reversed[@]}" --task q --zone-file "$none.z" --table "$none.t"
tells 3 "fault: cannot read $none.t" clear "$work/bad_graph" "$none.r" "${reversed[@]}" --task q --table "$none.t"
tells 2 'refused 1 not json' clear "$work/bad_graph" "$none.r" "${reversed[@]}" --task q --table "$work/bad_table"
tells 2 'refused 19 bad table: file' clear "$graph" "$none.r" "${reversed[@]}" --task q --table "$work/bad_table"
tells 2 'refused 26 range reversed' clear "$graph" "$none.r" "${reversed[@]}" --task q --table "$table"
tells 2 'refused 25 outside years' clear "$graph" "$none.r" --from 2024-01-01 --to 2200-01-01 --run 2024-02-01 --task q
tells 3 "fault: cannot read $none.r" clear "$graph" "$none.r" "${moments[@]}" --task q --table "$table"
tells 2 'refused 30 bad line: 1' clear "$graph" "$work/bad_report" "${moments[@]}" --task q --table "$table"
tells 2 'refused 40 unknown task' clear "$graph" "$work/report_2" "${moments[@]}" --task q --table "$table"
tells 2 'refused 41 unknown run' clear "$graph" "$work/report_2" "${moments[@]}" --task m --table "$table"
# The seeds file is read behind the table, and looked at behind the report, also for a plan.
echo x > "$seeds"
backwards=(--from 2024-01-02 --to 2024-01-01)
tells 3 "fault: cannot read $none.t" clear "$work/bad_graph" "$none.r" "${backwards[@]}" --seeds "$none.s" --table "$none.t"
tells 3 "fault: cannot read $none.s" clear "$work/bad_graph" "$none.r" "${backwards[@]}" --seeds "$none.s" --table "$work/bad_table"
for plan in '' --plan; do
    tells 2 'refused 28 bad moment' clear "$none" "$none" --from 2024-01-01 --to x ${plan:+"$plan"} --seeds "$none"
    tells 3 "fault: cannot read $none" clear "$none" "$none.r" "${backwards[@]}" ${plan:+"$plan"} --seeds "$none.s"
    tells 3 "fault: cannot read $none.s" clear "$work/bad_graph" "$none.r" "${backwards[@]}" ${plan:+"$plan"} --seeds "$none.s"
    tells 2 'refused 1 not json' clear "$work/bad_graph" "$none.r" "${backwards[@]}" ${plan:+"$plan"} --seeds "$seeds"
    tells 2 'refused 26 range reversed' clear "$graph" "$none.r" "${backwards[@]}" ${plan:+"$plan"} --seeds "$seeds"
    tells 3 "fault: cannot read $none.r" clear "$graph" "$none.r" --from 2024-01-01 --to 2024-01-01 ${plan:+"$plan"} --seeds "$seeds"
    tells 2 'refused 30 bad line: 1' clear "$graph" "$work/bad_report" --from 2024-01-01 --to 2024-01-01 ${plan:+"$plan"} --seeds "$seeds"
    tells 2 'refused 45 bad seed: x' clear "$graph" "$work/report_2" --from 2024-01-01 --to 2024-01-02 ${plan:+"$plan"} --seeds "$seeds"
    tells 2 'refused 42 report mismatch' clear "$graph" "$work/report_2" --from 2024-01-01 --to 2024-01-02 ${plan:+"$plan"} --failed
done
echo '{"dag_id":"d","schedule":"* * * * *","tasks":[]}' > "$graph"
tells 2 'refused 27 too many runs' clear "$graph" "$none.r" --from 2024-01-01 --to 2024-01-03T20:16:00Z --run 2024-01-01 --task q

sum
