#!/usr/bin/env bash
# Runs the program over small graphs, and compares its exit status and all that it prints with what stands here, which
# was worked out by hand from docs/SPECIFICATION.md and docs/FORMATS.md. The last line is the sum, and the status is 1 where a
# row differs.
set -euo pipefail

source "$(dirname "$(readlink -f "${BASH_SOURCE[0]}")")/../shared/compare.sh"

# The graph that was written is refused, by each command alike.
is_refused() {
    echo '[]' > "$table"
    tells 2 "refused $1" check "$graph"
    tells 2 "refused $1" list "$graph" --from 2024-01-01 --to 2024-01-01
    tells 2 "refused $1" single "$graph" "$table" --at 2024-01-01
    tells 2 "refused $1" dry "$graph" "$table" --from 2024-01-01 --to 2024-01-01
    tells 2 "refused $1" run "$graph" --from 2024-01-01 --to 2024-01-01
}

# The graph that was written, run at 2024-01-01 by this table and for that day by 1, 2 and 8 workers, ends in this state with the instances on
# standard input.
runs() {
    local state=$1 status=0 workers
    echo "$2" > "$table"
    [[ $state == success ]] || status=1
    cat > "$work/instances"
    answers "$status" single "$graph" "$table" --at 2024-01-01 < <(one_run 2024-01-01T00:00:00Z "$state" < "$work/instances")
    for workers in 1 2 8; do
        answers "$status" dry "$graph" "$table" "${day[@]}" --workers "$workers" < <(one_day "$state" < "$work/instances")
    done
}

# The data intervals of the graph that was written, from and to these moments, are those on standard input.
lists() {
    answers 0 list "$graph" --from "$1" --to "$2"
}

# Each interval of one minute that starts from 2024-01-01 to 2024-01-03T20:15:00Z.
minutes() {
    local second
    for ((second = 1704067200; second <= 1704312900; second += 60)); do
        TZ=UTC0 printf '%(%FT%TZ)T %(%FT%TZ)T\n' "$second" "$((second + 60))"
    done
}

# Graphs that are whole.

answers 0 check "$root/examples/every_key/graph.json" <<< 'ok 3 tasks, 2 edges'
tasks '{"id":"a"},{"id":"b","upstream":["a","a"]}'
answers 0 check "$graph" <<< 'ok 2 tasks, 1 edges'

# Graph files that are refused, and by what.

while IFS= read -r row; do
    echo "${row%% => *}" > "$graph"
    is_refused "${row##* => }"
done <<'ROWS'
{"dag_id":"d","schedule":"@daily","tasks":[] => 1 not json
[] => 2 shape: top
{"dag_id":"d","schedule":"@daily","tasks":[],"owner":"me"} => 2 shape: top
{"dag_id":"d","tasks":[]} => 2 shape: schedule
{"dag_id":"d","schedule":"@daily","pools":{"p":"2"},"tasks":[]} => 2 shape: pools
{"dag_id":"","schedule":"@daily","tasks":[]} => 3 bad name: dag_id
{"dag_id":"d","schedule":"@daily","max_active_runs":4097,"tasks":[]} => 5 limit passed: max_active_runs
{"dag_id":"d","schedule":"@daily","pools":{"p":0},"tasks":[]} => 5 limit passed: pools
{"dag_id":"d","schedule":"@daily","pools":{"p":2},"tasks":[{"id":"a","pool":"p","pool_slots":3}]} => 9 slots beyond pool: a
ROWS

# Tasks that are refused, and by what.

while IFS= read -r row; do
    tasks "${row%% => *}"
    is_refused "${row##* => }"
done <<'ROWS'
{"id":"a"},{"id":"b","retries":1.5} => 2 shape: tasks[1].retries
{"id":"a"},{"id":"b","sla":1} => 2 shape: tasks[1]
{"id":"a","command":[{"context":"ds"}]} => 2 shape: tasks[0].command
{"id":"a","command":[{"item":true}]} => 2 shape: tasks[0].command
{"id":"a b"} => 3 bad name: tasks[0].id
{"id":"a"},{"id":"b"},{"id":"a"} => 4 duplicate task: a
{"id":"a","retries":101} => 5 limit passed: tasks[0].retries
{"id":"a","retry_delay":86401} => 5 limit passed: tasks[0].retry_delay
{"id":"a","retry_delay":-1} => 5 limit passed: tasks[0].retry_delay
{"id":"a","retry_delay":"60"} => 2 shape: tasks[0].retry_delay
{"id":"a","retries":101,"retry_delay":86401} => 5 limit passed: tasks[0].retries
{"id":"a"},{"id":"b","upstream":["a","c"]} => 6 unknown upstream: b
{"id":"a","upstream":["b"]},{"id":"b","upstream":["a"]} => 7 cycle: a b
{"id":"a","upstream":["a"]} => 7 cycle: a
{"id":"a","pool":"p"} => 8 unknown pool: a
{"id":"a","pool_slots":129} => 9 slots beyond pool: a
{"id":"a","rule":"all_succeeded"} => 10 bad rule: a
{"id":"slow"},{"id":"fast"},{"id":"t","upstream":["slow","fast"],"rule":"one_success","command":[{"pull":"fast"}]} => 14 pull not settled: t
{"id":"a"},{"id":"b","command":[{"pull":"a"}]} => 14 pull not settled: b
{"id":"a"},{"id":"b","upstream":["a"]},{"id":"c","upstream":["b"],"expand":"a"} => 15 expand source: c
{"id":"a"},{"id":"b","upstream":["a"],"expand":"a","rule":"always"} => 16 expand rule: b
{"id":"a"},{"id":"b","upstream":["a"],"expand":"a","kind":"branch"} => 17 branch misuse: b
ROWS

# Schedules, and zones of @daily, that are refused.

for schedule in '60 * * * *' '0 0 * * sat-sun' '@once'; do
    scheduled "$schedule"
    is_refused '11 bad cron'
done
scheduled '0 0 30 2 *'
is_refused '12 never fires'
for zone in file Europe/Paris +1:00 CET-1CEST; do
    scheduled @daily "$zone"
    is_refused '13 bad zone'
done
scheduled @daily file
tells 2 'refused 13 bad zone' check "$graph" --zone-file "$graph"

# A run: each task, map index, state, number of tries, and value.

tasks '{"id":"a"}'
runs success '[]' <<< 'a -1 success 1 -'
tasks ''
runs success '[]' < /dev/null

tasks '{"id":"a","retries":2},{"id":"b","upstream":["a"]}'
runs success '[{"task":"a","try":3},{"task":"a","status":1}]' <<'LINES'
a -1 success 3 -
b -1 success 1 -
LINES
runs success '[{"task":"a","status":99}]' <<'LINES'
a -1 skipped 1 -
b -1 skipped 0 -
LINES
tasks '{"id":"a","retries":1},{"id":"b","upstream":["a"]}'
runs failed '[{"task":"a","try":3},{"task":"a","status":1}]' <<'LINES'
a -1 failed 2 -
b -1 upstream_failed 0 -
LINES

# A table waits for nobody, however long a retry is to wait.
tasks '{"id":"a","retries":1,"retry_delay":86400}'
runs success '[{"try":1,"status":1}]' <<< 'a -1 success 2 -'

tasks '{"id":"x"},{"id":"y"},{"id":"z","upstream":["x","y"]}'
runs failed '[{"task":"x","status":99},{"task":"y","status":1}]' <<'LINES'
x -1 skipped 1 -
y -1 failed 1 -
z -1 upstream_failed 0 -
LINES
runs success '[{"task":"x","status":99},{"task":"y","status":0}]' <<'LINES'
x -1 skipped 1 -
y -1 success 1 -
z -1 skipped 0 -
LINES
runs failed '[{"task":"z","status":255}]' <<'LINES'
x -1 success 1 -
y -1 success 1 -
z -1 failed 1 -
LINES
runs success '[{"task":"z","status":99},{"task":"w","status":1},{"task":"z","status":1}]' <<'LINES'
x -1 success 1 -
y -1 success 1 -
z -1 skipped 1 -
LINES
runs failed '[{"task":"x"},{"status":98}]' <<'LINES'
x -1 success 1 -
y -1 failed 1 -
z -1 upstream_failed 0 -
LINES

# Tasks that stand in the file before their upstreams, and a diamond.
tasks '{"id":"c","upstream":["b"]},{"id":"b","upstream":["a","a"]},{"id":"a","upstream":[]}'
runs success '[{}]' <<'LINES'
c -1 success 1 -
b -1 success 1 -
a -1 success 1 -
LINES
runs failed '[{"task":"a","status":2}]' <<'LINES'
c -1 upstream_failed 0 -
b -1 upstream_failed 0 -
a -1 failed 1 -
LINES
tasks '{"id":"top"},{"id":"left","upstream":["top"]},{"id":"right","upstream":["top"]},{"upstream":["left","right"],"id":"foot"}'
runs failed '[{"task":"left","status":1}]' <<'LINES'
top -1 success 1 -
left -1 failed 1 -
right -1 success 1 -
foot -1 upstream_failed 0 -
LINES
runs success '[{"task":"top","status":99},{"task":"foot","status":1}]' <<'LINES'
top -1 skipped 1 -
left -1 skipped 0 -
right -1 skipped 0 -
foot -1 skipped 0 -
LINES

tasks '{"id":"x"},{"id":"y"},{"id":"z","upstream":["x","y"],"rule":"one_success"}'
runs success '[{"task":"x","status":99},{"task":"y","status":99}]' <<'LINES'
x -1 skipped 1 -
y -1 skipped 1 -
z -1 skipped 0 -
LINES
runs failed '[{"task":"x","status":99},{"task":"y","status":1}]' <<'LINES'
x -1 skipped 1 -
y -1 failed 1 -
z -1 upstream_failed 0 -
LINES

# A leaf that succeeds makes the run a success, whatever came before it.
tasks '{"id":"x"},{"id":"z","upstream":["x"],"rule":"all_done"}'
runs success '[{"task":"x","status":1}]' <<'LINES'
x -1 failed 1 -
z -1 success 1 -
LINES
# Pools bound what runs at once, and not what comes of it.
echo '{"dag_id":"d","schedule":"@daily","max_active_runs":1,"pools":{"p":2},"tasks":[{"id":"x","pool":"p","pool_slots":2},{"id":"z","upstream":["x"],"pool":"p","rule":"one_failed"}]}' > "$graph"
runs success '[]' <<'LINES'
x -1 success 1 -
z -1 skipped 0 -
LINES

tasks '{"id":"b","kind":"branch"},{"id":"p","upstream":["b"]},{"id":"join","upstream":["b","p"],"rule":"none_failed_min_one_success"}'
runs success '[{"task":"b","out":"\"p\""}]' <<'LINES'
b -1 success 1 "p"
p -1 success 1 -
join -1 success 1 -
LINES
runs success '[{"task":"b","out":"[]"}]' <<'LINES'
b -1 success 1 []
p -1 skipped 0 -
join -1 skipped 0 -
LINES
# The join alone is named: what leads to it is skipped, and its rule finds no success but the branch's.
runs success '[{"task":"b","out":"[\"join\"]"}]' <<'LINES'
b -1 success 1 ["join"]
p -1 skipped 0 -
join -1 success 1 -
LINES
runs success '[{"task":"b","status":99}]' <<'LINES'
b -1 skipped 1 -
p -1 skipped 0 -
join -1 skipped 0 -
LINES
# What the branch prints is no direct downstream of it.
tasks '{"id":"b","kind":"branch"},{"id":"m","upstream":["b"]},{"id":"e","upstream":["m"]}'
runs failed '[{"task":"b","out":"e"}]' <<'LINES'
b -1 failed 1 -
m -1 upstream_failed 0 -
e -1 upstream_failed 0 -
LINES

tasks '{"id":"b","kind":"branch"},{"id":"x","upstream":["b"]},{"id":"y","upstream":["b"]},{"id":"z","upstream":["x","y"],"rule":"one_success"}'
runs success '[{"task":"b","out":"[\"y\",\"y\"]\n"}]' <<'LINES'
b -1 success 1 ["y","y"]
x -1 skipped 0 -
y -1 success 1 -
z -1 success 1 -
LINES
# A branch skips what it doesn't follow under each rule.
tasks '{"id":"b","kind":"branch"},{"id":"z","upstream":["b"],"rule":"always"}'
runs success '[{"task":"b"}]' <<'LINES'
b -1 success 1 -
z -1 skipped 0 -
LINES

# Expanded tasks.

tasks '{"id":"src"},{"id":"m","upstream":["src"],"expand":"src"}'
runs success '[{"task":"src","out":"[]"}]' <<'LINES'
src -1 success 1 []
m -1 skipped 0 -
LINES
runs failed '[{"task":"src","out":"5"}]' <<'LINES'
src -1 failed 1 -
m -1 upstream_failed 0 -
LINES
list=$(printf '0,%.0s' {1..1023})0
runs success "[{\"task\":\"src\",\"out\":\"[$list]\"}]" < <(
    echo "src -1 success 1 [$list]"
    printf 'm %d success 1 -\n@item 0\n' {0..1023}
)
runs failed "[{\"task\":\"src\",\"out\":\"[0,$list]\"}]" <<'LINES'
src -1 failed 1 -
m -1 upstream_failed 0 -
LINES
tasks '{"id":"src"},{"id":"m","upstream":["src"],"expand":"src"},{"id":"n","upstream":["m"],"expand":"m","rule":"all_done"}'
runs success '[{"task":"src","out":"[1,2,3]"},{"task":"m","index":0,"out":"1"},{"task":"m","index":1,"status":1},{"task":"m","index":2,"out":"3"}]' <<'LINES'
src -1 success 1 [1,2,3]
m 0 success 1 1
@item 1
m 1 failed 1 -
@item 2
m 2 success 1 3
@item 3
n 0 success 1 -
@item 1
n 1 success 1 -
@item 3
LINES
tasks '{"id":"src"},{"id":"m","upstream":["src"],"expand":"src"},{"id":"sum","upstream":["m"],"command":["echo",{"pull":"m"}]}'
runs success '[{"task":"src","out":"[3,1,2]"},{"task":"m","index":0,"out":"3"},{"task":"m","index":2,"out":"2"},{"task":"sum","out":"[3,2]"}]' <<'LINES'
src -1 success 1 [3,1,2]
m 0 success 1 3
@item 3
m 1 success 1 -
@item 1
m 2 success 1 2
@item 2
sum -1 success 1 [3,2]
@pull m [3,2]
LINES
# What each of its tries was given stands behind the line of an instance: the item, which may be null, and what was pulled, in the
# order of first use in the command, `-` where nothing was pushed. A task without a try was given nothing.
tasks '{"id":"src"},{"id":"m","upstream":["src","a","b"],"expand":"src","retries":1,"command":["echo",{"pull":"b"},{"item":true},{"pull":"a"},{"pull":"b"}]},{"id":"a","upstream":["src"]},{"id":"b","upstream":["src"]},{"id":"z","upstream":["m"],"command":[{"pull":"m"}]}'
runs failed '[{"task":"src","out":"[null,[\"-\"]]"},{"task":"a","out":"\"-\""},{"task":"m","index":0,"try":2,"out":"7"},{"task":"m","status":1}]' <<'LINES'
src -1 success 1 [null,["-"]]
m 0 success 2 7
@item null
@pull b -
@pull a "-"
m 1 failed 2 -
@item ["-"]
@pull b -
@pull a "-"
a -1 success 1 "-"
b -1 success 1 -
z -1 upstream_failed 0 -
LINES

# Several runs, and the past.

echo '[]' > "$table"
tasks ''
answers 0 dry "$graph" "$table" --from 2024-01-01 --to 2024-01-02 <<'LINES'
@backfill 2 d
@run 2024-01-01T00:00:00Z 2024-01-02T00:00:00Z success
@run 2024-01-02T00:00:00Z 2024-01-03T00:00:00Z success
@end 2
LINES
echo '{"dag_id":"d","schedule":"@weekly","tasks":[{"id":"a"}]}' > "$graph"
answers 0 dry "$graph" "$table" --from 2024-01-01 --to 2024-01-06 <<'LINES'
@backfill 2 d
@end 0
LINES
for limit in '' '"max_active_runs":1,'; do
    echo "{\"dag_id\":\"d\",\"schedule\":\"@daily\",$limit\"tasks\":[{\"id\":\"a\",\"depends_on_past\":true}]}" > "$graph"
    echo '[{"run":"2024-01-01T00:00:00Z","status":1}]' > "$table"
    answers 1 dry "$graph" "$table" --from 2024-01-01 --to 2024-01-03 <<'LINES'
@backfill 2 d
@run 2024-01-01T00:00:00Z 2024-01-02T00:00:00Z failed
a -1 failed 1 -
@run 2024-01-02T00:00:00Z 2024-01-03T00:00:00Z failed
a -1 no_status 0 -
@run 2024-01-03T00:00:00Z 2024-01-04T00:00:00Z failed
a -1 no_status 0 -
@end 3
LINES
    echo '[{"run":"2024-01-01T00:00:00Z","status":99}]' > "$table"
    answers 0 dry "$graph" "$table" --from 2024-01-01 --to 2024-01-03 <<'LINES'
@backfill 2 d
@run 2024-01-01T00:00:00Z 2024-01-02T00:00:00Z success
a -1 skipped 1 -
@run 2024-01-02T00:00:00Z 2024-01-03T00:00:00Z success
a -1 success 1 -
@run 2024-01-03T00:00:00Z 2024-01-04T00:00:00Z success
a -1 success 1 -
@end 3
LINES
done

# The last line of a task's output, and the value that the task pushes.

tasks '{"id":"a"}'
while IFS= read -r row; do
    line=${row%% => *}
    runs success "[{\"out\":\"first\\n${line//\"/\\\"}\\n\"}]" <<< "a -1 success 1 ${row##* => }"
done <<'ROWS'
1.5 => "1.5"
  7 => 7
{"a":1} => "{\"a\":1}"
null => -
9223372036854775808 => "9223372036854775808"
[null,true] => [null,true]
ROWS

# The text of a pushed value has 65,536 bytes at most, its quotes among them.
long=$(printf 'x%.0s' {1..65534})
runs success "[{\"out\":\"$long\"}]" <<< "a -1 success 1 \"$long\""
runs failed "[{\"out\":\"x$long\"}]" <<< 'a -1 failed 1 -'

# What a table answers to one task: the first entry that matches, by the task, the map index and the run.

# The graph that was written has one task, a, and each row a table and what comes of that task.
answers_task() {
    local row state
    while IFS= read -r row; do
        state=success
        [[ ${row##* => } != failed* ]] || state=failed
        runs "$state" "${row%% => *}" <<< "a -1 ${row##* => }"
    done
}

answers_task <<'ROWS'
[{"status":1},{"task":"a"}] => failed 1 -
[{"task":"a"},{"status":1}] => success 1 -
[{"task":"b","status":1}] => success 1 -
[{"index":-1,"status":1}] => failed 1 -
[{"index":0,"status":1}] => success 1 -
[{"run":"2024-01-01T00:00:00Z","status":1}] => failed 1 -
[{"run":"2024-01-01T00:00:01Z","status":1}] => success 1 -
[{"run":"9999-12-31T23:59:59Z","status":1}] => success 1 -
[{"out":"x\n7 \t\r\n"}] => success 1 7
[{"out":"7\n\n"}] => success 1 -
[{"out":" \t"}] => success 1 -
[{"out":"3","status":99}] => skipped 1 -
[{"out":"3","status":1}] => failed 1 -
ROWS
# And by the try.
tasks '{"id":"a","retries":2}'
answers_task <<'ROWS'
[{"try":2},{"status":1}] => success 2 -
[{"try":-9223372036854775808},{"try":4},{"status":1}] => failed 3 -
[{"try":1,"status":1},{"try":2,"status":99}] => skipped 2 -
[{"task":"a","index":-1,"run":"2024-01-01T00:00:00Z","try":2,"status":0,"out":"2"},{"status":1}] => success 2 2
ROWS
tasks '{"id":"a","retries":100,"depends_on_past":true}'
answers_task <<'ROWS'
[{"status":3}] => failed 101 -
ROWS

# Tables that are refused, by their first bad entry.

while IFS= read -r row; do
    echo "${row%% => *}" > "$table"
    tells 2 "refused 19 bad table: ${row##* => }" single "$graph" "$table" --at 2024-01-01
done <<'ROWS'
{} => file
 => file
[ => file
null => file
[] [] => file
[{},{"status":256},{"exit":1}] => 1
[{},{},{"exit":1}] => 2
[{"run":"2024-01-01"}] => 0
[1] => 0
[{},[]] => 1
[{"task":1}] => 0
[{"task":null}] => 0
[{"status":256}] => 0
[{"status":-1}] => 0
[{"status":0.5}] => 0
[{"status":"1"}] => 0
[{"status":null}] => 0
[{"out":1}] => 0
[{"out":null}] => 0
[{"index":"1"}] => 0
[{"index":-0}] => 0
[{"try":1.0}] => 0
[{"try":9223372036854775808}] => 0
[{"run":"2024-02-30T00:00:00Z"}] => 0
[{"run":"2024-01-01T00:00:60Z"}] => 0
[{"run":1}] => 0
[{},{"status":255},{"exit":1},{"status":256}] => 2
[{},{},{},{},{},{},{},{},{},{},{"runs":""}] => 10
ROWS
echo '[]' > "$table"

# Data intervals where the clock goes on and back, by days and weekdays, and at the ends of the years.

europe=CET-1CEST,M3.5.0,M10.5.0/3
scheduled '30 2 * * *' "$europe"
lists 2024-03-30 2024-03-31T23:59:59Z <<'LINES'
2024-03-30T01:30:00Z 2024-03-31T01:30:00Z
2024-03-31T01:30:00Z 2024-04-01T00:30:00Z
LINES
lists 2024-10-26 2024-10-27T23:59:59Z <<'LINES'
2024-10-26T00:30:00Z 2024-10-27T00:30:00Z
2024-10-27T00:30:00Z 2024-10-28T01:30:00Z
LINES
scheduled '30 2,3 * * *' "$europe"
lists 2024-03-31T01:30:00Z 2024-03-31T01:30:00Z <<< '2024-03-31T01:30:00Z 2024-04-01T00:30:00Z'
# The south-east of Australia, Lord Howe Island with its half-hours, Ireland, whose winter is the exception, and offsets.
while IFS='|' read -r schedule zone from to intervals; do
    scheduled "$schedule" "$zone"
    lists "$from" "$to" < <(tr ',' '\n' <<< "$intervals")
done <<'ROWS'
30 2 * * *|AEST-10AEDT,M10.1.0,M4.1.0/3|2024-10-04|2024-10-05T23:59:59Z|2024-10-04T16:30:00Z 2024-10-05T16:30:00Z,2024-10-05T16:30:00Z 2024-10-06T15:30:00Z
30 2 * * *|AEST-10AEDT,M10.1.0,M4.1.0/3|2024-04-05|2024-04-06T23:59:59Z|2024-04-05T15:30:00Z 2024-04-06T15:30:00Z,2024-04-06T15:30:00Z 2024-04-07T16:30:00Z
15 2 * * *|LHST-10:30LHDT-11,M10.1.0,M4.1.0|2024-10-04|2024-10-05T23:59:59Z|2024-10-04T15:45:00Z 2024-10-05T15:45:00Z,2024-10-05T15:45:00Z 2024-10-06T15:15:00Z
45 1 * * *|LHST-10:30LHDT-11,M10.1.0,M4.1.0|2024-04-05|2024-04-06T23:59:59Z|2024-04-05T14:45:00Z 2024-04-06T14:45:00Z,2024-04-06T14:45:00Z 2024-04-07T15:15:00Z
30 1 * * *|IST-1GMT0,M10.5.0,M3.5.0/1|2024-10-26|2024-10-27T23:59:59Z|2024-10-26T00:30:00Z 2024-10-27T00:30:00Z,2024-10-27T00:30:00Z 2024-10-28T01:30:00Z
30 1 * * *|IST-1GMT0,M10.5.0,M3.5.0/1|2024-03-30|2024-03-31T23:59:59Z|2024-03-30T01:30:00Z 2024-03-31T01:30:00Z,2024-03-31T01:30:00Z 2024-04-01T00:30:00Z
@daily|+00:00|2024-01-01|2024-01-01|2024-01-01T00:00:00Z 2024-01-02T00:00:00Z
@daily|-23:59|2024-01-01|2024-01-01T23:59:59Z|2024-01-01T23:59:00Z 2024-01-02T23:59:00Z
ROWS
scheduled '0 0 13 * fri'
lists 2024-01-10 2024-01-15 <<'LINES'
2024-01-12T00:00:00Z 2024-01-13T00:00:00Z
2024-01-13T00:00:00Z 2024-01-19T00:00:00Z
LINES
scheduled '0 0 29 2 *'
lists 2196-01-01 2199-12-31 <<< '2196-02-29T00:00:00Z 2204-02-29T00:00:00Z'
scheduled @yearly
lists 1970-01-01 1970-12-31 <<< '1970-01-01T00:00:00Z 1971-01-01T00:00:00Z'
scheduled @weekly
lists 2024-01-01 2024-01-06 < /dev/null

# Days: intervals that start on them by the graph's zone, where its clock goes on and back too.

# The data intervals of the graph that was written, on these days, are those on standard input.
lists_on() {
    answers 0 list "$graph" --on "$1"
}

scheduled '0 6 * * *'
lists 2024-01-01 2024-01-01 < /dev/null
lists_on 2024-01-01 <<< '2024-01-01T06:00:00Z 2024-01-02T06:00:00Z'
while IFS='|' read -r schedule zone days intervals; do
    scheduled "$schedule" "$zone"
    lists_on "$days" < <(tr ',' '\n' <<< "$intervals")
done <<'ROWS'
30 2 * * *|CET-1CEST,M3.5.0,M10.5.0/3|2024-03-31|2024-03-31T01:30:00Z 2024-04-01T00:30:00Z
@daily|CET-1CEST,M3.5.0,M10.5.0/3|2024-03-31|2024-03-30T23:00:00Z 2024-03-31T22:00:00Z
@daily|CET-1CEST,M3.5.0,M10.5.0/3|2024-03-30..2024-04-01|2024-03-29T23:00:00Z 2024-03-30T23:00:00Z,2024-03-30T23:00:00Z 2024-03-31T22:00:00Z,2024-03-31T22:00:00Z 2024-04-01T22:00:00Z
@daily|CET-1CEST,M3.5.0,M10.5.0/3|2024-10-27..2024-10-27|2024-10-26T22:00:00Z 2024-10-27T23:00:00Z
@daily|CET-1CEST,M3.5.0,M10.5.0/3|1970-01-01..1970-01-02|1970-01-01T23:00:00Z 1970-01-02T23:00:00Z
@daily|AEST-10AEDT,M10.1.0,M4.1.0/3|2024-10-06|2024-10-05T14:00:00Z 2024-10-06T13:00:00Z
0 23 * * *|-08:00|2024-01-01|2024-01-02T07:00:00Z 2024-01-03T07:00:00Z
@daily|-23:59|2024-01-01|2024-01-01T23:59:00Z 2024-01-02T23:59:00Z
@daily|UTC|2199-12-31|2199-12-31T00:00:00Z 2200-01-01T00:00:00Z
ROWS
# Of the day on which the clock goes on an hour is missing.
scheduled '0 * * * *' "$europe"
for ((second = 1711839600; second < 1711922400; second += 3600)); do
    TZ=UTC0 printf '%(%FT%TZ)T %(%FT%TZ)T\n' "$second" "$((second + 3600))"
done > "$work/hours"
lists_on 2024-03-31 < "$work/hours"
scheduled @weekly
lists_on 2024-01-01..2024-01-06 < /dev/null
answers 0 dry "$graph" "$table" --on 2024-01-01..2024-01-06 <<'LINES'
@backfill 2 d
@end 0
LINES
tells 2 'refused 29 no runs' list "$graph" --on 2024-01-01..2024-01-06 --some

# Each command takes them.
tasks '{"id":"a"}'
echo '[]' > "$table"
answers 0 dry "$graph" "$table" --on 2024-01-01 --some < <(one_day success <<< 'a -1 success 1 -')
answers 0 run "$graph" --on 2024-01-01 --some < <(one_day success <<< 'a -1 success 1 -')
one_day success <<< 'a -1 success 1 -' > "$work/report"
answers 0 clear "$graph" "$work/report" --task a --run 2024-01-01 --on 2024-01-01 --some < <(one_day success <<< 'a -1 success 1 -')

# Moments and ranges.

scheduled '* * * * *'
lists 2024-01-01 2024-01-03T20:15:00Z < <(minutes)
tells 2 'refused 27 too many runs' list "$graph" --from 2024-01-01 --to 2024-01-03T20:16:00Z
tells 2 'refused 26 range reversed' list "$graph" --from 2024-01-02 --to 2024-01-01
tells 2 'refused 25 outside years' list "$graph" --from 1969-12-31 --to 2024-01-01
tells 2 'refused 27 too many runs' list "$graph" --on 2024-01-01..2024-01-03
tells 2 'refused 25 outside years' single "$graph" "$table" --at 2200-01-01
tells 2 'refused 26 range reversed' dry "$graph" "$table" --from 2024-01-02 --to 2024-01-01
tells 2 'refused 28 bad moment' single "$graph" "$table" --at 2024-02-30

# Files that aren't there.

tells 3 "fault: cannot read $work/none" check "$work/none"
tells 3 "fault: cannot read $work/none" list "$graph" --zone-file "$work/none" --from 2024-01-01 --to 2024-01-01
tells 3 "fault: cannot read $work/none" single "$graph" "$work/none" --at 2024-01-01
tells 3 "fault: cannot read $work/none" dry "$graph" "$work/none" --from 2024-01-01 --to 2024-01-01

sum
