#!/usr/bin/env bash
# Hands the program graph files that `check --explain` refuses, and compares the lines that it tells behind the refusal with what stands here,
# which was worked out by hand from docs/FORMATS.md. The last line is the sum, and the status is 1 where a row differs.
set -euo pipefail

source "$(dirname "$(readlink -f "${BASH_SOURCE[0]}")")/../shared/compare.sh"

# What is told of the graph on the first line of standard input, behind its refusal, are the other lines.
is_told() {
    local wanted status=0
    read -r wanted
    printf %s "$wanted" > "$graph"
    wanted=$(cat)
    "$program" check --explain "$graph" > "$work/out" 2> "$work/err" || status=$?
    is_same "status and refusal of $(< "$graph")" '2 refused ' "$status $(head -c 8 "$work/err")"
    is_same "what is told of $(< "$graph")" "$wanted" "$(tail -n +2 "$work/err")$(< "$work/out")"
}

# Nothing is told of a whole one.
tasks '{"id":"a"}'
answers 0 check --explain "$graph" <<< 'ok 1 tasks, 0 edges'

is_told <<'LINES'
{"dag_id":
bytes: not JSON: line 1, column 10
LINES
is_told <<'LINES'
[]
top: a list: has to be an object
LINES

# Words of Airflow's and cron's, in any letter case.
is_told <<'LINES'
{"dag_id":"d","schedule_interval":"@daily","tasks":[{"id":"a","TRIGGER_RULE":"all_done"}]}
schedule: missing: has to be five fields of cron that some day matches, or @hourly, @daily, @weekly, @monthly, @quarterly or @yearly
top: unknown key "schedule_interval": did you mean "schedule"?
tasks[0]: unknown key "TRIGGER_RULE": did you mean "rule"?
LINES
is_told <<'LINES'
{"dag_id":"d","schedule":"@midnight","tasks":[{"id":"a","rule":"dummy"}]}
schedule: "@midnight": did you mean "@daily"?
tasks[0].rule: "dummy": did you mean "always"?
LINES

# The nearest known name, in any letter case, where it is near.
is_told <<'LINES'
{"dag_id":"d","schedule":"@daily","tasks":[{"id":"Extract"},{"id":"b","upstream":["EXTRACT","ectract","x"],"rule":"ALL_SUCCESS"}]}
tasks[1].rule: "ALL_SUCCESS": did you mean "all_success"?
tasks[1].upstream[0]: "EXTRACT": did you mean "Extract"?
tasks[1].upstream[1]: "ectract": did you mean "Extract"?
tasks[1].upstream[2]: "x": has to be the id of a task
LINES
is_told <<'LINES'
{"dag_id":"d","schedule":"@daily","tasks":[{"id":"a","owner":"me"}]}
tasks[0]: unknown key "owner": a task has the keys id, upstream, rule, kind, command, expand, depends_on_past, retries, retry_delay, pool, pool_slots, priority_weight and weight_rule
LINES

# Schedules and zones.
is_told <<'LINES'
{"dag_id":"d","schedule":"0 0 30 2 *","zone":"Europe/Paris","tasks":[]}
schedule: "0 0 30 2 *": has to be five fields of cron that some day matches, or @hourly, @daily, @weekly, @monthly, @quarterly or @yearly
zone: "Europe/Paris": has to be UTC, an offset as +01:00, a rule as CET-1CEST,M3.5.0,M10.5.0/3, or file with a zone file beside it
LINES
is_told <<'LINES'
{"dag_id":"d","schedule":"@daily","zone":"utc","tasks":[]}
zone: "utc": did you mean "UTC"?
LINES

# Numbers, and values of other types.
is_told <<'LINES'
{"dag_id":"d","schedule":"@daily","max_active_runs":0,"tasks":[{"id":"a","retries":"3","retry_delay":1.0,"depends_on_past":null}]}
max_active_runs: 0: has to be a whole number from 1 to 4096
tasks[0].depends_on_past: null: has to be true or false
tasks[0].retries: "3": has to be a whole number from 0 to 100
tasks[0].retry_delay: a number that isn't whole: has to be a whole number from 0 to 86400
LINES
is_told <<'LINES'
{"dag_id":"d","schedule":"@daily","tasks":{}}
tasks: an object: has to be a list of at most 2000 tasks
LINES

# Pools.
is_told <<'LINES'
{"dag_id":"d","schedule":"@daily","pools":{"d b":3,"db_pool":"3"},"tasks":[{"id":"a","pool":"dbpool"}]}
pools: "d b": 3: the name of a pool has 1 to 250 letters, digits, dashes, dots and underscores
pools: "db_pool": "3": has to be a whole number from 1 to 1000000
tasks[0].pool: "dbpool": did you mean "db_pool"?
LINES

# Words of commands.
is_told <<'LINES'
{"dag_id":"d","schedule":"@daily","tasks":[{"id":"a","command":["echo",{"context":"execution_date"},{"xcom":"a"},{"item":true},{"pull":"b"}]}]}
tasks[0].command[1].context: "execution_date": did you mean "logical_date"?
tasks[0].command[2]: an object: has to be a text of at most 4096 bytes, or an object with one key, context, pull or item
tasks[0].command[3].item: true: a task without the key expand has no item
tasks[0].command[4].pull: "b": has to be the id of a task
LINES

# An id of an earlier task, and a task without one.
is_told <<'LINES'
{"dag_id":"d","schedule":"@daily","tasks":[{"id":"a"},{"id":"a"},{},7]}
tasks[1].id: "a": has to be an id of 1 to 250 letters, digits, dashes, dots and underscores that no task before has
tasks[2].id: missing: has to be an id of 1 to 250 letters, digits, dashes, dots and underscores that no task before has
tasks[3]: 7: has to be an object
LINES

# The first hundred, and whether there are more.
hundred() {
    printf '{"dag_id":"d","schedule":"@daily","tasks":['
    printf '%s' "$(yes 7 | head -n "$1" | paste -sd,)"
    echo ']}'
    for ((n = 0; n < 100; n++)); do
        echo "tasks[$n]: 7: has to be an object"
    done
}
is_told < <(hundred 100)
is_told < <(hundred 101; echo 'and more')
is_told < <(hundred 2000; echo 'and more')

# Long texts are cut.
long=$(printf 'k%.0s' {1..199})
is_told <<LINES
{"dag_id":"d","schedule":"@daily","tasks":[],"${long:1}":0}
top: unknown key "${long:1}": a graph file has the keys dag_id, schedule, zone, max_active_runs, pools and tasks
LINES
is_told <<LINES
{"dag_id":"d","schedule":"@daily","tasks":[],"$long":0}
top: unknown key "$long... (201 characters): a graph file has the keys dag_id, schedule, zone, max_active_runs, pools and tasks
LINES
is_told <<LINES
{"dag_id":"d","schedule":"@daily","zone":"$long","pools":{"$long,":1},"tasks":[]}
zone: "$long... (201 characters): has to be UTC, an offset as +01:00, a rule as CET-1CEST,M3.5.0,M10.5.0/3, or file with a zone file beside it
pools: "$long... (202 characters): 1: the name of a pool has 1 to 250 letters, digits, dashes, dots and underscores
LINES

# The zone of a zone file that isn't named.
is_told <<'LINES'
{"dag_id":"d","schedule":"@daily","zone":"file","tasks":[]}
zone: "file": --zone-file PATH is missing
LINES
is_told <<'LINES'
{"dag_id":"d","schedule":"@daily","zone":"flie","tasks":[]}
zone: "flie": has to be UTC, an offset as +01:00, a rule as CET-1CEST,M3.5.0,M10.5.0/3, or file with a zone file beside it
LINES

# Which field of a schedule is wrong.
wrong_field() {
    is_told <<LINES
{"dag_id":"d","schedule":"$1","tasks":[]}
schedule: "$1": $2, each alone or as a-b or a-b/n, with commas between
LINES
}
wrong_field '61 * * * *' 'minute: has to be *, */n, or numbers from 0 to 59'
wrong_field '0 24 * * *' 'hour: has to be *, */n, or numbers from 0 to 23'
wrong_field '0 0 0 * *' 'day of the month: has to be *, */n, or numbers from 1 to 31'
wrong_field '0 0 1 foo *' 'month: has to be *, */n, or numbers from 1 to 12 or names as jan'
wrong_field '0 0 * * fri-mon' 'weekday: has to be *, */n, or numbers from 0 to 7 or names as mon'
wrong_field '0 5/2 1 13 *' 'hour: has to be *, */n, or numbers from 0 to 23'
is_told <<'LINES'
{"dag_id":"d","schedule":"0 0 * *","tasks":[]}
schedule: "0 0 * *": has to be five fields of cron that some day matches, or @hourly, @daily, @weekly, @monthly, @quarterly or @yearly
LINES

# The nearest of those that are near: to `12` one of three characters of t12 is added, and of t2 one of two is another. Changes
# are counted in characters, as lengths are.
is_told <<'LINES'
{"dag_id":"d","schedule":"@daily","tasks":[{"id":"t2"},{"id":"t12"},{"id":"c"},{"id":"b","upstream":["12","éc","éxtract"]},{"id":"extract"}]}
tasks[3].upstream[0]: "12": did you mean "t12"?
tasks[3].upstream[1]: "éc": has to be the id of a task
tasks[3].upstream[2]: "éxtract": did you mean "extract"?
LINES
# A change at the beginning or the end of a long name, and changes over more than 24 characters.
middle=$(printf 'm%.0s' {1..22})
is_told <<LINES
{"dag_id":"d","schedule":"@daily","tasks":[{"id":"a$middle${middle}z"},{"id":"b","upstream":["x$middle${middle}z","a$middle${middle}x","${middle}ax${middle}"]}]}
tasks[1].upstream[0]: "x$middle${middle}z": did you mean "a$middle${middle}z"?
tasks[1].upstream[1]: "a$middle${middle}x": did you mean "a$middle${middle}z"?
tasks[1].upstream[2]: "${middle}ax${middle}": has to be the id of a task
LINES
is_told <<LINES
{"dag_id":"d","schedule":"@daily","tasks":[{"id":"a${middle}bc"},{"id":"d","upstream":["x${middle}yc","x${middle}bz"]}]}
tasks[1].upstream[0]: "x${middle}yc": did you mean "a${middle}bc"?
tasks[1].upstream[1]: "x${middle}bz": has to be the id of a task
LINES

# A whole number that needs 64 bits without a sign.
is_told <<'LINES'
{"dag_id":"d","schedule":"@daily","max_active_runs":9223372036854775808,"tasks":[{"id":"a","retries":9223372036854775807}]}
max_active_runs: a number that isn't whole: has to be a whole number from 1 to 4096
tasks[0].retries: 9223372036854775807: has to be a whole number from 0 to 100
LINES

# A limit that no place shows is told beside what a place shows.
sources=$(for ((n = 0; n < 17; n++)); do printf '{"id":"t%d"},' $n; done)
pulls=$(for ((n = 0; n < 17; n++)); do printf ',{"pull":"t%d"}' $n; done)
is_told <<LINES
{"dag_id":"d","schedule":"@daily","zone":"nowhere","tasks":[$sources{"id":"a","command":["echo"$pulls]}]}
zone: "nowhere": has to be UTC, an offset as +01:00, a rule as CET-1CEST,M3.5.0,M10.5.0/3, or file with a zone file beside it
limit passed: tasks[17].command: a file has at most 20000 distinct edges, and a command pulls from at most 16 tasks
LINES

# What a terminal doesn't show.
is_told <<'LINES'
{"dag_id":"d","schedule":"@daily","tasks":[{"id":"a\u001b[31m\u009b\u202e\ufe0f\udb40\udc41\u180e\u034f\u115f\u3164"}]}
tasks[0].id: "a\u001b[31m\u009b\u202e\ufe0f\udb40\udc41\u180e\u034f\u115f\u3164": has to be an id of 1 to 250 letters, digits, dashes, dots and underscores that no task before has
LINES

# What no place shows.
is_told <<'LINES'
{"dag_id":"d","schedule":"@daily","tasks":[{"id":"a","upstream":["b"]},{"id":"b","upstream":["a"]}]}
cycle: a b: each comes after the one before it, and the first after the last
LINES
is_told <<'LINES'
{"dag_id":"d","schedule":"@daily","pools":{"one":1},"tasks":[{"id":"a","pool":"one","pool_slots":2}]}
slots beyond pool: a: it takes more slots than its pool has
LINES

# The task that is pulled from: one that isn't above, one that isn't there, the task itself, and any where the rule may decide early.
is_told <<'LINES'
{"dag_id":"d","schedule":"@daily","tasks":[{"id":"a"},{"id":"b"},{"id":"c","upstream":["b"],"command":["echo",{"pull":"b"},{"pull":"a"}]}]}
pull not settled: c: it pulls from a task that needn't have ended when this one is decided: a
LINES
is_told <<'LINES'
{"dag_id":"d","schedule":"@daily","tasks":[{"id":"a"},{"id":"b","upstream":["a"]},{"id":"c","upstream":["b"],"command":["echo",{"pull":"a"},{"pull":"c"}]}]}
pull not settled: c: it pulls from a task that needn't have ended when this one is decided: c
LINES
is_told <<'LINES'
{"dag_id":"d","schedule":"@daily","tasks":[{"id":"a"},{"id":"b","upstream":["a"],"rule":"one_success","command":["echo",{"pull":"a"}]}]}
pull not settled: b: it pulls from a task that needn't have ended when this one is decided: a
LINES

# A pipe, which can be read once only: the refusal is told, and no finding.
mkfifo "$work/pipe"
echo '{"dag_id":' > "$graph"
for named in "$work/pipe" "$graph --zone-file $work/pipe"; do
    cat "$graph" > "$work/pipe" &
    writer=$!
    status=0
    timeout 20 "$program" check --explain $named > "$work/out" 2> "$work/err" || status=$?
    is_same "a pipe: $named" "2
refused 1 not json
fault: cannot read $work/pipe" "$status
$(cat "$work/out" "$work/err")"
    kill "$writer" 2> /dev/null || true
    wait "$writer" 2> /dev/null || true
done
sum
