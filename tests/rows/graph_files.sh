#!/usr/bin/env bash
# Hands the program graph files, whole ones and such with one or more faults, and compares what `check` tells of them with what
# stands here, which was worked out by hand from docs/FORMATS.md: how many tasks and edges, or the first fault. Those that every
# command has to refuse alike stand in small_graphs.sh, and numbers at their limits in limits.sh. The last line is the sum, and
# the status is 1 where a row differs.
set -euo pipefail

source "$(dirname "$(readlink -f "${BASH_SOURCE[0]}")")/../shared/compare.sh"

# Requires what `check` tells of a graph: how many tasks and edges it has, or the number and the words of its first fault.
is_told() {
    if [[ $1 == *' tasks, '* ]]; then
        answers 0 check "$graph" <<< "ok $1"
    else
        tells 2 "refused $1" check "$graph"
    fi
}

# Of each line before its arrow what stands behind that. A line that begins with # is a comment.
files_are_told() {
    local row
    while IFS= read -r row; do
        [[ $row != '#'* ]] || continue
        printf %s "${row%% => *}" > "$graph"
        is_told "${row##* => }"
    done
}

# The same, where each line has the tasks of a graph, which has a pool p of two slots.
tasks_are_told() {
    local row
    while IFS= read -r row; do
        [[ $row != '#'* ]] || continue
        echo "{\"dag_id\":\"d\",\"schedule\":\"@daily\",\"pools\":{\"p\":2},\"tasks\":[${row%% => *}]}" > "$graph"
        is_told "${row##* => }"
    done
}

# Graph files: one with every key, others without a fault, and the first of the faults of the rest.

cat > "$graph" <<'GRAPH'
{"dag_id":"d","schedule":"0 6 * * mon-fri","zone":"+01:00","max_active_runs":4,
 "pools":{"db":2},
 "tasks":[
  {"id":"src","command":["echo","[3,1,2]"],"retries":2,"retry_delay":60},
  {"id":"m","upstream":["src"],"expand":"src","rule":"all_success","kind":"program",
   "command":["echo",{"item":true},{"context":"logical_date"}],"depends_on_past":false,
   "pool":"db","pool_slots":1,"priority_weight":5,"weight_rule":"absolute"},
  {"id":"sum","upstream":["m"],"command":["echo",{"pull":"m"}]}]}
GRAPH
is_told '3 tasks, 2 edges'
files_are_told <<'ROWS'
# A task may take all slots of its pool, of one that is named and of the default pool.
{"dag_id":"d","schedule":"@daily","pools":{"p":2},"tasks":[{"id":"a","pool":"p","pool_slots":2},{"id":"b","pool_slots":128}]} => 2 tasks, 0 edges
# The file may give the default pool another size.
{"dag_id":"d","schedule":"@daily","pools":{"default_pool":200},"tasks":[{"id":"a","pool_slots":200}]} => 1 tasks, 0 edges
# Each number at its least and at its greatest.
{"dag_id":"d","schedule":"@daily","max_active_runs":1,"pools":{"p":1},"tasks":[{"id":"a","retries":0,"pool_slots":1,"priority_weight":0}]} => 1 tasks, 0 edges
{"dag_id":"d","schedule":"@daily","max_active_runs":4096,"pools":{"p":1000000},"tasks":[{"id":"a","pool":"p","retries":100,"pool_slots":1000000,"priority_weight":1000000}]} => 1 tasks, 0 edges
null => 2 shape: top
{} => 2 shape: dag_id
{"dag_id":"d","schedule":"@daily","tasks":[],"catchup":false} => 2 shape: top
{"Dag_id":"d"} => 2 shape: top
{"dag_id":null} => 2 shape: dag_id
{"dag_id":"d","schedule":1,"tasks":[]} => 2 shape: schedule
{"dag_id":"d","schedule":"@daily"} => 2 shape: tasks
{"dag_id":"d","schedule":"@daily","tasks":{}} => 2 shape: tasks
{"dag_id":"d\n","schedule":"@daily","tasks":[]} => 3 bad name: dag_id
{"dag_id":" ","schedule":"@daily","tasks":[]} => 3 bad name: dag_id
{"dag_id":"d","schedule":"@daily","zone":1,"tasks":[]} => 2 shape: zone
{"dag_id":"d","schedule":"@daily","max_active_runs":0,"tasks":[]} => 5 limit passed: max_active_runs
{"dag_id":"d","schedule":"@daily","pools":[],"tasks":[]} => 2 shape: pools
{"dag_id":"d","schedule":"@daily","pools":{"p q":2},"tasks":[]} => 3 bad name: pools
{"dag_id":"d","schedule":"@daily","pools":{"p":1000001},"tasks":[]} => 5 limit passed: pools
# Of one pool a wrong type comes first, then a bad name, then a limit; and each pool has its faults before the next by name.
{"dag_id":"d","schedule":"@daily","pools":{"p q":"2"},"tasks":[]} => 2 shape: pools
{"dag_id":"d","schedule":"@daily","pools":{"p q":0},"tasks":[]} => 3 bad name: pools
{"dag_id":"d","schedule":"@daily","pools":{"b":"2","a":0},"tasks":[]} => 5 limit passed: pools
# Keys come in the order of the format, and not of the file.
{"tasks":1,"pools":{"p":0},"max_active_runs":0,"zone":1,"schedule":2,"dag_id":" "} => 3 bad name: dag_id
{"tasks":1,"pools":{"p":0},"max_active_runs":0,"zone":1,"schedule":2,"dag_id":"d"} => 2 shape: schedule
{"tasks":1,"pools":{"p":0},"max_active_runs":0,"zone":1,"schedule":"@daily","dag_id":"d"} => 2 shape: zone
{"tasks":1,"pools":{"p":0},"max_active_runs":0,"schedule":"@daily","dag_id":"d"} => 5 limit passed: max_active_runs
{"tasks":1,"pools":{"p":0},"schedule":"@daily","dag_id":"d"} => 5 limit passed: pools
ROWS
while IFS= read -r bytes; do
    printf '%b' "$bytes" > "$graph"
    is_told '1 not json'
done <<'BYTES'

{
{} {}
dag
"\xff"
{"dag_id":"d","schedule":1e999,"tasks":[]}
BYTES

# Tasks: what they say, the faults of one behind another, and those of several, or several at once.

tasks_are_told <<'ROWS'
 => 0 tasks, 0 edges
# What is upstream of an upstream is settled too.
{"id":"a"},{"id":"b","upstream":["a"]},{"id":"c","upstream":["b"],"command":[{"pull":"a"}]} => 3 tasks, 2 edges
# 17 words that pull from one task are one pull.
{"id":"a"},{"id":"b","upstream":["a"],"command":[{"pull":"a"},{"pull":"a"},{"pull":"a"},{"pull":"a"},{"pull":"a"},{"pull":"a"},{"pull":"a"},{"pull":"a"},{"pull":"a"},{"pull":"a"},{"pull":"a"},{"pull":"a"},{"pull":"a"},{"pull":"a"},{"pull":"a"},{"pull":"a"},{"pull":"a"}]} => 2 tasks, 1 edges
{"id":"a","command":[{"context":"logical_date"},{"context":"data_interval_start"},{"context":"data_interval_end"},{"context":"dag_id"},{"context":"task_id"},{"context":"map_index"},{"context":"try_number"}]} => 1 tasks, 0 edges
{"id":"a","rule":"all_success"},{"id":"b","rule":"all_failed"},{"id":"c","rule":"all_skipped"},{"id":"d","rule":"all_done"},{"id":"e","rule":"one_success"},{"id":"f","rule":"one_failed"},{"id":"g","rule":"one_done"},{"id":"h","rule":"none_failed"},{"id":"i","rule":"none_failed_min_one_success"},{"id":"j","rule":"none_skipped"},{"id":"k","rule":"always"} => 11 tasks, 0 edges
{"id":"a","weight_rule":"downstream"},{"id":"b","weight_rule":"upstream"},{"id":"c","weight_rule":"absolute"},{"id":"d","kind":"branch"},{"id":"e","depends_on_past":true} => 5 tasks, 0 edges
{"id":"s"},{"id":"t","rule":1} => 2 shape: tasks[1].rule
{"id":"s"},{"id":"t","rule":null} => 2 shape: tasks[1].rule
{"id":"s"},{"id":"t","kind":"sensor"} => 2 shape: tasks[1].kind
{"id":"s"},{"id":"t","kind":true} => 2 shape: tasks[1].kind
{"id":"s"},{"id":"t","command":"echo"} => 2 shape: tasks[1].command
{"id":"s"},{"id":"t","command":[1]} => 2 shape: tasks[1].command
{"id":"s"},{"id":"t","command":[{}]} => 2 shape: tasks[1].command
{"id":"s"},{"id":"t","command":[{"context":1}]} => 2 shape: tasks[1].command
{"id":"s"},{"id":"t","command":[{"pull":1}]} => 2 shape: tasks[1].command
{"id":"s"},{"id":"t","expand":"s","command":[{"item":false}]} => 2 shape: tasks[1].command
{"id":"s"},{"id":"t","expand":"s","command":[{"item":true,"pull":"s"}]} => 2 shape: tasks[1].command
{"id":"s"},{"id":"t","command":[{"word":"s"}]} => 2 shape: tasks[1].command
{"id":"s"},{"id":"t","expand":1} => 2 shape: tasks[1].expand
# The key `expand` stands there, so the item is good, and its value is looked at behind the command.
{"id":"s"},{"id":"t","expand":null,"command":[{"item":true}]} => 2 shape: tasks[1].expand
{"id":"s"},{"id":"t","depends_on_past":"no"} => 2 shape: tasks[1].depends_on_past
{"id":"s"},{"id":"t","retries":1.0} => 2 shape: tasks[1].retries
{"id":"s"},{"id":"t","retries":-0} => 2 shape: tasks[1].retries
{"id":"s"},{"id":"t","retries":"1"} => 2 shape: tasks[1].retries
{"id":"s"},{"id":"t","pool":["p"]} => 2 shape: tasks[1].pool
{"id":"s"},{"id":"t","weight_rule":"none"} => 2 shape: tasks[1].weight_rule
{"id":"s"},{"id":"t","pool":"q"} => 8 unknown pool: t
{"id":"s"},{"id":"t","pool":"p","pool_slots":3} => 9 slots beyond pool: t
{"id":"s"},{"id":"t","rule":"all_good"} => 10 bad rule: t
{"id":"s"},{"id":"t","rule":"ALL_SUCCESS"} => 10 bad rule: t
# s isn't upstream, z isn't there, and no task is settled when it is decided itself.
{"id":"s"},{"id":"t","command":[{"pull":"s"}]} => 14 pull not settled: t
{"id":"s"},{"id":"t","upstream":["s"],"command":[{"pull":"z"}]} => 14 pull not settled: t
{"id":"s"},{"id":"t","command":[{"pull":"t"}]} => 14 pull not settled: t
{"id":"s"},{"id":"t","upstream":["s"],"rule":"always","command":[{"pull":"s"}]} => 14 pull not settled: t
{"id":"s"},{"id":"t","expand":"s"} => 15 expand source: t
{"id":"s"},{"id":"t","expand":"z"} => 15 expand source: t
{"id":"s"},{"id":"t","expand":"t"} => 15 expand source: t
{"id":"s"},{"id":"t","upstream":["s"],"expand":"s","rule":"one_done"} => 16 expand rule: t
{"id":"s"},{"id":"t","upstream":["s"],"expand":"s","rule":"always"} => 16 expand rule: t
{"id":"s"},{"id":"t","upstream":["s"],"expand":"s","kind":"branch"} => 17 branch misuse: t
{"id":"a"},{"id":"b"},{"id":"c"},"d" => 2 shape: tasks[3]
{"id":"a"},{"id":"b","sla":0} => 2 shape: tasks[1]
{} => 2 shape: tasks[0].id
{"id":["a"]} => 2 shape: tasks[0].id
{"id":"a","upstream":"a"} => 2 shape: tasks[0].upstream
{"id":"a","upstream":null} => 2 shape: tasks[0].upstream
{"id":"a"},{"id":"b","upstream":["a",1]} => 2 shape: tasks[1].upstream
{"id":"a"},{"id":"a b"} => 3 bad name: tasks[1].id
{"id":"é"} => 3 bad name: tasks[0].id
{"id":"a"},{"id":"A"},{"id":"a"} => 4 duplicate task: a
{"id":"a","upstream":["no id"]},{"id":"b","upstream":["c"]} => 6 unknown upstream: a
{"id":"a","upstream":["A"]} => 6 unknown upstream: a
{"id":"a"},{"id":"a"} => 4 duplicate task: a
# The tasks' own keys too, and an unknown key before them.
{"retries":101,"command":1,"kind":"x","rule":1,"upstream":["b"],"id":"a"} => 2 shape: tasks[0].rule
{"retries":101,"command":1,"kind":"x","upstream":["b"],"id":"a","x":1} => 2 shape: tasks[0]
# The first task's fault comes first, and faults of the file before those of the graph.
{"id":"a","retries":101},{"id":"b","rule":1} => 5 limit passed: tasks[0].retries
{"id":"a","upstream":["z"]},{"id":"b","rule":1} => 2 shape: tasks[1].rule
# Of a graph's faults the least number comes first, and then the earliest task.
{"id":"a","pool":"q","upstream":["a"]},{"id":"b","upstream":["z"]} => 6 unknown upstream: b
{"id":"a","pool":"q"},{"id":"b","upstream":["b"]} => 7 cycle: b
{"id":"a","pool_slots":129},{"id":"b","pool":"q"},{"id":"c","pool":"r"} => 8 unknown pool: b
{"id":"a","rule":"x"},{"id":"b","pool_slots":129},{"id":"c","pool_slots":130} => 9 slots beyond pool: b
{"id":"a","command":[{"pull":"z"}]},{"id":"b","rule":"x"} => 10 bad rule: b
{"id":"a","kind":"branch","expand":"z","rule":"always"},{"id":"b","command":[{"pull":"z"}]} => 14 pull not settled: b
ROWS

# Cycles: the shortest one through the earliest task that lies on any is named.

tasks_are_told <<'ROWS'
{"id":"a"},{"id":"b","upstream":["a","b"]} => 7 cycle: b
{"id":"a","upstream":["c"]},{"id":"b","upstream":["a"]},{"id":"c","upstream":["b"]},{"id":"e","upstream":["c"]} => 7 cycle: a b c
{"id":"a","upstream":["b"]},{"id":"b","upstream":["c"]},{"id":"c","upstream":["a"]} => 7 cycle: a c b
{"id":"r"},{"id":"s","upstream":["r","t"]},{"id":"t","upstream":["s"]} => 7 cycle: s t
# The cycle of b, c and d is as short, but a lies on one: of its two the shorter.
{"id":"a","upstream":["d","c"]},{"id":"b","upstream":["a","d"]},{"id":"c","upstream":["b"]},{"id":"d","upstream":["c"]} => 7 cycle: a b c
# Two as short ones lead through a: c stands before b in the file.
{"id":"a","upstream":["d"]},{"id":"c","upstream":["a"]},{"id":"b","upstream":["a"]},{"id":"d","upstream":["b","c"]} => 7 cycle: a c d
# a leads to a cycle and lies on none.
{"id":"a"},{"id":"b","upstream":["c","a"]},{"id":"c","upstream":["b"]} => 7 cycle: b c
ROWS

sum
