#!/usr/bin/env bash
# Hands the program files that break off, and files and lengths at their limits and one beyond, and compares its exit status
# and all that it prints with what stands here, which was worked out by hand from docs/FORMATS.md. The last line is the sum, and
# the status is 1 where a row differs.
set -euo pipefail

source "$(dirname "$(readlink -f "${BASH_SOURCE[0]}")")/../shared/compare.sh"

# So many times a text.
times() {
    local text
    printf -v text '%*s' "$1" ''
    echo "${text// /$2}"
}

# The same with commas between.
listed() {
    local text
    text=$(times "$1" "$2,")
    echo "${text%,}"
}

# Each proper beginning of a graph file that has every key is no JSON.

whole=$(< "$root/examples/every_key/graph.json")
for ((count = 0; count < ${#whole}; count++)); do
    printf %s "${whole:0:count}" > "$graph"
    tells 2 'refused 1 not json' check "$graph"
done
printf %s "$whole" > "$graph"
answers 0 check "$graph" <<< 'ok 3 tasks, 2 edges'

# A file of 8,388,608 bytes, which are blanks at its end, and one of a byte more. An endless file has more.

blanks() {
    head -c "$((8388608 - $(wc -c < "$1")))" /dev/zero | tr '\0' ' ' >> "$1"
}
blanks "$graph"
answers 0 check "$graph" <<< 'ok 3 tasks, 2 edges'
echo '[]' > "$table"
blanks "$table"
cp "$graph" "$work/longer"
tasks '{"id":"a"}'
answers 0 dry "$graph" "$table" "${day[@]}" < <(one_day success <<< 'a -1 success 1 -')
echo >> "$table"
tells 2 'refused 19 bad table: file' dry "$graph" "$table" "${day[@]}"
tells 2 'refused 19 bad table: file' dry "$graph" /dev/zero "${day[@]}"
# A seeds file of empty lines, and one of a line more.
one_day success <<< 'a -1 success 1 -' > "$work/report"
head -c 8388608 /dev/zero | tr '\0' '\n' > "$work/seeds"
answers 0 clear "$graph" "$work/report" "${day[@]}" --seeds "$work/seeds" < "$work/report"
echo >> "$work/seeds"
tells 2 'refused 45 bad seed: file' clear "$graph" "$work/report" "${day[@]}" --seeds "$work/seeds"
tells 2 'refused 45 bad seed: file' clear "$graph" "$work/report" "${day[@]}" --seeds /dev/zero
echo >> "$work/longer"
tells 2 'refused 5 limit passed: bytes' check "$work/longer"
tells 2 'refused 5 limit passed: bytes' check /dev/zero
echo '{"dag_id":"d","schedule":"@daily","zone":"file","tasks":[]}' > "$graph"
tells 2 'refused 13 bad zone' check "$graph" --zone-file /dev/zero
tells 2 'refused 13 bad zone' check "$graph" --zone-file /dev/null

# What is read of tasks, and what is refused in the one beyond.

id=$(times 250 i)
word=$(times 4096 w)
while IFS= read -r row; do
    row=${row//ID/$id}
    tasks "$(sed "s/WORD/$word/" <<< "${row%% => *}")"
    if [[ ${row##* => } == ok* ]]; then
        answers 0 check "$graph" <<< "${row##* => }"
    else
        tells 2 "refused ${row##* => }" check "$graph"
    fi
done <<ROWS
{"id":"ID"} => ok 1 tasks, 0 edges
{"id":"ID."} => 3 bad name: tasks[0].id
{"id":"a","command":[$(listed 64 '"w"')]} => ok 1 tasks, 0 edges
{"id":"a","command":[$(listed 65 '"w"')]} => 5 limit passed: tasks[0].command
{"id":"a","command":["WORD"]} => ok 1 tasks, 0 edges
{"id":"a","command":["WORDw"]} => 5 limit passed: tasks[0].command
{"id":"a","command":["$(times 2048 é)"]} => ok 1 tasks, 0 edges
{"id":"a","command":["$(times 2048 é)w"]} => 5 limit passed: tasks[0].command
{"id":"a","command":[{"pull":"WORD"}]} => 14 pull not settled: a
{"id":"a","command":[{"pull":"WORDw"}]} => 5 limit passed: tasks[0].command
{"id":"a","retries":100,"retry_delay":86400,"priority_weight":1000000} => ok 1 tasks, 0 edges
{"id":"a","retries":0,"retry_delay":0,"priority_weight":0,"pool_slots":1} => ok 1 tasks, 0 edges
{"id":"a","retries":-1} => 5 limit passed: tasks[0].retries
{"id":"a","pool_slots":0} => 5 limit passed: tasks[0].pool_slots
{"id":"a","pool_slots":1000001} => 5 limit passed: tasks[0].pool_slots
{"id":"a","pool_slots":1000000} => 9 slots beyond pool: a
{"id":"a","priority_weight":-1} => 5 limit passed: tasks[0].priority_weight
{"id":"a","priority_weight":1000001} => 5 limit passed: tasks[0].priority_weight
{"id":"a","retries":9223372036854775807} => 5 limit passed: tasks[0].retries
{"id":"a","retries":9223372036854775808} => 2 shape: tasks[0].retries
ROWS
pulled() {
    local task
    for ((task = 0; task < $1; task++)); do
        echo "{\"id\":\"t$task\"},"
    done
    echo "{\"id\":\"a\",\"upstream\":[$(for ((task = 0; task < $1; task++)); do echo "\"t$task\""; done | paste -sd ,)],
        \"command\":[$(for ((task = 0; task < $1; task++)); do echo "{\"pull\":\"t$task\"}"; done | paste -sd ,)]}"
}
tasks "$(pulled 16)"
answers 0 check "$graph" <<< 'ok 17 tasks, 16 edges'
tasks "$(pulled 17)"
tells 2 'refused 5 limit passed: tasks[17].command' check "$graph"

# And of the graph itself.

while IFS= read -r row; do
    echo "{\"dag_id\":\"d\",\"schedule\":\"@daily\",${row%% => *}\"tasks\":[]}" > "$graph"
    if [[ ${row##* => } == ok* ]]; then
        answers 0 check "$graph" <<< "${row##* => }"
    else
        tells 2 "refused ${row##* => }" check "$graph"
    fi
done <<ROWS
"max_active_runs":1, => ok 0 tasks, 0 edges
"max_active_runs":4096, => ok 0 tasks, 0 edges
"max_active_runs":0, => 5 limit passed: max_active_runs
"pools":{"$id":1,"p":1000000}, => ok 0 tasks, 0 edges
"pools":{"p":1000001}, => 5 limit passed: pools
"pools":{"i$id":1}, => 3 bad name: pools
"owner":$(times 126 '[')$(times 126 ']'), => 2 shape: top
"owner":$(times 127 '[')$(times 127 ']'), => 1 not json
ROWS
echo "{\"dag_id\":\"$id\",\"schedule\":\"@daily\",\"tasks\":[]}" > "$graph"
answers 0 check "$graph" <<< 'ok 0 tasks, 0 edges'
echo "{\"dag_id\":\"i$id\",\"schedule\":\"@daily\",\"tasks\":[]}" > "$graph"
tells 2 'refused 3 bad name: dag_id' check "$graph"

# So many tasks.
many() {
    local task
    for ((task = 0; task < $1; task++)); do
        echo "{\"id\":\"t$task\"}"
    done | paste -sd ,
}
tasks "$(many 2000)"
answers 0 check "$graph" <<< 'ok 2000 tasks, 0 edges'
tasks "$(many 2001)"
tells 2 'refused 5 limit passed: tasks' check "$graph"

# Each task behind all before it, which makes 19,900 edges of 200 tasks, and one more task behind so many of them.
edges() {
    local task before=''
    for ((task = 0; task < 200; task++)); do
        echo "{\"id\":\"t$task\",\"upstream\":[$before]},"
        before+=${before:+,}\"t$task\"
    done
    echo "{\"id\":\"last\",\"upstream\":[$(for ((task = 0; task < $1; task++)); do echo "\"t$task\""; done | paste -sd ,),\"t0\"]}"
}
tasks "$(edges 100)"
answers 0 check "$graph" <<< 'ok 201 tasks, 20000 edges'
tasks "$(edges 101)"
tells 2 'refused 5 limit passed: tasks[200].upstream' check "$graph"

# The years, and how many runs there are.

echo '{"dag_id":"d","schedule":"@yearly","tasks":[]}' > "$graph"
answers 0 list "$graph" --from 1970-01-01T00:00:00Z --to 2199-12-31T23:59:59Z < <(
    for ((year = 1970; year < 2200; year++)); do
        echo "$year-01-01T00:00:00Z $((year + 1))-01-01T00:00:00Z"
    done
)
tells 2 'refused 25 outside years' list "$graph" --from 1969-12-31T23:59:59Z --to 2199-12-31T23:59:59Z
tells 2 'refused 25 outside years' list "$graph" --from 1970-01-01T00:00:00Z --to 2200-01-01T00:00:00Z
echo '{"dag_id":"d","schedule":"* * * * *","tasks":[]}' > "$graph"
echo '[]' > "$table"
# Each minute from 2024-01-01 to 2024-01-03T20:15:00Z.
answers 0 dry "$graph" "$table" --from 2024-01-01 --to 2024-01-03T20:15:00Z < <(
    echo '@backfill 2 d'
    for ((second = 1704067200; second <= 1704312900; second += 60)); do
        TZ=UTC0 printf '@run %(%FT%TZ)T %(%FT%TZ)T success\n' "$second" "$((second + 60))"
    done
    echo '@end 4096'
)
tells 2 'refused 27 too many runs' dry "$graph" "$table" --from 2024-01-01 --to 2024-01-03T20:16:00Z

# Workers: a number beyond is a wrong line, with nothing on standard output.

tasks '{"id":"a"}'
answers 0 dry "$graph" "$table" "${day[@]}" --workers 64 < <(one_day success <<< 'a -1 success 1 -')
for workers in 0 65 -1 1.5 x ''; do
    status=0
    "$program" dry "$graph" "$table" "${day[@]}" --workers="$workers" > "$work/out" 2> "$work/err" || status=$?
    is_same "status and output by '$workers' workers" '2 ' "$status $(< "$work/out")"
done

# A report of the longest value and the longest ids is gone on from.

tasks "{\"id\":\"$id\"},{\"id\":\"b\",\"upstream\":[\"$id\"],\"command\":[{\"pull\":\"$id\"}]}"
value=$(times 65534 x)
echo "[{\"task\":\"$id\",\"out\":\"$value\"},{\"out\":\"7\"}]" > "$table"
one_day success > "$work/report" <<LINES
$id -1 success 1 "$value"
b -1 success 1 7
@pull $id "$value"
LINES
answers 0 dry "$graph" "$table" "${day[@]}" < "$work/report"
answers 0 clear "$graph" "$work/report" "${day[@]}" --task b --run 2024-01-01 --table "$table" < "$work/report"
# A value that is a byte longer isn't in a report.
sed 's/"x/"xx/' "$work/report" > "$work/longer"
tells 2 'refused 30 bad line: 3' clear "$graph" "$work/longer" "${day[@]}" --task b --run 2024-01-01 --table "$table"
# A line of 66,000 bytes is looked at.
{
    head -n 2 "$work/report"
    times 66000 x
} > "$work/longer"
tells 2 'refused 30 bad line: 3' clear "$graph" "$work/longer" "${day[@]}" --task b --run 2024-01-01 --table "$table"
sed -i '3s/^/x/' "$work/longer"
tells 2 'refused 31 line too long: 3' clear "$graph" "$work/longer" "${day[@]}" --task b --run 2024-01-01 --table "$table"
# An instance has at most 101 tries.
tasks '{"id":"b","retries":100}'
echo '[{"status":1}]' > "$table"
one_day failed <<< 'b -1 failed 101 -' > "$work/report"
answers 1 clear "$graph" "$work/report" "${day[@]}" --task b --run 2024-01-01 --table "$table" < "$work/report"
sed 's/101/102/' "$work/report" > "$work/longer"
tells 2 'refused 30 bad line: 3' clear "$graph" "$work/longer" "${day[@]}" --task b --run 2024-01-01 --table "$table"

sum
