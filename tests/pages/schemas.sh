#!/usr/bin/env bash
# Holds the schemas that `schema` prints beside the rest of the program: over good and bad files, `check` and `dry` answer as it is told
# here, which was worked out by hand from docs/FORMATS.md, and the schema refuses just what they refuse as 2, 3, 5, 10 and 19. A row
# `beyond N` is one that the program refuses by N and no schema can tell: a number written as 1.0 or -0, bytes of letters that have
# several, sums over the file, a day that its month doesn't have. The keys of the schemas, their defaults and limits are compared with
# the tables of docs/FORMATS.md. What is asked of the schemas takes python3 with the module jsonschema. The last line is the sum, and the
# status is 1 where something differs.
set -euo pipefail

source "$(dirname "$(readlink -f "${BASH_SOURCE[0]}")")/../shared/count.sh"
file=$work/file.json
mkdir "$work/graph" "$work/table"
echo '{"dag_id":"d","schedule":"@daily","tasks":[]}' > "$work/no_tasks.json"

# What the program says of the file: `ok`, or the number of its refusal.
said_of() {
    local status=0
    if [[ $1 == graph ]]; then
        "$program" check "$file" > /dev/null 2> "$work/err" < /dev/null || status=$?
    else
        "$program" dry "$work/no_tasks.json" "$file" --from 2024-01-01 --to 2024-01-01 > /dev/null 2> "$work/err" < /dev/null || status=$?
    fi
    if [[ $status -eq 0 ]]; then
        echo ok
    elif [[ $status -eq 2 && $(< "$work/err") =~ ^refused\ ([0-9]+)\  ]]; then
        echo "${BASH_REMATCH[1]}"
    else
        echo "status $status"
    fi
}

# What the schema is to say of a file of which this is told.
wanted_of() {
    case $1 in
        2 | 3 | 5 | 10 | 19) echo refused ;;
        *) echo accepted ;;
    esac
}

# The file is of this kind, and this is told of it. It is kept for the schema.
row() {
    local kind=$1 told=$2 said
    rows=$((rows + 1))
    said=$(said_of "$kind")
    [[ $said == "${told#beyond }" ]] || differs "the program says $said where $told is told: $(head -c 300 "$file")"
    mv "$file" "$work/$kind/$rows.json"
    echo "$rows.json $(wanted_of "$told")" >> "$work/$kind/wanted"
}

# The rows on standard input, `PIECE => TOLD`, each put between a head and a tail.
rows_within() {
    local kind=$1 head=$2 tail=$3 line
    while IFS= read -r line; do
        echo "$head${line% => *}$tail" > "$file"
        row "$kind" "${line##* => }"
    done
}

# So many of a text, with commas between.
list_of() {
    local count=$1 text=$2
    printf "$text,%.0s" $(seq "$count") | sed 's/,$//'
}

# So many letters.
letters() {
    printf 'a%.0s' $(seq "$1")
}

# ---- graph files

rows_within graph '' '' <<'ROWS'
{"dag_id":"d","schedule":"@daily","tasks":[]} => ok
{"dag_id":"A.b-c_9","schedule":"*/15 0 1,2 * mon-fri","zone":"+01:00","max_active_runs":4096,"pools":{"p":1000000},"tasks":[{"id":"a"}]} => ok
null => 2
7 => 2
"d" => 2
[] => 2
{} => 2
{"schedule":"@daily","tasks":[]} => 2
{"dag_id":"d","tasks":[]} => 2
{"dag_id":"d","schedule":"@daily"} => 2
{"$schema":"graph.schema.json","dag_id":"d","schedule":"@daily","tasks":[]} => 2
{"dag_id":"d","schedule":"@daily","tasks":[],"owner":"me"} => 2
{"dag_id":null,"schedule":"@daily","tasks":[]} => 2
{"dag_id":7,"schedule":"@daily","tasks":[]} => 2
{"dag_id":["d"],"schedule":"@daily","tasks":[]} => 2
{"dag_id":"","schedule":"@daily","tasks":[]} => 3
{"dag_id":"a b","schedule":"@daily","tasks":[]} => 3
{"dag_id":"a/b","schedule":"@daily","tasks":[]} => 3
{"dag_id":"a\n","schedule":"@daily","tasks":[]} => 3
{"dag_id":"\u00e9","schedule":"@daily","tasks":[]} => 3
{"dag_id":"\u0663","schedule":"@daily","tasks":[]} => 3
{"dag_id":"d","schedule":null,"tasks":[]} => 2
{"dag_id":"d","schedule":["@daily"],"tasks":[]} => 2
{"dag_id":"d","schedule":"","tasks":[]} => 11
{"dag_id":"d","schedule":"@midnight","tasks":[]} => 11
{"dag_id":"d","schedule":"0 0 30 2 *","tasks":[]} => 12
ROWS

for length in 250 251; do
    echo "{\"dag_id\":\"$(letters $length)\",\"schedule\":\"@daily\",\"tasks\":[]}" > "$file"
    row graph "$([[ $length -eq 250 ]] && echo ok || echo 3)"
done

rows_within graph '{"dag_id":"d","schedule":"@daily",' ',"tasks":[]}' <<'ROWS'
"zone":"UTC" => ok
"zone":"CET-1CEST,M3.5.0,M10.5.0/3" => ok
"zone":"Europe/Paris" => 13
"zone":null => 2
"zone":1 => 2
"max_active_runs":1 => ok
"max_active_runs":0 => 5
"max_active_runs":-1 => 5
"max_active_runs":4097 => 5
"max_active_runs":9223372036854775808 => 2
"max_active_runs":"16" => 2
"max_active_runs":1.5 => 2
"max_active_runs":true => 2
"max_active_runs":null => 2
"max_active_runs":16.0 => beyond 2
"max_active_runs":1e2 => beyond 2
"pools":{} => ok
"pools":{"default_pool":1,"p":2} => ok
"pools":null => 2
"pools":[] => 2
"pools":["p"] => 2
"pools":{"p":"2"} => 2
"pools":{"p":null} => 2
"pools":{"p":1.5} => 2
"pools":{"p":0} => 5
"pools":{"p":-1} => 5
"pools":{"p":1000001} => 5
"pools":{"a b":1} => 3
"pools":{"":1} => 3
"pools":{"p":2.0} => beyond 2
ROWS

rows_within graph '{"dag_id":"d","schedule":"@daily","tasks":' '}' <<'ROWS'
null => 2
{} => 2
"a" => 2
[null] => 2
[7] => 2
["a"] => 2
[[]] => 2
[{}] => 2
[{"upstream":[]}] => 2
[{"id":"a"},{}] => 2
ROWS

rows_within graph '{"dag_id":"d","schedule":"@daily","pools":{"p":1000000},"tasks":[{"id":"src"},' ']}' <<'ROWS'
{"id":null} => 2
{"id":7} => 2
{"id":""} => 3
{"id":"a b"} => 3
{"id":"src"} => 4
{"id":"a","sla":1} => 2
{"id":"a","Upstream":[]} => 2
{"id":"a","upstream":[]} => ok
{"id":"a","upstream":["src","src"]} => ok
{"id":"a","upstream":null} => 2
{"id":"a","upstream":"src"} => 2
{"id":"a","upstream":[7]} => 2
{"id":"a","upstream":[null]} => 2
{"id":"a","upstream":[["src"]]} => 2
{"id":"a","upstream":["b"]} => 6
{"id":"a","upstream":[""]} => 6
{"id":"a","upstream":["a"]} => 7
{"id":"a","rule":"all_success"} => ok
{"id":"a","rule":"all_failed"} => ok
{"id":"a","rule":"all_done"} => ok
{"id":"a","rule":"all_skipped"} => ok
{"id":"a","rule":"one_success"} => ok
{"id":"a","rule":"one_failed"} => ok
{"id":"a","rule":"one_done"} => ok
{"id":"a","rule":"none_failed"} => ok
{"id":"a","rule":"none_failed_min_one_success"} => ok
{"id":"a","rule":"none_skipped"} => ok
{"id":"a","rule":"always"} => ok
{"id":"a","rule":"all_succeeded"} => 10
{"id":"a","rule":"All_success"} => 10
{"id":"a","rule":""} => 10
{"id":"a","rule":null} => 2
{"id":"a","rule":7} => 2
{"id":"a","kind":"program"} => ok
{"id":"a","kind":"branch"} => ok
{"id":"a","kind":"sensor"} => 2
{"id":"a","kind":""} => 2
{"id":"a","kind":null} => 2
{"id":"a","kind":["branch"]} => 2
{"id":"a","command":null} => 2
{"id":"a","command":"echo"} => 2
{"id":"a","command":{}} => 2
{"id":"a","expand":null} => 2
{"id":"a","expand":7} => 2
{"id":"a","expand":["src"]} => 2
{"id":"a","expand":"src"} => 15
{"id":"a","upstream":["src"],"expand":"src"} => ok
{"id":"a","upstream":["src"],"expand":"src","rule":"always"} => 16
{"id":"a","upstream":["src"],"expand":"src","kind":"branch"} => 17
{"id":"a","depends_on_past":true} => ok
{"id":"a","depends_on_past":false} => ok
{"id":"a","depends_on_past":null} => 2
{"id":"a","depends_on_past":"true"} => 2
{"id":"a","depends_on_past":1} => 2
{"id":"a","depends_on_past":0} => 2
{"id":"a","retries":0} => ok
{"id":"a","retries":100} => ok
{"id":"a","retries":101} => 5
{"id":"a","retries":-1} => 5
{"id":"a","retries":"3"} => 2
{"id":"a","retries":1.5} => 2
{"id":"a","retries":false} => 2
{"id":"a","retries":null} => 2
{"id":"a","retries":-0} => beyond 2
{"id":"a","retries":2.0} => beyond 2
{"id":"a","retries":1e1} => beyond 2
{"id":"a","retry_delay":86400} => ok
{"id":"a","retry_delay":86401} => 5
{"id":"a","retry_delay":-1} => 5
{"id":"a","retry_delay":0.5} => 2
{"id":"a","retry_delay":"60"} => 2
{"id":"a","pool":"default_pool"} => ok
{"id":"a","pool":"p"} => ok
{"id":"a","pool":"q"} => 8
{"id":"a","pool":""} => 8
{"id":"a","pool":null} => 2
{"id":"a","pool":1} => 2
{"id":"a","pool_slots":128} => ok
{"id":"a","pool_slots":129} => 9
{"id":"a","pool":"p","pool_slots":1000000} => ok
{"id":"a","pool":"p","pool_slots":1000001} => 5
{"id":"a","pool_slots":0} => 5
{"id":"a","pool_slots":"1"} => 2
{"id":"a","pool_slots":null} => 2
{"id":"a","priority_weight":0} => ok
{"id":"a","priority_weight":1000000} => ok
{"id":"a","priority_weight":1000001} => 5
{"id":"a","priority_weight":-1} => 5
{"id":"a","priority_weight":1.5} => 2
{"id":"a","priority_weight":null} => 2
{"id":"a","weight_rule":"downstream"} => ok
{"id":"a","weight_rule":"upstream"} => ok
{"id":"a","weight_rule":"absolute"} => ok
{"id":"a","weight_rule":"max"} => 2
{"id":"a","weight_rule":null} => 2
ROWS

# words of a command

rows_within graph '{"dag_id":"d","schedule":"@daily","tasks":[{"id":"src"},{"id":"a","upstream":["src"],"expand":"src","command":[' ']}]}' <<'ROWS'
 => ok
"echo","" => ok
{"context":"logical_date"},{"context":"data_interval_start"},{"context":"data_interval_end"},{"context":"dag_id"} => ok
{"context":"task_id"},{"context":"map_index"},{"context":"try_number"} => ok
{"pull":"src"} => ok
{"item":true} => ok
null => 2
7 => 2
true => 2
["echo"] => 2
{} => 2
{"env":"HOME"} => 2
{"context":"ds"} => 2
{"context":""} => 2
{"context":null} => 2
{"context":["task_id"]} => 2
{"context":"task_id","pull":"src"} => 2
{"pull":null} => 2
{"pull":7} => 2
{"pull":"src","item":true} => 2
{"pull":"b"} => 14
{"pull":""} => 14
{"item":false} => 2
{"item":null} => 2
{"item":1} => 2
{"item":"true"} => 2
"echo",{"item":true},{"item":false} => 2
ROWS
rows_within graph '{"dag_id":"d","schedule":"@daily","tasks":[{"id":"src"},{"id":"a","upstream":["src"],' '}]}' <<'ROWS'
"command":[{"item":true}] => 2
"command":["echo",{"pull":"src"},{"item":true}] => 2
"command":[{"item":true}],"expand":null => 2
ROWS

# limits

# A graph whose task has such a command.
command() {
    echo "{\"dag_id\":\"d\",\"schedule\":\"@daily\",\"tasks\":[{\"id\":\"a\"},{\"id\":\"b\",\"upstream\":[\"a\"],\"command\":[$1]}]}" > "$file"
}

command "$(list_of 64 '"x"')"
row graph ok
command "$(list_of 65 '"x"')"
row graph 5
command "$(list_of 17 '{"pull":"a"}')"
row graph ok
command "\"$(letters 4096)\""
row graph ok
command "\"$(letters 4097)\""
row graph 5
command "{\"pull\":\"$(letters 4096)\"}"
row graph 14
command "{\"pull\":\"$(letters 4097)\"}"
row graph 5
# letters of two bytes: 4,096 bytes, and 4,098
command "\"$(letters 2048 | sed 's/a/é/g')\""
row graph ok
command "\"$(letters 2049 | sed 's/a/é/g')\""
row graph 'beyond 5'

# The ids of so many tasks as a list of texts, and so many tasks.
ids() {
    seq "$1" | sed 's/.*/"t&"/' | paste -sd ,
}
many_tasks() {
    seq "$1" | sed 's/.*/{"id":"t&"}/' | paste -sd ,
}

echo "{\"dag_id\":\"d\",\"schedule\":\"@daily\",\"tasks\":[$(many_tasks 2000)]}" > "$file"
row graph ok
echo "{\"dag_id\":\"d\",\"schedule\":\"@daily\",\"tasks\":[$(many_tasks 2001)]}" > "$file"
row graph 5
echo "{\"dag_id\":\"d\",\"schedule\":\"@daily\",\"tasks\":[$(many_tasks 16),{\"id\":\"a\",\"upstream\":[$(ids 16)],\"command\":[$(ids 16 | sed 's/"t[0-9]*"/{"pull":&}/g')]}]}" > "$file"
row graph ok
echo "{\"dag_id\":\"d\",\"schedule\":\"@daily\",\"tasks\":[$(many_tasks 17),{\"id\":\"a\",\"upstream\":[$(ids 17)],\"command\":[$(ids 17 | sed 's/"t[0-9]*"/{"pull":&}/g')]}]}" > "$file"
row graph 'beyond 5'
# 100 tasks behind 200 are 20,000 edges, and 101 behind them 20,200
for tasks in 100 101; do
    echo "{\"dag_id\":\"d\",\"schedule\":\"@daily\",\"tasks\":[$(many_tasks 200),$(seq "$tasks" | sed "s/.*/{\"id\":\"b&\",\"upstream\":[$(ids 200)]}/" | paste -sd ,)]}" > "$file"
    row graph "$([[ $tasks -eq 100 ]] && echo ok || echo 'beyond 5')"
done
{
    printf '%8388608s' ''
    cat "$work/no_tasks.json"
} > "$file"
row graph 'beyond 5'

# ---- tables

rows_within table '' '' <<'ROWS'
[] => ok
[{}] => ok
[{},{"task":"a","index":-1,"run":"2024-01-31T06:05:09Z","try":1,"status":99,"out":"x"}] => ok
null => 19
{} => 19
7 => 19
"[]" => 19
[null] => 19
[7] => 19
[[]] => 19
[{},{"status":256}] => 19
ROWS

rows_within table '[{' '}]' <<'ROWS'
"tasks":"a" => 19
"Task":"a" => 19
"task":"no id" => ok
"task":"" => ok
"task":null => 19
"task":7 => 19
"index":0 => ok
"index":-9223372036854775808 => ok
"index":9223372036854775807 => ok
"index":9223372036854775808 => 19
"index":-9223372036854775809 => 19
"index":1.5 => 19
"index":"0" => 19
"index":true => 19
"index":null => 19
"index":1.0 => beyond 19
"index":-0 => beyond 19
"run":"2024-02-29T23:59:59Z" => ok
"run":"0000-01-01T00:00:00Z" => ok
"run":"9999-12-31T23:59:59Z" => ok
"run":"" => 19
"run":"2024-01-31" => 19
"run":"2024-01-31T06:00Z" => 19
"run":"2024-1-31T06:00:00Z" => 19
"run":"2024-01-31T06:00:00z" => 19
"run":"2024-01-31T06:00:00" => 19
"run":"2024-01-31T06:00:00+00:00" => 19
"run":"2024-01-31 06:00:00Z" => 19
"run":" 2024-01-31T06:00:00Z" => 19
"run":"2024-01-31T06:00:00Z\n" => 19
"run":"202\u0664-01-31T06:00:00Z" => 19
"run":"2024-00-31T06:00:00Z" => 19
"run":"2024-13-31T06:00:00Z" => 19
"run":"2024-01-00T06:00:00Z" => 19
"run":"2024-01-32T06:00:00Z" => 19
"run":"2024-01-31T24:00:00Z" => 19
"run":"2024-01-31T23:60:00Z" => 19
"run":"2024-01-31T23:59:60Z" => 19
"run":"2024-04-31T00:00:00Z" => beyond 19
"run":"2023-02-29T00:00:00Z" => beyond 19
"run":null => 19
"run":20240131 => 19
"try":1 => ok
"try":0 => ok
"try":9223372036854775808 => 19
"try":"1" => 19
"try":null => 19
"try":1.0 => beyond 19
"status":0 => ok
"status":255 => ok
"status":256 => 19
"status":-1 => 19
"status":1.5 => 19
"status":"1" => 19
"status":true => 19
"status":null => 19
"status":1.0 => beyond 19
"out":"" => ok
"out":"a\nb\u0000" => ok
"out":null => 19
"out":7 => 19
"out":["a"] => 19
ROWS

# ---- the files of the examples

for example in "$root"/examples/*/*.json; do
    cp "$example" "$file"
    row "$([[ $(tr -d ' \n' < "$file") == \[* ]] && echo table || echo graph)" ok
done

# ---- what the schemas say

python3 -c 'from jsonschema import Draft202012Validator' 2> /dev/null ||
    skips_rest "the schemas over these $rows files, since there is no python3 with the module jsonschema"

# Says of each file of a kind whether its schema accepts it.
cat > "$work/validate.py" <<'PY'
import json
import pathlib
import sys

from jsonschema import Draft202012Validator

schema = json.load(sys.stdin)
Draft202012Validator.check_schema(schema)
validator = Draft202012Validator(schema)
for line in pathlib.Path(sys.argv[1], "wanted").read_text().splitlines():
    name = line.split(" ")[0]
    value = json.loads(pathlib.Path(sys.argv[1], name).read_bytes())
    print(name, "accepted" if validator.is_valid(value) else "refused")
PY
for kind in graph table; do
    "$program" schema "$kind" | python3 "$work/validate.py" "$work/$kind" > "$work/said"
    rows=$((rows + $(wc -l < "$work/$kind/wanted")))
    while read -r name wanted; do
        differs "the schema of a $kind is to have $wanted: $(head -c 300 "$work/$kind/$name")"
    done < <(diff "$work/said" "$work/$kind/wanted" | sed -n 's/^> //p')
done

# Tells what of the schemas' keys, their defaults and their limits isn't that of the page's tables.
cat > "$work/keys.py" <<'PY'
import json
import pathlib
import re
import subprocess
import sys

program = sys.argv[1]
page = pathlib.Path(sys.argv[2]).read_text()


def schema_of(format):
    return json.loads(subprocess.check_output([program, "schema", format]))


def table_behind(words):
    """The rows of the first table behind the words, without its head."""
    lines = page[page.index(words):].splitlines()
    first = next(number for number, line in enumerate(lines) if line.startswith("| key |"))
    rows = []
    for line in lines[first + 2:]:
        if not line.startswith("|"):
            break
        rows.append([cell.strip() for cell in line.strip("|").split("|")])
    return rows


def whole(digits):
    return int(digits.replace(",", ""))


def default_in(cell):
    """The default that a cell tells: the JSON value, else the text."""
    text = cell.strip("`")
    try:
        return json.loads(text)
    except ValueError:
        return text


def resolved(schema, value):
    """The value with what it refers to."""
    if "$ref" in value:
        value = {**schema["$defs"][value["$ref"].rsplit("/", 1)[1]], **value}
    return value


def compare(name, schema, held, rows, defaults_in_column):
    keys = [row[0].strip("`") for row in rows]
    if sorted(keys) != sorted(held["properties"]):
        print(f"{name}: the keys of the page are {keys}")
        return
    for key, row in zip(keys, rows):
        value = resolved(schema, held["properties"][key])
        if not held["properties"][key].get("description"):
            print(f"{name}, {key}: no description")
        told = row[2] if defaults_in_column else (re.findall(r"default (\S+)", row[1]) or ["none"])[0]
        is_required = told == "required"
        if is_required != (key in held.get("required", [])):
            print(f"{name}, {key}: required by the page is {is_required}")
        default = {"required": None, "none": None, "empty": ""}.get(told, default_in(told))
        if value.get("default") != default:
            print(f"{name}, {key}: the default of the page is {default!r}")
        limits = re.search(r"(?:^|; |number )(-?[0-9,]+) to ([0-9,]+)", row[3] if defaults_in_column else row[1])
        if limits:
            least, most = whole(limits[1]), whole(limits[2])
            limited = resolved(schema, value["additionalProperties"]) if value["type"] == "object" else value
            if (limited.get("minimum"), limited.get("maximum")) != (least, most):
                print(f"{name}, {key}: the limits of the page are {least} and {most}")


graph = schema_of("graph")
compare("graph", graph, graph, table_behind("## Graph file"), True)
compare("task", graph, graph["$defs"]["task"], table_behind("A task object has these keys."), True)
answers = schema_of("table")
compare("table", answers, answers["items"], table_behind("## Table of answers"), False)
PY
rows=$((rows + 1))
{ python3 "$work/keys.py" "$program" "$root/docs/FORMATS.md" > "$work/told" 2>&1 && [[ ! -s $work/told ]]; } || differs "the keys: $(< "$work/told")"

sum
