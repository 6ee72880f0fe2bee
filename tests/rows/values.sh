#!/usr/bin/env bash
# Compares the values that programs push by the lines that they print, and those that many instances pull, with what stands here, which was
# worked out from docs/SPECIFICATION.md. The last line is the sum, and the status is 1 where a row differs.
set -euo pipefail

source "$(dirname "$(readlink -f "${BASH_SOURCE[0]}")")/../shared/compare.sh"

# A graph of tasks without edges, one for each file that is named, which prints it.
prints() {
    local file ids=''
    for file; do
        ids+=",{\"id\":\"${file##*/}\",\"command\":[\"cat\",\"$file\"]}"
    done
    tasks "${ids#,}"
}

# Lines, and behind ` => ` the JSON text of the value that each pushes, `-` where it pushes nothing. What is no value is pushed as text.
count=0
files=()
while IFS= read -r row; do
    files+=("$work/$count")
    printf %s "${row% => *}" > "$work/$count"
    echo "$count -1 success 1 ${row##* => }" >> "$work/instances"
    count=$((count + 1))
done <<'ROWS'
 => -
null => -
  null => -
3 => 3
 7 => 7
-7 => -7
0 => 0
9223372036854775807 => 9223372036854775807
-9223372036854775808 => -9223372036854775808
true => true
 false => false
"x" => "x"
"" => ""
"\u00e9\/\u0001" => "é/\u0001"
"a\nb\t\\\"" => "a\nb\t\\\""
[] => []
[1,[2]] => [1,[2]]
[ 1 , "a b" , null , [ ] , false ] => [1,"a b",null,[],false]
1.5 => "1.5"
-0 => "-0"
1e2 => "1e2"
1e999 => "1e999"
9223372036854775808 => "9223372036854775808"
-9223372036854775809 => "-9223372036854775809"
007 => "007"
{} => "{}"
{"a":1} => "{\"a\":1}"
[1.5] => "[1.5]"
[{}] => "[{}]"
[1 => "[1"
[1,] => "[1,]"
1 2 => "1 2"
"a => "\"a"
hello world => "hello world"
True => "True"
nul => "nul"
- => "-"
 é => " é"
ROWS

# Lists nest 64 deep; one that nests deeper is a text.
for depth in 64 65 128; do
    list=$(printf '[%.0s' $(seq "$depth"))$(printf ']%.0s' $(seq "$depth"))
    printf %s "$list" > "$work/deep_$depth"
    files+=("$work/deep_$depth")
    [[ $depth -eq 64 ]] || list=\"$list\"
    echo "deep_$depth -1 success 1 $list" >> "$work/instances"
done
prints "${files[@]}"
answers 0 run "$graph" "${day[@]}" --workers 4 < <(one_day success < "$work/instances")

# Outputs as printf spells them, and the values that their last lines push.
while IFS= read -r row; do
    printf "${row% => *}" > "$work/output"
    prints "$work/output"
    answers 0 run "$graph" "${day[@]}" < <(one_day success <<< "output -1 success 1 ${row##* => }")
done <<'ROWS'
 => -
\n => -
a => "a"
a\n => "a"
a\nb\n => "b"
a\nb => "b"
a\n\n => -
a\r\n => "a"
a\n b \t \r\n => " b"
a\n \t\r => -
a\v\f\n => "a\u000b\f"
a\rb\n => "a\rb"
ROWS

# A last line that isn't UTF-8 fails its try.
printf 'a\xff' > "$work/output"
prints "$work/output"
answers 1 run "$graph" "${day[@]}" < <(one_day failed <<< 'output -1 failed 1 -')

# Values that many instances pull: a long list, which is another in each run, a long text, a short one, and nothing.
text="\"$(printf 'a\\n%.0s' {1..400})\""
list_of() {
    local first=$1 count=$2
    echo "[$(seq -s , "$first" $((first + count - 1)))]"
}
pulled_by() {
    local task=$1 list=$2 index pulled
    shift 2
    for index in {0..39}; do
        echo "$task $index success 1 -"
        echo "@item $((index + 1))"
        for pulled; do
            case $pulled in
                list) echo "@pull list $list" ;;
                text) echo "@pull text $text" ;;
                short) echo '@pull short "s"' ;;
                nothing) echo '@pull nothing -' ;;
            esac
        done
    done
}
pulled_alike() {
    local number list
    echo '@backfill 2 d'
    for number in 1 2; do
        list=$(list_of "${number}000" 300)
        echo "@run 2024-01-0${number}T00:00:00Z 2024-01-0$((number + 1))T00:00:00Z success"
        echo "items -1 success 1 $(list_of 1 40)"
        echo "list -1 success 1 $list"
        echo "text -1 success 1 $text"
        echo 'short -1 success 1 "s"'
        echo 'nothing -1 success 1 -'
        pulled_by one "$list" short list nothing text
        pulled_by other "$list" text list
    done
    echo '@end 2'
}
tasks '
    {"id":"items"},{"id":"list"},{"id":"text"},{"id":"short"},{"id":"nothing"},
    {"id":"one","upstream":["items","list","text","short","nothing"],"expand":"items",
        "command":["true",{"pull":"short"},{"pull":"list"},{"pull":"nothing"},{"pull":"text"}]},
    {"id":"other","upstream":["items","list","text"],"expand":"items","command":["true",{"pull":"text"},{"pull":"list"}]}'
# The text as a text of JSON.
out=${text//\\/\\\\}
out=${out//\"/\\\"}
echo "[{\"task\":\"items\",\"out\":\"$(list_of 1 40)\"},{\"task\":\"text\",\"out\":\"$out\"},{\"task\":\"short\",\"out\":\"s\"},{\"task\":\"nothing\"},
    {\"task\":\"list\",\"run\":\"2024-01-01T00:00:00Z\",\"out\":\"$(list_of 1000 300)\"},{\"task\":\"list\",\"out\":\"$(list_of 2000 300)\"}]" > "$table"
for workers in 1 4; do
    answers 0 dry "$graph" "$table" --from 2024-01-01 --to 2024-01-02 --workers "$workers" < <(pulled_alike)
done

# 1,024 instances pull two lists of 2,001 bytes, which are others in each of 20 runs: a report of over 80 MB, by 64 MB of address space in all.
tasks '
    {"id":"items"},{"id":"left"},{"id":"right"},
    {"id":"m","upstream":["items","left","right"],"expand":"items","command":["true",{"pull":"left"},{"pull":"right"}]}'
twenty_runs() {
    local number left right
    echo '@backfill 2 d'
    for number in {1..20}; do
        left=$(list_of $((1000 + number)) 400)
        right=$(list_of $((5000 + number)) 400)
        printf '@run 2024-01-%02dT00:00:00Z 2024-01-%02dT00:00:00Z success\n' "$number" $((number + 1))
        printf '%s -1 success 1 %s\n' items "$(list_of 1 1024)" left "$left" right "$right"
        seq 1024 | awk -v left="$left" -v right="$right" '{ printf "m %d success 1 -\n@item %d\n@pull left %s\n@pull right %s\n", $1 - 1, $1, left, right }'
    done
    echo '@end 20'
}
{
    echo "[{\"task\":\"items\",\"out\":\"$(list_of 1 1024)\"},{\"task\":\"m\"}"
    for number in {1..20}; do
        printf ',{"task":"%s","run":"2024-01-%02dT00:00:00Z","out":"%s"}' left "$number" "$(list_of $((1000 + number)) 400)" \
            right "$number" "$(list_of $((5000 + number)) 400)"
    done
    echo ']'
} > "$table"
status=0
(
    ulimit -v 65536
    exec timeout 60 "$program" dry "$graph" "$table" --from 2024-01-01 --to 2024-01-20
) > "$work/out" 2> "$work/err" || status=$?
is_same 'what comes of lists that all instances pull' '0 ' "$status $(< "$work/err")"
holds 'the report of them' cmp -s <(twenty_runs) "$work/out"
sum
