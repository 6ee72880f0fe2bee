#!/usr/bin/env bash
# Tries that fail are told with their cause; logs keep what tries write and were given; programs have the variables of their try. Runs
# the program with real programs, by 1 and 8 workers, and compares what it tells, keeps and hands over with what stands here, which was
# worked out by hand from docs/SPECIFICATION.md and docs/FORMATS.md. The last line is the sum, and the status is 1 where a row differs.
set -euo pipefail

source "$(dirname "$(readlink -f "${BASH_SOURCE[0]}")")/../shared/compare.sh"
cd "$work"
unset BACKFILL_GIVEN
run=2024-01-01T00:00:00Z

# Runs the graph, or clears in its report. Sets `status`; what is printed stands in `out` and `err`.
goes() {
    status=0
    timeout 120 "$program" "$@" > out 2> err || status=$?
}

# Requires the status of a run of the graph for the day, and that the lines on standard error, in any order, are those on standard
# input.
told() {
    local wanted=$1
    shift
    LC_ALL=C sort > lines_wanted
    goes run "$graph" "${day[@]}" "$@"
    LC_ALL=C sort err > lines
    is_same "the status of $*" "$wanted" "$status"
    holds "what is told by $*" diff lines_wanted lines
}

# ---- why tries fail

echo true > plain_file
tasks '
    {"id":"status","retries":1,"command":["sh","-c","exit 3"]},
    {"id":"signal","command":["sh","-c","kill -9 $$"]},
    {"id":"absent","command":["/no/such/program"]},
    {"id":"plain","command":["'"$work"'/plain_file"]},
    {"id":"much","command":["head","-c","1048577","/dev/zero"]},
    {"id":"bytes","command":["printf","\\377"]},
    {"id":"long","command":["sh","-c","head -c 70000 /dev/zero | tr \"\\0\" a"]},
    {"id":"branch","kind":"branch","command":["echo","[\"skips\",\"nowhere\"]"]},
    {"id":"skips","upstream":["branch"],"command":["true"]},
    {"id":"source","command":["echo","5"]},
    {"id":"expanded","upstream":["source"],"expand":"source","command":["true"]},
    {"id":"parts","command":["echo","[1,2,3]"]},
    {"id":"part","upstream":["parts"],"expand":"parts","command":["test","2","-ne",{"item":true}]},
    {"id":"well","command":["true"]},
    {"id":"skipped","command":["sh","-c","exit 99"]}'
causes() {
    cat <<LINES
failed: status $run try 1: exit status 3${1:+, see $1/task=status/try=1.err}
failed: status $run try 2: exit status 3${1:+, see $1/task=status/try=2.err}
failed: signal $run try 1: killed by signal 9${1:+, see $1/task=signal/try=1.err}
failed: absent $run try 1: not started: No such file or directory${1:+, see $1/task=absent/try=1.err}
failed: plain $run try 1: not started: Permission denied${1:+, see $1/task=plain/try=1.err}
failed: much $run try 1: more than 1048576 bytes of output${1:+, see $1/task=much/try=1.out}
failed: bytes $run try 1: its last line isn't UTF-8${1:+, see $1/task=bytes/try=1.out}
failed: long $run try 1: a value of more than 65536 bytes${1:+, see $1/task=long/try=1.out}
failed: branch $run try 1: a branch that names no direct downstream: ["skips","nowhere"]${1:+, see $1/task=branch/try=1.out}
failed: source $run try 1: no list of at most 1024 items, which expanded expands${1:+, see $1/task=source/try=1.out}
failed: part $run index 1 try 1: exit status 1${1:+, see $1/task=part/index=1,try=1.err}
LINES
}
for workers in 1 8; do
    told 1 --workers "$workers" --logs kept < <(causes "kept/dag=d/run=$run")
    goes run "$graph" "${day[@]}" --workers "$workers" --progress
    is_same "what is told beside progress, by $workers workers" "$(causes '' | LC_ALL=C sort)" "$(grep '^failed: ' err | LC_ALL=C sort)"
    told 1 --workers "$workers" < /dev/null
    told 1 --workers "$workers" --quiet --progress --logs kept < /dev/null
done
is_same "the system's words in the log" 'backfill: /no/such/program: No such file or directory' "$(< "kept/dag=d/run=$run/task=absent/try=1.err")"

# A word that the system finds too long. What is answered from a table fails untold.

tasks '
    {"id":"parts","command":["echo","[1,2,3]"]},
    {"id":"part","upstream":["parts"],"expand":"parts","command":["sh","-c","head -c 60000 /dev/zero | tr \"\\0\" $0",{"item":true}]},
    {"id":"words","upstream":["part"],"command":["echo",{"pull":"part"}]}'
told 1 --logs kept <<< "failed: words $run try 1: not started: Argument list too long, see kept/dag=d/run=$run/task=words/try=1.err"
cp out report
echo '[{"task":"words","status":1}]' > "$table"
goes clear "$graph" report "${day[@]}" --task words --run 2024-01-01 --table "$table" --progress
is_same 'failed tries that a table answers' '' "$(grep '^failed: ' err || true)"

# Programs that all fail at once are told a line each.

tasks '{"id":"items","command":["sh","-c","seq -s , 0 63 | sed \"s/.*/[&]/\""]},
    {"id":"all","upstream":["items"],"expand":"items","command":["sh","-c","sleep 0.2; exit 1"]}'
for ((index = 0; index < 64; index++)); do
    echo "failed: all $run index $index try 1: exit status 1, see at_once/dag=d/run=$run/task=all/index=$index,try=1.err"
done > at_once_wanted
told 1 --workers 64 --logs at_once < at_once_wanted

# ---- what logs keep

# All that a try writes is kept, past the limit too, and its program gets to its end. The try fails as ever.
tasks '{"id":"much","command":["sh","-c","head -c 3000000 /dev/zero; head -c 300000 /dev/zero >&2; echo end; echo done > much_ended"]}'
for workers in 1 8; do
    rm -f much_ended
    goes run "$graph" "${day[@]}" --workers "$workers" --logs kept
    is_same 'the state of a try that prints too much' 'much -1 failed 1 -' "$(grep '^much ' out)"
    is_same 'how much is kept of its output' 3000004 "$(stat -c %s "kept/dag=d/run=$run/task=much/try=1.out")"
    is_same 'how much is kept of its standard error' 300000 "$(stat -c %s "kept/dag=d/run=$run/task=much/try=1.err")"
    holds 'a program that prints too much goes on' test -e much_ended
done

# It is kept while the program runs, and begun anew where the try is made again.
tasks '{"id":"slow","command":["sh","-c","echo first; echo word >&2; while [ ! -e seen ]; do sleep 0.05; done; echo last"]}'
"$program" run "$graph" "${day[@]}" --logs kept > out &
runner=$!
log=kept/dag=d/run=$run/task=slow/try=1
for ((turn = 0; turn < 200; turn++)); do
    [[ ! -s $log.out || ! -s $log.err ]] || break
    sleep 0.05
done
is_same 'a log while its program runs' 'first word' "$(< "$log.out") $(< "$log.err")"
touch seen
wait "$runner"
is_same 'a log of a program that has ended' $'first\nlast' "$(< "$log.out")"
cp out report
goes clear "$graph" report "${day[@]}" --task slow --run 2024-01-01 --logs kept
is_same 'a log that is made anew' $'0 first\nlast' "$status $(< "$log.out")"

# What a try was given stands in a file, whose path the program has.
tasks '
    {"id":"src","command":["echo","[1,\"two\"]"]},
    {"id":"none","command":["true"]},
    {"id":"each","upstream":["src","none"],"expand":"src","command":["sh","-c","cat \"$BACKFILL_GIVEN\"",{"pull":"src"},{"pull":"none"}]}'
goes run "$graph" "${day[@]}" --logs kept
is_same 'what tries were given, as their programs read it' \
    '"{\"item\":1,\"pulls\":{\"src\":[1,\"two\"],\"none\":null}}" "{\"item\":\"two\",\"pulls\":{\"src\":[1,\"two\"],\"none\":null}}"' \
    "$(sed -n 's/^each [01] success 1 //p' out | paste -sd ' ')"
is_same 'the file of what a try was given' '{"item":1,"pulls":{"src":[1,"two"],"none":null}}' \
    "$(< "kept/dag=d/run=$run/task=each/index=0,try=1.given.json")"
is_same 'what a try without a source was given' '{"item":null,"pulls":{}}' "$(< "kept/dag=d/run=$run/task=src/try=1.given.json")"

# ---- where logs stand

# Ids that are `..` and ids of 250 bytes.
long=$(printf 'n%.0s' {1..250})
echo '{"dag_id":"..","schedule":"@daily","tasks":[{"id":"..","command":["echo","up"]},{"id":"'"$long"'","command":["echo","long"]}]}' > "$graph"
goes run "$graph" "${day[@]}" --logs names
is_same 'the log of a task that is called ..' up "$(< "names/dag=../run=$run/task=../try=1.out")"
is_same 'the log of a task with a name of 250 bytes' long "$(< "names/dag=../run=$run/task=$long/try=1.out")"
is_same 'nothing else is made' 'names' "$(find . -maxdepth 1 -name names -o -maxdepth 1 -name 'dag=*' | sed 's/^..//')"

# A pipe or a link in the place of a log is removed, and what the link leads to isn't written.
tasks '{"id":"a","command":["sh","-c","echo out; echo err >&2"]}'
mkdir -p "there/dag=d/run=$run/task=a"
echo outside > outside
mkfifo "there/dag=d/run=$run/task=a/try=1.out"
ln -s "$work/outside" "there/dag=d/run=$run/task=a/try=1.err"
for workers in 1 8; do
    goes run "$graph" "${day[@]}" --workers "$workers" --logs there
    is_same 'logs in the place of a pipe and of a link' '0 out err outside' \
        "$status $(< "there/dag=d/run=$run/task=a/try=1.out") $(< "there/dag=d/run=$run/task=a/try=1.err") $(< outside)"
done

# Where a log can't be made nothing is started, the fault is told, and nothing is printed.
tasks '{"id":"a","command":["sh","-c","echo >> started"]},{"id":"b","upstream":["a"],"command":["sh","-c","echo >> started"]}'
is_no_folder() {
    local logs=$1 workers
    for workers in 1 8; do
        rm -f started
        tells 3 "fault: cannot write $logs/dag=d/run=$run/task=a/try=1.out" run "$graph" "${day[@]}" --workers "$workers" --logs "$logs"
        rm -f journal
        tells 3 "fault: cannot write $logs/dag=d/run=$run/task=a/try=1.out" run "$graph" "${day[@]}" --workers "$workers" --logs "$logs" --journal journal
        is_same "what is started without a place for logs, by $workers workers" '' "$(cat started 2> /dev/null || true)"
        is_same "what is recorded without a place for logs, by $workers workers" 1 "$(wc -l < journal)"
    done
}
is_no_folder plain_file
mkdir -p linked elsewhere piped
ln -s "$work/elsewhere" linked/dag=d
is_no_folder linked
is_same 'nothing is made behind a link' '' "$(ls elsewhere)"
mkfifo piped/dag=d
is_no_folder piped
mkdir -p "taken/dag=d/run=$run/task=a/try=1.out"
is_no_folder taken

# A log that can't be kept to its end changes no outcome, and that is told once. The next try finds no room for what it was given.
mkdir full
if mount -t tmpfs -o size=64k tmpfs full 2> /dev/null; then
    first='{"id":"a","command":["sh","-c","head -c 200000 /dev/zero | tr \"\\0\" \"\\n\"; echo end"]}'
    tasks "$first"
    goes run "$graph" "${day[@]}" --logs full --quiet
    is_same 'the state of a try whose log fills the disk' '0 a -1 success 1 "end"' "$status $(grep '^a ' out)"
    is_same 'what is told of it' 'logs: not all could be kept' "$(< err)"
    tasks "$first"',{"id":"b","upstream":["a"],"command":["echo","end"]}'
    goes run "$graph" "${day[@]}" --logs full --quiet
    is_same 'what is told of a full disk' "3 logs: not all could be kept"$'\n'"fault: cannot write full/dag=d/run=$run/task=b/try=1.out" "$status $(< err)"
    umount full
else
    skips 'a disk that logs fill, since none can be mounted'
fi

# ---- the environment of a try: it has nothing of a try that started the runner

export BACKFILL_{DAG_ID,TASK_ID,RUN,DATE,DATE_NODASH,INTERVAL_START,INTERVAL_END,MAP_INDEX,TRY_NUMBER,GIVEN}=outer
export AIRFLOW_CTX_{DAG_ID,TASK_ID,EXECUTION_DATE,TRY_NUMBER}=outer
cat > environment <<'LAUNCHER'
#!/bin/sh
env | grep -E '^(BACKFILL|AIRFLOW_CTX)_' | LC_ALL=C sort > "environment of $BACKFILL_TASK_ID $BACKFILL_MAP_INDEX"
[ $# -eq 0 ] || exec "$@"
LAUNCHER
chmod +x environment
echo '{"dag_id":"shops","schedule":"0 3 * * *","zone":"+05:30","tasks":[
    {"id":"list","retries":1,"command":["sh","-c","./environment; [ $BACKFILL_TRY_NUMBER = 2 ] && echo [7]"]},
    {"id":"shop","upstream":["list"],"expand":"list","command":["./environment"]}]}' > "$graph"
variables() {
    cat <<VARIABLES
AIRFLOW_CTX_DAG_ID=shops
AIRFLOW_CTX_EXECUTION_DATE=2024-01-01T21:30:00+00:00
AIRFLOW_CTX_TASK_ID=$1
AIRFLOW_CTX_TRY_NUMBER=$3
BACKFILL_DAG_ID=shops
BACKFILL_DATE=2024-01-02
BACKFILL_DATE_NODASH=20240102
${4:+BACKFILL_GIVEN=$4
}BACKFILL_INTERVAL_END=2024-01-02T21:30:00Z
BACKFILL_INTERVAL_START=2024-01-01T21:30:00Z
BACKFILL_MAP_INDEX=$2
BACKFILL_RUN=2024-01-01T21:30:00Z
BACKFILL_TASK_ID=$1
BACKFILL_TRY_NUMBER=$3
VARIABLES
}
evening=(--from 2024-01-01T12:00:00Z --to 2024-01-01T23:00:00Z)
has_variables() {
    is_same "the status of $*" 0 "$status"
    is_same "the variables of an unmapped try, $*" "$(variables list -1 2 "${1:+$1/task=list/try=2.given.json}")" "$(< 'environment of list -1')"
    is_same "the variables of an instance, $*" "$(variables shop 0 1 "${1:+$1/task=shop/index=0,try=1.given.json}")" "$(< 'environment of shop 0')"
    rm 'environment of '*
}
for workers in 1 8; do
    goes run "$graph" "${evening[@]}" --workers "$workers"
    has_variables ''
    goes run "$graph" "${evening[@]}" --workers "$workers" --logs kept
    has_variables kept/dag=shops/run=2024-01-01T21:30:00Z
    goes run "$graph" "${evening[@]}" --workers "$workers" --launcher ./environment
    has_variables ''
done
cp out report
goes clear "$graph" report "${evening[@]}" --task shop --run 2024-01-01T21:30:00Z
is_same 'the variables of a try that is cleared' "0 $(variables shop 0 1 '')" "$status $(< 'environment of shop 0')"

# All else of the environment is that of the runner.
tasks '{"id":"a","command":["sh","-c","echo $GREETING $BACKFILL_TASK_ID"]}'
GREETING=hello BACKFILL_TASK_ID=other goes run "$graph" "${day[@]}"
is_same 'the environment beside the variables' 'a -1 success 1 "hello a"' "$(grep '^a ' out)"

sum
