#!/usr/bin/env bash
# Runs the program with programs that behave badly, with too few descriptors, with reports that don't end or come slowly, with
# output that can't be written, and with signals, and compares its exit status and all that it prints with what stands here, which
# was worked out by hand from docs/SPECIFICATION.md and docs/FORMATS.md. At the end nothing that was started is left. The last line
# is the sum, and the status is 1 where a row differs.
set -euo pipefail

source "$(dirname "$(readlink -f "${BASH_SOURCE[0]}")")/../shared/compare.sh"
# Descriptors are limited below, so none that was handed on stays open, but that by which the shell reads this script; and a signal
# that would write a core writes none.
for descriptor in /proc/$$/fd/*; do
    [[ ${descriptor##*/} -lt 3 || $descriptor -ef ${BASH_SOURCE[0]} ]] || eval "exec ${descriptor##*/}>&-"
done
ulimit -c 0
# All that is started from here on bears this mark.
export HOSTILE_TEST=$work
# Programs find this folder and the one for temporary files empty, and so do we at the end.
mkdir "$work/here" "$work/temporary"
export TMPDIR=$work/temporary
cd "$work/here"

# Waits until a command holds, for half a minute at most.
until_holds() {
    local tries
    for ((tries = 0; tries < 300; tries++)); do
        ! "$@" || return 0
        sleep 0.1
    done
    return 1
}

# The program of the one task, a, is this command, and this comes of it.
comes_to() {
    local state=success
    [[ $2 != failed* ]] || state=failed
    tasks "{\"id\":\"a\",\"command\":$1}"
    ends_in "$state" <<< "a -1 $2"
}

# Programs whose output is as long as it may be, a byte longer, and a thousand times as long; the last one isn't killed by that.

{
    head -c 1048574 /dev/zero | tr '\0' '\n'
    echo 7
} > "$work/longest"
comes_to "[\"cat\",\"$work/longest\"]" 'success 1 7'
{
    echo
    cat "$work/longest"
} > "$work/longer"
comes_to "[\"cat\",\"$work/longer\"]" 'failed 1 -'
comes_to '["head","-c","1000000000","/dev/zero"]' 'failed 1 -'
comes_to "[\"sh\",\"-c\",\"trap '' PIPE; head -c 1000000000 /dev/zero 2> /dev/null; echo \$? > $work/told; exit 0\"]" 'failed 1 -'
is_same 'what a program was told that ignores SIGPIPE' 1 "$(< "$work/told")"

# A program that closes its output is waited for, and its exit code counts.

for workers in 1 8; do
    tasks "{\"id\":\"a\",\"command\":[\"sh\",\"-c\",\"echo 7; exec >&-; sleep 0.3; echo over >> $work/over\"]},
      {\"id\":\"b\",\"command\":[\"sh\",\"-c\",\"echo 7; exec >&-; sleep 0.3; exit 3\"]}"
    answers 1 run "$graph" "${day[@]}" --workers "$workers" < <(one_day failed <<< $'a -1 success 1 7\nb -1 failed 1 -')
    is_same 'what a program did behind its output' over "$(cat "$work/over")"
    rm "$work/over"
done

# A program that leaves another behind: the try ends when that one closes the output too, and its lines count; the exit code is
# the program's own.

comes_to '["sh","-c","(sleep 0.3; echo 8) & echo 7"]' 'success 1 8'
comes_to '["sh","-c","(sleep 0.3; exit 3) & exit 0"]' 'success 1 -'
comes_to '["sh","-c","(sleep 0.3; echo 8) & exit 3"]' 'failed 1 -'
comes_to '["sh","-c","(sleep 0.3; echo 8) & kill -9 $$"]' 'failed 1 -'
comes_to '["sh","-c","cat /dev/zero & exit 0"]' 'failed 1 -'
# One that doesn't hold the output isn't waited for, and isn't ended either.
mkfifo "$work/gate"
tasks "{\"id\":\"a\",\"command\":[\"sh\",\"-c\",\"cat $work/gate > $work/late & echo 7\"]}"
for workers in 1 8; do
    answers 0 run "$graph" "${day[@]}" --workers "$workers" < <(one_day success <<< 'a -1 success 1 7')
    timeout 30 sh -c "echo late > $work/gate"
    until_holds test -s "$work/late" || true
    is_same 'what went on' late "$(cat "$work/late")"
    rm "$work/late"
done

# Standard input is empty, whatever the runner's own is, standard error the runner's, and no other descriptor is handed on.

tasks '{"id":"a","command":["sh","-c","read line && echo got || echo none"]}'
for workers in 1 8; do
    one_day success <<< 'a -1 success 1 "none"' > "$work/wanted"
    is_same 'a report, where there is an input' "$(< "$work/wanted")" "$(echo words | "$program" run "$graph" "${day[@]}" --workers "$workers")"
    is_same 'a report, where the input is closed' "$(< "$work/wanted")" "$("$program" run "$graph" "${day[@]}" --workers "$workers" <&-)"
done
tasks '{"id":"a","command":["sh","-c","echo words >&2; echo 7"]}'
for workers in 1 8; do
    one_day success <<< 'a -1 success 1 7' > "$work/wanted_out"
    echo words > "$work/wanted_err"
    ends 0 run "$graph" "${day[@]}" --workers "$workers"
done
# The fourth is the folder that is listed.
tasks "$(for task in a b c d e f g h; do
    echo "{\"id\":\"$task\",\"command\":[\"sh\",\"-c\",\"sleep 0.1; ls /proc/self/fd | tr -d '\\\\n'; sleep 0.1\"]},"
done | sed '$ s/,$//')"
ends_in success < <(printf '%s -1 success 1 123\n' a b c d e f g h | sed 's/123$/"0123"/')
# Signals are as by default, and none is held back.
comes_to '["sh","-c","kill -PIPE $$; echo 7"]' 'failed 1 -'
comes_to '["sh","-c","kill -INT $$; echo 7"]' 'failed 1 -'
comes_to '["grep","SigBlk","/proc/self/status"]' 'success 1 "SigBlk:\t0000000000000000"'
# A program that is stopped and goes on.
comes_to '["sh","-c","(sleep 0.3; kill -CONT $$) & kill -STOP $$; echo 7"]' 'success 1 7'

# What the system doesn't start: no shell stands in for it.

echo 'echo 7' > "$work/no_interpreter"
echo '#!/no/such/program' > "$work/unknown_interpreter"
: > "$work/empty"
cp "$work/no_interpreter" "$work/not_executable"
chmod +x "$work/no_interpreter" "$work/unknown_interpreter" "$work/empty"
for file in no_interpreter unknown_interpreter empty not_executable none here; do
    comes_to "[\"$work/$file\"]" 'failed 1 -'
done
comes_to "[\"$work/empty/program\"]" 'failed 1 -'
comes_to '["no-program-of-this-name"]' 'failed 1 -'
comes_to '["ec\u0000ho"]' 'failed 1 -'
mkdir "$work/programs"
printf '#!/bin/sh\necho 7\n' > "$work/programs/only-here"
chmod +x "$work/programs/only-here"
comes_to '["only-here"]' 'failed 1 -'
PATH=$work/programs:$PATH comes_to '["only-here"]' 'success 1 7'
# A word of 4,096 bytes, one of a value of 65,534 letters, and one that is longer than the system takes.
word=$(head -c 4096 /dev/zero | tr '\0' x)
comes_to "[\"echo\",\"$word\"]" "success 1 \"$word\""
tasks '{"id":"m","command":["sh","-c","head -c 65534 /dev/zero | tr \"\\\\0\" x"]},
  {"id":"n","upstream":["m"],"command":["sh","-c","echo ${#0}",{"pull":"m"}]}'
long=$(head -c 65534 /dev/zero | tr '\0' x)
ends_in success <<LINES
m -1 success 1 "$long"
n -1 success 1 65534
@pull m "$long"
LINES
tasks '{"id":"src","command":["echo","[1,2,3]"]},
  {"id":"m","upstream":["src"],"expand":"src","command":["sh","-c","head -c 65534 /dev/zero | tr \"\\\\0\" x"]},
  {"id":"n","upstream":["m"],"command":["true",{"pull":"m"}]}'
ends_in failed <<LINES
src -1 success 1 [1,2,3]
m 0 success 1 "$long"
@item 1
m 1 success 1 "$long"
@item 2
m 2 success 1 "$long"
@item 3
n -1 failed 1 -
@pull m ["$long","$long","$long"]
LINES

# A working directory that is no more.

mkdir "$work/gone"
tasks '{"id":"a","command":["echo","7"]}'
cd "$work/gone"
rmdir "$work/gone"
ends_in success <<< 'a -1 success 1 7'
tells 3 'fault: cannot read graph.json' run graph.json "${day[@]}"
cd "$work/here"

# Too few descriptors: what can't be started has failed, and the backfill goes on. Each program waits until the gate is there. How
# many are started is by chance: each is started by more descriptors than it then holds, and the workers start them side by side.

tasks "$(for ((task = 0; task < 128; task++)); do
    echo "{\"id\":\"t$task\",\"command\":[\"sh\",\"-c\",\"until test -e $work/open; do sleep 0.1; done\"]},"
done | sed '$ s/,$//')"
(
    ulimit -n 64
    status=0
    timeout 120 "$program" run "$graph" "${day[@]}" --workers 64 > "$work/out" 2> "$work/err" || status=$?
    echo "$status" > "$work/status"
) &
# Whether a program runs that waits for the gate.
one_waits() {
    grep -qsz "[u]ntil test -e $work/open" /proc/[0-9]*/cmdline
}
is_same 'whether a program runs' yes "$(until_holds one_waits && echo yes)"
sleep 1
touch "$work/open"
wait
is_same 'status by 64 descriptors' 1 "$(< "$work/status")"
is_same 'standard error by 64 descriptors' '' "$(< "$work/err")"
started=$(grep -c ' success 1 -$' "$work/out" || true)
failed=$(grep -c ' failed 1 -$' "$work/out" || true)
is_same 'instances by 64 descriptors' 128 "$((started + failed))"
is_same 'whether some were started, and some not' 'yes yes' "$([[ $started -ge 1 ]] && echo yes) $([[ $failed -ge 1 ]] && echo yes)"
is_same 'the run by 64 descriptors' '@run 2024-01-01T00:00:00Z 2024-01-02T00:00:00Z failed' "$(sed -n 2p "$work/out")"
# By four of them the graph is read, and no program started.
tasks '{"id":"a","command":["true"]}'
for workers in 1 8; do
    status=0
    (
        ulimit -n 4
        exec "$program" run "$graph" "${day[@]}" --workers "$workers"
    ) > "$work/out" 2> "$work/err" || status=$?
    is_same 'by four descriptors' "1 $(one_day failed <<< 'a -1 failed 1 -')" "$status $(cat "$work/out" "$work/err")"
done

# A report whose first line never ends, and one of a single line of 200 MB: each is refused at the byte too many of that line, by
# 64 MB of address space in all.

truncate -s 200000000 "$work/one_line"
for report in /dev/zero "$work/one_line"; do
    status=0
    (
        ulimit -v 65536
        exec timeout 60 "$program" clear "$graph" "$report" "${day[@]}" --task a --run 2024-01-01
    ) > "$work/out" 2> "$work/err" || status=$?
    is_same "a line that is too long, of $report" '2 refused 31 line too long: 1' "$status $(cat "$work/out" "$work/err")"
done

# A report that comes through a pipe in pieces is the same report.

tasks '{"id":"a"},{"id":"b"}'
echo '[{"task":"a","out":"9"},{"task":"b","out":"9"}]' > "$table"
one_day success <<< $'a -1 success 1 7\nb -1 success 1 8' > "$work/report"
mkfifo "$work/pieces"
while IFS= read -r line; do
    printf %s "${line:0:5}"
    sleep 0.1
    printf '%s\n' "${line:5}"
    sleep 0.1
done < "$work/report" > "$work/pieces" &
answers 0 clear "$graph" "$work/pieces" "${day[@]}" --task a --run 2024-01-01 --table "$table" \
    < <(one_day success <<< $'a -1 success 1 9\nb -1 success 1 8')
wait
# The pipe's end isn't waited for, where the first line is none.
{
    echo '@backfill 3 d'
    while [[ -e $work/pieces && ! -e $work/refused ]]; do sleep 0.1; done
} > "$work/pieces" &
tells 2 'refused 30 bad line: 1' clear "$graph" "$work/pieces" "${day[@]}" --task a --run 2024-01-01
touch "$work/refused"
wait

# Standard output that can't be written, in each command.

tasks '{"id":"a","command":["true"]}'
echo '[]' > "$table"
one_day success <<< 'a -1 success 1 -' > "$work/report"
# Runs the program with this standard output, which is closed or that of a full device.
with_output() {
    local output=$1
    shift
    status=0
    if [[ $output == closed ]]; then
        timeout 60 "$program" "$@" >&- 2> "$work/err" || status=$?
    else
        timeout 60 "$program" "$@" > /dev/full 2> "$work/err" || status=$?
    fi
}
# With this standard error.
with_errors() {
    local errors=$1
    shift
    status=0
    if [[ $errors == closed ]]; then
        timeout 60 "$program" "$@" > "$work/out" 2>&- || status=$?
    else
        timeout 60 "$program" "$@" > "$work/out" 2> /dev/full || status=$?
    fi
}
cannot_write() {
    local output
    for output in closed full; do
        with_output "$output" "$@"
        is_same "standard output that is $output, of $*" '3 fault: cannot write' "$status $(< "$work/err")"
    done
}
cannot_write --help
cannot_write check "$graph"
cannot_write list "$graph" "${day[@]}"
cannot_write single "$graph" "$table" --at 2024-01-01
cannot_write dry "$graph" "$table" "${day[@]}" --workers 8
cannot_write run "$graph" "${day[@]}"
cannot_write run "$graph" "${day[@]}" --workers 8
cannot_write clear "$graph" "$work/report" "${day[@]}" --task a --run 2024-01-01
# A failed run that can't be told of is a fault too.
tasks '{"id":"a","command":["false"]}'
cannot_write run "$graph" "${day[@]}"
# A refusal and a fault are told all the same.
for output in closed full; do
    with_output "$output" check "$work/empty"
    is_same "a refusal, standard output being $output" '2 refused 1 not json' "$status $(< "$work/err")"
    with_output "$output" check "$work/none"
    is_same "a fault, standard output being $output" "3 fault: cannot read $work/none" "$status $(< "$work/err")"
done
# A pipe whose reader goes before all is written, which is more than a pipe holds.
cut_short() {
    is_same "a pipe that is closed early, of $*" '@3 fault: cannot write' \
        "$({ status=0; timeout 60 "$program" "$@" 2> "$work/err" || status=$?; echo "$status" > "$work/status"; } | head -c 1)$(< "$work/status") $(< "$work/err")"
}
tasks "{\"id\":\"a\",\"command\":[\"sed\",\"\",\"$work/word\"]}"
echo "$long" > "$work/word"
echo "[{\"out\":\"$long\"}]" > "$table"
cut_short dry "$graph" "$table" --from 2024-01-01 --to 2024-01-04
cut_short run "$graph" --from 2024-01-01 --to 2024-01-04 --workers 8
echo '{"dag_id":"d","schedule":"* * * * *","tasks":[]}' > "$graph"
rows=$((rows + 1))
"$program" list "$graph" --from 2024-01-01 --to 2024-01-03T20:15:00Z 2> "$work/err" | head -c 1 > "$work/out" || true
[[ $(cat "$work/out" "$work/err") == '2fault: cannot write' ]] || differs 'a list that is cut short' < "$work/err"

# Standard error that is closed, or full: nothing else changes.

tasks '{"id":"a","command":["sh","-c","echo words >&2; exit 99"]},{"id":"b","command":["echo","7"]}'
for errors in closed full; do
    for workers in 1 8; do
        with_errors "$errors" run "$graph" "${day[@]}" --workers "$workers" --progress
        is_same "a report, standard error being $errors" "0 $(one_day success <<< $'a -1 skipped 1 -\nb -1 success 1 7')" "$status $(< "$work/out")"
    done
    with_errors "$errors" check "$work/empty"
    is_same "a refusal, standard error being $errors" '2 ' "$status $(< "$work/out")"
    with_errors "$errors" check "$work/none"
    is_same "a fault, standard error being $errors" '3 ' "$status $(< "$work/out")"
done
status=0
"$program" run "$graph" "${day[@]}" --workers 8 <&- >&- 2>&- || status=$?
is_same 'status with all three closed' 3 "$status"

# No file takes the place of a stream that is closed: a journal has its records alone, and the same line goes on from it.

tasks '{"id":"a","command":["sh","-c","echo words >&2; exit 1"]},{"id":"b","command":["echo","7"]}'
one_day failed <<< $'a -1 failed 1 -\nb -1 success 1 7' > "$work/wanted"
# Gives the line again, and takes its journal away.
goes_on() {
    status=0
    timeout 60 "$program" "${line[@]}" > "$work/out" 2> "$work/err" || status=$?
    is_same "the report of a journal behind $1" "1 $(< "$work/wanted")" "$status $(< "$work/out")"
    rm "$work/journal.$workers"
}
for workers in 1 8; do
    line=(run "$graph" "${day[@]}" --workers "$workers" --progress --journal "$work/journal.$workers" --logs "$work/logs.$workers")
    with_output closed "${line[@]}"
    is_same 'standard output that is closed, with a journal' '3 fault: cannot write' "$status $(tail -n 1 "$work/err")"
    goes_on 'closed standard output'
    with_errors closed "${line[@]}"
    is_same 'standard error that is closed, with a journal' "1 $(< "$work/wanted")" "$status $(< "$work/out")"
    goes_on 'closed standard error'
    status=0
    timeout 60 "$program" "${line[@]}" <&- >&- 2>&- || status=$?
    is_same 'status with all three closed, with a journal' 3 "$status"
    goes_on 'three closed streams'
done

# Signals. Each run is of a process group of its own, as a shell makes one at a terminal. Its program writes down that it is there
# and waits at the gate.

tasks "{\"id\":\"a\",\"command\":[\"sh\",\"-c\",\"echo there > $work/there; cat $work/gate; echo over > $work/over\"]}"
# Starts a run by so many workers, with these options, and comes back when its program is there.
start() {
    local workers=$1
    shift
    rm -f "$work/there" "$work/over"
    set -m
    "$program" run "$graph" "${day[@]}" --workers "$workers" "$@" > "$work/out" 2> "$work/err" &
    runner=$!
    set +m
    until_holds test -s "$work/there"
}
# The status with which the run ended.
ended_with() {
    status=0
    wait "$runner" 2> "$work/shell" || status=$?
}
is_gone() {
    [[ -z $(grep -lsz "[e]cho there > $work/there" /proc/[0-9]*/cmdline) ]]
}
for workers in 1 8; do
    for signal in INT TERM HUP QUIT; do
        # As from a terminal: the runner and its program get it, and nothing is left of either.
        start "$workers"
        kill -"$signal" -- -"$runner"
        ended_with
        is_same "status at $signal to the group" "$((128 + $(kill -l "$signal")))" "$status"
        is_same "what is printed at $signal to the group" '' "$(cat "$work/out" "$work/err")"
        is_same "whether the program is gone after $signal to the group" yes "$(until_holds is_gone && echo yes)"
        is_same "what the program did after $signal to the group" '' "$(cat "$work/over" 2> /dev/null)"
    done
    # To the runner alone: its program goes on.
    for signal in TERM KILL; do
        start "$workers"
        kill -"$signal" "$runner"
        ended_with
        is_same "status at $signal to the runner" "$((128 + $(kill -l "$signal")))" "$status"
        is_same "what is printed at $signal to the runner" '' "$(cat "$work/out" "$work/err")"
        timeout 30 sh -c ": > $work/gate"
        is_same "whether the program went on after $signal to the runner" yes "$(until_holds test -s "$work/over" && echo yes)"
    done
    # A run that is stopped goes on where it was.
    start "$workers"
    kill -STOP -- -"$runner"
    kill -CONT -- -"$runner"
    timeout 30 sh -c "echo 7 > $work/gate"
    ended_with
    is_same 'a run that was stopped' "0 $(one_day success <<< 'a -1 success 1 7')" "$status $(cat "$work/out" "$work/err")"
    # The program alone gets one: its try has failed.
    start "$workers"
    kill -TERM "$(pgrep -P "$runner")"
    timeout 30 sh -c ": > $work/gate" || true
    ended_with
    is_same 'a program that is ended' "1 $(one_day failed <<< 'a -1 failed 1 -')" "$status $(cat "$work/out" "$work/err")"
done
# Below `timeout` a program is in a group of its own, which a terminal's signal doesn't reach.
command=$(cat "$graph")
tasks "{\"id\":\"a\",\"command\":[\"timeout\",\"60\",\"sh\",\"-c\",\"echo there > $work/there; cat $work/gate; echo over > $work/over\"]}"
start 1
kill -INT -- -"$runner"
ended_with
is_same 'status at INT to the group, with a program below timeout' 130 "$status"
timeout 30 sh -c ": > $work/gate"
is_same 'whether a program below timeout went on after INT to the group' yes "$(until_holds test -s "$work/over" && echo yes)"
# By a launcher that asks for it a program is killed with its runner, however that ends.
printf '#!/bin/sh\nexec setpriv --pdeathsig KILL -- "$@"\n' > "$work/dies"
chmod +x "$work/dies"
printf '%s\n' "$command" > "$graph"
for signal in INT TERM KILL; do
    start 8 --launcher "$work/dies"
    kill -"$signal" "$runner"
    ended_with
    is_same "status at $signal to the runner, whose programs die with it" "$((128 + $(kill -l "$signal")))" "$status"
    is_same "whether the program is gone after $signal to the runner" yes "$(until_holds is_gone && echo yes)"
    # (what the program had started reads at the gate still)
    timeout 30 sh -c ": > $work/gate"
    is_same "what the program did after $signal to the runner" '' "$(cat "$work/over" 2> /dev/null)"
done
# A program that ends its runner.
tasks '{"id":"a","command":["sh","-c","kill -TERM $PPID"]}'
status=0
{ "$program" run "$graph" "${day[@]}" > "$work/out" 2> "$work/err" || status=$?; } 2> "$work/shell"
is_same 'a runner that its program ends' '143 ' "$status $(cat "$work/out" "$work/err")"
# What the runner was started to ignore its programs ignore too, but for SIGPIPE.
for signal in HUP INT PIPE; do
    tasks "{\"id\":\"a\",\"command\":[\"sh\",\"-c\",\"kill -$signal \$PPID; kill -$signal \$\$; echo 7\"]}"
    status=0
    env --ignore-signal="$signal" "$program" run "$graph" "${day[@]}" > "$work/out" 2> "$work/err" || status=$?
    wanted="0 $(one_day success <<< 'a -1 success 1 7')"
    [[ $signal != PIPE ]] || wanted="1 $(one_day failed <<< 'a -1 failed 1 -')"
    is_same "a runner that was started to ignore $signal" "$wanted" "$status $(cat "$work/out" "$work/err")"
done
# A signal while the report is written, which its reader takes slowly: it has a beginning of it.
tasks "{\"id\":\"a\",\"command\":[\"sed\",\"\",\"$work/word\"]}"
four_days=(--from 2024-01-01 --to 2024-01-04)
"$program" run "$graph" "${four_days[@]}" > "$work/whole"
mkfifo "$work/slow"
{
    head -c 1 > "$work/first"
    until test -e "$work/ended"; do sleep 0.1; done
    cat > "$work/rest"
} < "$work/slow" &
reader=$!
"$program" run "$graph" "${four_days[@]}" > "$work/slow" &
runner=$!
until_holds test -s "$work/first"
kill -TERM "$runner"
ended_with
touch "$work/ended"
wait "$reader"
cat "$work/first" "$work/rest" > "$work/beginning"
is_same 'status at a signal while the report is written' 143 "$status"
rows=$((rows + 1))
cmp -s "$work/beginning" <(head -c "$(stat -c %s "$work/beginning")" "$work/whole") || differs 'what a slow reader has' < /dev/null
tells 2 'refused 32 truncated' clear "$graph" "$work/beginning" "${four_days[@]}" --task a --run 2024-01-01
# Where the runner is started with its dead children thrown away, none can be waited for.
tasks '{"id":"a","command":["true"]}'
status=0
env --ignore-signal=CHLD "$program" run "$graph" "${day[@]}" > "$work/out" 2> "$work/err" || status=$?
is_same 'a runner that ignores SIGCHLD' '3 fault: runner gave up: a -1 1' "$status $(cat "$work/out" "$work/err")"

# What many such programs leave behind: while the last one runs, the runner has no dead child, and as many descriptors and threads as
# where it started no other before.

bad=('["/no/such/program"]' '["echo","\u0000"]' '["cat","/dev/zero"]' '["sh","-c","kill -9 $$"]' '["sh","-c","exec >&-; exit 3"]'
    '["sh","-c","cat /dev/zero & exit 0"]' "[\"$work/no_interpreter\"]" '["sh","-c","sleep 0.1 & echo 7"]')
left_by() {
    local count=$1 task
    tasks "$(for ((task = 0; task < count; task++)); do printf '{"id":"t%d","command":%s},' "$task" "${bad[task % 8]}"; done
        )$(printf '{"id":"last","upstream":[%s],"rule":"all_done","command":["sh","%s"]}' \
            "$(for ((task = 0; task < count; task++)); do printf '"t%d",' "$task"; done | sed 's/,$//')" "$root/tests/shared/look.sh")"
    timeout 120 "$program" run "$graph" "${day[@]}" --workers 8 | sed -n 's/^last -1 success 1 //p'
}
few=$(left_by 0)
is_same 'descriptors, threads and dead children' "$few" "$(left_by 160)"
is_same 'threads and dead children' ' 9 0"' "${few#\"[0-9]}"

# Nothing is left of all that was started: no process, and no file.

is_nothing_left() {
    [[ -z $(env -u HOSTILE_TEST grep -lsz "^HOSTILE_TEST=$work" /proc/[0-9]*/environ) ]]
}
until_holds is_nothing_left || true
is_same 'processes that are left' '' "$(env -u HOSTILE_TEST grep -lsz "^HOSTILE_TEST=$work" /proc/[0-9]*/environ || true)"
is_same 'files that are left' '' "$(ls -A "$work/here" "$work/temporary" | grep -v ':$' | sed '/^$/d')"

sum
