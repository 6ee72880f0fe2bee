#!/usr/bin/env bash
# Progress is true while something hangs, and on a terminal it stands below all other lines. Runs the program with real programs, by 1 and
# 8 workers, and compares what it tells on standard error, and when, with what stands here, which was worked out by hand from
# docs/SPECIFICATION.md and docs/FORMATS.md. So that no minute is waited for, the monotonic clock runs faster. The last line is the sum, and
# the status is 1 where a row differs.
set -euo pipefail

source "$(dirname "$(readlink -f "${BASH_SOURCE[0]}")")/../shared/compare.sh"
cd "$work"
run=2024-01-01T00:00:00Z
last='runs 1/1 (0 open)  tasks 2/2  running 0  waiting 0  failed 1'

# The lines on standard error of a run of the graph for the day, each behind the milliseconds after which it came.
timed() {
    local began
    began=$(date +%s%3N)
    { timeout 60 "$program" run "$graph" "${day[@]}" "$@" 2>&1 > out || true; } | while IFS= read -r line; do
        echo "$(($(date +%s%3N) - began)) $line"
    done > timed_lines
    cut -d ' ' -f 2- timed_lines > err
}

# Requires that a line came, so many milliseconds behind the start at least and at most.
came() {
    local from=$1 to=$2 line=$3 at
    rows=$((rows + 1))
    at=$(grep -F -- " $line" timed_lines | head -n 1 | cut -d ' ' -f 1) || true
    if [[ -z $at || $at -lt $from || $at -gt $to ]]; then
        differs "after ${at:-no} ms came: $line"
        cat timed_lines
    fi
}

# ---- a line that was held back is shown when its second is over, and what runs then is counted

tasks '
    {"id":"quick","command":["false"]},
    {"id":"hangs","upstream":["quick"],"rule":"all_done","command":["sleep","2.4"]}'
held='runs 0/1 (1 open)  tasks 1/2  running 1  waiting 0  failed 1'
for workers in 1 8; do
    timed --workers "$workers" --progress
    came 900 2200 "$held"
    is_same "what is told, by $workers workers" "failed: quick $run try 1: exit status 1
$held
$last" "$(< err)"
done
timed --workers 8 --progress --quiet
is_same 'what is told where all is to be quiet' '' "$(< err)"
timed --workers 1
is_same 'what is told unasked' '' "$(< err)"

# ---- what a program prints doesn't act on a terminal

tasks '{"id":"b","kind":"branch","command":["printf","\"\u009b31m\u202e\ud83d\ude00\udb40\udc41\""]}'
timed --progress
is_same 'the line of a value that a terminal would act on' "failed: b $run try 1: a branch that names no direct downstream: \"\\u009b31m\\u202e😀\\udb40\\udc41\"" "$(head -n 1 err)"

# ---- what runs longest, or where nothing runs has waited longest, is told each minute in which nothing comes

fast() {
    env REFUSED_PROGRAM=backfill CLOCK_RATE="$rate" CALL_COUNT="$work/count" LD_PRELOAD="$work/refuse.so" timeout 60 "$program" "$@" > out 2> err || true
}
# The lines of the tries that run longest, with whole minutes. By a clock that is 25 times as fast it is looked each 25 seconds: so the
# first line comes after 75, and where something comes between the third look and the fourth, the next comes at the sixth.
longest() {
    sed -nE 's/^running for ([0-9]+) s: /\1 /p' err | while read -r seconds rest; do echo "$((seconds / 60)) $rest"; done
}
if command -v cc > /dev/null; then
    cc -shared -fPIC -O1 -o refuse.so "$root/tests/shared/refuse.c"
    rate=25
    tasks '
        {"id":"other","command":["sleep","3.3"]},
        {"id":"first","priority_weight":9,"command":["sleep","6.6"]}'
    fast run "$graph" "${day[@]}" --workers 2 --progress
    is_same 'what runs longest of two' "1 first $run try 1
2 first $run try 1" "$(longest)"
    tasks '
        {"id":"parts","command":["echo","[5]"]},
        {"id":"part","upstream":["parts"],"expand":"parts","retries":1,"command":["sh","-c","sleep 3.3; exit 1"]}'
    fast run "$graph" "${day[@]}" --workers 1 --progress
    is_same 'the tries of an instance' "1 part $run index 0 try 1
1 part $run index 0 try 2" "$(longest)"

    # Where nothing runs, it is told which try has waited longest for its delay, and until when by the wall clock, in UTC: a minute by the fast
    # clock is 2.4 s, so a delay that begins at 0 and is told of after 75 s, 3 s later, ends D - 72 s after the beginning.
    waits_until() {
        local began=$1 delay=$2 at=$3 second
        rows=$((rows + 1))
        for second in -6 -5 -4 -3 -2 -1 0 1 2 3; do
            [[ $at != "$(date -u -d "@$((began + delay - 72 + second))" +%T)" ]] || return 0
        done
        differs "waits until ${at:-no time}, began at $(date -u -d "@$began" +%T)"
        cat err
    }
    tasks '
        {"id":"late","retries":1,"retry_delay":20000,"command":["sh","-c","sleep 0.2; exit 1"]},
        {"id":"first","retries":2,"retry_delay":30000,"command":["false"]}'
    began=$(date +%s)
    env REFUSED_PROGRAM=backfill CLOCK_RATE="$rate" CALL_COUNT="$work/count" LD_PRELOAD="$work/refuse.so" \
        timeout 7 "$program" run "$graph" "${day[@]}" --workers 8 --progress > out 2> err || true
    is_same 'what has waited longest' "first $run try 2
first $run try 2" "$(sed -nE 's/^waiting until [0-9]{2}:[0-9]{2}:[0-9]{2}: //p' err)"
    waits_until "$began" 30000 "$(sed -nE 's/^waiting until ([^ ]*): .*/\1/p' err | head -n 1)"
    is_same 'that nothing runs' '' "$(longest)"
    tasks '
        {"id":"waits","retries":1,"retry_delay":30000,"command":["false"]},
        {"id":"runs","command":["sleep","3.3"]}'
    env REFUSED_PROGRAM=backfill CLOCK_RATE="$rate" CALL_COUNT="$work/count" LD_PRELOAD="$work/refuse.so" \
        timeout 5 "$program" run "$graph" "${day[@]}" --workers 8 --progress > out 2> err || true
    is_same 'what runs is told before what waits' "1 runs $run try 1" "$(longest)"
    is_same 'what waits beside it' '' "$(grep '^waiting until ' err || true)"
else
    skips 'what runs longest, for want of a C compiler'
fi

# ---- many tries that fail at once: each line is whole

many=$(for i in {1..64}; do echo "{\"id\":\"t$i\",\"command\":[\"sh\",\"-c\",\"until test -e gate; do sleep 0.1; done; exit 3\"]}"; done | paste -sd ,)
tasks "$many"
failures() {
    for i in {1..64}; do echo "failed: t$i $run try 1: exit status 3"; done | LC_ALL=C sort
}
opens_gate() {
    rm -f gate
    (sleep 1.6; : > gate) &
}
opens_gate
{ timeout 60 "$program" run "$graph" "${day[@]}" --workers 64 --progress 2>&1 > out || true; } | cat > err
is_same 'the lines of 64 tries' "$(failures)" "$(grep -v '^runs ' err | LC_ALL=C sort)"
is_same 'the last line behind 64 tries' 'runs 1/1 (0 open)  tasks 64/64  running 0  waiting 0  failed 64' "$(tail -n 1 err)"
is_same 'the first line beside 64 tries' 'runs 0/1 (1 open)  tasks 0/64  running 64  waiting 0  failed 0' "$(head -n 1 err)"

# ---- on a terminal

command -v script > /dev/null || skips_rest 'what stands on a terminal, for want of script'
export TERM=xterm

# What a command that has a terminal for its standard error writes there stands in `typed`.
at_terminal() {
    timeout 60 script -qec "$(printf '%q ' "$program" "$@") > out" typed < /dev/null > /dev/null || true
    sed -i -e '/^Script started on /d' -e '/^Script done on /d' typed
}
# What stands on the screen in the end: of each line what is behind the last clearing. (What has a terminal cut a line moves nothing.)
on_screen() {
    sed -e 's/\x1b\[?7[hl]//g' -e 's/.*\r\x1b\[K//' -e 's/\r*$//' typed | sed -e '/^$/d'
}
# How often a text was written over a line, to be cut where the terminal ends.
times_written() {
    { grep -aoF -- $'\r\x1b[K\x1b[?7l'"$1"$'\x1b[?7h' typed || true; } | wc -l
}

tasks '
    {"id":"quick","command":["false"]},
    {"id":"hangs","upstream":["quick"],"rule":"all_done","command":["sleep","2.4"]}'
# Requires that the line was written over, though nothing had changed.
keeps_line() {
    at_terminal run "$graph" "${day[@]}" "$@"
    is_same "the screen behind a run with $*" "failed: quick $run try 1: exit status 1
$last" "$(on_screen)"
    rows=$((rows + 1))
    [[ $(times_written "$held") -ge 2 ]] || differs "a line that is kept with $*"
}
keeps_line --workers 1
keeps_line --workers 8
keeps_line --workers 8 --progress
cp out report
# A dumb terminal counts as none.
TERM=dumb at_terminal run "$graph" "${day[@]}" --workers 8 --progress
is_same 'what a dumb terminal gets' "failed: quick $run try 1: exit status 1
$held
$last" "$(tr -d '\r' < typed)"
TERM=dumb at_terminal run "$graph" "${day[@]}" --workers 8
is_same 'what a dumb terminal gets unasked' '' "$(< typed)"
at_terminal run "$graph" "${day[@]}" --workers 8 --quiet
is_same 'the screen of a quiet run' '' "$(on_screen)"
tasks '{"id":"quick","command":["false"]},{"id":"hangs","upstream":["quick"],"rule":"all_done","command":["sleep","1.4"]}'
for workers in 1 8; do
    at_terminal clear "$graph" report "${day[@]}" --task hangs --run 2024-01-01 --workers "$workers"
    is_same "the screen behind what is cleared, by $workers workers" "$last" "$(on_screen)"
done
at_terminal clear "$graph" report "${day[@]}" --task hangs --run 2024-01-01 --workers 8 --quiet
is_same 'the screen of a quiet clear' '' "$(on_screen)"

# On a terminal of 40 columns the line that is kept leaves nothing behind: the last one stands there alone, over two rows.

if command -v tmux > /dev/null; then
    tasks '{"id":"quick","command":["true"]},{"id":"hangs","command":["sleep","2.4"]}'
    in_tmux() {
        tmux -L "backfill-$$" -f /dev/null "$@"
    }
    in_tmux new-session -d -x 40 -y 12 "$(printf '%q ' "$program" run "$graph" "${day[@]}" --workers 2) > out; touch ended; sleep 60"
    until [[ -e ended ]]; do sleep 0.1; done
    sleep 0.5
    in_tmux capture-pane -pJ > typed
    in_tmux kill-server
    is_same 'the screen of 40 columns' 'runs 1/1 (0 open)  tasks 2/2  running 0  waiting 0  failed 0' "$(sed -e 's/ *$//' -e '/^$/d' typed)"
else
    skips 'what stands on a narrow terminal, for want of tmux'
fi

# Where a table answers, or no try is made, nothing is told unasked.

echo '[]' > "$table"
at_terminal clear "$graph" report "${day[@]}" --task hangs --run 2024-01-01 --table "$table" --workers 8
is_same 'the screen of a clear with a table' '' "$(on_screen)"
at_terminal dry "$graph" "$table" "${day[@]}" --workers 8
is_same 'the screen of a dry run' '' "$(on_screen)"
at_terminal dry "$graph" "$table" "${day[@]}" --workers 8 --progress
is_same 'the screen of a dry run that tells progress' 'runs 1/1 (0 open)  tasks 2/2  running 0  waiting 0  failed 0' "$(on_screen)"
at_terminal single "$graph" "$table" --at 2024-01-01
is_same 'the screen of a single run' '' "$(on_screen)"
at_terminal list "$graph" --from 2024-01-01 --to 2024-01-02
is_same 'the screen of a list' '' "$(on_screen)"
at_terminal check "$graph"
is_same 'the screen of a check' '' "$(on_screen)"

# Other lines go above the one that is kept: the lines of a journal before it, failed tries while it stands, each whole.

tasks '{"id":"a","command":["true"]},{"id":"b","command":["sh","-c","sleep 1.5; exit 7"]}'
at_terminal run "$graph" "${day[@]}" --workers 8 --journal tries
is_same 'the screen above which a try failed' "failed: b $run try 1: exit status 7
$last" "$(on_screen)"
at_terminal run "$graph" "${day[@]}" --workers 8 --journal tries
is_same 'the screen of what goes on' "journal: goes on behind 2 tries
$last" "$(on_screen)"
tasks "$many"
opens_gate
at_terminal run "$graph" "${day[@]}" --workers 64
is_same 'the screen above which 64 tries failed' "$(failures)" "$(on_screen | grep -v '^runs ' | LC_ALL=C sort)"
is_same 'the line below them' 'runs 1/1 (0 open)  tasks 64/64  running 0  waiting 0  failed 64' "$(on_screen | tail -n 1)"
is_same 'how many lines stand there' 65 "$(on_screen | wc -l)"

# With logs what programs write doesn't run into the line.

tasks '{"id":"a","command":["sh","-c","for i in 1 2 3; do echo words >&2; sleep 0.6; done"]}'
at_terminal run "$graph" "${day[@]}" --workers 8 --logs kept
is_same 'the screen of a program with logs' 'runs 1/1 (0 open)  tasks 1/1  running 0  waiting 0  failed 0' "$(on_screen)"

# What runs longest stands above it too.

if command -v cc > /dev/null; then
    tasks '{"id":"hangs","command":["sleep","3.4"]}'
    REFUSED_PROGRAM=backfill CLOCK_RATE=$rate CALL_COUNT=$work/count LD_PRELOAD=$work/refuse.so at_terminal run "$graph" "${day[@]}"
    on_screen > err
    is_same 'what runs longest, on the screen' "1 hangs $run try 1" "$(longest)"
    is_same 'the line below it' 'runs 1/1 (0 open)  tasks 1/1  running 0  waiting 0  failed 0' "$(tail -n 1 err)"
fi

sum
