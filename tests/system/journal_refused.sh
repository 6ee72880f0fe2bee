#!/usr/bin/env bash
# Journals that are refused, or can't be opened: what is told, that no program is started, and that the file stays as it is. Two backfills
# by one journal. And journals of clear, which go on over its report. The last line is the sum, and the status is 1 where something differs.
set -euo pipefail

source "$(dirname "$(readlink -f "${BASH_SOURCE[0]}")")/../shared/journals.sh"

noting_tasks
: > ran
goes_on whole
cp whole kept
tasks '{"id":"a","command":["sh","-c","echo a >> ran"]}'
goes_on other
: > ran

# A line with this journal ends by this status and these words, and starts nothing.
isnt() {
    local status=$1 words=$2 journal=$3
    shift 3
    tells "$status" "$words" run "$graph" "${range[@]}" --journal "$journal" "$@"
    is_same "what ran by the journal $journal" '' "$(< ran)"
}

# ---- one of another backfill

isnt 2 'refused 43 journal mismatch' whole
isnt 2 'refused 43 journal mismatch' whole --retry-failed
holds 'that a journal of other tasks stays as it is' cmp kept whole
echo nonsense > nonsense
isnt 2 'refused 43 journal mismatch' nonsense
head -c 20 whole | tr b B > nonsense
isnt 2 'refused 43 journal mismatch' nonsense
is_same 'that it stays as it is' '["Backfill journal",' "$(< nonsense)"
tells 2 'refused 43 journal mismatch' run "$graph" --from 2024-01-01 --to 2024-01-04 --journal other
tells 2 'refused 43 journal mismatch' run "$graph" --from 2024-01-01 --to 2024-01-06 --journal other
for change in 's/"d"/"e"/' 's/"id":"a"/"id":"b"/' 's/@daily/0 1 * * */' 's/\]}$/,{"id":"more"}]}/'; do
    sed "$change" "$graph" > "$graph.changed"
    tells 2 'refused 43 journal mismatch' run "$graph.changed" "${range[@]}" --journal other
done
is_same 'what ran by journals of others' '' "$(< ran)"
# Commands, retries and rules may be others.
sed 's/"command".*/"retries":3,"rule":"all_done","command":["sh","-c","echo changed >> ran"]}]}/' "$graph" > "$graph.changed"
status=0
"$program" run "$graph.changed" "${range[@]}" --journal other > out 2> err || status=$?
is_same 'the status of a changed command' 0 "$status"
is_same 'what ran of a changed command' '' "$(< ran)"

# ---- a line that tells of no try

# The third record of the journal is this line.
isnt_record() {
    {
        head -n 3 other
        printf '%s\n' "$1"
        tail -n +4 other
    } > bad
    cp bad kept
    isnt 2 'refused 33 bad record: 4' bad
    holds 'that a bad journal stays as it is' cmp kept bad
}
good='["2024-01-03T00:00:00Z","a",-1,1,"success",[],[],[],[0,0,0]]'
for change in 's/"a"/"none"/' 's/"a"/7/' 's/01-03/02-30/' 's/01-03/01-06/' 's/T00:00:00Z//' 's/-1,1/"-1",1/' 's/-1,1/-1,-1/' 's/-1,1/-1,1.0/' \
    's/-1,1/-1,4294967296/' 's/-1/2147483648/' 's/success/Success/' 's/"success",\[\]/"failed",[1]/' 's/"success",\[\]/"success",null/' \
    's/"success",\[\]/"success",[1,2]/' 's/"success",\[\]/"success",[1.5]/' 's/"success",\[\]/"success",[{}]/' 's/\[\],\[\],\[\]/[],[],[1]/' \
    's/,\[0,0,0\]//' 's/\]$/,1]/' 's/^/ x/' 's/^\[/{/; s/\]$/}/' 's/\]$//' 's/.*//' 's/.*/null/' 's/.*/"a"/' 's/"a"/"\xff"/' 's/"a"/"\\ud800"/'; do
    isnt_record "$(LC_ALL=C sed "$change" <<< "$good")"
done
# Other spellings of the text, and whatever stands in the place of the times, are good.
for change in 's/,/ , /g; s/^/ /' 's/a/\\u0061/' 's/\[0,0,0\]/[]/' 's/\[0,0,0\]/null/' 's/\[0,0,0\]/"then"/'; do
    {
        head -n 1 other
        sed "$change" <<< "$good"
    } > spelled
    : > ran
    goes_on spelled
    is_same "what ran where the record is changed by $change" 4 "$(wc -l < ran)"
done
: > ran

# ---- what isn't a file that can be read and written

mkfifo fifo
mkdir folder
ln -s none dangling
for path in none/journal folder fifo /dev/null /dev/full /dev/zero '' other/under; do
    isnt 3 "fault: cannot read $path" "$path"
done
# A file of 2 GB, whose head is another, is refused by its first bytes: there is no room for all of it.
truncate -s 2G sparse
head -n 1 whole > long
truncate -s 2G long
for journal in sparse long; do
    (
        ulimit -v 1000000
        isnt 2 'refused 43 journal mismatch' "$journal"
        echo "$rows $differing" > counted
    )
    read -r rows differing < counted
    is_same "how long $journal is still" 2147483648 "$(stat -c %s "$journal")"
done
# Nor does `page` read further, or anything but a regular file.
status=0
"$program" run "$graph" "${range[@]}" --journal other > report 2> err || status=$?
for path in none folder fifo /dev/null /dev/full /dev/zero ''; do
    tells 3 "fault: cannot read $path" page "$graph" report --journal "$path"
done
for journal in sparse long; do
    (
        ulimit -v 1000000
        tells 2 'refused 43 journal mismatch' page "$graph" report --journal "$journal"
        echo "$rows $differing" > counted
    )
    read -r rows differing < counted
done
rm sparse long
: > empty
head -c 20 other > begun
for journal in empty begun; do
    tells 2 'refused 43 journal mismatch' page "$graph" report --journal "$journal"
done
"$program" page "$graph" report --journal other > page
holds 'that a page has the times of its journal' grep -q '@times 1' page
is_same 'what ran' '' "$(< ran)"
# One that isn't there is made, by a link too.
goes_on dangling
is_same 'how many lines there are behind a link' 6 "$(wc -l < none)"
: > ran

# ---- in which order it is looked at

tells 2 'refused 26 range reversed' run "$graph" --from 2024-01-02 --to 2024-01-01 --journal folder
tells 3 'fault: cannot read absent' run absent "${day[@]}" --journal folder
tells 3 'fault: cannot write folder' run "$graph" "${range[@]}" --journal whole --out folder
rm -f new
tells 2 'refused 1 not json' run /dev/null "${day[@]}" --journal new
holds 'that no journal is made where a graph is refused' test ! -e new
is_same 'what ran' '' "$(< ran)"

# ---- two backfills by one journal

# A program that waits until the file `go` is there.
tasks '{"id":"a","command":["sh","-c","echo $$ >> ran; until [ -e go ]; do sleep 0.01; done"]}'
begun() {
    [[ $(wc -l < ran) -ge $1 ]]
}
rm -f journal
"$program" run "$graph" "${range[@]}" --journal journal > out 2> err &
waits_for begun 1
for _ in 1 2 3; do
    tells 2 'refused 44 journal in use' run "$graph" "${range[@]}" --journal journal
done
ln -s journal same
tells 2 'refused 44 journal in use' run "$graph" "${range[@]}" --journal same
touch go
wait
goes_on journal
is_same 'the status behind a second backfill' 0 "$status"
is_same 'that the second ran nothing' 5 "$(wc -l < ran)"
rm go

# One is killed while its program runs. That has no part in the journal, so the same line goes on beside it.
: > ran
rm journal
"$program" run "$graph" "${day[@]}" --journal journal > out 2> err &
waits_for begun 1
kills $!
"$program" run "$graph" "${day[@]}" --journal journal > out 2> err &
waits_for begun 2
holds 'that the program of the killed backfill runs still' kill -0 "$(head -n 1 ran)"
touch go
status=0
wait $! || status=$?
is_same 'the status behind a kill' 0 "$status"
is_same 'that the try was made twice' 2 "$(wc -l < ran)"
is_same 'that it is recorded once' 2 "$(wc -l < journal)"

# By this launcher a program is killed with backfill.
printf '#!/bin/sh\nexec setpriv --pdeathsig KILL -- "$@"\n' > dies
chmod +x dies
: > ran
rm go journal
"$program" run "$graph" "${day[@]}" --journal journal --launcher ./dies > out 2> err &
waits_for begun 1
kills $!
is_gone() {
    ! ps -o stat= -p "$(< ran)" | grep -qv '^Z'
}
waits_for is_gone

# ---- clear

cd "$root/examples"
clearing=(--from 2024-01-01 --to 2024-01-03 --run 2024-01-01T05:00:00Z --table every_key/table.json --task)
"$program" dry every_key/graph.json every_key/table.json --from 2024-01-01 --to 2024-01-03 > "$work/was" || true
cleared=0
"$program" clear every_key/graph.json "$work/was" "${clearing[@]}" m > "$work/plain" || cleared=$?
for workers in 1 8; do
    for _ in new old; do
        status=0
        "$program" clear every_key/graph.json "$work/was" "${clearing[@]}" m --journal "$work/clearing" --workers "$workers" \
            > "$work/out" 2> "$work/err" || status=$?
        is_same 'the status of clear with a journal' "$cleared" "$status"
        holds 'the report of clear with a journal' cmp "$work/plain" "$work/out"
    done
done
is_same 'the head of its journal' '[["m","2024-01-01T05:00:00Z"]]]' "$(head -n 1 "$work/clearing" | grep -o '\[\["m","2024-01-01T05[^[]*$')"
tells 2 'refused 43 journal mismatch' clear every_key/graph.json "$work/was" "${clearing[@]}" sum --journal "$work/clearing"
tells 2 'refused 43 journal mismatch' run every_key/graph.json --from 2024-01-01 --to 2024-01-03 --journal "$work/clearing"
tells 2 'refused 40 unknown task' clear every_key/graph.json "$work/was" "${clearing[@]}" none --journal "$work/folder"
# Several instances that are cleared: the head tells of each, and a journal of others is refused.
several=(--task m --run 2024-01-01T05:00:00Z --index 1 --task sum --run 2024-01-02T05:00:00Z --index=-1)
two=(clear every_key/graph.json "$work/was" --from 2024-01-01 --to 2024-01-03 --table every_key/table.json --journal "$work/two")
"$program" "${two[@]}" "${several[@]}" > "$work/out" || true
is_same 'the head of a journal of two' '[["m","2024-01-01T05:00:00Z",1],["sum","2024-01-02T05:00:00Z",-1]]]' \
    "$(head -n 1 "$work/two" | grep -o '\[\["m","2024-01-01T05.*$')"
tells 2 'refused 43 journal mismatch' "${two[@]}" --task m --run 2024-01-01T05:00:00Z --index 1
tells 2 'refused 43 journal mismatch' "${two[@]}" --task m --run 2024-01-01T05:00:00Z --task sum --run 2024-01-02T05:00:00Z
tells 2 'refused 43 journal mismatch' "${two[@]}" --failed
status=0
"$program" clear every_key/graph.json "$work/was" "${clearing[@]}" m --journal "$work/clearing" --out "$work/filed" \
    > "$work/out" 2> "$work/err" || status=$?
holds 'the report of clear with a journal, in a file' cmp "$work/plain" "$work/filed"
# Cleared where it stands: the report is the new one then, of which the journal goes on as well.
cp "$work/was" "$work/here"
for _ in new old; do
    "$program" clear every_key/graph.json "$work/here" "${clearing[@]}" m --journal "$work/clearing" --out "$work/here" 2> "$work/err" || true
    holds 'a report that is cleared where it stands by a journal' cmp "$work/plain" "$work/here"
done

sum
