#!/usr/bin/env bash
# Backfills that record their tries and don't come to their end: they are killed, terminated or interrupted at a chance moment, again and
# again, their journal is cut behind each of its bytes, and their disk is full or only to be read. Gone on with by the same line they end
# with the report and the status of an untouched one, and no try is made again that was recorded. The last line is the sum, and the status is
# 1 where something differs.
set -euo pipefail

source "$(dirname "$(readlink -f "${BASH_SOURCE[0]}")")/../shared/crashes.sh"

[[ -n $(command -v cc) ]] || skips_rest 'backfills that are killed, since there is no C compiler'
cc -shared -fPIC -O1 -o refuse.so "$root/tests/shared/refuse.c"

# ---- kills

for ((round = 0; round < 25; round++)); do
    survives KILL 1
    survives KILL 8
done
for ((round = 0; round < 3; round++)); do
    for signal in TERM INT; do
        survives "$signal" 1
        survives "$signal" 8
    done
done
echo "$ended of $begun lines were ended by a signal"
rows=$((rows + 1))
[[ $ended -ge 25 ]] || differs 'so few lines were ended by a signal'

# ---- each byte, by a table, and the ends of lines by programs

# A line without its line feed, with it, and with some of the next.
size=$(stat -c %s whole)
for end in $(awk '{ end += length($0) + 1; print end }' whole); do
    for count in $((end - 1)) "$end" $((end + 1)) $((end + 60)); do
        [[ $count -gt $size ]] || is_cut "$count" 1
    done
done
is_cut 0 1

noting_tasks linked
noting_table
"$program" dry "$graph" "$table" "${range[@]}" > of_table || true
holds 'the report by a table' cmp plain of_table
clearing=(clear "$graph" of_table "${range[@]}" --task src --run 2024-01-01 --table "$table")
"$program" "${clearing[@]}" --journal by_table > out || true
holds 'the report of clear' cmp plain out
is_same 'how many tries clear makes' 36 "$(wc -l < by_table)"
untimed by_table > records_by_table
size=$(stat -c %s by_table)
for ((count = 0; count <= size; count++)); do
    head -c "$count" by_table > cut
    status=0
    "$program" "${clearing[@]}" --journal cut > out 2> err || status=$?
    rows=$((rows + 1))
    [[ $status -eq $plain ]] && cmp -s plain out || differs "the report by a table behind $count bytes"
    untimed cut | cmp -s - records_by_table || differs "the journal by a table behind $count bytes"
done
noting_tasks

# Zeros that a file system leaves behind a power cut.
head -n 3 whole > cut
head -c 300 /dev/zero >> cut
goes_on cut
holds 'the report behind zeros' cmp plain out
is_same 'what is told of zeros' 'journal: 300 bytes of a record that was cut short are dropped
journal: goes on behind 2 tries' "$(< err)"
is_same 'the journal behind zeros' "$(records whole)" "$(records cut)"

# ---- README's own example

# The line of README.md that names a journal, without where its report goes.
line=$(sed -n 's|^\./backfill \(run .* --journal [^ ]*\) > .*|\1|p' "$root/README.md")
read -ra example <<< "${line/\/tmp\//$work/}"
journal=${example[-1]}
has_lines() {
    [[ -e $journal && $(wc -l < "$journal") -ge $1 ]]
}
# A program that was just being started has the journal open for a moment.
goes_on_by_example() {
    status=0
    "$program" "${example[@]}" > "$work/out" 2> "$work/err" || status=$?
    [[ $status -ne 2 ]]
}
# It waits before it starts each of its programs, so that it has a middle on a fast machine.
slowly() {
    exec env REFUSED_PROGRAM=backfill CALL_COUNT="$work/count" STARTS_LATE=30 LD_PRELOAD="$work/refuse.so" "$program" "$@"
}
cd "$root"
middle=0
for ((round = 0; round < 200 && middle < 10; round++)); do
    rm -f "$journal"
    slowly "${example[@]}" > "$work/out" 2> "$work/err" &
    waits_for has_lines $((1 + RANDOM % 6))
    kills $!
    found=$(wc -l < "$journal")
    [[ $found -eq 9 ]] || middle=$((middle + 1))
    waits_for goes_on_by_example
    is_same "the status of README's example, killed behind $found lines" 1 "$status"
    holds "its report, killed behind $found lines" cmp examples/failed_day/report.txt "$work/out"
    is_same "its journal, killed behind $found lines" 9 "$(wc -l < "$journal")"
    is_same "that no try is recorded twice, killed behind $found lines" '' "$(records "$journal" | cut -d , -f 1-4 | uniq -d)"
done
is_same "how often README's example was killed in the middle" 10 "$middle"
cd "$work"

# ---- a disk without room, and one that is only to be read

# A folder of its own on a disk of so much room.
mounts() {
    mkdir -p small
    mount -t tmpfs -o "size=$1" tmpfs small 2> said
}
# Each try fails twice, so the journal has three records of each run.
tasks '{"id":"a","retries":3,"command":["sh","-c","echo \"$1 a -1 $0\" >> ran; [ $0 -gt 2 ]",{"context":"try_number"},{"context":"logical_date"}]}'
range=(--from 2024-01-01 --to 2024-02-29)
"$program" run "$graph" "${range[@]}" > plain
if mounts 4k; then
    trap 'umount "$work/small" 2> /dev/null || true; rm -rf "$work"' EXIT
    for workers in 1 4; do
        rm -f small/journal
        mount -o remount,size=4k small
        goes_on small/journal --workers "$workers"
        is_same "the status of a disk without room, by $workers" 3 "$status"
        is_same "what is told of it, by $workers" 'fault: cannot write small/journal' "$(< err)"
        is_same "what is printed of it, by $workers" '' "$(< out)"
        mount -o remount,size=1m small
        recorded small/journal > before
        : > ran
        goes_on small/journal --workers "$workers"
        is_same "the status where room was given, by $workers" 0 "$status"
        holds "the report where room was given, by $workers" cmp plain out
        is_same "that no recorded try ran again, by $workers" '' "$(grep -xFf before ran || true)"
        is_same "how many are recorded, by $workers" 181 "$(wc -l < small/journal)"
    done
    # The journal has room, and the report has none.
    rm small/journal
    mount -o remount,size=20k small
    goes_on small/journal --out small/report
    is_same 'a report without room' '3 fault: cannot write small/report' "$status $(< err)"
    mount -o remount,size=1m small
    : > ran
    goes_on small/journal --out small/report
    holds 'the report where room was given to it' cmp plain small/report
    is_same 'what ran for it' '' "$(< ran)"

    # A disk that is only to be read.
    sed -i '$d' small/journal
    cp small/journal kept
    mount -o remount,ro small
    : > ran
    goes_on small/journal
    is_same 'the status of a disk that is only to be read' '3 fault: cannot read small/journal' "$status $(< err)"
    is_same 'what ran there' '' "$(< ran)"
    holds 'the journal there' cmp kept small/journal
    mount -o remount,rw small
    goes_on small/journal
    holds 'the report where it may be written again' cmp plain out
    is_same 'what ran then' 1 "$(wc -l < ran)"
    umount small
else
    skips 'a disk without room, since nothing can be mounted'
fi

sum
