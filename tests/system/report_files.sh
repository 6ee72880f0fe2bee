#!/usr/bin/env bash
# Reports in files, by `--out` of single, dry, run and clear: what stands there is what goes to standard output without it, the exit
# status is the same, and the file holds all of the old report or all of the new one, also where a call to the system is refused, or the
# program is killed there; a report that can't take its place stays beside it. What can't be written is told before any program is started.
# Needs a C compiler for the calls, and for files that can't be replaced root, `unshare`, `setpriv` and `chattr`. The last line is the sum,
# and the status is 1 where something differs.
set -euo pipefail

source "$(dirname "$(readlink -f "${BASH_SOURCE[0]}")")/../shared/compare.sh"

folder=$work/folder
report=$folder/report
mkdir "$folder"
cd "$root/examples"
range=(--from 2024-01-01 --to 2024-01-03)

# The files of the folder, a name a line.
names() {
    ls -A "$folder"
}

# A line with `--out` prints nothing, ends as it does without, and leaves the report alone in the folder.
goes_to_file() {
    local status=0
    "$program" "$@" > "$work/plain" || status=$?
    : > "$work/wanted_out"
    : > "$work/wanted_err"
    ends "$status" "$@" --out "$report"
    holds "what --out has, of $*" cmp "$work/plain" "$report"
    is_same "the files beside it, of $*" report "$(names)"
}

"$program" dry every_key/graph.json every_key/table.json "${range[@]}" > "$work/was" || true
clearing=(--task m --run 2024-01-01T05:00:00Z --table every_key/table.json)
for workers in 1 8; do
    goes_to_file dry every_key/graph.json every_key/table.json "${range[@]}" --workers "$workers"
    goes_to_file run extract_transform_load/graph.json "${range[@]}" --workers "$workers"
    goes_to_file clear every_key/graph.json "$work/was" "${range[@]}" "${clearing[@]}" --workers "$workers"
    goes_to_file dry every_key/graph.json every_key/table.json --on 2024-01-03 --keep "$work/was" --workers "$workers"
done
goes_to_file single skip/graph.json skip/table.json --at 2024-01-01

# The report that is cleared is replaced.
"$program" clear every_key/graph.json "$work/was" "${range[@]}" "${clearing[@]}" > "$work/plain" || true
cp "$work/was" "$report"
"$program" clear every_key/graph.json "$report" "${range[@]}" "${clearing[@]}" --out "$report" || true
holds 'a report that is cleared where it stands' cmp "$work/plain" "$report"

# A link is followed, and the permissions of the old file are kept.
echo old > "$work/linked"
chmod 640 "$work/linked"
ln -sf "$work/linked" "$folder/link"
single=(single skip/graph.json skip/table.json --at 2024-01-01)
"$program" "${single[@]}" > "$work/plain"
"$program" "${single[@]}" --out "$folder/link"
holds 'the file that a link leads to' cmp "$work/plain" "$work/linked"
is_same 'its permissions' 640 "$(stat -c %a "$work/linked")"
is_same 'the link' "$work/linked" "$(readlink "$folder/link")"
rm "$folder/link"

# ---- what can't be written

# A task that tells that it ran.
tasks '{"id":"a","command":["touch","'"$work"'/ran"]}'

cannot_write() {
    tells 3 "fault: cannot write $1" run "$graph" "${day[@]}" --out "$1"
    is_same "what ran where $1 can't be written" '' "$(ls "$work/ran" 2> "$work/said" || true)"
    rm -f "$work/ran"
}

cannot_write "$work/none/report"
cannot_write "$folder"
cannot_write "$folder/"
cannot_write ''
cannot_write /dev/null
cannot_write /dev/full
cannot_write "$report/under"
ln -s "$folder" "$work/to_folder"
cannot_write "$work/to_folder"
ln -s "$work/nowhere" "$work/dangling"
cannot_write "$work/dangling"
mkfifo "$work/fifo"
cannot_write "$work/fifo"
cannot_write "$folder/$(printf 'n%.0s' {1..255})"
holds 'that /dev/null is a device still' test -c /dev/null
is_same 'what stands in the folder' report "$(names)"

# It comes before whatever else is wrong.
tells 3 "fault: cannot write $folder" single skip/graph.json skip/table.json --at 2024-02-30 --out "$folder"

# What is refused leaves the file as it was, and so does a fault.
kept() {
    local name=$1 status=$2 line=$3
    shift 3
    echo old > "$report"
    tells "$status" "$line" "$@" --out "$report"
    is_same "the file of $name" old "$(< "$report")"
    is_same "the files beside it, of $name" report "$(names)"
}
kept 'a moment that is none' 2 'refused 28 bad moment' single skip/graph.json skip/table.json --at 2024-02-30
kept 'a range that is reversed' 2 'refused 26 range reversed' dry every_key/graph.json every_key/table.json --from 2024-01-02 --to 2024-01-01
kept 'a graph that is none' 2 'refused 1 not json' run /dev/null "${range[@]}"
kept 'a graph that is not there' 3 "fault: cannot read $work/none" run "$work/none" "${range[@]}"
kept 'a table that is none' 2 'refused 19 bad table: file' dry every_key/graph.json /dev/null "${range[@]}"
echo none > "$work/no_report"
kept 'a report that is none' 2 'refused 30 bad line: 1' clear every_key/graph.json "$work/no_report" "${range[@]}" "${clearing[@]}"
unknown=(--task none --run 2024-01-01T05:00:00Z --table every_key/table.json)
kept 'a task that is none' 2 'refused 40 unknown task' clear every_key/graph.json "$work/was" "${range[@]}" "${unknown[@]}"

# A file that has the new file's name is somebody's, and stays.
echo theirs > "$report.new1"
"$program" "${single[@]}" > "$work/plain"
"$program" "${single[@]}" --out "$report"
holds 'a report whose first name is taken' cmp "$work/plain" "$report"
is_same 'the file of that name' theirs "$(< "$report.new1")"
rm "$report.new1"
is_same 'the files beside it' report "$(names)"

# A thousand of them, and more.
(cd "$folder" && seq -f 'report.new%.0f' 1 1234 | xargs touch)
"$program" "${single[@]}" --out "$report"
holds 'a report of which a thousand names are taken' cmp "$work/plain" "$report"
is_same 'how many files of these names there are' 1234 "$(names | grep -c '^report\.new[0-9]*$')"
find "$folder" -name 'report.new*' -delete

# A file that can't grow beyond a block.
big=(dry every_key/graph.json every_key/table.json --from 2024-01-01 --to 2024-02-29)
echo old > "$report"
(
    trap '' XFSZ
    ulimit -f 1
    status=0
    "$program" "${big[@]}" --out "$report" > "$work/out" 2> "$work/err" || status=$?
    echo "$status" > "$work/status"
)
is_same 'the status of a report that has no room' 3 "$(< "$work/status")"
is_same 'what is told of it' "fault: cannot write $report" "$(< "$work/err")"
is_same 'the file of it' old "$(< "$report")"
is_same 'the files beside it' report "$(names)"

# Two that write to one file at once: it is one of theirs, whole.
"$program" "${big[@]}" > "$work/plain" || true
"$program" "${single[@]}" > "$work/other"
for _ in {1..20}; do
    "$program" "${big[@]}" --out "$report" > "$work/out" &
    "$program" "${single[@]}" --out "$report"
    wait $! || true
    rows=$((rows + 1))
    cmp -s "$work/plain" "$report" || cmp -s "$work/other" "$report" || differs 'a report that two have written'
done
is_same 'the files beside a report that two have written' report "$(names)"

# ---- what its line reads or starts

mkdir "$work/named" "$work/named/bin"
cd "$work/named"
cp "$graph" g
cp "$work/was" r
echo '[]' > t
echo 'a 2024-01-01' > s
echo j > j
printf '#!/bin/sh\nexec "$@"\n' > bin/launcher
chmod +x bin/launcher
: > z
ln -s g link
ln g hard
sums() {
    sha256sum g r t s j z bin/launcher
}
before=$(sums)
# A line is wrong by its --out, before anything is read, and changes no file.
overwrites() {
    local status=0
    "$program" "$@" > "$work/out" 2> "$work/err" || status=$?
    is_same "the status of $*" 2 "$status"
    is_same "what is printed of $*" '' "$(< "$work/out")"
    is_same "what is told of $*" "error: the argument '--out <PATH>' cannot name a file that the command reads, or its journal" \
        "$(head -n 1 "$work/err")"
    is_same "what stands there behind $*" "$before" "$(sums)"
    is_same "what ran of $*" '' "$(ls "$work/ran" 2> "$work/said" || true)"
}
on=(--on 2024-01-01)
for path in ./g "$work/named/g" bin/../g link hard; do
    overwrites run g "${on[@]}" --out "$path"
    overwrites run "$path" "${on[@]}" --out g
    overwrites single g t --at 2024-01-01 --zone-file "$path" --out hard
done
overwrites dry g t "${on[@]}" --out ./t
overwrites dry g t "${on[@]}" --keep r --out ./t
overwrites single g t --at 2024-01-01 --out ./t
overwrites single g t --at 2024-01-01 --zone-file z --out ./z
overwrites clear g r --seeds s "${on[@]}" --out ./s
overwrites clear g r --seeds s "${on[@]}" --plan --out ./s
overwrites clear g r --failed "${on[@]}" --table t --out ./t
overwrites run g "${on[@]}" --journal j --out ./j
overwrites run g "${on[@]}" --journal new --out ./new
overwrites run g "${on[@]}" --journal bin/new --out ./bin/new
overwrites clear g r --failed "${on[@]}" --journal j --out ./j
overwrites run g "${on[@]}" --launcher ./bin/launcher --out bin/launcher
overwrites run none "${on[@]}" --launcher ./bin/launcher --out bin/launcher
overwrites clear g r --failed "${on[@]}" --launcher ./bin/launcher --out bin/launcher
PATH=$work/named/bin:$PATH overwrites run g "${on[@]}" --launcher launcher --out bin/launcher
# The report may be replaced in the same words, and no others.
overwrites clear g r --failed "${on[@]}" --out ./r
overwrites run g "${on[@]}" --keep ./r --out r
is_same 'that no journal was made' '' "$(ls new bin/new 2> "$work/said" || true)"

# The folder of logs, whether it is there or not.
for logs in logs logs/ ./logs bin/../logs; do
    tells 3 'fault: cannot write logs' run g "${on[@]}" --logs "$logs" --out logs
    tells 3 'fault: cannot write logs' run g "${on[@]}" --keep r --logs "$logs" --out logs
    is_same 'that no logs were made' '' "$(ls -d logs 2> "$work/said" || true)"
    is_same 'what ran' '' "$(ls "$work/ran" 2> "$work/said" || true)"
done
mkdir logs
tells 3 'fault: cannot write ./logs' run g "${on[@]}" --logs logs --out ./logs
# Others of the same name in other folders are others.
"$program" run g "${on[@]}" --journal bin/report --logs bin/logs --out report
is_same 'a report beside a journal of its name in another folder' '@backfill 2 d' "$(head -n 1 report)"
rm -f "$work/ran"
cd "$root/examples"

# ---- what can't be replaced

# Runs a line in a way of its own (the words before `--`) over an old report at a path, which has to end by this status and this line on
# standard error.
under() {
    local name=$1 status=$2 line=$3 ended=0
    shift 3
    "$@" > "$work/out" 2> "$work/err" || ended=$?
    is_same "the status of $name" "$status" "$ended"
    is_same "what is told of $name" "$line" "$(< "$work/err")"
    is_same "what is printed of $name" '' "$(< "$work/out")"
}
ran=(run "$graph" "${day[@]}" --out)
mkdir "$work/a blank"
fixed="$work/a blank/report"
left_alone() {
    is_same "the file of $1" old "$(< "$fixed")"
    is_same "the files beside it, of $1" report "$(ls -A "$work/a blank")"
    is_same "what ran of $1" '' "$(ls "$work/ran" 2> "$work/said" || true)"
}
echo old > "$fixed"

if unshare -m mount --bind "$fixed" "$fixed" 2> "$work/said"; then
    # shellcheck disable=SC2016
    mounted=(unshare -m sh -c 'mount --bind "$1" "$1" && shift && exec "$@"' sh "$fixed" "$program")
    under 'a file that is mounted' 3 "fault: cannot write $fixed" "${mounted[@]}" "${ran[@]}" "$fixed"
    left_alone 'a file that is mounted'
    # Where the system doesn't list what is mounted, the rename is what fails.
    # shellcheck disable=SC2016
    unlisted=(unshare -m sh -c 'mount --bind "$1" "$1" && mount -t tmpfs none /proc && shift && exec "$@"' sh "$fixed" "$program")
    "$program" "${single[@]}" > "$work/plain"
    under 'a file that is mounted, without a list' 3 "fault: cannot write $fixed: the report is in $fixed.new1" "${unlisted[@]}" "${single[@]}" --out "$fixed"
    is_same 'the file that is mounted, without a list' old "$(< "$fixed")"
    holds 'the report that is left' cmp "$work/plain" "$fixed.new1"
    echo theirs > "$fixed.new2"
    under 'one more' 3 "fault: cannot write $fixed: the report is in $fixed.new3" "${unlisted[@]}" "${single[@]}" --out "$fixed"
    holds 'the report that is left beside others' cmp "$work/plain" "$fixed.new3"
    rm "$fixed".new[123]
else
    skips 'a file that is mounted, since nothing can be mounted'
fi
sticky=(setpriv --bounding-set=-fowner --inh-caps=-fowner "$program")
if [[ $(id -u) == 0 ]] && chown 65534 "$work/a blank" "$fixed" && setpriv --bounding-set=-fowner --inh-caps=-fowner true 2> "$work/said"; then
    chmod 1777 "$work/a blank"
    under "another's file in a sticky folder" 3 "fault: cannot write $fixed" "${sticky[@]}" "${ran[@]}" "$fixed"
    left_alone "another's file in a sticky folder"
    chmod 777 "$work/a blank"
    "${sticky[@]}" "${single[@]}" --out "$fixed"
    holds "another's file in a folder that isn't sticky" test "$(< "$fixed")" != old
    echo old > "$fixed"
else
    skips "another's file in a sticky folder, for want of privileges"
fi
if chattr +i "$fixed" 2> "$work/said"; then
    under 'an immutable file' 3 "fault: cannot write $fixed" "$program" "${ran[@]}" "$fixed"
    chattr -i "$fixed"
    left_alone 'an immutable file'
    chattr +a "$fixed"
    under 'a file that can only grow' 3 "fault: cannot write $fixed" "$program" "${ran[@]}" "$fixed"
    chattr -a "$fixed"
    left_alone 'a file that can only grow'
else
    skips 'an immutable file, since there are none here'
fi
# One that nobody may write to is replaced, since its folder may be written to.
chmod 444 "$fixed"
"$program" "${single[@]}" --out "$fixed"
holds 'a file that may only be read' test "$(< "$fixed")" != old

# ---- each call to the system

[[ -n $(command -v cc) ]] || skips_rest 'calls that are refused, since there is no C compiler'
cc -shared -fPIC -O1 -o "$work/refuse.so" "$root/tests/shared/refuse.c"

# Runs the program with the call of this kind and number refused, or killed there.
refused() {
    local call=$1 number=$2 killed=$3
    shift 3
    status=0
    {
        env REFUSED_PROGRAM=backfill REFUSED_CALL="$call" REFUSED_NUMBER="$number" ${killed:+KILLED=$killed} CALL_COUNT="$work/count" \
            LD_PRELOAD="$work/refuse.so" "$program" "$@" > "$work/out" 2> "$work/err" || status=$?
    } 2> "$work/said"
}

# Whether calls of a kind can't be followed by a kill.
ends_unseen() {
    [[ $1 == memory || $1 == read ]]
}

# What may be told where a call of a kind is refused.
told_at() {
    case $1 in
        memory) echo '^fault: (out of memory|cannot start workers)$' ;;
        *) echo '^fault: cannot (read|write) .*$' ;;
    esac
}

# A report goes to the file with each call of a kind refused in turn, and with the program killed before and behind it. The file has the
# old text or the new one: the new one where the program ended well or was killed behind the rename, else the old one. Behind the rename
# memory may still be asked for.
outcome() {
    local call=$1 number=$2 killed=$3
    rows=$((rows + 1))
    if [[ $status -le 1 && -z $killed ]]; then
        cmp -s "$work/new" "$report" || differs "the file, of $call $number refused"
        [[ $call == remove || $(names) == report ]] || differs "what is left beside the file, of $call $number refused"
    elif [[ $status -eq 3 && $call-$killed == rename- ]]; then
        [[ $(< "$report") == old ]] || differs 'the file that could not be replaced'
        [[ $(< "$work/err") == "fault: cannot write $report: the report is in $report.new1" ]] || differs "$(< "$work/err"), of rename"
        cmp -s "$work/new" "$report.new1" || differs 'the report that is left'
        [[ $(names) == $'report\nreport.new1' ]] || differs 'what is left beside the file that could not be replaced'
    elif [[ $status -eq 3 && -z $killed ]]; then
        [[ $(< "$report") == old ]] || differs "the file at a fault, of $call $number refused"
        [[ $(< "$work/err") =~ $(told_at "$call") ]] || differs "$(< "$work/err"), of $call $number"
        [[ $call == remove || $(names) == report ]] || differs "what is left beside the file, of $call $number refused"
    elif [[ $status -eq 137 && $call-$killed == rename-after ]]; then
        cmp -s "$work/new" "$report" || differs "the file, killed behind the rename"
        [[ $(names) == report ]] || differs "what is left beside the file, killed behind the rename"
    elif [[ $status -eq 137 && $call == memory ]]; then
        [[ $(< "$report") == old ]] || cmp -s "$work/new" "$report" || differs "the file, killed before $call $number"
    elif [[ $status -eq 137 && -n $killed ]]; then
        [[ $(< "$report") == old ]] || differs "the file, killed $killed $call $number"
    else
        differs "status $status, of $call $number ${killed:+killed $killed}"
    fi
}

each() {
    local call=$1 calls number killed
    shift
    echo old > "$report"
    refused "$call" 0 '' "$@"
    calls=$(< "$work/count")
    cp "$report" "$work/new"
    holds "that no $call is refused, of $1" test "$status" -le 1
    holds "that there are calls of $call, of $1" test "$calls" -gt 0
    holds "that the file is new, of $1" test "$(< "$report")" != old
    for ((number = 1; number <= calls; number++)); do
        for killed in '' before after; do
            [[ $killed != after ]] || ! ends_unseen "$call" || continue
            echo old > "$report"
            refused "$call" "$number" "$killed" "$@"
            outcome "$call" "$number" "$killed"
            find "$folder" -name 'report.new*' -delete
        done
    done
    echo "$calls calls of $call: ${*:1:2}"
}
for call in memory open read write look mode sync rename remove rmdir; do
    each "$call" "${single[@]}" --out "$report"
    each "$call" clear every_key/graph.json "$work/was" "${range[@]}" "${clearing[@]}" --out "$report"
done
is_same 'what is left in the folder' report "$(names)"
sum
