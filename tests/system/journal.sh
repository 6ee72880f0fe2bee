#!/usr/bin/env bash
# Journals of run and clear: the same line goes on from what is there, to the report of a backfill that nobody interrupted, and makes no
# try again that is recorded. A journal may be read and edited by other programs. What can't be opened or read is told, and so is what is
# another backfill's. Crashes are those of journal_crashes.sh and journal_calls.sh. The last line is the sum, and the status is 1 where
# something differs.
set -euo pipefail

source "$(dirname "$(readlink -f "${BASH_SOURCE[0]}")")/../shared/journals.sh"

noting_tasks
: > ran
plain=0
"$program" run "$graph" "${range[@]}" > plain || plain=$?
is_same 'how many tries run' 35 "$(wc -l < ran)"

# Goes on from a journal to the report of an untouched backfill, and makes just the tries again that are named, a line each.
goes_on_by() {
    local name=$1 again=$2
    shift 2
    : > ran
    goes_on "$@"
    is_same "the status of $name" "$plain" "$status"
    holds "the report of $name" cmp plain out
    is_same "what ran of $name" "$again" "$(cut -d ' ' -f 1-3 ran | sort)"
}

# ---- a whole journal

for workers in 1 8; do
    rm -f whole
    goes_on whole --workers "$workers"
    is_same "the status with a journal, by $workers" "$plain" "$status"
    holds "the report with a journal, by $workers" cmp plain out
    is_same "what is told of a new journal, by $workers" '' "$(< err)"
    is_same "how many lines the journal has, by $workers" 36 "$(wc -l < whole)"
    cp whole kept
    goes_on_by "a whole journal, by $workers" '' whole --workers "$workers"
    is_same "what is told of a whole journal, by $workers" 'journal: goes on behind 35 tries' "$(< err)"
    holds "that a whole journal stays as it is, by $workers" cmp kept whole
done
is_same 'the head of a journal' '["backfill journal",1,"d",[["src"],["m"],["sum","m"],["no"]],'"$(
    "$program" list "$graph" "${range[@]}" | sed 's/\(.*\) \(.*\)/["\1","\2"]/' | paste -s -d , | sed 's/.*/[&]/')]" "$(head -n 1 whole)"
is_same 'the records of a run' "$(sort <<'LINES'
["2024-01-03T00:00:00Z","src",-1,1,"success",[[1,2,3]],[],[]
["2024-01-03T00:00:00Z","m",0,1,"success",["v 1"],[1],[]
["2024-01-03T00:00:00Z","m",1,1,"failed",[],[2],[]
["2024-01-03T00:00:00Z","m",1,2,"success",["v 2"],[2],[]
["2024-01-03T00:00:00Z","m",2,1,"success",["v 3"],[3],[]
["2024-01-03T00:00:00Z","sum",-1,1,"success",[["v 1","v 2","v 3"]],[],[[["v 1","v 2","v 3"]]]
["2024-01-03T00:00:00Z","no",-1,1,"skipped",[],[],[]
LINES
)" "$(records whole | grep '^."2024-01-03')"
goes_on_by 'a journal and other workers, with progress' '' whole --workers 3 --progress

# The file of a link is written to, and one that is empty is begun.
: > empty
ln -s empty link
goes_on_by 'an empty journal behind a link' "$(cut -d ' ' -f 1-3 <<< "$(recorded whole)" | sort)" link
is_same 'the journal behind a link' "$(records whole)" "$(records empty)"

# A report that can't be written, though the backfill has ended, is printed by the same line.
rm -f journal
status=0
"$program" run "$graph" "${range[@]}" --journal journal > /dev/full 2> err || status=$?
is_same 'the status where standard output is full' 3 "$status"
is_same 'what is told of that' 'fault: cannot write' "$(< err)"
goes_on_by 'a journal whose report was not printed' '' journal

# ---- when a try ran, and how it ended

tasks '
    {"id":"good","command":["sleep","0.2"]},
    {"id":"bad","command":["sh","-c","exit 7"]},
    {"id":"skipped","command":["sh","-c","exit 99"]},
    {"id":"killed","command":["sh","-c","kill -9 $$"]},
    {"id":"absent","command":["/none"]}'
before=$(date +%s%3N)
rm -f journal
status=0
"$program" run "$graph" "${day[@]}" --journal journal > out 2> err || status=$?
after=$(date +%s%3N)
times=$(sed -n '2,$s/^[^,]*,"\([a-z]*\)".*\[\([0-9]*\),\([0-9]*\),\(-\?[0-9]*\)\]\]$/\1 \2 \3 \4/p' journal | sort)
is_same 'that each record has its times' 5 "$(wc -l <<< "$times")"
while read -r task start end code; do
    rows=$((rows + 1))
    ((before <= start && start <= end && end <= after)) || differs "the times of $task: $before $start $end $after"
    case $task in
        good) ((end - start >= 200 && code == 0)) || differs "what is told of $task: $start $end $code" ;;
        bad) ((code == 7)) || differs "the code of $task: $code" ;;
        skipped) ((code == 99)) || differs "the code of $task: $code" ;;
        killed) ((code == 137)) || differs "the code of $task: $code" ;;
        absent) ((code == -1)) || differs "the code of $task: $code" ;;
    esac
done <<< "$times"

# ---- a journal that others read and edit

noting_tasks
if [[ -n $(command -v jq) ]]; then
    jq -c . whole > again
    holds 'a journal that went through jq' cmp whole again
    jq . whole | jq -c 'if .[4] == "failed" then .[8] = null else . end' > again
    goes_on_by 'a journal whose failed tries have no times' '' again
    is_same 'what jq tells of it' 5 "$(jq -c 'select(.[4]=="failed")' whole | wc -l)"
else
    skips 'jq, since it is not there'
fi
is_same 'what grep tells of a journal' 5 "$(grep -c '"failed"' whole)"

# Lines that are taken out are made again, and nothing else, whether `grep -v` finds them or `sed` behind the head.
sums=$(for number in 1 2 3 4 5; do echo "2024-01-0${number}T00:00:00Z sum -1"; done)
grep -v '^."[^,]*,"sum",' whole > fewer
goes_on_by 'a journal without sums' "$sums" fewer
is_same 'what is told of it' 'journal: goes on behind 30 tries' "$(< err)"
is_same 'the journal without sums' "$(records whole)" "$(records fewer)"
sed '2,${/"sum"/d}' whole > fewer
goes_on_by 'a journal whose sums sed took out' "$sums" fewer
grep -v '"sum"' whole > fewer
cp fewer kept
: > ran
tells 2 'refused 43 journal mismatch' run "$graph" "${range[@]}" --journal fewer
is_same 'what ran by a journal without its head' '' "$(< ran)"
holds 'that it stays as it is' cmp kept fewer

# Of two records of one try the last counts, and a try that was given something else is made again.
{
    cat whole
    sed -n '2,${/"2024-01-02T00:00:00Z","m",0/s/\[1\]/[4]/p}' whole
} > twice
goes_on_by 'a try that was recorded with another item' '2024-01-02T00:00:00Z m 0' twice
is_same 'how often it is recorded' 3 "$(grep -c '"2024-01-02T00:00:00Z","m",0' twice)"
goes_on_by 'a journal with three records of it' '' twice

# ---- a journal of 200,000 records

# So many tasks by so many days: a journal, of which each try is a success, and the report.
days=100
count=2000
echo '{"dag_id":"big","schedule":"@daily","tasks":[' > big.json
awk -v count="$count" 'BEGIN { for (t = 0; t < count; t++) print (t ? "," : "") "{\"id\":\"t" t "\",\"command\":[\"true\"]}"; print "]}" }' >> big.json
big=(big.json --from 2024-01-01 --to 2024-04-09)
"$program" list "${big[@]}" | awk -v count="$count" '
    { starts[NR] = $1; ends[NR] = $2 }
    END {
        printf "[\"backfill journal\",1,\"big\"" > "journal"
        for (t = 0; t < count; t++) printf "%s[\"t%d\"]", (t == 0 ? ",[" : ","), t > "journal"
        for (r = 1; r <= NR; r++) printf "%s[\"%s\",\"%s\"]", (r == 1 ? "],[" : ","), starts[r], ends[r] > "journal"
        print "]]" > "journal"
        print "@backfill 2 big" > "plain"
        for (r = 1; r <= NR; r++) {
            print "@run", starts[r], ends[r], "success" > "plain"
            for (t = 0; t < count; t++) {
                printf "[\"%s\",\"t%d\",-1,1,\"success\",[],[],[],[0,0,0]]\n", starts[r], t > "journal"
                print "t" t, -1, "success", 1, "-" > "plain"
            }
        }
        print "@end " NR > "plain"
    }'
is_same 'how many lines it has' $((days * count + 1)) "$(wc -l < journal)"
head -c -500 journal > shorter
for journal in journal shorter; do
    status=0
    timeout 120 "$program" run "${big[@]}" --workers 2 --journal "$journal" > out 2> err || status=$?
    is_same "the status of 200,000 records, of $journal" 0 "$status"
    holds "the report of 200,000 records, of $journal" cmp plain out
    is_same "how many there are then, of $journal" $((days * count + 1)) "$(wc -l < "$journal")"
done

sum
