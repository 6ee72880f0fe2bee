#!/usr/bin/env bash
# Runs `dry --keep` and `run --keep` of the program over small graphs and ranges that have changed since their reports, of both versions, and
# compares its exit status and all that it prints with what stands here, which was worked out by hand from docs/SPECIFICATION.md and
# docs/FORMATS.md. The last line is the sum, and the status is 1 where a row differs.
set -euo pipefail

source "$(dirname "$(readlink -f "${BASH_SOURCE[0]}")")/../shared/compare.sh"
from=2024-01-01
to=2024-01-02
both='1 2'

# The report is kept in these versions, by this table and 1, 2 and 8 workers: it ends in this status and prints the report on standard
# input. Every try that isn't kept has an answer of the table, so that it is seen.
keeps() {
    local versions=$1 status=$2 version workers
    echo "$3" > "$table"
    cat > "$work/kept"
    for version in $versions; do
        for workers in 1 2 8; do
            answers "$status" dry "$graph" "$table" --from "$from" --to "$to" --keep "$work/report_$version" --workers "$workers" \
                < "$work/kept"
        done
    done
}

# It is refused, or a fault, whichever version it has.
is_told() {
    local version status=$1 line=$2
    shift 2
    for version in 1 2; do
        tells "$status" "$line" dry "$graph" "$table" --from "$from" --to "$to" --keep "$work/report_$version" "$@"
    done
}

# Two days, of which the second rests on the first.

pair='{"id":"a"},{"id":"b","upstream":["a"],"depends_on_past":true,"command":[{"pull":"a"}]}'
first_day() {
    cat <<'LINES'
@run 2024-01-01T00:00:00Z 2024-01-02T00:00:00Z success
a -1 success 1 1
b -1 success 1 2
@pull a 1
LINES
}
second_day() {
    cat <<'LINES'
@run 2024-01-02T00:00:00Z 2024-01-03T00:00:00Z success
a -1 success 1 3
b -1 success 1 4
@pull a 3
LINES
}
report() {
    echo '@backfill 2 d'
    cat
    echo "@end $1"
}
two_days() {
    { first_day; second_day; } | report 2
}
tasks "$pair"
was < <(two_days)

# The same graph and range: all of it stands, and nothing is asked of the table.
keeps "$both" 0 '[{"out":"9"}]' < <(two_days)

# A longer range: its days before and behind are run, and what rests on the past has it.
to=2024-01-03
keeps "$both" 0 '[{"out":"9"}]' < <({ first_day; second_day; cat; } <<'LINES' | report 3
@run 2024-01-03T00:00:00Z 2024-01-04T00:00:00Z success
a -1 success 1 9
b -1 success 1 9
@pull a 9
LINES
)
from=2023-12-31
keeps "$both" 1 '[{"task":"b","run":"2023-12-31T00:00:00Z","status":1},{"out":"9"}]' <<'LINES'
@backfill 2 d
@run 2023-12-31T00:00:00Z 2024-01-01T00:00:00Z failed
a -1 success 1 9
b -1 failed 1 -
@pull a 9
@run 2024-01-01T00:00:00Z 2024-01-02T00:00:00Z failed
a -1 success 1 1
b -1 no_status 0 -
@run 2024-01-02T00:00:00Z 2024-01-03T00:00:00Z failed
a -1 success 1 3
b -1 no_status 0 -
@run 2024-01-03T00:00:00Z 2024-01-04T00:00:00Z failed
a -1 success 1 9
b -1 no_status 0 -
@end 4
LINES

# A shorter one, one that was moved, and one of other days.
from=2024-01-02
to=2024-01-02
keeps "$both" 0 '[{"out":"9"}]' < <(second_day | report 1)
to=2024-01-03
keeps "$both" 0 '[{"out":"9"}]' < <({ second_day; cat; } <<'LINES' | report 2
@run 2024-01-03T00:00:00Z 2024-01-04T00:00:00Z success
a -1 success 1 9
b -1 success 1 9
@pull a 9
LINES
)
from=2024-01-05
to=2024-01-05
keeps "$both" 0 '[{"out":"9"}]' <<'LINES'
@backfill 2 d
@run 2024-01-05T00:00:00Z 2024-01-06T00:00:00Z success
a -1 success 1 9
b -1 success 1 9
@pull a 9
@end 1
LINES

# A report without runs has nothing to keep.
from=2024-01-01
to=2024-01-01
was < <(report 0 < /dev/null)
keeps "$both" 0 '[{"out":"9"}]' <<'LINES'
@backfill 2 d
@run 2024-01-01T00:00:00Z 2024-01-02T00:00:00Z success
a -1 success 1 9
b -1 success 1 9
@pull a 9
@end 1
LINES

# The run of another data interval is another run: that of `single`, which starts and ends at its moment, and a month that starts with the
# day.
anew() {
    cat <<LINES
@backfill 2 d
@run 2024-01-01T00:00:00Z $1 success
a -1 success 1 9
b -1 success 1 9
@pull a 9
@end 1
LINES
}
was < <(first_day | sed '1s/ 2024-01-02/ 2024-01-01/' | report 1)
keeps "$both" 0 '[{"out":"9"}]' < <(anew 2024-01-02T00:00:00Z)
was < <(first_day | report 1)
sed -i 's/@daily/@monthly/' "$graph"
keeps "$both" 0 '[{"out":"9"}]' < <(anew 2024-02-01T00:00:00Z)

# A graph with a task more, in the middle of the file and of the edges: it runs, and what is given the same is kept.

tasks '{"id":"a"},{"id":"c","upstream":["a"],"command":[{"pull":"a"}]},
  {"id":"b","upstream":["c","a"],"depends_on_past":true,"command":[{"pull":"a"}]}'
keeps "$both" 0 '[{"out":"9"}]' <<'LINES'
@backfill 2 d
@run 2024-01-01T00:00:00Z 2024-01-02T00:00:00Z success
a -1 success 1 1
c -1 success 1 9
@pull a 1
b -1 success 1 2
@pull a 1
@end 1
LINES
# Where it fails, what waits for it isn't asked for, and not kept.
keeps "$both" 1 '[{"task":"c","status":1},{"out":"9"}]' <<'LINES'
@backfill 2 d
@run 2024-01-01T00:00:00Z 2024-01-02T00:00:00Z failed
a -1 success 1 1
c -1 failed 1 -
@pull a 1
b -1 upstream_failed 0 -
@end 1
LINES

# One without a task that nothing pulls from, and in another order.
was <<'LINES'
@backfill 2 d
@run 2024-01-01T00:00:00Z 2024-01-02T00:00:00Z success
z -1 success 1 8
a -1 success 1 1
y -1 success 1 7
b -1 success 1 2
@pull a 1
@end 1
LINES
tasks "$pair"
keeps "$both" 0 '[{"out":"9"}]' < <(first_day | report 1)
tasks '{"id":"b","upstream":["a"],"command":[{"pull":"a"}]},{"id":"a"},{"id":"z","upstream":["b"]}'
keeps "$both" 0 '[{"out":"9"}]' <<'LINES'
@backfill 2 d
@run 2024-01-01T00:00:00Z 2024-01-02T00:00:00Z success
b -1 success 1 2
@pull a 1
a -1 success 1 1
z -1 success 1 8
@end 1
LINES

# Pulls count by value: one more is something else, and so is one less; the same value of another task isn't. Version 1 doesn't tell what was
# pulled, which is worked out by the graph as it is now.
tasks '{"id":"z"},{"id":"a"},{"id":"b","upstream":["a","z"],"command":[{"pull":"a"},{"pull":"z"}]}'
keeps 2 0 '[{"out":"9"}]' <<'LINES'
@backfill 2 d
@run 2024-01-01T00:00:00Z 2024-01-02T00:00:00Z success
z -1 success 1 8
a -1 success 1 1
b -1 success 1 9
@pull a 1
@pull z 8
@end 1
LINES
keeps 1 0 '[{"out":"9"}]' <<'LINES'
@backfill 2 d
@run 2024-01-01T00:00:00Z 2024-01-02T00:00:00Z success
z -1 success 1 8
a -1 success 1 1
b -1 success 1 2
@pull a 1
@pull z 8
@end 1
LINES
tasks '{"id":"a"},{"id":"b","upstream":["a"]}'
keeps 2 0 '[{"out":"9"}]' <<'LINES'
@backfill 2 d
@run 2024-01-01T00:00:00Z 2024-01-02T00:00:00Z success
a -1 success 1 1
b -1 success 1 9
@end 1
LINES
tasks '{"id":"new"},{"id":"b","upstream":["new"],"command":[{"pull":"new"}]}'
keeps 2 0 '[{"task":"new","out":"1"},{"out":"9"}]' <<'LINES'
@backfill 2 d
@run 2024-01-01T00:00:00Z 2024-01-02T00:00:00Z success
new -1 success 1 1
b -1 success 1 2
@pull new 1
@end 1
LINES
keeps 1 0 '[{"task":"new","out":"1"},{"out":"9"}]' <<'LINES'
@backfill 2 d
@run 2024-01-01T00:00:00Z 2024-01-02T00:00:00Z success
new -1 success 1 1
b -1 success 1 9
@pull new 1
@end 1
LINES

# Retries: of a task that failed one more is made alone, and with fewer the last that is asked for is a failed one.

was <<'LINES'
@backfill 2 d
@run 2024-01-01T00:00:00Z 2024-01-02T00:00:00Z failed
a -1 failed 2 -
b -1 success 3 7
@end 1
LINES
tasks '{"id":"a","retries":2},{"id":"b","retries":2}'
keeps "$both" 0 '[{"task":"a","try":3,"out":"5"},{"out":"9"}]' <<'LINES'
@backfill 2 d
@run 2024-01-01T00:00:00Z 2024-01-02T00:00:00Z success
a -1 success 3 5
b -1 success 3 7
@end 1
LINES
tasks '{"id":"a","retries":1},{"id":"b","retries":1}'
keeps "$both" 1 '[{"out":"9"}]' <<'LINES'
@backfill 2 d
@run 2024-01-01T00:00:00Z 2024-01-02T00:00:00Z failed
a -1 failed 2 -
b -1 failed 2 -
@end 1
LINES

# Instances of an expanded task are kept by their items.

was <<'LINES'
@backfill 2 d
@run 2024-01-01T00:00:00Z 2024-01-02T00:00:00Z success
list -1 success 1 [3,1]
m 0 success 1 4
@item 3
m 1 success 1 5
@item 1
sum -1 success 1 6
@pull m [4,5]
@end 1
LINES
tasks '{"id":"sum","upstream":["m"],"command":[{"pull":"m"}]},{"id":"other"},{"id":"list","upstream":["other"]},
  {"id":"m","upstream":["list"],"expand":"list"}'
keeps "$both" 0 '[{"out":"9"}]' <<'LINES'
@backfill 2 d
@run 2024-01-01T00:00:00Z 2024-01-02T00:00:00Z success
sum -1 success 1 6
@pull m [4,5]
other -1 success 1 9
list -1 success 1 [3,1]
m 0 success 1 4
@item 3
m 1 success 1 5
@item 1
@end 1
LINES
# Of another list those whose items are at their places.
tasks '{"id":"items"},{"id":"m","upstream":["items"],"expand":"items"},{"id":"sum","upstream":["m"],"command":[{"pull":"m"}]}'
keeps 2 0 '[{"task":"items","out":"[3,2,1]"},{"out":"9"}]' <<'LINES'
@backfill 2 d
@run 2024-01-01T00:00:00Z 2024-01-02T00:00:00Z success
items -1 success 1 [3,2,1]
m 0 success 1 4
@item 3
m 1 success 1 9
@item 2
m 2 success 1 9
@item 1
sum -1 success 1 9
@pull m [4,9,9]
@end 1
LINES

# An outcome that doesn't fit isn't kept: what pushes a list now pushed none, and a branch names another task.
was <<'LINES'
@backfill 2 d
@run 2024-01-01T00:00:00Z 2024-01-02T00:00:00Z success
list -1 success 1 7
choose -1 success 1 "list"
@end 1
LINES
tasks '{"id":"choose","kind":"branch"},{"id":"next","upstream":["choose"]},{"id":"list"},{"id":"m","upstream":["list"],"expand":"list"}'
keeps "$both" 0 '[{"task":"list","out":"[1]"},{"task":"choose","out":"next"},{"out":"9"}]' <<'LINES'
@backfill 2 d
@run 2024-01-01T00:00:00Z 2024-01-02T00:00:00Z success
choose -1 success 1 "next"
next -1 success 1 9
list -1 success 1 [1]
m 0 success 1 9
@item 1
@end 1
LINES

# Ninety nights, and one more: its programs alone are started, and the report stands in the file that it was read from.

tasks "{\"id\":\"day\",\"command\":[\"sh\",\"-c\",\"echo \$0 >> $work/ran; echo \$0\",{\"context\":\"logical_date\"}]},
  {\"id\":\"sum\",\"upstream\":[\"day\"],\"depends_on_past\":true,\"command\":[\"sh\",\"-c\",\"echo sum \$0 >> $work/ran\",{\"pull\":\"day\"}]}"
nights() {
    "$program" run "$graph" --from 2024-01-01 --workers "$workers" "$@"
}
for workers in 1 2 8; do
    nights --to 2024-03-30 --out "$work/nights"
    cp "$work/nights" "$work/before"
    : > "$work/ran"
    answers 0 run "$graph" --from 2024-01-01 --to 2024-03-31 --workers "$workers" --keep "$work/nights" --out "$work/nights" < /dev/null
    is_same "what ran in one night more, by $workers workers" $'2024-03-31T00:00:00Z\nsum 2024-03-31T00:00:00Z' "$(< "$work/ran")"
    is_same "the report of it, by $workers workers" "$(nights --to 2024-03-31)" "$(< "$work/nights")"
    : > "$work/ran"
    answers 0 run "$graph" --from 2024-01-01 --to 2024-03-31 --workers "$workers" --keep "$work/nights" < "$work/nights"
    is_same "that nothing is left to run, by $workers workers" '' "$(< "$work/ran")"
done

# The same with a journal, which has the tries of the new night alone, is asked before the report, and is one of `run`.
line=(run "$graph" --from 2024-01-01 --to 2024-03-31 --journal "$work/journal")
goes_on() {
    cp "$work/nights" "$work/wanted_out"
    echo 'journal: goes on behind 2 tries' > "$work/wanted_err"
    : > "$work/ran"
    ends 0 "${line[@]}" "$@"
}
answers 0 "${line[@]}" --keep "$work/before" < "$work/nights"
is_same 'what stands in the journal' $'2024-03-31T00:00:00Z day\n2024-03-31T00:00:00Z sum' \
    "$(sed 1d "$work/journal" | sed 's/^\["\([^"]*\)","\([^"]*\)".*/\1 \2/')"
goes_on --keep "$work/before"
is_same 'that what is recorded runs no more' '' "$(< "$work/ran")"
goes_on
is_same 'how many tries the journal of one night leaves' 180 "$(wc -l < "$work/ran")"

# What is refused: a report of another graph alone, and one that is none, behind all that is looked at before it.

tasks "$pair"
echo '[]' > "$table"
was < <(first_day | report 1)
sed -i '1s/ d$/ e/' "$work"/report_[12]
is_told 2 'refused 42 report mismatch'
was < <(first_day)
is_told 2 'refused 30 bad line: 1'
was < <({ first_day; head -c 66001 /dev/zero | tr '\0' 'x'; } | sed '1i @backfill 2 d')
tells 2 'refused 31 line too long: 6' dry "$graph" "$table" "${day[@]}" --keep "$work/report_2"
was < <(first_day | sed '1i @backfill 2 d')
is_told 2 'refused 32 truncated'
sed -i 's/@daily/@weekly/' "$graph"
is_told 2 'refused 29 no runs' --some
echo '{}' > "$table"
is_told 2 'refused 19 bad table: file' --some
tells 3 "fault: cannot read $work/none" run "$graph" "${day[@]}" --keep "$work/none"
sum
