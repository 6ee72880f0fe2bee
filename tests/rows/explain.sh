#!/usr/bin/env bash
# Explains runs, tasks and instances of reports, and compares all that is printed with what stands here, which was worked out by hand from
# docs/FORMATS.md ("Explanation"). The last line is the sum, and the status is 1 where a row differs.
set -euo pipefail

source "$(dirname "$(readlink -f "${BASH_SOURCE[0]}")")/../shared/compare.sh"
report=$work/report

# The failed day. The lines are those that are to be run, so it is looked at from where its paths are.

mkdir "$work/examples"
cp -r "$root/examples/failed_day" "$work/examples"
cd "$work"
day=examples/failed_day

answers 0 explain --task total --run 2024-03-05 "$day/graph.json" "$day/report.txt" <<'LINES'
total in the run of 2024-03-05T00:00:00Z: failed
why
  Its rule all_success, over 1 upstream instance (1 success), says run, since all are success.
  Its one try failed.
  Why a try failed isn't in a report: what its program wrote to standard error says it.
given
  pulled extract  "examples/failed_day/2024-03-05.txt"
by hand
  awk '$2 == "n/a" { exit 1 } { sum += $2 } END { print sum }' examples/failed_day/2024-03-05.txt
upstream
  extract  success
downstream
  publish  upstream_failed
clear, with what follows from it: 2 tasks in 1 run
  backfill clear --from 2024-03-04 --to 2024-03-06 --task total --run 2024-03-05 examples/failed_day/graph.json examples/failed_day/report.txt > examples/failed_day/report.txt.new
LINES
answers 0 explain --run 2024-03-05T00:00:00Z "$day/graph.json" "$day/report.txt" <<'LINES'
run 2024-03-05T00:00:00Z to 2024-03-06T00:00:00Z: failed
why
  publish, which no task follows, is failed or upstream_failed.
task instances
  1 success, 1 failed, 1 upstream_failed
failed
  total  failed
not tried
  publish  upstream_failed
LINES
answers 0 explain --run 2024-03-06 "$day/graph.json" "$day/report.txt" <<'LINES'
run 2024-03-06T00:00:00Z to 2024-03-07T00:00:00Z: success
why
  None of the tasks that no task follows is failed or upstream_failed, and every task has a status.
task instances
  3 success
LINES
# States of runs that don't follow from what their tasks came to.
sed 's/^\(@run 2024-03-05.*\) failed$/\1 success/; s/^\(@run 2024-03-06.*\) success$/\1 failed/' "$day/report.txt" > "$work/contradicting.txt"
answers 0 explain --run 2024-03-05 "$day/graph.json" "$work/contradicting.txt" <<'LINES'
run 2024-03-05T00:00:00Z to 2024-03-06T00:00:00Z: success
why
  What the report has doesn't follow from this graph.
  By this graph it would be failed:
  publish, which no task follows, is failed or upstream_failed.
task instances
  1 success, 1 failed, 1 upstream_failed
failed
  total  failed
not tried
  publish  upstream_failed
LINES
answers 0 explain --run 2024-03-06 "$day/graph.json" "$work/contradicting.txt" <<'LINES'
run 2024-03-06T00:00:00Z to 2024-03-07T00:00:00Z: failed
why
  What the report has doesn't follow from this graph.
  By this graph it would be success:
  None of the tasks that no task follows is failed or upstream_failed, and every task has a status.
task instances
  3 success
LINES
answers 0 explain --task publish --run 2024-03-05 "$day/mended.json" "$day/report.txt" <<'LINES'
publish in the run of 2024-03-05T00:00:00Z: upstream_failed
why
  Its rule all_success, over 1 upstream instance (1 failed), says upstream_failed, because of total.
upstream
  total  failed
clear total, with what follows from it: 2 tasks in 1 run
  backfill clear --from 2024-03-04 --to 2024-03-06 --task total --run 2024-03-05 examples/failed_day/mended.json examples/failed_day/report.txt > examples/failed_day/report.txt.new
LINES

# The line that it tells mends the day.

backfill() {
    "$program" "$@"
}
eval "$("$program" explain --task publish --run 2024-03-05 "$day/mended.json" "$day/report.txt" | tail -n 1)"
holds 'what the line of publish makes' cmp "$day/resumed.txt" "$day/report.txt.new"

# Each reason. Two runs, of which the second waits for the first.

tasks '{"id":"look","kind":"branch"},{"id":"left","upstream":["look"]},{"id":"right","upstream":["look"]},
  {"id":"list","command":["cat"],"retries":1},{"id":"each","upstream":["list"],"expand":"list","command":["echo",{"item":true},{"pull":"list"}]},
  {"id":"again","upstream":["each"],"expand":"each"},{"id":"bad","depends_on_past":true},{"id":"below","upstream":["bad"],"rule":"one_failed"},
  {"id":"after","upstream":["below"],"rule":"all_done"},{"id":"over","upstream":["left"],"expand":"left","rule":"all_done"},
  {"id":"fork","kind":"branch","upstream":["bad"]},{"id":"prong","upstream":["fork"]},{"id":"end","upstream":["over","each"]}'
sed 's/^    //' > "$report" <<'REPORT'
    @backfill 2 d
    @run 2024-01-01T00:00:00Z 2024-01-02T00:00:00Z failed
    look -1 success 1 "right"
    left -1 skipped 0 -
    right -1 success 1 -
    list -1 success 2 ["a","b c"]
    each 0 success 1 1
    @item "a"
    @pull list ["a","b c"]
    each 1 skipped 1 -
    @item "b c"
    @pull list ["a","b c"]
    again 0 success 1 -
    @item 1
    bad -1 failed 1 -
    below -1 success 1 -
    after -1 success 1 -
    over -1 upstream_failed 0 -
    fork -1 upstream_failed 0 -
    prong -1 upstream_failed 0 -
    end -1 upstream_failed 0 -
    @run 2024-01-02T00:00:00Z 2024-01-03T00:00:00Z failed
    look -1 success 1 "left"
    left -1 skipped 1 -
    right -1 skipped 0 -
    list -1 success 1 []
    each -1 skipped 0 -
    again -1 skipped 0 -
    bad -1 no_status 0 -
    below -1 no_status 0 -
    after -1 no_status 0 -
    over -1 upstream_failed 0 -
    fork -1 no_status 0 -
    prong -1 no_status 0 -
    end -1 upstream_failed 0 -
    @end 2
REPORT

# Why the task of these words has its state, below which the lines are told on standard input.
why() {
    local heading=$1
    shift
    is_same "$*" "$(printf '%s\nwhy\n' "$heading"; sed 's/^/  /')" "$("$program" explain "$graph" "$report" "$@" | awk 'NR > 1 && /^[a-z]/ && $0 != "why" { behind = 1 } !behind')"
}
first=2024-01-01T00:00:00Z
second=2024-01-02T00:00:00Z
why "left in the run of $first: skipped" --run 2024-01-01 --task left <<'LINES'
The branch look succeeded and doesn't follow it: it pushed "right".
LINES
why "left in the run of $second: skipped" --run 2024-01-02 --task left <<'LINES'
Its rule all_success, over 1 upstream instance (1 success), says run, since all are success.
Its try 1 exited with 99, which skips it.
LINES
why "list in the run of $first: success" --run 2024-01-01 --task list <<'LINES'
It has no upstream tasks, so no rule holds it back.
Its try 2 succeeded, behind 1 that failed.
LINES
why "each in the run of $first: 2 instances, 1 success, 1 skipped" --run 2024-01-01 --task each <<'LINES'
Its rule all_success, over 1 upstream instance (1 success), says run, since all are success.
It is expanded over list: 2 items of the list that it pushed.
It came to 2 instances: 1 success, 1 skipped.
LINES
why "each in the run of $second: skipped" --run 2024-01-02 --task each <<'LINES'
Its rule all_success, over 1 upstream instance (1 success), says run, since all are success.
It is expanded over list, which pushed an empty list.
LINES
why "again in the run of $first: 1 instance, 1 success" --run 2024-01-01 --task again <<'LINES'
What the report has doesn't follow from this graph.
By this graph it would be skipped:
Its rule all_success, over 2 upstream instances (1 success, 1 skipped), says skipped, because of each (1 of 2).
It came to 1 instance: 1 success.
LINES
why "again in the run of $second: skipped" --run 2024-01-02 --task again <<'LINES'
Its rule all_success, over 1 upstream instance (1 skipped), says skipped, because of each.
It began where list pushed no items.
LINES
why "bad in the run of $first: failed" --run 2024-01-01 --task bad <<'LINES'
It has no upstream tasks, so no rule holds it back.
It depends on its past, and this is the first run.
Its one try failed.
Why a try failed isn't in a report: what its program wrote to standard error says it.
LINES
why "bad in the run of $second: no_status" --run 2024-01-02 --task bad <<'LINES'
It has no upstream tasks, so no rule holds it back.
It depends on its past, and in the run of 2024-01-01T00:00:00Z it failed.
It began where bad failed in the run of 2024-01-01T00:00:00Z.
LINES
why "below in the run of $first: success" --run 2024-01-01 --task below <<'LINES'
Its rule one_failed, over 1 upstream instance (1 failed), says run, because of bad.
Its first try succeeded.
LINES
why "below in the run of $second: no_status" --run 2024-01-02 --task below <<'LINES'
Directly upstream, bad has no status.
It began where bad failed in the run of 2024-01-01T00:00:00Z.
LINES
why "after in the run of $first: success" --run 2024-01-01 --task after <<'LINES'
Its rule all_done, over 1 upstream instance (1 success), says run, since all are done.
Its first try succeeded.
LINES
why "over in the run of $first: upstream_failed" --run 2024-01-01 --task over <<'LINES'
Its rule all_done, over 1 upstream instance (1 skipped), says run, since all are done.
It is expanded over left, which pushed no list: it was skipped.
It began where look pushed "right".
LINES
why "over in the run of $second: upstream_failed" --run 2024-01-02 --task over <<'LINES'
Its rule all_done, over 1 upstream instance (1 skipped), says run, since all are done.
It is expanded over left, which pushed no list: it was skipped.
LINES
why "prong in the run of $first: upstream_failed" --run 2024-01-01 --task prong <<'LINES'
Its rule all_success, over 1 upstream instance (1 upstream_failed), says upstream_failed, because of fork.
It began where bad failed.
LINES
why "prong in the run of $second: no_status" --run 2024-01-02 --task prong <<'LINES'
Directly upstream, the branch fork has no status.
It began where bad failed in the run of 2024-01-01T00:00:00Z.
LINES
why "end in the run of $second: upstream_failed" --run 2024-01-02 --task end <<'LINES'
Its rule all_success, over 2 upstream instances (1 upstream_failed, 1 skipped), says upstream_failed, because of over.
It began where left exited with 99.
LINES
answers 0 explain --run 2024-01-02 "$graph" "$report" <<'LINES'
run 2024-01-02T00:00:00Z to 2024-01-03T00:00:00Z: failed
why
  end, which no task follows, is failed or upstream_failed.
  bad, below, after, fork and prong have no status.
task instances
  2 success, 2 upstream_failed, 4 skipped, 5 no_status
not tried
  over   upstream_failed
  end    upstream_failed
  bad    no_status
  below  no_status
  after  no_status
  fork   no_status
  prong  no_status
LINES

# An expanded task as a whole, and an instance of it. Nothing of it failed, so nothing has to be cleared.

answers 0 explain "$graph" "$report" --run 2024-01-01 --task each <<LINES
each in the run of 2024-01-01T00:00:00Z: 2 instances, 1 success, 1 skipped
why
  Its rule all_success, over 1 upstream instance (1 success), says run, since all are success.
  It is expanded over list: 2 items of the list that it pushed.
  It came to 2 instances: 1 success, 1 skipped.
instances
  success  0
  skipped  1
upstream
  list  success
downstream
  again  1 instance, 1 success
  end    upstream_failed
LINES
answers 0 explain "$graph" "$report" --run 2024-01-01 --task each --index 1 <<LINES
each [1] in the run of 2024-01-01T00:00:00Z: skipped
why
  Its rule all_success, over 1 upstream instance (1 success), says run, since all are success.
  It is expanded over list: 2 items of the list that it pushed.
  Its try 1 exited with 99, which skips it.
given
  item  "b c"
  pulled list  ["a","b c"]
by hand
  echo 'b c' '["a","b c"]'
upstream
  list  success
downstream
  again  1 instance, 1 success
  end    upstream_failed
LINES

# Of an expanded task with a failed instance this one is cleared alone, where it is told of alone.

tasks '{"id":"s"},{"id":"m","upstream":["s"],"expand":"s"},{"id":"z","upstream":["m"]}'
sed 's/^    //' > "$report" <<'REPORT'
    @backfill 2 d
    @run 2024-01-01T00:00:00Z 2024-01-02T00:00:00Z failed
    s -1 success 1 [7,8]
    m 0 success 1 -
    @item 7
    m 1 failed 1 -
    @item 8
    z -1 upstream_failed 0 -
    @end 1
REPORT
clear="backfill clear --from 2024-01-01 --to 2024-01-01 --task m --run 2024-01-01"

# The lines that clear something, of the task of these words.
clears() {
    "$program" explain "$graph" "$report" --run 2024-01-01 "$@" | sed -n '/^clear/,$p'
}
follows='with what follows from it: 2 tasks in 1 run'
is_same 'the clear lines of m' "clear, $follows"$'\n'"  $clear $graph $report > $report.new" "$(clears --task m)"
is_same 'the clear lines of m 1' "clear, $follows"$'\n'"  $clear --index 1 $graph $report > $report.new" "$(clears --task m --index 1)"
is_same 'the clear lines of m 0' '' "$(clears --task m --index 0)"
is_same 'the clear lines of s' '' "$(clears --task s)"
is_same 'the clear lines of z' "clear m, $follows"$'\n'"  $clear $graph $report > $report.new" "$(clears --task z)"

# Where it began, through each rule that skips for its upstreams: nothing failed before e, and f failed before h and k.

tasks '{"id":"a"},{"id":"b","upstream":["a"]},{"id":"c","upstream":["b"],"rule":"all_failed"},{"id":"e","upstream":["c"]},
  {"id":"f"},{"id":"g","upstream":["f"]},{"id":"h","upstream":["g"],"rule":"one_done"},{"id":"k","upstream":["g"],"rule":"all_skipped"}'
sed 's/^    //' > "$report" <<'REPORT'
    @backfill 2 d
    @run 2024-01-01T00:00:00Z 2024-01-02T00:00:00Z success
    a -1 skipped 1 -
    b -1 skipped 0 -
    c -1 skipped 0 -
    e -1 skipped 0 -
    f -1 failed 1 -
    g -1 upstream_failed 0 -
    h -1 skipped 0 -
    k -1 skipped 0 -
    @end 1
REPORT
answers 0 explain "$graph" "$report" --run 2024-01-01 --task e <<'LINES'
e in the run of 2024-01-01T00:00:00Z: skipped
why
  Its rule all_success, over 1 upstream instance (1 skipped), says skipped, because of c.
  It began where a exited with 99.
upstream
  c  skipped
LINES
answers 0 explain "$graph" "$report" --run 2024-01-01 --task h <<LINES
h in the run of 2024-01-01T00:00:00Z: skipped
why
  Its rule one_done, over 1 upstream instance (1 upstream_failed), says skipped, since none is success or failed.
  It began where f failed.
upstream
  g  upstream_failed
clear f, with what follows from it: 4 tasks in 1 run
  backfill clear --from 2024-01-01 --to 2024-01-01 --task f --run 2024-01-01 $graph $report > $report.new
LINES
answers 0 explain "$graph" "$report" --run 2024-01-01 --task k <<LINES
k in the run of 2024-01-01T00:00:00Z: skipped
why
  Its rule all_skipped, over 1 upstream instance (1 upstream_failed), says skipped, because of g.
  It began where f failed.
upstream
  g  upstream_failed
clear f, with what follows from it: 4 tasks in 1 run
  backfill clear --from 2024-01-01 --to 2024-01-01 --task f --run 2024-01-01 $graph $report > $report.new
LINES

# Indexes stand as ranges. A report of \`single\` is of no range, and one of version 1 doesn't tell what was given.

tasks '{"id":"s"},{"id":"m","upstream":["s"],"expand":"s","command":["echo",{"item":true}]}'
{
    echo '@backfill 1 d'
    echo '@run 2024-01-01T06:00:00Z 2024-01-01T06:00:00Z failed'
    echo 's -1 success 1 [1,2,3,4,5,6]'
    for index in 0 2 3 5; do echo "$index success 1 7"; done > "$work/some"
    for index in 1 4; do echo "$index failed 1 -"; done >> "$work/some"
    sort "$work/some" | sed 's/^/m /'
    echo '@end 1'
} > "$report"
answers 0 explain "$graph" "$report" --run 2024-01-01T06:00:00Z --task m <<'LINES'
m in the run of 2024-01-01T06:00:00Z: 6 instances, 4 success, 2 failed
why
  Its rule all_success, over 1 upstream instance (1 success), says run, since all are success.
  It is expanded over s: 6 items of the list that it pushed.
  It came to 6 instances: 4 success, 2 failed.
instances
  success  0 2-3 5
  failed   1 4
upstream
  s  success
LINES
answers 0 explain "$graph" "$report" --run 2024-01-01T06:00:00Z --task m --index 2 <<'LINES'
m [2] in the run of 2024-01-01T06:00:00Z: success
why
  Its rule all_success, over 1 upstream instance (1 success), says run, since all are success.
  It is expanded over s: 6 items of the list that it pushed.
  Its first try succeeded.
pushed
  7
upstream
  s  success
LINES

# What a terminal doesn't show as itself, and words that begin as options do. Values are cut.

tasks '{"id":"-x","command":["-n",{"context":"map_index"},"a\u0007b","it'"'"'s"]}'
long=$(printf 'y%.0s' {1..5000})
printf '@backfill 2 d\n@run 2024-01-01T06:00:00Z 2024-01-02T00:00:00Z success\n-x -1 success 1 "\xe2\x80\xae%s"\n@end 1\n' "$long" > "$report"
answers 0 explain --run 2024-01-01T06:00:00Z --task=-x --index=-1 --zone-file=/dev/null -- "$graph" "$report" <<LINES
-x in the run of 2024-01-01T06:00:00Z: success
why
  It has no upstream tasks, so no rule holds it back.
  Its first try succeeded.
pushed
  "\u202e${long:0:4089}... (5,008 characters)
by hand
  -n -1 \$'a\007b' 'it'\''s'
LINES
printf '@backfill 2 d\n@run 2024-01-01T06:00:00Z 2024-01-02T00:00:00Z failed\n-x -1 failed 1 -\n@end 1\n' > "$work/failed"
is_same 'the clear line of -x' "  backfill clear --zone-file /dev/null --from 2024-01-01T06:00:00Z --to 2024-01-01T06:00:00Z '--task=-x' --run 2024-01-01T06:00:00Z $graph $work/failed > $work/failed.new" \
    "$("$program" explain --run 2024-01-01T06:00:00Z --task=-x --zone-file=/dev/null -- "$graph" "$work/failed" | tail -n 1)"

# By hand with the variables that the command names, whose dates are of the graph's zone: at 23:30 in UTC it is the next day there.

cat > "$work/zoned.json" <<'GRAPH'
{"dag_id":"d","schedule":"30 0 * * *","zone":"+01:00","tasks":[{"id":"t","command":
  ["sh","-c","echo $BACKFILL_DATE_NODASH $AIRFLOW_CTX_EXECUTION_DATE"]},{"id":"u","command":["echo","BACKFILL"]}]}
GRAPH
printf '%s\n' '@backfill 2 d' '@run 2024-03-04T23:30:00Z 2024-03-05T23:30:00Z success' 't -1 success 1 -' 'u -1 success 1 -' '@end 1' > "$work/zoned"
by_hand() {
    "$program" explain "$work/zoned.json" "$work/zoned" --run 2024-03-04T23:30:00Z --task "$1" | sed -n '/^by hand$/,$ { s/^  //p }'
}
is_same 'by hand: t' "env BACKFILL_DATE=2024-03-05 BACKFILL_DATE_NODASH=20240305 AIRFLOW_CTX_EXECUTION_DATE=2024-03-04T23:30:00+00:00 sh -c 'echo \$BACKFILL_DATE_NODASH \$AIRFLOW_CTX_EXECUTION_DATE'" "$(by_hand t)"
is_same 'by hand: u' 'echo BACKFILL' "$(by_hand u)"
is_same 'what the line of t does' '20240305 2024-03-04T23:30:00+00:00' "$(eval "$(by_hand t)")"

# What is looked at first.

tells 2 'refused 28 bad moment' explain "$work/none.json" "$work/none" --run 2024-02-30
tells 3 "fault: cannot read $work/none.json" explain "$work/none.json" "$work/none" --run 2024-01-01
tells 3 "fault: cannot read $work/none" explain "$graph" "$work/none" --run 2024-01-01
tells 2 'refused 32 truncated' explain "$graph" /dev/null --run 2024-01-01
tells 2 'refused 40 unknown task' explain "$graph" "$report" --run 2024-01-02 --task nobody --index 3
tells 2 'refused 41 unknown run' explain "$graph" "$report" --run 2024-01-02 --task=-x --index 3
tells 2 'refused 41 unknown run' explain "$graph" "$report" --run 2024-01-02
sed 's/-x/y/' "$report" > "$work/other"
tells 2 'refused 42 report mismatch' explain "$graph" "$work/other" --run 2024-01-01T06:00:00Z --task=-x --index 3
tells 2 'refused 42 report mismatch' explain "$graph" "$work/other" --run 2024-01-01T06:00:00Z
tells 2 'refused 46 unknown index' explain "$graph" "$report" --run 2024-01-01T06:00:00Z --task=-x --index 0

sum
