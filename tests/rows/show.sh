#!/usr/bin/env bash
# Shows reports as lines of JSON and as pages, and compares the exit status and all that is printed with what stands here, which was worked
# out by hand from docs/FORMATS.md. (tests/oracles/run.sh views compares whole pages.) The last line is the sum, and the status is 1 where a row
# differs.
set -euo pipefail

source "$(dirname "$(readlink -f "${BASH_SOURCE[0]}")")/../shared/compare.sh"
report=$work/report

# Each kind of instance, in a report of version 2.

cat > "$report" <<'REPORT'
@backfill 2 d
@run 2024-01-01T00:00:00Z 2024-01-02T00:00:00Z failed
src -1 success 1 [1,"two",null]
none -1 success 2 -
m 0 success 1 "é\n"
@item 1
@pull none -
m 1 failed 3 -
@item "two"
@pull none -
m 2 skipped 1 -
@item null
@pull none -
sum -1 upstream_failed 0 -
last -1 no_status 0 -
@run 2024-01-02T00:00:00Z 2024-01-03T00:00:00Z success
src -1 success 1 []
none -1 success 1 -
m -1 skipped 0 -
sum -1 success 1 ["a",1]
@pull m []
@pull src []
last -1 skipped 1 -
@end 2
REPORT
first='"run":"2024-01-01T00:00:00Z","end":"2024-01-02T00:00:00Z","run_state":"failed"'
second='"run":"2024-01-02T00:00:00Z","end":"2024-01-03T00:00:00Z","run_state":"success"'
answers 0 show --json "$report" <<LINES
{$first,"task":"src","index":-1,"state":"success","tries":1,"value":[1,"two",null]}
{$first,"task":"none","index":-1,"state":"success","tries":2}
{$first,"task":"m","index":0,"state":"success","tries":1,"value":"é\n","item":1,"pulls":{"none":null}}
{$first,"task":"m","index":1,"state":"failed","tries":3,"item":"two","pulls":{"none":null}}
{$first,"task":"m","index":2,"state":"skipped","tries":1,"item":null,"pulls":{"none":null}}
{$first,"task":"sum","index":-1,"state":"upstream_failed","tries":0}
{$first,"task":"last","index":-1,"state":"no_status","tries":0}
{$second,"task":"src","index":-1,"state":"success","tries":1,"value":[]}
{$second,"task":"none","index":-1,"state":"success","tries":1}
{$second,"task":"m","index":-1,"state":"skipped","tries":0}
{$second,"task":"sum","index":-1,"state":"success","tries":1,"value":["a",1],"pulls":{"m":[],"src":[]}}
{$second,"task":"last","index":-1,"state":"skipped","tries":1}
LINES

# One of version 1, and one without runs.

cat > "$work/old" <<'REPORT'
@backfill 1 d
@run 2024-01-01T00:00:00Z 2024-01-01T00:00:00Z success
a 0 success 1 7
a 1 success 1 -
@end 1
REPORT
answers 0 show --json "$work/old" <<'LINES'
{"run":"2024-01-01T00:00:00Z","end":"2024-01-01T00:00:00Z","run_state":"success","task":"a","index":0,"state":"success","tries":1,"value":7}
{"run":"2024-01-01T00:00:00Z","end":"2024-01-01T00:00:00Z","run_state":"success","task":"a","index":1,"state":"success","tries":1}
LINES
printf '@backfill 2 d\n@end 0\n' > "$work/empty"
answers 0 show --json "$work/empty" < /dev/null

# Lines of JSON of a report that can't be read, or is none.

tells 3 "fault: cannot read $work/none" show --json "$work/none"
tells 2 'refused 32 truncated' show --json /dev/null
tells 2 'refused 30 bad line: 2' show --json <(printf '@backfill 2 d\nnone\n@end 0\n')

# A page of a failed run is no failure. Its letters are those of the rules.

letters() {
    "$program" page "$@" | sed -n 's/^.*<script[^>]*id="cells">//; /^@cells /,/<\/script>/{/<\/script>/!p}'
}
tasks '{"id":"src"},{"id":"none"},{"id":"m","upstream":["src","none"],"expand":"src","command":[{"item":true},{"pull":"none"}],"retries":2},
  {"id":"sum","upstream":["m","src"],"rule":"none_failed","command":[{"pull":"m"},{"pull":"src"}]},{"id":"last","upstream":["sum"],"depends_on_past":true,"rule":"all_done"}'
cat > "$work/report" <<'REPORT'
@backfill 2 d
@run 2024-01-01T00:00:00Z 2024-01-02T00:00:00Z failed
src -1 success 1 [1,2]
none -1 success 2 -
m 0 success 1 7
@item 1
@pull none -
m 1 failed 3 -
@item 2
@pull none -
sum -1 upstream_failed 0 -
last -1 failed 1 -
@run 2024-01-02T00:00:00Z 2024-01-03T00:00:00Z failed
src -1 success 1 []
none -1 success 1 -
m -1 skipped 0 -
sum -1 skipped 1 -
@pull m []
@pull src []
last -1 no_status 0 -
@end 2
REPORT
bytes=$(wc -c < "$report")
is_same 'the letters' "$(printf '@cells 1 d 5 2 %s\n2024-01-01T00:00:00Z 2024-01-02T00:00:00Z failed srFuf sf\n2024-01-02T00:00:00Z 2024-01-03T00:00:00Z failed ssexn' "$bytes")" \
    "$(letters "$graph" "$report")"
holds 'a page of failed runs' "$program" page "$graph" "$report" > /dev/null
# With a graph in which nothing depends on its past, the last task would have run.
sed 's/"depends_on_past":true,//' "$graph" > "$work/mended.json"
is_same 'the letters with another graph' "$(printf '@cells 1 d 5 2 %s\n2024-01-01T00:00:00Z 2024-01-02T00:00:00Z failed srFuf sf\n2024-01-02T00:00:00Z 2024-01-03T00:00:00Z failed ssex6' "$bytes")" \
    "$(letters "$work/mended.json" "$report")"

# The report stands in the page, or not; what is a tag there is none in the page.

stands() {
    "$program" page "$@" | grep -c '^last -1 no_status 0 -$' || true
}
is_same 'the report in the page' 1 "$(stands "$graph" "$report")"
is_same 'no report in the page' 0 "$(stands "$graph" "$report" --states-only)"
printf '@backfill 2 d\n@run 2024-01-01T00:00:00Z 2024-01-02T00:00:00Z success\nt -1 success 1 "</script><script>alert(1)//%%3c"\n@end 1\n' > "$work/hostile"
tasks '{"id":"t","command":["</SCRIPT><img src=x onerror=alert(1)>"]}'
tags=$("$program" page "$graph" "$work/hostile" | grep -o '<' | wc -l)
is_same 'tags of a page, whatever the files hold' "$tags" "$("$program" page "$graph" "$work/hostile" --states-only | grep -o '<' | wc -l)"
holds 'what is a tag in the report' grep -qF 't -1 success 1 "%3C/script>%3Cscript>alert(1)//%253c"' <("$program" page "$graph" "$work/hostile")

# What is looked at first.

tells 3 "fault: cannot read $work/none.json" page "$work/none.json" "$work/none"
tells 3 "fault: cannot read $work/none" page "$graph" "$work/none"
tells 3 "fault: cannot read $work/zone" page "$graph" "$work/none" --zone-file "$work/zone"
echo '{' > "$work/bad.json"
tells 2 'refused 1 not json' page "$work/bad.json" /dev/null
tells 2 'refused 32 truncated' page "$graph" /dev/null
tells 2 'refused 42 report mismatch' page "$graph" "$report"

# The times of a journal: of each try whose record has three whole numbers at its end.

report=$work/two
journal=$work/journal
tasks '{"id":"a"},{"id":"b","upstream":["a"],"expand":"a","command":[{"pull":"a"}],"retries":1}'
cat > "$report" <<'REPORT'
@backfill 2 d
@run 2024-01-01T00:00:00Z 2024-01-02T00:00:00Z success
a -1 success 1 [5]
b 0 success 2 -
@item 5
@pull a [5]
@run 2024-01-02T00:00:00Z 2024-01-03T00:00:00Z success
a -1 success 1 []
b -1 skipped 0 -
@end 2
REPORT
times() {
    "$program" page "$graph" "$report" "$@" | sed -n 's/^.*<script[^>]*id="times">//; /^@times /,/<\/script>/{/<\/script>/!p}'
}
head='["backfill journal",1,"d",[["a"],["b","a"]],[["2024-01-01T00:00:00Z","2024-01-02T00:00:00Z"],["2024-01-02T00:00:00Z","2024-01-03T00:00:00Z"]]'
cat > "$work/records" <<'RECORDS'
["2024-01-02T00:00:00Z","a",-1,1,"success",[[]],[],[],[1704153600000,1704153600250,0]]
["2024-01-01T00:00:00Z","a",-1,1,"success",[[5]],[],[],[1704067200000,1704067201000,0]]
["2024-01-01T00:00:00Z","b",0,1,"failed",[],[5],[[[5]]],[1704067201000,1704067263000,137]]
["2024-01-01T00:00:00Z","b",0,1,"failed",[],[5],[[[5]]],null]
["2024-01-01T00:00:00Z","b",0,1,"failed",[],[5],[[[5]]],[1704067201000,1704067263000]]
["2024-01-01T00:00:00Z","b",0,1,"failed",[],[5],[[[5]]],[1704067201000,"1704067263000",137]]
[ "2024-01-01T00:00:00Z", "b", 0, 2, "success", [], [5], [[[5]]], [1704067263000, -1, -1] ]
RECORDS
wanted='@times 1
2024-01-02T00:00:00Z a -1 1 1704153600000 1704153600250 0
2024-01-01T00:00:00Z a -1 1 1704067200000 1704067201000 0
2024-01-01T00:00:00Z b 0 1 1704067201000 1704067263000 137
2024-01-01T00:00:00Z b 0 2 1704067263000 -1 -1'
is_same 'no times' 1 "$("$program" page "$graph" "$report" | grep -c '^<script type="text/plain" id="times"></script>$')"
{ echo "$head]"; cat "$work/records"; } > "$journal"
is_same 'the times' "$wanted" "$(times --journal "$journal")"
is_same 'the times beside states only' "$wanted" "$(times --states-only --journal "$journal")"
# A piece of a line is dropped, and `clear` names what it clears.
{ echo "$head,[[\"b\",\"2024-01-01T00:00:00Z\",0]]]"; cat "$work/records"; printf '["2024-01-01T00:00:00Z","a",-1,2,"succ'; } > "$journal"
is_same 'the times of a journal of clear, cut short' "$wanted" "$(times --journal "$journal")"
echo "$head]" > "$journal"
is_same 'the times of no tries' '@times 1' "$(times --journal "$journal")"

# Journals of others, or of nobody.

for line in '' "$head" "$head}" "${head/\"d\"/\"e\"}]" "${head/,\"a\"]/]}]" "${head/-03T/-04T}]" "${head/journal\",1/journal\",2}]" "[${head:0:40}"; do
    echo "$line" > "$journal"
    tells 2 'refused 43 journal mismatch' page "$graph" "$report" --journal "$journal"
done
for line in '' "$head]" "${head:0:20}"; do
    printf '%s' "$line" > "$journal"
    tells 2 'refused 43 journal mismatch' page "$graph" "$report" --journal "$journal"
done
# The third of these lines, the fourth with the head, is none: of another task, of another run, of eight members, and no JSON.
for line in '["2024-01-01T00:00:00Z","c",-1,1,"success",[],[],[],[1,2,0]]' '["2024-01-03T00:00:00Z","a",-1,1,"success",[],[],[],[1,2,0]]' \
    '["2024-01-01T00:00:00Z","a",-1,1,"success",[],[],[1,2,0]]' '@'; do
    { echo "$head]"; head -n 2 "$work/records"; echo "$line"; tail -n 1 "$work/records"; } > "$journal"
    tells 2 'refused 33 bad record: 4' page "$graph" "$report" --journal "$journal"
done

# The journal is looked at last.

tells 3 "fault: cannot read $work/none" page "$graph" "$report" --journal "$work/none"
tells 3 "fault: cannot read $work" page "$graph" "$report" --journal "$work"
tells 3 "fault: cannot read $work/gone" page "$graph" "$work/gone" --journal "$work/none"
tells 2 'refused 32 truncated' page "$graph" /dev/null --journal "$work/none"
tells 2 'refused 42 report mismatch' page "$graph" "$work/hostile" --journal "$work/none"

sum
