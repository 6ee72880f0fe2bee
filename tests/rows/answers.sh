#!/usr/bin/env bash
# Has tables of answers made of reports, and compares the exit status and all that is printed with what stands here, which was worked out by hand
# from docs/FORMATS.md; and has `dry` print the reports again. (tests/oracles/run.sh answering does so with graphs by chance.) The last line is the
# sum, and the status is 1 where a row differs.
set -euo pipefail

source "$(dirname "$(readlink -f "${BASH_SOURCE[0]}")")/../shared/compare.sh"
report=$work/report

# Each kind of try: those before the last have failed, a skipped one has the status 99, a success its value as a line, and where it pushed nothing
# no entry.

cat > "$report" <<'REPORT'
@backfill 2 d
@run 2024-01-01T00:00:00Z 2024-01-02T00:00:00Z failed
src -1 success 2 [1,"two",null]
none -1 success 3 -
bare -1 success 1 -
m 0 success 1 "é\n"
@item 1
@pull none -
m 1 failed 3 -
@item "two"
@pull none -
m 2 skipped 2 -
@item null
@pull none -
sum -1 upstream_failed 0 -
last -1 no_status 0 -
@run 2024-01-02T00:00:00Z 2024-01-03T00:00:00Z success
src -1 success 1 []
none -1 skipped 1 -
bare -1 success 1 "-"
m -1 skipped 0 -
sum -1 success 1 "7"
@pull m -
last -1 success 1 7
@end 2
REPORT
first='"run":"2024-01-01T00:00:00Z"'
second='"run":"2024-01-02T00:00:00Z"'
answers 0 answers "$report" <<LINES
[
{"task":"src","index":-1,$first,"try":1,"status":1},
{"task":"src","index":-1,$first,"try":2,"out":"[1,\"two\",null]"},
{"task":"none","index":-1,$first,"try":1,"status":1},
{"task":"none","index":-1,$first,"try":2,"status":1},
{"task":"m","index":0,$first,"try":1,"out":"\"é\\\\n\""},
{"task":"m","index":1,$first,"try":1,"status":1},
{"task":"m","index":1,$first,"try":2,"status":1},
{"task":"m","index":1,$first,"try":3,"status":1},
{"task":"m","index":2,$first,"try":1,"status":1},
{"task":"m","index":2,$first,"try":2,"status":99},
{"task":"src","index":-1,$second,"try":1,"out":"[]"},
{"task":"none","index":-1,$second,"try":1,"status":99},
{"task":"bare","index":-1,$second,"try":1,"out":"\"-\""},
{"task":"sum","index":-1,$second,"try":1,"out":"\"7\""},
{"task":"last","index":-1,$second,"try":1,"out":"7"}
]
LINES

# The same of a report of version 1, which tells the same tries.

cp "$work/wanted_out" "$work/table"
sed -e '1s/^@backfill 2 /@backfill 1 /' -e '/^@item /d' -e '/^@pull /d' "$report" > "$work/report_1"
answers 0 answers "$work/report_1" < "$work/table"

# A report that needs no entry, and one without runs.

printf '@backfill 2 d\n@run 2024-01-01T00:00:00Z 2024-01-02T00:00:00Z failed\na -1 success 1 -\nb -1 skipped 0 -\n@end 1\n' > "$work/bare"
echo '[]' > "$work/none"
answers 0 answers "$work/bare" < "$work/none"
printf '@backfill 2 d\n@end 0\n' > "$work/empty"
answers 0 answers "$work/empty" < "$work/none"

# A report that can't be read, or is none.

tells 3 "fault: cannot read $work/nothing" answers "$work/nothing"
tells 2 'refused 32 truncated' answers /dev/null
tells 2 'refused 30 bad line: 2' answers <(printf '@backfill 2 d\nnone\n@end 0\n')

# `dry` over the table prints the report again, by each number of workers; of a report of version 1 it prints version 2.

tasks '{"id":"src","retries":1},{"id":"branch","kind":"branch","upstream":["src"]},{"id":"m","upstream":["src","branch"],"expand":"src","retries":2,
  "command":[{"item":true},{"pull":"src"}]},{"id":"other","upstream":["branch"]},{"id":"sum","upstream":["m"],"rule":"all_done","command":[{"pull":"m"}]},
  {"id":"past","depends_on_past":true}'
cat > "$report" <<'REPORT'
@backfill 2 d
@run 2024-01-01T00:00:00Z 2024-01-02T00:00:00Z success
src -1 success 2 ["-",null,[7]]
branch -1 success 1 "m"
m 0 success 1 "-"
@item "-"
@pull src ["-",null,[7]]
m 1 failed 3 -
@item null
@pull src ["-",null,[7]]
m 2 skipped 2 -
@item [7]
@pull src ["-",null,[7]]
other -1 skipped 0 -
sum -1 success 1 true
@pull m ["-"]
past -1 success 1 "\""
@run 2024-01-02T00:00:00Z 2024-01-03T00:00:00Z failed
src -1 failed 2 -
branch -1 upstream_failed 0 -
m -1 upstream_failed 0 -
other -1 upstream_failed 0 -
sum -1 success 1 -
@pull m -
past -1 failed 1 -
@run 2024-01-03T00:00:00Z 2024-01-04T00:00:00Z failed
src -1 success 1 []
branch -1 skipped 1 -
m -1 skipped 0 -
other -1 skipped 0 -
sum -1 skipped 1 -
@pull m -
past -1 no_status 0 -
@end 3
REPORT
sed -e '1s/^@backfill 2 /@backfill 1 /' -e '/^@item /d' -e '/^@pull /d' "$report" > "$work/report_1"
for told in "$report" "$work/report_1"; do
    "$program" answers "$told" > "$table"
    for workers in 1 2 8; do
        answers 1 dry "$graph" "$table" --from 2024-01-01 --to 2024-01-03 --workers "$workers" < "$report"
    done
done

# A table of more bytes than `dry` reads is printed all the same.

tasks '{"id":"a"}'
value=$(head -c 65534 /dev/zero | tr '\0' x)
{
    echo '@backfill 2 d'
    for day in {1..128}; do
        start=$(date -u -d "2024-01-01 + $((day - 1)) days" +%FT%TZ)
        printf '@run %s %s success\na -1 success 1 "%s"\n' "$start" "$start" "$value"
    done
    echo '@end 128'
} > "$work/long"
"$program" answers "$work/long" > "$table"
is_same 'the entries of a long table' 128 "$(grep -c '"out"' "$table")"
tells 2 'refused 19 bad table: file' dry "$graph" "$table" --from 2024-01-01 --to 2024-01-01
sum
