#!/usr/bin/env bash
# Shows reports as grids, and compares the exit status and all that is printed with what stands here, which was worked out by hand from
# docs/FORMATS.md, "Grid". (tests/oracles/run.sh views compares grids of reports that go by chance.) The last line is the sum, and the status is 1
# where a row differs.
set -euo pipefail

source "$(dirname "$(readlink -f "${BASH_SOURCE[0]}")")/../shared/compare.sh"
unset COLUMNS NO_COLOR
report=$work/report
day_graph=$root/examples/failed_day/graph.json
day_report=$root/examples/failed_day/report.txt

# ---- the day that failed

answers 0 show "$day_graph" "$day_report" <<'GRID'
sales  2024-03-04 to 2024-03-06  3 runs, 1 failed

         2024-03
         000
         456   . F u
run      .F.   2 1
extract  ...   3
total    .F.   2 1
publish  .u.   2   1

. success  F failed  u upstream_failed

tasks that failed themselves
  total  1 run  2024-03-05
GRID

# A graph without tasks has no marks, so none are explained.

tasks ''
printf '%s\n' '@backfill 2 d' '@run 2024-01-01T00:00:00Z 2024-01-02T00:00:00Z success' '@end 1' > "$report"
answers 0 show "$graph" "$report" <<'GRID'
d  2024-01-01 to 2024-01-01  1 run, 0 failed

     2024-01
     0
     1
run  .
GRID

# In colours: the marks of one kind that stand together begin with one sequence and end with another.

esc=$'\e'
green="$esc[32m" red="$esc[1;97;41m" orange="$esc[30;43m" off="$esc[0m"
answers 0 show "$day_graph" "$day_report" --color always <<GRID
$esc[1msales$off  2024-03-04 to 2024-03-06  3 runs, 1 failed

         2024-03
         000
         456   . F u
run      $green.$off${red}F$off$green.$off   2 1
extract  $green...$off   3
total    $green.$off${red}F$off$green.$off   2 1
publish  $green.$off${orange}u$off$green.$off   2   1

$green.$off success  ${red}F$off failed  ${orange}u$off upstream_failed

tasks that failed themselves
  total  1 run  2024-03-05
GRID

# Only with `always` where standard output is no terminal.

plain=$("$program" show "$day_graph" "$day_report")
colored=$("$program" show "$day_graph" "$day_report" --color always)
for when in auto never; do
    is_same "colours by $when in a pipe" "$plain" "$("$program" show "$day_graph" "$day_report" --color "$when")"
done
is_same 'colours by always with NO_COLOR' "$colored" "$(NO_COLOR=1 "$program" show "$day_graph" "$day_report" --color always)"

# What stands on a terminal. `script` gives the program one.
if [[ -n $(command -v script) ]]; then
    on_terminal() {
        env "$@" script -qec "'$program' show '$day_graph' '$day_report'" /dev/null < /dev/null | tr -d '\r'
    }
    is_same 'colours on a terminal' "$colored" "$(on_terminal -u NO_COLOR TERM=xterm)"
    is_same 'colours with an empty NO_COLOR' "$colored" "$(on_terminal NO_COLOR= TERM=xterm)"
    is_same 'no colours with NO_COLOR' "$plain" "$(on_terminal NO_COLOR=1 TERM=xterm)"
    is_same 'no colours on a dumb terminal' "$plain" "$(on_terminal -u NO_COLOR TERM=dumb)"
else
    skips 'what stands on a terminal, since there is no script'
fi

# ---- each mark, in a report of ten days

tasks '{"id":"extract.orders_by_day","retries":9},
  {"id":"m","upstream":["extract.orders_by_day"],"expand":"extract.orders_by_day","retries":9,"depends_on_past":true},{"id":"ok"}'
{
    echo '@backfill 2 d'
    cat <<'REPORT'
@run 2024-01-27T00:00:00Z 2024-01-28T00:00:00Z success
extract.orders_by_day -1 success 1 [1,2]
m 0 success 1 -
@item 1
m 1 success 2 -
@item 2
ok -1 success 1 -
@run 2024-01-28T00:00:00Z 2024-01-29T00:00:00Z success
extract.orders_by_day -1 success 1 [1]
m 0 success 1 -
@item 1
ok -1 success 1 -
@run 2024-01-29T00:00:00Z 2024-01-30T00:00:00Z failed
extract.orders_by_day -1 success 1 [1,2]
m 0 success 1 -
@item 1
m 1 failed 3 -
@item 2
ok -1 success 1 -
@run 2024-01-30T00:00:00Z 2024-01-31T00:00:00Z success
extract.orders_by_day -1 success 1 []
m -1 skipped 0 -
ok -1 success 1 -
@run 2024-01-31T00:00:00Z 2024-02-01T00:00:00Z failed
extract.orders_by_day -1 failed 2 -
m -1 upstream_failed 0 -
ok -1 success 1 -
@run 2024-02-01T00:00:00Z 2024-02-02T00:00:00Z success
extract.orders_by_day -1 success 1 [1]
m 0 success 1 -
@item 1
ok -1 success 1 -
@run 2024-02-02T00:00:00Z 2024-02-03T00:00:00Z failed
extract.orders_by_day -1 success 1 [1]
m -1 no_status 0 -
ok -1 success 1 -
@run 2024-02-03T00:00:00Z 2024-02-04T00:00:00Z success
extract.orders_by_day -1 success 1 [1]
m 0 success 1 -
@item 1
ok -1 success 1 -
@run 2024-02-04T00:00:00Z 2024-02-05T00:00:00Z success
extract.orders_by_day -1 skipped 1 -
m -1 skipped 0 -
ok -1 success 1 -
@run 2024-02-05T00:00:00Z 2024-02-06T00:00:00Z success
extract.orders_by_day -1 skipped 1 -
m -1 skipped 0 -
ok -1 success 1 -
@end 10
REPORT
} > "$report"

# There is room for 8 columns, so each is two runs; the label of January has no room above three columns.

narrow=$(
    cat <<'GRID'
d  2024-01-27 to 2024-02-05  10 runs, 3 failed
a column is 2 runs, and shows the worst of them

                 2024-02
              22300
              79124    . F u s n
run           .FFF.    7 3
extra..y_day  ..F.s    7 1   2
m             :Funs    6 1 1 3 1
ok            .....   10

. success  : retried  F failed  u upstream_failed  s skipped  n no_status

tasks that failed themselves
  extract.orders_by_day  1 run  2024-01-31
  m                      1 run  2024-01-29
GRID
)
answers 0 show "$graph" "$report" --width 20 <<< "$narrow"
is_same 'as wide as COLUMNS' "$narrow" "$(COLUMNS=20 "$program" show "$graph" "$report")"
wide=$("$program" show "$graph" "$report" --width 80)
for columns in 19 10001 -1 '' none; do
    is_same "as wide as always with COLUMNS=$columns" "$wide" "$(COLUMNS=$columns "$program" show "$graph" "$report")"
done
is_same 'as wide as the line says' "$narrow" "$(COLUMNS=100 "$program" show "$graph" "$report" --width 20)"

# Only what failed, is upstream_failed or has no status.

answers 0 show "$graph" "$report" --failed <<'GRID'
d  2024-01-27 to 2024-02-05  10 runs, 3 failed
shown: 3 of 10 runs, 2 of 3 tasks

                         2024-02
                       230
                       912   . F u n
run                    FFF     3
extract.orders_by_day  .F.   2 1
m                      Fun   1 1 1 1

. success  F failed  u upstream_failed  n no_status

tasks that failed themselves
  extract.orders_by_day  1 run  2024-01-31
  m                      1 run  2024-01-29
GRID

# Some of the runs, by where they start, the ends included.

answers 0 show "$graph" "$report" --from 2024-01-29 --to 2024-01-30T00:00:00Z <<'GRID'
d  2024-01-27 to 2024-02-05  10 runs, 3 failed
shown: 2 of 10 runs, 3 of 3 tasks

                       2024-01
                       23
                       90   . F s
run                    F.   1 1
extract.orders_by_day  ..   2
m                      Fs   1 1 1
ok                     ..   2

. success  F failed  s skipped

tasks that failed themselves
  m  1 run  2024-01-29
GRID
answers 0 show "$graph" "$report" --to 2024-01-27 <<'GRID'
d  2024-01-27 to 2024-02-05  10 runs, 3 failed
shown: 1 of 10 runs, 3 of 3 tasks

                       2024-01
                       2
                       7   .
run                    .   1
extract.orders_by_day  .   1
m                      :   2
ok                     .   1

. success  : retried
GRID

# Nothing is left to show, or nothing is there.

answers 0 show "$graph" "$report" --from 2024-02-06 <<'GRID'
d  2024-01-27 to 2024-02-05  10 runs, 3 failed
shown: 0 of 10 runs, 3 of 3 tasks
GRID
answers 0 show "$graph" "$report" --to 2024-01-28 --failed <<'GRID'
d  2024-01-27 to 2024-02-05  10 runs, 3 failed
shown: 0 of 10 runs, 0 of 3 tasks
GRID
printf '@backfill 2 d\n@end 0\n' > "$work/empty"
for option in '' --failed; do
    answers 0 show "$graph" "$work/empty" $option <<< 'd  0 runs, 0 failed'
done

# ---- what stands above the columns, by the least time between two

tasks '{"id":"t"}'
# The three lines above the rows of runs that start then, up to the marks of the sums.
above() {
    local start count=0
    {
        echo '@backfill 2 d'
        for start in "$@"; do
            echo "@run $start $start success"
            echo 't -1 success 1 -'
            count=$((count + 1))
        done
        echo "@end $count"
    } > "$report"
    "$program" show "$graph" "$report" | sed -n '3,5s/ *\.*$//p' | cut -c 6-
}
is_same minutes "$(printf '2024-01-31T06\n001\n050')" "$(above 2024-01-31T06:00:00Z 2024-01-31T06:05:00Z 2024-01-31T06:10:00Z)"
is_same hours "$(printf -- '-31 2024-02-01\n22220\n01230')" \
    "$(above 2024-01-31T20:00:00Z 2024-01-31T21:00:00Z 2024-01-31T22:00:00Z 2024-01-31T23:00:00Z 2024-02-01T00:00:00Z)"
is_same 'days, six hours apart' "$(printf '2024-01\n33\n11')" "$(above 2024-01-31T00:00:00Z 2024-01-31T06:00:00Z)"
is_same months "$(printf '  2025\n110\n121')" "$(above 2024-11-01T00:00:00Z 2024-12-01T00:00:00Z 2025-01-01T00:00:00Z)"
is_same years "$(printf ' 2020s\n122\n901')" "$(above 2019-01-01T00:00:00Z 2020-01-01T00:00:00Z 2021-01-01T00:00:00Z)"
is_same 'one column, in a month' "$(printf '2024-01\n3\n1')" "$(above 2024-01-31T06:00:00Z)"

# ---- tasks that failed themselves: those with the most runs first, at most 20 of them, and moments that aren't all named

tasks "$(for n in {1..22}; do printf '%s{"id":"t%s"}' "${comma:-}" "$n" && comma=,; done)"
{
    echo '@backfill 2 d'
    for n in {1..5}; do
        echo "@run 2024-01-0${n}T06:00:00Z 2024-01-0${n}T07:00:00Z failed"
        for t in {1..22}; do
            if ((t == 22 || t == 21 && n <= 4 || n == 1)); then echo "t$t -1 failed 1 -"; else echo "t$t -1 success 1 -"; fi
        done
    done
    echo '@end 5'
} > "$report"
is_same 'the tasks that failed' "$(
    cat <<'LINES'
tasks that failed themselves
  t22  5 runs  2024-01-01T06:00:00Z, 2024-01-02T06:00:00Z, 2024-01-03T06:00:00Z and 2 more
  t21  4 runs  2024-01-01T06:00:00Z, 2024-01-02T06:00:00Z, 2024-01-03T06:00:00Z and 2024-01-04T06:00:00Z
  t1    1 run  2024-01-01T06:00:00Z
LINES
    for n in {2..9}; do echo "  t$n    1 run  2024-01-01T06:00:00Z"; done
    for n in {10..18}; do echo "  t$n   1 run  2024-01-01T06:00:00Z"; done
    echo '  and 2 more'
)" "$("$program" show "$graph" "$report" | sed -n '/^tasks that/,$p')"

# ---- what is looked at first

tells 2 'refused 28 bad moment' show "$work/none.json" "$work/none" --from 2024-13-01
tells 2 'refused 28 bad moment' show "$work/none.json" "$work/none" --from 2024-01-02 --to yesterday
tells 3 "fault: cannot read $work/none.json" show "$work/none.json" "$work/none" --from 2024-01-02 --to 2024-01-01
tells 3 "fault: cannot read $work/zone" show "$graph" "$work/none" --zone-file "$work/zone"
echo '{' > "$work/bad.json"
tells 2 'refused 1 not json' show "$work/bad.json" "$work/none" --from 2024-01-02 --to 2024-01-01
tells 2 'refused 26 range reversed' show "$graph" "$work/none" --from 2024-01-02 --to 2024-01-01
tells 3 "fault: cannot read $work/none" show "$graph" "$work/none" --from 2024-01-01 --to 2024-01-01
tells 2 'refused 32 truncated' show "$graph" /dev/null
tells 2 'refused 42 report mismatch' show "$graph" "$day_report"

sum
