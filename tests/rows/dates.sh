#!/usr/bin/env bash
# Runs the program over schedules, zones, days and moments, and compares its exit status and all that it prints with what stands here,
# which was worked out by hand from docs/SPECIFICATION.md. Data intervals of some real zones are in tests/rows/small_graphs.sh and
# tests/system/zone_files.sh too. The last line is the sum, and the status is 1 where a row differs.
set -euo pipefail

source "$(dirname "$(readlink -f "${BASH_SOURCE[0]}")")/../shared/compare.sh"

# Zones by their rule; in St. John's clocks changed at a minute past midnight.
europe=CET-1CEST,M3.5.0,M10.5.0/3
st_johns=NST3:30NDT,M3.2.0/0:01,M11.1.0/0:01

# A zone file as of the tz database (RFC 8536, version 2): no changes of the clock, one type of local time, an hour ahead of UTC and called
# CET, and the rule of central Europe behind it.
block='\0\0\0\0\0\0\0\0\0\0\0\0\0\0\0\0\0\0\0\0\0\0\0\0\0\0\0\0\0\0\0\0\0\0\001\0\0\0\004\0\0\016\020\0\0CET\0'
zone_file=$work/zone
printf "TZif2${block}TZif2$block"'\n%s\n' "$europe" > "$zone_file"
no_zone_file=$work/no_zone
printf TZif > "$no_zone_file"

# The words of a row, at each bar.
words_of() {
    IFS='|' read -ra words <<< "$1"
    words=("${words[@]# }")
    words=("${words[@]% }")
}

# Each word on a line of its own.
lines() {
    [[ $# -eq 0 ]] || printf '%s\n' "$@"
}

# A schedule, its zone, from, to, and the data intervals that start then. By the zone file 02:30 isn't there on a day in spring, and is
# 03:30; on one in autumn it is there twice, and is the earlier one. Day and weekday: either suffices where both are restricted, and `*/1` is
# no `*`. Sunday is 0 and 7. A step counts from the least number of its item: 5, 25 and 45. Both ends of a range count, and so do the ends
# of the years.
while IFS= read -r row; do
    words_of "$row"
    scheduled "${words[0]}" "${words[1]}"
    answers 0 list "$graph" --zone-file "$zone_file" --from "${words[2]}" --to "${words[3]}" < <(lines "${words[@]:4}")
done <<ROWS
30 2 * * * | file | 2024-03-30 | 2024-03-31T23:59:59Z | 2024-03-30T01:30:00Z 2024-03-31T01:30:00Z | 2024-03-31T01:30:00Z 2024-04-01T00:30:00Z
30 2 * * * | file | 2024-10-26 | 2024-10-27T23:59:59Z | 2024-10-26T00:30:00Z 2024-10-27T00:30:00Z | 2024-10-27T00:30:00Z 2024-10-28T01:30:00Z
@daily | +23:59 | 2024-01-01 | 2024-01-01T23:59:59Z | 2024-01-01T00:01:00Z 2024-01-02T00:01:00Z
0 6 * * * | -05:30 | 2024-01-01 | 2024-01-01T23:59:59Z | 2024-01-01T11:30:00Z 2024-01-02T11:30:00Z
0 0 13 * */1 | UTC | 2024-01-10 | 2024-01-10 | 2024-01-10T00:00:00Z 2024-01-11T00:00:00Z
0 0 13 * * | UTC | 2024-01-10 | 2024-01-15 | 2024-01-13T00:00:00Z 2024-02-13T00:00:00Z
0 0 * * sat-7 | UTC | 2024-01-01 | 2024-01-07 | 2024-01-06T00:00:00Z 2024-01-07T00:00:00Z | 2024-01-07T00:00:00Z 2024-01-13T00:00:00Z
5-59/20 0 * * * | UTC | 2024-01-01 | 2024-01-01
5-59/20 0 * * * | UTC | 2024-01-01 | 2024-01-01T00:30:00Z | 2024-01-01T00:05:00Z 2024-01-01T00:25:00Z | 2024-01-01T00:25:00Z 2024-01-01T00:45:00Z
\\t0  0 1 JAN,jul *  | UTC | 2024-01-01 | 2024-12-31 | 2024-01-01T00:00:00Z 2024-07-01T00:00:00Z | 2024-07-01T00:00:00Z 2025-01-01T00:00:00Z
@quarterly | UTC | 2024-02-01 | 2024-04-01 | 2024-04-01T00:00:00Z 2024-07-01T00:00:00Z
@hourly | UTC | 2024-01-01T01:00:00Z | 2024-01-01T01:00:00Z | 2024-01-01T01:00:00Z 2024-01-01T02:00:00Z
* * * * * | UTC | 1970-01-01 | 1970-01-01T00:00:59Z | 1970-01-01T00:00:00Z 1970-01-01T00:01:00Z
* * * * * | UTC | 2199-12-31T23:58:01Z | 2199-12-31T23:59:59Z | 2199-12-31T23:59:00Z 2200-01-01T00:00:00Z
ROWS

# A schedule, its zone, from, to, and why there is no list: a moment outside the years is told before a range that is reversed.
while IFS= read -r row; do
    words_of "$row"
    scheduled "${words[0]}" "${words[1]}"
    tells 2 "refused ${words[4]}" list "$graph" --from "${words[2]}" --to "${words[3]}"
done <<ROWS
@daily | UTC | 1969-12-31T23:59:59Z | 1969-01-01 | 25 outside years
@daily | UTC | 2024-01-01 | 2200-01-01 | 25 outside years
* * * * * | UTC | 1970-01-01 | 2199-12-31T23:59:59Z | 27 too many runs
* * * * * | $europe | 2024-03-31 | 2024-04-02T20:16:00Z | 27 too many runs
ROWS

# Days.

# The data intervals on these days start at these moments.
start_on() {
    local status=0
    "$program" list "$graph" --zone-file "$zone_file" --on "$1" > "$work/out" 2> "$work/err" || status=$?
    is_same "the starts on $1" "0 $2" "$status $(cut -d ' ' -f 1 "$work/out")$(< "$work/err")"
}

# A schedule, its zone, days, and the starts of the data intervals on them. A minute may be missing on a day, or be there twice; in St. John's
# clocks are put back from 00:01 to 23:01 of the day before, and put on from 00:01 to 01:01. What starts before 1970 in UTC isn't listed.
while IFS= read -r row; do
    words_of "$row"
    scheduled "${words[0]}" "${words[1]}"
    start_on "${words[2]}" "$(lines "${words[@]:3}")"
done <<ROWS
0 6 * * * | -05:30 | 2024-01-01..2024-01-02 | 2024-01-01T11:30:00Z | 2024-01-02T11:30:00Z
@daily | +23:59 | 2024-01-02 | 2024-01-01T00:01:00Z
30 2 * * * | file | 2024-03-31 | 2024-03-31T01:30:00Z
0 0,2,3 * * * | $europe | 2024-10-27 | 2024-10-26T22:00:00Z | 2024-10-27T00:00:00Z | 2024-10-27T02:00:00Z
0,1,30 0 * * * | $st_johns | 2010-11-07 | 2010-11-07T02:30:00Z | 2010-11-07T03:31:00Z | 2010-11-07T04:00:00Z
30 23 * * * | $st_johns | 2010-11-06 | 2010-11-07T02:00:00Z
30 0 * * * | $st_johns | 2010-03-14 | 2010-03-14T04:00:00Z
@daily | +05:00 | 1970-01-01
@daily | UTC | 2199-12-31 | 2199-12-31T00:00:00Z
ROWS

# What starts beside the days doesn't count.
scheduled '* * * * *'
is_same 'minutes of two days' 2880 "$("$program" list "$graph" --on 2024-01-01..2024-01-02 | wc -l)"

while IFS= read -r row; do
    words_of "$row"
    scheduled "${words[0]}"
    tells 2 "refused ${words[2]}" list "$graph" --on "${words[1]}"
done <<'ROWS'
@daily | 1969-12-31 | 25 outside years
@daily | 2199-12-31..2200-01-01 | 25 outside years
@daily | 2024-01-02..2024-01-01 | 26 range reversed
* * * * * | 2024-01-01..2024-01-03 | 27 too many runs
@hourly | 1970-01-01..2199-12-31 | 27 too many runs
ROWS

for days in '' .. 2024-1-1 2024-02-30 2024-01-01T00:00:00Z 2024-01-01.. 2024-01-01...2024-01-02 2024-01-01..2024-01-02..2024-01-03; do
    tells 2 'refused 28 bad moment' list "$graph" --on "$days"
done

# Moments.

# A text, and the seconds since 1970 that it spells.
tasks ''
echo '[]' > "$table"
while read -r text seconds; do
    moment=$(TZ=UTC0 printf '%(%FT%TZ)T' "$seconds")
    answers 0 single "$graph" "$table" --at "$text" < <(lines '@backfill 2 d' "@run $moment $moment success" '@end 1')
done <<'ROWS'
1970-01-01 0
1970-01-01T00:00:01Z 1
2000-02-29 951782400
2024-02-29T06:30:09Z 1709188209
2024-12-31T23:59:59Z 1735689599
2199-12-31 7258032000
2199-12-31T23:59:59Z 7258118399
ROWS
for moment in 0000-01-01 1900-01-01 1969-12-31T23:59:59Z 2200-01-01 2200-01-01T00:00:00Z 9999-12-31 9999-12-31T23:59:59Z; do
    tells 2 'refused 25 outside years' single "$graph" "$table" --at "$moment"
done
for text in '' 2024 2024-02-30 2023-02-29 1900-02-29 2024-13-01 2024-00-01 2024-01-00 2024-1-1 24-01-01 20240101 12024-01-01 '2024-01-01 ' \
    2024-01-01T06:30:00 2024-01-01t06:30:00z 2024-01-01T06:30:00+00:00 2024-01-01T24:00:00Z 2024-01-01T00:60:00Z 2024-01-01T00:00:60Z; do
    tells 2 'refused 28 bad moment' single "$graph" "$table" --at "$text"
done

# Schedules.

# Whether the schedule has this minute of UTC.
while IFS= read -r row; do
    words_of "$row"
    scheduled "${words[0]}"
    starts=0
    [[ $("$program" list "$graph" --from "${words[1]}" --to "${words[1]}") != "${words[1]} "* ]] || starts=1
    is_same "whether $row" "${words[2]}" "$starts"
done <<'ROWS'
5 0 * * * | 2024-06-03T00:05:00Z | 1
5 0 * * * | 2024-06-03T05:00:00Z | 0
15 14 1 * * | 2024-06-01T14:15:00Z | 1
15 14 1 * * | 2024-06-02T14:15:00Z | 0
0 22 * * 1-5 | 2024-06-07T22:00:00Z | 1
0 22 * * 1-5 | 2024-06-08T22:00:00Z | 0
23 0-23/2 * * * | 2024-06-08T22:23:00Z | 1
23 0-23/2 * * * | 2024-06-08T21:23:00Z | 0
5 4 * * sun | 2024-06-09T04:05:00Z | 1
5 4 * * 7 | 2024-06-09T04:05:00Z | 1
30 4 1,15 * 5 | 2024-06-15T04:30:00Z | 1
30 4 1,15 * 5 | 2024-06-14T04:30:00Z | 1
30 4 1,15 * 5 | 2024-06-13T04:30:00Z | 0
\t 0\t0  */2 * FRI | 2024-06-14T00:00:00Z | 1
@quarterly | 2024-10-01T00:00:00Z | 1
@quarterly | 2024-03-01T00:00:00Z | 0
ROWS

for schedule in '0 0 30 2 *' '0 0 31 2,4,6,9,11 *'; do
    scheduled "$schedule"
    tells 2 'refused 12 never fires' check "$graph"
done
for schedule in '0 0 29 2 *' '0 0 30 2 sun' '59 23 31 12 *' '* * * * *'; do
    scheduled "$schedule"
    answers 0 check "$graph" <<< 'ok 0 tasks, 0 edges'
done
for schedule in '' '60 * * * *' '* 24 * * *' '* * 0 * *' '* * 32 * *' '* * * 0 *' '* * * 13 *' '* * * * 8' '0 0 * * sat-sun' '5-4 * * * *' \
    '*/0 * * * *' '*/60 * * * *' '5/15 * * * *' '* * * *' '* * * * * *' '1,,2 * * * *' '001 * * * *' '-1 * * * *' '* * * mon *' '* * * * jan' \
    '*/mon * * * *' @once @Daily ' @daily' @midnight; do
    scheduled "$schedule"
    tells 2 'refused 11 bad cron' check "$graph"
done

# Zones.

for zone in '' utc +1:00 +24:00 +00:60 '+01:00 ' Europe/Paris CET-1CEST file; do
    scheduled @daily "$zone"
    tells 2 'refused 13 bad zone' check "$graph"
done

# A zone file is looked at for the zone `file` alone.
scheduled @daily file
answers 0 check "$graph" --zone-file "$zone_file" <<< 'ok 0 tasks, 0 edges'
tells 2 'refused 13 bad zone' check "$graph" --zone-file "$no_zone_file"
scheduled @daily
answers 0 check "$graph" --zone-file "$no_zone_file" <<< 'ok 0 tasks, 0 edges'

# One that has more than 1,048,576 bytes is bad.
{
    cat "$zone_file"
    head -c 1048576 /dev/zero
} > "$no_zone_file"
scheduled @daily file
tells 2 'refused 13 bad zone' check "$graph" --zone-file "$no_zone_file"
sum
