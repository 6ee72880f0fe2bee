#!/usr/bin/env bash
# Hands the program reports with a line that may not stand where it does, and compares the fault that `show` tells with what stands here,
# which was worked out by hand from docs/FORMATS.md. The last line is the sum, and the status is 1 where a row differs.
set -euo pipefail

source "$(dirname "$(readlink -f "${BASH_SOURCE[0]}")")/../shared/compare.sh"
report=$work/report

# The text with R replaced by a head and a run, V by the same in version 2, S by a later run's line, and a bar by a line feed.
spelled_out() {
    sed -e "s/R/@backfill 1 d|@run 2024-01-01T00:00:00Z 2024-01-02T00:00:00Z success/" \
        -e "s/V/@backfill 2 d|@run 2024-01-01T00:00:00Z 2024-01-02T00:00:00Z success/" \
        -e "s/S/@run 2024-01-02T00:00:00Z 2024-01-03T00:00:00Z success/" <<< "$1" | tr '|' '\n' | head -c -1
}

# A byte so many times.
times() {
    head -c "$1" /dev/zero | tr '\0' "$2"
}

# The bytes on standard input are refused for this.
is_told() {
    cat > "$report"
    tells 2 "refused $1" show --json "$report"
}

# The first bad line of each, with more behind it.
while IFS= read -r row; do
    is_told "30 bad line: ${row##* => }" < <(spelled_out "${row% => *}" && echo '?')
done <<'ROWS'
| => 1
@backfill 3 d| => 1
@backfill 02 d| => 1
@backfill 2| => 1
@backfill 2 | => 1
@backfill 2 a b| => 1
@backfill  2 d| => 1
@backfill 1| => 1
@backfill 1 | => 1
@backfill 1 a b| => 1
@backfill 1 d | => 1
@backfill  1 d| => 1
@end 0| => 1
@backfill 1 d|| => 2
@backfill 1 d|@end 1| => 2
@backfill 1 d|@end 00| => 2
@backfill 1 d|@end +0| => 2
@backfill 1 d|@end 0 | => 2
@backfill 1 d|@end| => 2
@backfill 1 d|@end 0|| => 3
@backfill 1 d|@end 0|@end 0| => 3
@backfill 1 d|a -1 success 1 -| => 2
@backfill 1 d|@run 2024-01-01 2024-01-02T00:00:00Z success| => 2
@backfill 1 d|@run 2024-01-01T00:00:60Z 2024-01-02T00:00:00Z success| => 2
@backfill 1 d|@run 2024-02-30T00:00:00Z 2024-03-02T00:00:00Z success| => 2
@backfill 1 d|@run 2024-01-02T00:00:00Z 2024-01-01T00:00:00Z success| => 2
@backfill 1 d|@run 1969-12-31T23:59:59Z 2024-01-01T00:00:00Z success| => 2
@backfill 1 d|@run 2200-01-01T00:00:00Z 2200-01-01T00:00:00Z success| => 2
@backfill 1 d|@run 2199-01-01T00:00:00Z 2209-01-01T00:00:00Z success| => 2
@backfill 1 d|@run 2024-01-01T00:00:00Z 2024-01-02T00:00:00Z skipped| => 2
@backfill 1 d|@run 2024-01-01T00:00:00Z 2024-01-02T00:00:00Z success | => 2
R|@run 2024-01-01T00:00:00Z 2024-01-03T00:00:00Z success| => 3
R|@run 2023-12-31T00:00:00Z 2024-01-03T00:00:00Z success| => 3
R|a -1 success 1| => 3
R|a -1 success 1 - | => 3
R|a -1 success 01 -| => 3
R|a -1 success 0 -| => 3
R|a -1 success 102 -| => 3
R|a -1 running 1 -| => 3
R|a -1 failed 1 1| => 3
R|a -1 failed 0 -| => 3
R|a -1 skipped 1 null| => 3
R|a -1 no_status 1 -| => 3
R|a 0 no_status 0 -| => 3
R|a 0 skipped 0 -| => 3
R|a 1 success 1 -| => 3
R|a -0 success 1 -| => 3
R|a 00 success 1 -| => 3
R|a -1 success 1 null| => 3
R|a -1 success 1 a| => 3
R|a -1 success 1 1.5| => 3
R|a -1 success 1 [1, 2]| => 3
R|a -1 success 1 {}| => 3
R|a -1 success 1 "\/"| => 3
R|@ -1 success 1 -| => 3
R| -1 success 1 -| => 3
R|a/ -1 success 1 -| => 3
R|a -1 success 1 -|a -1 success 1 -| => 4
R|a 0 success 1 -|a 2 success 1 -| => 4
R|a 0 success 1 -|a 0 success 1 -| => 4
R|a 0 success 1 -|b 1 success 1 -| => 4
R|a -1 success 1 -|a 1 success 1 -| => 4
R|a -1 success 1 -|S|@end 2| => 5
R|a -1 success 1 -|S|b -1 success 1 -| => 5
R|a 0 success 1 -|S|a -1 success 1 -|b -1 success 1 -| => 6
R|a 0 success 1 -|@item 1| => 4
R|a -1 success 1 -|@pull b -| => 4
V|@item 1| => 3
V|@pull b -| => 3
V|a -1 success 1 -|@item 1| => 4
V|a -1 skipped 0 -|@pull b -| => 4
V|a -1 no_status 0 -|@pull b -| => 4
V|a -1 upstream_failed 0 -|@item 1| => 4
V|a 0 success 1 -|a 1 success 1 -| => 4
V|a 0 success 1 -|b -1 success 1 -| => 4
V|a 0 success 1 -|@pull b -| => 4
V|a 0 success 1 -|S| => 4
V|a 0 success 1 -|@end 1| => 4
V|a 0 success 1 -|@item| => 4
V|a 0 success 1 -|@item | => 4
V|a 0 success 1 -|@item -| => 4
V|a 0 success 1 -|@item [1, 2]| => 4
V|a 0 success 1 -|@item 1.5| => 4
V|a 0 success 1 -|@item 1|@item 1| => 5
V|a 0 success 1 -|@item 1|@pull b -|@item 1| => 6
V|a -1 success 1 -|@pull b| => 4
V|a -1 success 1 -|@pull b | => 4
V|a -1 success 1 -|@pull  1| => 4
V|a -1 success 1 -|@pull b/ 1| => 4
V|a -1 success 1 -|@pull b null| => 4
V|a -1 success 1 -|@pull b 1.5| => 4
V|a -1 success 1 -|@pull b 1 | => 4
V|a -1 success 1 -|@pull b 1|@pull b 2| => 5
V|a -1 success 1 -|@pull b 1|@pull c 2|@pull b -| => 6
V|a -1 success 1 -|@pull b 1|S|@pull b 1| => 6
ROWS

# A line ends with a line feed alone.
is_told '30 bad line: 1' < <(printf '@backfill 1 d\r\n@end 0\n')

# Reports of version 1 and 2, with every state and every kind of value.
cat > "$work/one" <<'LINES'
@backfill 1 full-graph_1.0
@run 1970-01-01T00:00:00Z 1970-01-01T00:00:00Z failed
src -1 success 101 [3,1,[2,null,true,"a b"]]
m 0 success 1 3
m 1 failed 7 -
m 2 skipped 1 -
sum -1 upstream_failed 0 -
other -1 success 1 "-"
last -1 no_status 0 -
@run 2199-12-31T23:59:58Z 2199-12-31T23:59:59Z success
src -1 skipped 0 -
m -1 skipped 2 -
sum 0 success 1 -9223372036854775808
other -1 success 1 "\u0000\n"
last -1 success 1 -
@run 2199-12-31T23:59:59Z 2208-12-31T23:59:59Z success
src -1 failed 1 -
m -1 success 1 []
sum -1 success 1 false
other 0 success 1 "1.5"
other 1 success 100 -
last -1 success 1 -
@end 3
LINES
cat > "$work/two" <<'LINES'
@backfill 2 d
@run 2024-01-01T00:00:00Z 2024-01-02T00:00:00Z success
src -1 success 1 [3,1,2]
m 0 success 1 3
@item 3
m 1 success 1 -
@item 1
m 2 success 1 2
@item 2
sum -1 success 1 [3,2]
@pull m [3,2]
@end 1
LINES

# Both are read, and each beginning of them is truncated.
for text in one two; do
    holds "the report $text" "$program" show --json "$work/$text"
    for ((length = 0; length < $(stat -c %s "$work/$text"); length++)); do
        is_told '32 truncated' < <(head -c "$length" "$work/$text")
    done
done

# Each instance of an expanded task has its item.
is_told '30 bad line: 7' < <(sed '/^@item 1$/d' "$work/two")

# No byte stands behind the end.
for count in 1 70001; do
    is_told '30 bad line: 13' < <(cat "$work/two" && times "$count" ' ')
done

# A line has 66,000 bytes at most, but that of a pull.
run=$(spelled_out R)
is_told '30 bad line: 3' < <(echo "$run" && times 66000 a && echo)
is_told '32 truncated' < <(echo "$run" && times 66000 a)
is_told '31 line too long: 3' < <(echo "$run" && times 66001 a && echo)
is_told '31 line too long: 3' < <(echo "$run" && times 66001 a)
is_told '30 bad line: 3' < <(spelled_out 'R|@pull ' && times 66001 a && echo)
is_told '30 bad line: 3' < <(spelled_out 'V|@pull ' && times 66001 a && echo)
is_told '31 line too long: 3' < <(spelled_out 'V|@item ' && times 66001 a && echo)
is_told '31 line too long: 3' < <(spelled_out 'V|@pulla' && times 66001 a && echo)

# An item nests 64 deep, and what is pulled one deeper.
item='V|a 0 success 1 -|@item '
pull='V|a -1 success 1 -|@pull b '
is_told '32 truncated' < <(spelled_out "$item" && times 64 '[' && times 64 ']' && echo)
is_told '30 bad line: 4' < <(spelled_out "$item" && times 65 '[' && times 65 ']' && echo)
is_told '32 truncated' < <(spelled_out "$pull" && times 65 '[' && times 65 ']' && echo)
is_told '30 bad line: 4' < <(spelled_out "$pull" && times 66 '[' && times 66 ']' && echo)

# An item's text has 65,536 bytes at most.
is_told '32 truncated' < <(spelled_out "$item\"" && times 65534 a && echo '"')
is_told '30 bad line: 4' < <(spelled_out "$item\"" && times 65535 a && echo '"')
is_told '32 truncated' < <(spelled_out "$pull\"" && times 70000 a && echo '"')

# An instance has 16 pulls at most.
pulls=$(printf '@pull %s 1\n' {a..p})
is_told '32 truncated' < <(spelled_out 'V|a -1 success 1 -|' && echo "$pulls")
is_told '30 bad line: 20' < <(spelled_out 'V|a -1 success 1 -|' && echo "$pulls" && echo '@pull q 1')
sum
