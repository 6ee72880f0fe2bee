#!/usr/bin/env bash
# Compares the data intervals in the zones of this machine's tz database, read by `--zone-file`, with those by the rule that
# stands at the end of each file, over years in which the rule alone holds: tests/system/zone_files.sh [FOLDER], by itself
# /usr/share/zoneinfo. The last line is the sum of the ranges, and the status is 1 where one differs.
set -euo pipefail

source "$(dirname "$(readlink -f "${BASH_SOURCE[0]}")")/../shared/count.sh"
zones=${1:-/usr/share/zoneinfo}

graph() {
    printf '{"dag_id":"d","schedule":"%s","zone":"%s","tasks":[]}' "$1" "$2"
}

[[ -d $zones ]] || skips_rest "the zones of the tz database, since there is no $zones"
for name in Europe/Berlin Europe/Dublin Australia/Sydney Australia/Lord_Howe America/New_York America/St_Johns \
    Asia/Kolkata Asia/Kathmandu Pacific/Chatham UTC; do
    rule=$(tail -n 1 "$zones/$name")
    for schedule in '30 2 * * *' '15,45 1-3 * * sun' '59 23 * * *'; do
        graph "$schedule" file > "$work/file.json"
        graph "$schedule" "$rule" > "$work/rule.json"
        for range in '2040-01-01 2043-12-31' '2099-01-01 2101-12-31'; do
            read -r from to <<< "$range"
            "$program" list "$work/file.json" --from "$from" --to "$to" --zone-file "$zones/$name" > "$work/file"
            status=0
            "$program" list "$work/rule.json" --from "$from" --to "$to" > "$work/rule" 2> "$work/err" || status=$?
            if [[ $status -ne 0 ]]; then
                skips "$name, since its rule $rule isn't one alone: $(< "$work/err")"
                continue 3
            fi
            rows=$((rows + 1))
            cmp "$work/file" "$work/rule" || differs "$name: $schedule from $from to $to"
        done
    done
    echo "$name: as by $rule"
done
sum
