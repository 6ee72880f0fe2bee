#!/usr/bin/env bash
# Looks at pages in a real browser: the texts that they have, the details of each place beside the report and the reasons beside a second reading's, the
# graph, the tries of a journal and their Gantt, keys, filters, addresses, colours, names for readers of screens, copies, narrow and printed, and what the
# policy refuses, over examples, a warehouse of 90 days, programs that sleep, hostile values and 1 graph by chance, or 20 in ./test --whole. It takes
# Chromium and python3. The last line is the sum, and the status is 1 where something differs.
set -euo pipefail

source "$(dirname "$(readlink -f "${BASH_SOURCE[0]}")")/../shared/count.sh"
command -v python3 > /dev/null || skips_rest 'pages in a browser: no python3'
chromium=$(command -v chromium || command -v chromium-browser) || skips_rest 'pages in a browser: no chromium'
cd "$work"

# Makes the page of a graph and a report in a folder, and notes the paths that it was made with.
makes_page() {
    "$program" page "$1/graph.json" "$1/report" "${@:2}" > "$1/page.html"
    printf '%s\0' "$1/graph.json" "$1/report" "${zone:-}" > "$1/paths"
}

python3 -B "$root/tests/pages/browser/samples.py" .
for name in warehouse hostile; do
    "$program" dry "$name/graph.json" "$name/table.json" --from 2024-01-01 --to "$(< "$name/last")" > "$name/report" || true
done
makes_page warehouse
# A zone file below a path of hostile letters: UTC, as of the tz database (RFC 8536, version 2).
zone=$'-zones/%3c </script> it\'s\r\n'
mkdir -p -- "${zone%/*}"
for block in 1 2; do
    printf 'TZif2%034d\x01%03d\x04\0\0\0\0\0\0UTC\0' 0 0 | tr 0 '\0'
done > "./$zone"
printf '\nUTC0\n' >> "./$zone"
makes_page hostile "--zone-file=$zone"
zone=''
for name in failed_day branch mapped; do
    mkdir "$name"
    cp "$root/examples/$name/graph.json" "$name"
    cp "$root/examples/$name/report.txt" "$name/report"
    makes_page "$name"
done
# Programs that sleep, of which one fails at first, one is killed, and one isn't there.
cp -r "$root/tests/pages/browser/timed" .
"$program" run timed/graph.json --from 2024-01-01 --to 2024-01-02 --workers 4 --journal timed/journal --out timed/report 2> /dev/null || true
makes_page timed --journal timed/journal
mkdir chance
graphs=1
[[ ${TEST_SEEDS:-} != whole ]] || graphs=20
python3 -B "$root/tests/oracles/views.py" chance 1 "$graphs"
folders=(warehouse hostile timed failed_day branch mapped)
for ((seed = 1; seed <= graphs; seed++)); do
    for report in dry_1 dry_2 single; do
        folder=chance_${seed}_$report
        mkdir "$folder"
        cp "chance/$seed/graph.json" "$folder"
        cp "chance/$seed/$report" "$folder/report"
        makes_page "$folder"
        folders+=("$folder")
    done
done

python3 -B "$root/tests/pages/browser/checks.py" "$chromium" "${folders[@]/#/$work/}" > said || echo "0 1" >> said
sed '$d' said
read -r rows differing < <(tail -n 1 said)
rows=$((rows + differing))
sum
