#!/usr/bin/env bash
# Tries python/: backfill_graph.py writes the examples again as they are, and refuses just what `check` refuses; backfill_report.py reads
# reports as the oracles read them; both pass `mypy --strict`, and are installed without the network; what the guide shows of them is what
# they print. Needs python3. The last line is the sum, and the status is 1 where something differs.
set -euo pipefail

source "$(dirname "$(readlink -f "${BASH_SOURCE[0]}")")/../shared/count.sh"
export PYTHONDONTWRITEBYTECODE=1 PYTHONPATH=$root/python

[[ -n $(command -v python3) ]] || skips_rest 'all of it, since there is no python3'

# Counts what a Python script has counted.
counts() {
    local said right wrong
    said=$(python3 "$@")
    grep '^differs: ' <<< "$said" || true
    read -r right wrong <<< "$(tail -n 1 <<< "$said")"
    rows=$((rows + right + wrong))
    differing=$((differing + wrong))
}

counts "$root/tests/shared/python_graphs.py" "$program" "$work" 1000
counts "$root/tests/shared/python_reports.py" "$work" 2500

is_same 'the version' "$(< "$root/VERSION")" "$(sed -n 's/^version = "\(.*\)"$/\1/p' "$root/python/pyproject.toml")"

# The program of the first lines of its page, which stands in the guide too.
sed -n '/^    from backfill_graph import/,/^    print/s/^ \{0,4\}//p' "$root/python/backfill_graph.py" > "$work/shops.py"
# The program of this number that the guide shows.
program_of_guide() {
    awk -v wanted="$1" '/^from backfill_graph import/ { inside = ++programs == wanted } inside; /^print/ { inside = 0 }' "$root/docs/GUIDE.md"
}
is_same 'the program in the guide' "$(< "$work/shops.py")" "$(program_of_guide 1)"
python3 "$work/shops.py" > "$work/shops.json"
is_same 'the graph of the guide' 'ok 3 tasks, 2 edges' "$("$program" check "$work/shops.json")"
program_of_guide 2 > "$work/sales.py"
python3 "$work/sales.py" > "$work/sales.json"
is_same 'the graph of branch, group and defaults' 'ok 4 tasks, 4 edges' "$("$program" check "$work/sales.json")"
python3 "$root/python/backfill_graph.py" < "$work/shops.json" > "$work/again.py"
is_same 'the graph, written in Python again' "$(< "$work/shops.json")" "$(python3 "$work/again.py")"

if [[ -n $(command -v mypy) ]]; then
    holds 'their types' env -C "$work" mypy --strict "$root/python/backfill_graph.py" "$root/python/backfill_report.py"
else
    skips 'their types, since there is no mypy'
fi

# (pip builds without the network where setuptools and wheel are there)
installer=''
for python in python3 /usr/bin/python3; do
    ! "$python" -c 'import setuptools, wheel, pip' 2> "$work/said" || installer=$python
done
if [[ -n $installer ]]; then
    cp -r "$root/python" "$work/python"
    holds 'that they can be installed' "$installer" -m pip install --quiet --no-index --no-build-isolation --target "$work/installed" "$work/python"
    holds 'what was installed' env PYTHONPATH="$work/installed" "$installer" \
        -c 'import backfill_graph, backfill_report, sys; sys.exit("installed" not in backfill_graph.__file__ + backfill_report.__file__)'
else
    skips 'that they can be installed, since there is no pip with setuptools and wheel'
fi

# A program is written in UTF-8, whatever the locale is.
printf '%s' '{"dag_id":"d","schedule":"@daily","tasks":[{"id":"a","command":["é"]}]}' > "$work/accent.json"
LC_ALL=C PYTHONUTF8=0 PYTHONCOERCECLOCALE=0 PYTHONIOENCODING=ascii python3 "$root/python/backfill_graph.py" < "$work/accent.json" > "$work/accent.py" || true
is_same 'a program under an ASCII locale' "$(python3 -m json.tool --sort-keys "$work/accent.json")" "$(python3 "$work/accent.py" | python3 -m json.tool --sort-keys)"

# What `show` refuses is refused in its words, also where a database is wanted; a good report is printed under any locale.
rows_of=$root/python/backfill_report.py
for line in "a -1 success 1 $(printf '[%.0s' {1..30000})" 'a 99999999999999999999 success 1 -' 'a -1 success 99999999999999999999 -' 'a -1 success 1 "\ud800"' \
    'a -1 success 1 NaN' 'a -1 running 1 -' $'a -1 success 1 "\xff"'; do
    printf '%s\n' '@backfill 2 d' '@run 2024-01-01T00:00:00Z 2024-01-02T00:00:00Z success' "$line" '@end 1' > "$work/bad"
    "$program" show --json "$work/bad" > /dev/null 2> "$work/wanted" || true
    for words in '' "--sqlite $work/bad.db"; do
        status=0
        python3 "$rows_of" "$work/bad" $words > "$work/out" 2> "$work/said" || status=$?
        is_same "${line:0:40} $words" '2 refused 30 bad line: 3 refused 30 bad line: 3' "$status $(< "$work/said") $(< "$work/wanted")"
    done
done
printf '%s\n' '@backfill 2 d' '@run 2024-01-01T00:00:00Z 2024-01-02T00:00:00Z success' 'a -1 success 1 "é"' 'b -1 skipped 0 -' '@end 1' > "$work/good"
is_same 'the rows under an ASCII locale' "$("$program" show --json "$work/good")" "$(LC_ALL=C PYTHONUTF8=0 PYTHONIOENCODING=ascii python3 "$rows_of" "$work/good")"

# A reader that has enough, and what can't be read or written.
{
    printf '%s\n' '@backfill 2 d' '@run 2024-01-01T00:00:00Z 2024-01-02T00:00:00Z success'
    printf 't%d -1 success 1 -\n' {1..2000}
    echo '@end 1'
} > "$work/report"
python3 "$rows_of" "$work/report" 2> "$work/said" | head -n 1 > "$work/first" || true
is_same 'rows of which the first is enough' '1 ' "$(wc -l < "$work/first") $(< "$work/said")"
status=0
python3 "$rows_of" "$work/none" 2> "$work/said" || status=$?
is_same "a report that isn't there" "3 fault: [Errno 2] No such file or directory: '$work/none'" "$status $(< "$work/said")"
status=0
python3 "$rows_of" "$work/report" --sqlite "$work" 2> "$work/said" || status=$?
is_same 'a database that is a folder' '3 fault: unable to open database file' "$status $(< "$work/said")"

sum
