#!/usr/bin/env bash
# Tries python/backfill_airflow: DAG files are run by the program, and come to what Airflow's rules make of them; others are refused, in words; values,
# moments, templates, short circuits, setups and expanded tasks by chance; names that a DAG file imports; hostile files; signals and time limits, which leave no process;
# tracebacks; types; and its installation. With python3 and Debian's own, and without jinja2 and pendulum. The last line is the sum, and the status is 1
# where something differs.
set -euo pipefail

source "$(dirname "$(readlink -f "${BASH_SOURCE[0]}")")/../shared/count.sh"
source "$root/tests/shared/counts_of.sh"
cases=$root/tests/airflow
# Bytecode is kept, as where it is used, but in a folder of its own.
export PYTHONPATH=$root/python PYTHONPYCACHEPREFIX=$work/bytecode
unset PYTHONDONTWRITEBYTECODE

[[ -n $(command -v python3) ]] || skips_rest 'all of it, since there is no python3'
# (a pyenv's python3 is a script that takes longer to start than a try does)
main=$(python3 -c 'import sys; print(sys.executable)')

# Requires that a text has another in it.
has() {
    rows=$((rows + 1))
    [[ $3 == *"$2"* ]] || differs "$1: there is no $2 in
$3"
}
# Whether a Python is there that has these modules.
lacks() {
    local python=$1
    shift
    local module
    for module in "$@"; do
        "$python" -c "import $module" 2> /dev/null || return 0
    done
    return 1
}

# A Python with jinja2 and pendulum, where there is one; and one without both, for which a DAG file's pendulum is a stand-in.
rich=$main
for python in "$main" /usr/bin/python3; do
    lacks "$python" jinja2 pendulum || rich=$python
done
printf '#!/bin/sh\nexec %q -S "$@"\n' "$main" > "$work/bare"
chmod +x "$work/bare"
counts python3 -B "$cases/reports.py" "$program" "$work/reports" "$rich"
counts python3 -B "$cases/reports.py" "$program" "$work/bare_reports" "$work/bare" branches classic_1_10 company mapped_operators taskflow_etl zones
said=$(env -C "$cases" "$work/bare" -m backfill_airflow graph dags/jinja_filters.py 2>&1 || true)
has 'a template without jinja2' "task filters: op_args has a template that takes jinja2, which isn't installed" "$said"

counts "$rich" "$cases/refusals.py" "$work/refusals"
counts python3 -B "$cases/hostile.py" "$main"
counts python3 -B "$cases/ends.py" "$program" "$work/ends" "$rich"
counts "$main" "$cases/random_values.py" "$program" "$work/values" 500
counts "$main" "$cases/random_graphs.py" "$program" "$work/graphs" 60
counts "$main" "$cases/random_teardowns.py" "$program" "$work/teardowns" 60
for python in "$main" /usr/bin/python3 "$work/bare"; do
    [[ ! -x $python ]] || counts "$python" "$cases/names.py"
done
counts "$main" "$cases/tables.py"
counts "$main" "$cases/definitions.py"
if lacks "$rich" pendulum; then
    skips 'moments of the stand-in beside those of pendulum, which is not there'
else
    counts "$rich" "$cases/random_moments.py" 300
fi
if lacks "$rich" jinja2; then
    skips 'templates beside those of jinja2, which is not there'
else
    counts "$rich" -W ignore "$cases/template_paths.py"
fi

# The DAG that a page shows is that of a report.
is_same 'the DAG of FROM_AIRFLOW' "$(< "$cases/dags/shops.py")" "$(awk '/^```python$/ { inside = 1; next } /^```$/ { inside = 0 } inside' "$root/docs/FROM_AIRFLOW.md")"
# Examples: their graphs, and that each runs as its page says (tests/pages/examples.sh).
counts python3 -B "$cases/graphs.py" "$rich"

counts python3 -B "$cases/comparing.py" "$program" "$main"

# The line of each command.
for words in --help 'graph --help' 'try --help' 'compare --help'; do
    rows=$((rows + 1))
    "$main" -m backfill_airflow $words > "$work/out" 2> "$work/err" && [[ -s $work/out && ! -s $work/err ]] || differs "backfill_airflow $words"
done
helped=$("$main" -m backfill_airflow graph --help)
while read -r option; do
    has 'an option of FROM_AIRFLOW' "$option" "$helped"
done < <(sed -nE '/^\| option of `graph`/,/^$/ s/^\| `(--[a-z-]+)[^`]*` \|.*/\1/p' "$root/docs/FROM_AIRFLOW.md")
for words in '' 'paint' 'graph' 'try a.py'; do
    status=0
    "$main" -m backfill_airflow $words > "$work/out" 2> "$work/err" || status=$?
    is_same "status and output of '$words'" '2 0' "$status $(wc -c < "$work/out")"
done

# A journal of such a graph is gone on from, the line that explain has for a task makes its try again, and without what a graph gives it a try says what that
# would be.
daily_sales() {
    env -C "$root" TMPDIR="$work" "$program" run "$work/daily_sales.json" --on 2024-03-04..2024-03-05 --journal "$work/journal" 2> "$work/err"
}
env -C "$root" "$main" -m backfill_airflow graph examples/airflow/daily_sales.py --out "$work/daily_sales.json" 2> "$work/err"
daily_sales > "$work/report"
is_same 'a report that a journal tells' "$(< "$work/report")" "$(daily_sales)"
has 'what is told of it' 'goes on behind 6 tries' "$(< "$work/err")"
by_hand=$("$program" explain "$work/daily_sales.json" "$work/report" --task load --run 2024-03-04 | sed -n '/^by hand$/ { n; s/^ *//p }')
is_same 'a line by hand' '"23.75 in 2 shops"' "$(env -C "$root" TMPDIR="$work" bash -c "$by_hand" 2> "$work/err")"
status=0
said=$(env -C "$root" bash -c "${by_hand%% --pull*}" 2>&1) || status=$?
is_same 'the status of a try without what it pulls' 1 "$status"
has 'what it lacks' '--pull transform VALUE' "$said"

if [[ -n $(command -v mypy) ]]; then
    holds 'types' env -C "$root/python" mypy --strict --cache-dir "$work/mypy" -p backfill_airflow
else
    skips 'types, since there is no mypy'
fi
flakes=$(command -v pyflakes3 || command -v pyflakes || true)
if [[ -n $flakes ]]; then
    holds 'what pyflakes finds' "$flakes" "$root/python/backfill_airflow" "$cases"/*.py
else
    skips 'what pyflakes finds, since it is not there'
fi

# (pip builds without the network where setuptools and wheel are there)
installer=''
for python in "$main" /usr/bin/python3; do
    ! "$python" -c 'import setuptools, wheel, pip' 2> "$work/said" || installer=$python
done
if [[ -n $installer ]]; then
    cp -r "$root/python" "$work/python"
    holds 'that it can be installed' "$installer" -m pip install --quiet --no-index --no-build-isolation --no-deps --target "$work/installed" "$work/python[airflow]"
    holds 'what was installed' env -C "$root" PYTHONPATH="$work/installed" "$installer" -m backfill_airflow graph examples/airflow/daily_sales.py
    extras=$(PYTHONPATH=$work/installed "$installer" -c 'from importlib.metadata import requires; print(*(requires("backfill") or []))')
    has 'its extras' jinja2 "${extras,,}"
    has 'its extras' pendulum "$extras"
else
    skips 'that it can be installed, since there is no pip with setuptools and wheel'
fi

sum
