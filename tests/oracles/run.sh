#!/usr/bin/env bash
# Hands the program files that go by chance, and compares its exit status and all that it prints with what an oracle in Python makes of
# them, which is docs/SPECIFICATION.md and docs/FORMATS.md read by somebody who hasn't seen the code:
#
#     tests/oracles/run.sh NAME [FIRST [COUNT]]
#
# NAME.py writes the files of COUNT seeds from FIRST on, with what is to be printed; by itself those from 1 on that ./test takes, or
# ./test --whole, which says so by TEST_SEEDS. Without a NAME it tells which there are, one that takes long in parts. Needs python3.
# The last line is the sum, and the status is 1 where a row differs.
set -euo pipefail

source "$(dirname "$(readlink -f "${BASH_SOURCE[0]}")")/../shared/compare.sh"
unset COLUMNS

# How many seeds each oracle has in the whole.
declare -A seeds=([answering]=300 [backfills]=300 [explanations]=300 [faults]=1000 [intervals]=600 [journals]=400 [reports]=600 [tables_and_clearing]=600 [views]=150)

# Below, `folder` has the files of a seed, `graph` is its graph file, and the arguments are what its line in the file `cases` has.

# A task in a run is cleared in the report of either version.
clears() {
    local task=$1 run=$2 status=$3 version=$4 workers=$5
    graph=$folder/mended.json
    answers "$status" clear "$graph" "$folder/dry_$version" "${range[@]}" --task="$task" --run "$run" --table "$folder/again.json" \
        --workers "$workers" < "$folder/clear_$version"
}

# So are several tasks and instances, or all that failed, by 1 worker and by 8; and what is cleared then is told.
clears_by() {
    local name=$1 status=$2 workers
    shift 2
    local words=(clear "$graph" "$folder/dry_2" "${range[@]}" "$@")
    for workers in 1 8; do
        answers "$status" "${words[@]}" --table "$folder/again.json" --workers "$workers" < "$folder/$name"
    done
    answers 0 "${words[@]}" --plan < "$folder/${name}_plan"
}

# Its tries are kept by a graph of another shape and another range.
keeps() {
    local status=$1 version=$2 workers
    shift 2
    for workers in 1 8; do
        answers "$status" dry "$folder/shape.json" "$folder/anew.json" "$@" --keep "$folder/dry_$version" --workers "$workers" \
            < "$folder/keep_$version"
    done
}

# Tables that are made of reports, over which the reports come out again.
compares_answering() {
    local from=$1 to=$2 single=$3 dry=$4 version workers
    for version in 1 2; do
        answers 0 answers "$folder/dry_$version" < "$folder/answers"
    done
    for workers in 1 8; do
        answers "$dry" dry "$graph" "$folder/answers" --from "$from" --to "$to" --workers "$workers" < "$folder/dry_2"
    done
    answers 0 answers "$folder/single" < "$folder/answers_single"
    answers "$single" single "$graph" "$folder/answers_single" --at "$from" < "$folder/single"
}

# Graphs and tables: a plain recursion over dates.
compares_backfills() {
    local from=$1 to=$2 task=$3 run=$4 first=$5 last=$6 single=$7 dry=$8 clear_1=$9 clear_2=${10} several=${11} failed=${12} workers
    local keep_1=${13} keep_2=${14}
    range=(--from "$from" --to "$to")
    answers "$single" single "$graph" "$folder/table.json" --at "$from" < "$folder/single"
    for workers in 1 2 8; do
        answers "$dry" dry "$graph" "$folder/table.json" "${range[@]}" --workers "$workers" < "$folder/dry_2"
    done
    clears "$task" "$run" "$clear_1" 1 1
    clears "$task" "$run" "$clear_2" 2 1
    clears "$task" "$run" "$clear_2" 2 8
    clears_by several "$several" --seeds "$folder/seeds"
    clears_by failed "$failed" --failed
    keeps "$keep_1" 1 --from "$first" --to "$last"
    keeps "$keep_2" 2 --from "$first" --to "$last"
}

# Why runs, tasks and instances of a report have their states.
compares_explanations() {
    local name of report words
    while read -r name of report words; do
        # (each word stands for itself)
        answers 0 explain "$folder/$of" "$folder/$report" $words < "$folder/$name"
    done < "$folder/asked"
}

# Graph files with faults.
compares_faults() {
    local status=$1
    shift
    case $status in
        0) answers 0 check "$graph" "$@" < "$folder/told" ;;
        *) tells "$status" "$(< "$folder/told")" check "$graph" "$@" ;;
    esac
}

# Schedules, zones and ranges, whose data intervals are listed.
compares_intervals() {
    local status=$1
    mapfile -t line < "$folder/line"
    case $status in
        0) answers 0 list "${line[@]}" < "$folder/wanted" ;;
        *) tells "$status" "$(< "$folder/wanted")" list "${line[@]}" ;;
    esac
}

# Journals, good ones and bad: what `clear` goes on from over a report, by 1 worker and by 8, and what it records. Then it goes on once more.
compares_journals() {
    local status=$1 again=$2 option workers
    mapfile -t line < "$folder/line"
    mapfile -t option < "$folder/option"
    for workers in 1 8; do
        cp "$folder/journal" "$work/journal"
        cp "$folder/wanted" "$work/wanted_out"
        cp "$folder/told" "$work/wanted_err"
        ends "$status" "${line[@]}" "${option[@]}" --workers "$workers" --journal "$work/journal"
        holds "what stands in the journal, by $workers" cmp -n "$(stat -c %s "$folder/stands")" "$folder/stands" "$work/journal"
        tail -c "+$(($(stat -c %s "$folder/stands") + 1))" "$work/journal" | sed 's/,\[[0-9]*,[0-9]*,-\?[0-9]*\]\]$//' | LC_ALL=C sort > "$work/made"
        holds "what is recorded, by $workers" cmp "$folder/made" "$work/made"
        cp "$folder/again" "$work/wanted_out"
        cp "$folder/told_again" "$work/wanted_err"
        ends "$again" "${line[@]}" --workers "$workers" --journal "$work/journal"
    done
}

# Reports, good ones and bad. One that is read is refused too, as of another graph.
compares_reports() {
    graph=$work/of_no_report.json
    echo '{"dag_id":"of-no-report","schedule":"@daily","tasks":[{"id":"t"}]}' > "$graph"
    echo '[]' > "$table"
    tells 2 "refused $*" clear "$graph" "$folder/report" --task t --run 2024-01-01T00:00:00Z --from 2024-01-01 --to 2024-01-02 \
        --table "$table"
}

# Tables with faults, and reports that don't fit what they are cleared with.
compares_tables_and_clearing() {
    local status=$1
    mapfile -t line < "$folder/line"
    case $status in
        0 | 1) answers "$status" "${line[@]}" < "$folder/wanted" ;;
        *) tells "$status" "$(< "$folder/wanted")" "${line[@]}" ;;
    esac
}

# Reports, shown as lines of JSON, as grids and as pages, also with a journal and with a graph that was mended since.
compares_views() {
    local is_other=$1 is_refused=$2 version n options
    for version in 1 2; do
        answers 0 show --json "$folder/dry_$version" < "$folder/json_$version"
        answers 0 page "$graph" "$folder/dry_$version" < "$folder/page_$version"
    done
    answers 0 show "$graph" "$folder/dry_2" < "$folder/grid"
    for n in {0..3}; do
        mapfile -t options < "$folder/options_$n"
        answers 0 show "$graph" "$folder/long" "${options[@]}" < "$folder/grid_$n"
    done
    answers 0 page "$graph" "$folder/dry_2" --states-only < "$folder/states"
    answers 0 page "$graph" "$folder/single" < "$folder/page_single"
    case $is_refused in
        0) answers 0 page "$graph" "$folder/dry_2" --journal "$folder/journal" < "$folder/page_journal" ;;
        *) tells 2 "$(< "$folder/told")" page "$graph" "$folder/dry_2" --journal "$folder/journal" ;;
    esac
    case $is_other in
        0) answers 0 page "$folder/mended.json" "$folder/dry_2" < "$folder/page_mended" ;;
        *) tells 2 'refused 42 report mismatch' page "$folder/mended.json" "$folder/dry_2" ;;
    esac
}

name=${1:-}
if [[ -z $name ]]; then
    for name in $(printf '%s\n' "${!seeds[@]}" | sort); do
        # (300 seeds of this one take longer than all others together)
        if [[ $name == explanations && ${TEST_SEEDS:-} == whole ]]; then
            printf "$name %s 75\n" 1 76 151 226
        else
            echo "$name"
        fi
    done
    exit
fi
if [[ -z ${seeds[$name]:-} ]]; then
    echo "there is no oracle $name" >&2
    exit 2
fi
[[ -n $(command -v python3) ]] || skips_rest "the oracle $name, since there is no python3"
count=${seeds[$name]}
[[ ${TEST_SEEDS:-} == whole ]] || count=$((count / 20))
count=${3:-$count}
python3 -B "$root/tests/oracles/$name.py" "$work" "${2:-1}" "$count"
# (paths in a folder that mktemp made have no blanks)
while read -r seed words; do
    folder=$work/$seed
    graph=$folder/graph.json
    before=$differing
    "compares_$name" $words
    [[ $differing -eq $before ]] || echo "that was seed $seed, of which tests/oracles/$name.py FOLDER $seed 1 writes the files"
    rm -r "$folder"
done < "$work/cases"
absent=$((count - $(wc -l < "$work/cases")))
[[ $absent -eq 0 ]] || skips "$absent seeds, which take files of the tz database that aren't there"
sum
