#!/usr/bin/env bash
# Runs each command line of `./backfill`, `jq`, `grep` and `python3 -m backfill_airflow` that stands in a fenced block of these pages, from the root of the
# repository, with a folder of its own in the place of /tmp. Compares what it prints with the block below it where the page says that it prints that, and with
# the file where the page says that the same stands in it; and its exit status with the one that the page tells, else with 0 or 1. A block of
# JSON above a command line has to be the graph file that the line names, and a list the table. Each folder of examples/ has a heading in its
# page, and each report in it is compared. The last line is the sum, and the status is 1 where something differs. Other pages may be named,
# and then these alone are looked at.
set -euo pipefail

source "$(dirname "$(readlink -f "${BASH_SOURCE[0]}")")/../shared/count.sh"
# What a clone takes to read DAG files. What these write to the folder of temporary files stays out of it.
export PYTHONPATH=$root/python PYTHONPYCACHEPREFIX=$work/bytecode TMPDIR=$work/tmp
pages=("$@")
[[ $# -gt 0 ]] || pages=("$root/README.md" "$root/docs/GUIDE.md" "$root/examples/README.md" "$root/docs/FROM_AIRFLOW.md")

# What a page says of a file that has what is printed; its path is seen from the page.
same_in='The same stands in \[[^]]*\]\(([^)]+)\)'

other() {
    differs "$page, $1, $command"
}

# The graph file that the page shows is the one of the command line, and so is a table, which is a list.
compare_shown() {
    local words place=2
    read -ra words <<< "$command"
    rows=$((rows + 1))
    [[ $(head -n 1 "$work/shown") != '['* ]] || place=3
    diff "$work/shown" "${words[place]}" || other "the file ${words[place]}"
    rm "$work/shown"
}

# A line is left out, for want of what it takes.
leave_out() {
    skips "a line of $page, since there is no $1"
    [[ -z $file ]] || realpath "$file" >> "$work/compared"
    command=''
    told=''
    file=''
    rm -f "$work/wanted"
}

# The graph of a DAG file that the line names, if it names one.
graph_of_dag_file() {
    [[ $command =~ /tmp/([a-z_]+\.json)(\ |$) ]] && echo "$work/tmp/${BASH_REMATCH[1]}"
}

# Runs the command line that was met, now that all that the page says of it is read.
run_met() {
    local status=0 graph
    [[ -n $command ]] || return 0
    graph=$(graph_of_dag_file || true)
    if [[ -z $(command -v "${command%% *}") ]]; then
        leave_out "${command%% *}"
        return
    elif [[ -n $graph && $command == ./* && ! -e $graph ]]; then
        leave_out "$graph"
        return
    fi
    rows=$((rows + 1))
    bash -c "${command//\/tmp\//$work/tmp/}" > "$work/out" 2> "$work/err" < /dev/null || status=$?
    if [[ $status -eq 2 && $command == python3* ]] && grep -q jinja2 "$work/err"; then
        rows=$((rows - 1))
        rm -f "$graph"
        leave_out jinja2
        return
    elif [[ $status -gt 1 || $status -ne ${told:-$status} ]]; then
        other "with status $status"
        cat "$work/err"
    elif [[ -s $work/err && -z $graph ]]; then
        other 'with words on standard error'
        cat "$work/err"
    elif [[ -e $work/wanted ]] && ! diff "$work/wanted" "$work/out"; then
        other 'in what it prints'
    elif [[ -n $file ]] && ! diff "$file" "$work/out"; then
        other "from $file"
    fi
    [[ -z $file ]] || realpath "$file" >> "$work/compared"
    command=''
    told=''
    file=''
    rm -f "$work/wanted"
}

# A line outside of the blocks, and what kind of block it opens: `before` is the last line above it that isn't empty.
outside() {
    case $1 in
        '```json') kind=json ;;
        '```'*)
            kind=lines
            [[ $before != *prints || -z $command ]] || kind=report
            [[ $kind != report ]] || : > "$work/wanted"
            ;;
        '') ;;
        *)
            [[ ! $1 =~ ^and\ exits\ with\ ([0-9]+) ]] || told=${BASH_REMATCH[1]}
            [[ -z $command || ! $1 =~ $same_in ]] || file=${page%/*}/${BASH_REMATCH[1]}
            before=$1
            ;;
    esac
}

# A line inside of a block.
inside() {
    case $kind in
        json) echo "$1" >> "$work/shown" ;;
        report) echo "$1" >> "$work/wanted" ;;
        lines)
            [[ $1 =~ ^(\./backfill|jq|grep|python3\ -m\ backfill_airflow)\  ]] || return 0
            run_met
            command=$1
            [[ ! -e $work/shown ]] || compare_shown
            ;;
    esac
}

# Each folder of examples/ has its heading, and each report in them was compared.
look_at_folders() {
    local folder report
    page=$root/examples/README.md
    for folder in examples/*/; do
        rows=$((rows + 1))
        command=${folder%/}
        grep -qx "## $(basename "$folder")" "$page" || other 'no heading'
    done
    while IFS= read -r report; do
        rows=$((rows + 1))
        command=$report
        grep -qxF "$root/$report" "$work/compared" || other 'no command line prints it'
    done < <(grep -ld skip '^@backfill ' examples/*/*)
}

cd "$root"
: > "$work/compared"
mkdir "$work/tmp"
for page in "${pages[@]}"; do
    kind=''
    before=''
    command=''
    told=''
    file=''
    met=$rows
    rm -f "$work/shown"
    while IFS= read -r line; do
        if [[ -z $kind ]]; then
            outside "$line"
        elif [[ $line == '```' ]]; then
            kind=''
            before=''
        else
            inside "$line"
        fi
    done < "$page"
    run_met
    if [[ $rows -eq $met ]]; then
        rows=$((rows + 1))
        other 'it has no command line'
    fi
done
[[ $# -gt 0 ]] || look_at_folders
sum
