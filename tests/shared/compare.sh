# Compares what the program prints. Sourced by the scripts of tests/: sets what shared/count.sh sets.
source "$(dirname "$(readlink -f "${BASH_SOURCE[0]}")")/count.sh"
graph=$work/graph.json
table=$work/table.json

# Requires the exit status of a run. What it is to print stands in the files `wanted_out` and `wanted_err`. A run that takes more
# than two minutes hangs.
ends() {
    local wanted=$1 status=0
    shift
    timeout 120 "$program" "$@" > "$work/out" 2> "$work/err" || status=$?
    rows=$((rows + 1))
    if [[ $status -ne $wanted ]] || ! cmp -s "$work/out" "$work/wanted_out" || ! cmp -s "$work/err" "$work/wanted_err"; then
        differs "status $status for $wanted, of $*"
        head -c 2000 "$graph" || true
        diff "$work/wanted_out" "$work/out" | head -n 40 || true
        diff "$work/wanted_err" "$work/err" | head -n 40 || true
    fi
}

# An answer: the lines on standard input go to standard output, and nothing to standard error.
answers() {
    cat > "$work/wanted_out"
    : > "$work/wanted_err"
    ends "$@"
}

# A refusal or a fault, by its whole line. Nothing goes to standard output.
tells() {
    local status=$1 line=$2
    shift 2
    : > "$work/wanted_out"
    echo "$line" > "$work/wanted_err"
    ends "$status" "$@"
}

# Writes a graph without tasks that has this schedule, as JSON spells it, and this zone, or UTC.
scheduled() {
    echo "{\"dag_id\":\"d\",\"schedule\":\"$1\",\"zone\":\"${2-UTC}\",\"tasks\":[]}" > "$graph"
}

# Writes a graph of these tasks.
tasks() {
    echo "{\"dag_id\":\"d\",\"schedule\":\"@daily\",\"tasks\":[$1]}" > "$graph"
}

# The report on standard input, which is of version 2, is what is gone on from, in both versions.
was() {
    cat > "$work/report_2"
    sed -e '1s/^@backfill 2 /@backfill 1 /' -e '/^@item /d' -e '/^@pull /d' "$work/report_2" > "$work/report_1"
}

# One run over 2024-01-01.
day=(--from 2024-01-01 --to 2024-01-01)

# The report of one run that starts at 2024-01-01 and ends then, in this state, with the instances on standard input.
one_run() {
    echo '@backfill 2 d'
    echo "@run 2024-01-01T00:00:00Z $1 $2"
    cat
    echo '@end 1'
}
one_day() {
    one_run 2024-01-02T00:00:00Z "$1"
}

# The graph that was written, run for one day by so many workers, or by 1, 2 and 8, ends in this state with the instances on standard
# input.
ends_by() {
    local workers=$1 state=$2 status=0
    [[ $state == success ]] || status=1
    answers "$status" run "$graph" "${day[@]}" --workers "$workers" < <(one_day "$state")
}
ends_in() {
    local workers
    cat > "$work/instances"
    for workers in 1 2 8; do
        ends_by "$workers" "$1" < "$work/instances"
    done
}
