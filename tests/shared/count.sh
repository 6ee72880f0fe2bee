# Counts what is compared. Sourced by the scripts of tests/: sets what bench/program.sh sets, and counts `rows`, `differing` and `skipped`.
source "$(dirname "$(readlink -f "${BASH_SOURCE[0]}")")/../../bench/program.sh"
source "$root/tests/shared/sum.sh"
rows=0
differing=0
skipped=0

# A row differs. What it differs in is told by who asks.
differs() {
    differing=$((differing + 1))
    echo "differs: $*"
}

# Something is left out, for want of what it takes.
skips() {
    skipped=$((skipped + 1))
    echo "skipped: $*"
}

# The rest of a script is left out.
skips_rest() {
    skips "$@"
    sum
    exit
}

# Requires that two texts are the same.
is_same() {
    rows=$((rows + 1))
    if [[ $2 != "$3" ]]; then
        differs "$1"
        diff <(echo "$2") <(echo "$3") || true
    fi
}

# Requires that a command succeeds.
holds() {
    local name=$1
    shift
    rows=$((rows + 1))
    if ! "$@" > "$work/said" 2>&1; then
        differs "$name"
        cat "$work/said"
    fi
}

# The sum, with which a script ends.
sum() {
    print_sum "$((rows - differing))" "$differing" "$skipped"
}
