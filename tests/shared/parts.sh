# Runs parts, each of which ends with a line as print_sum prints it, and adds up what they count: `passed`, `failed` and `skipped`. Sourced by
# ./test and ./prove: sets `work`, a folder that is removed at the end.
source "${BASH_SOURCE[0]%/*}/sum.sh"
passed=0
failed=0
skipped=0
work=$(mktemp -d)
# What each process runs that was started here and hasn't ended.
declare -A running=()

# Starts a command as `process`. All that it starts in turn belongs to its session, and signals do to it what they do by default.
start() {
    env --default-signal=HUP,INT,QUIT setsid "$@" < /dev/null &
    process=$!
    running[$process]=$*
}

# However this ends, nothing of what it started goes on.
end() {
    local process
    for process in "${!running[@]}"; do
        pkill -s "$process" || true
    done
    wait || true
    rm -rf "$work"
}
trap end EXIT
trap 'exit 130' INT
trap 'exit 143' TERM

# Adds what the last line of a part counts. One that ends without a sum, or otherwise than it counts, has failed.
add() {
    local part=$1 status=$2 said=$3
    if [[ $(tail -n 1 "$said") =~ ^([0-9]+)\ passed,\ ([0-9]+)\ failed(,\ ([0-9]+)\ skipped)?$ ]]; then
        passed=$((passed + BASH_REMATCH[1]))
        failed=$((failed + BASH_REMATCH[2]))
        skipped=$((skipped + ${BASH_REMATCH[4]:-0}))
        [[ $status -eq 0 || ${BASH_REMATCH[2]} -gt 0 ]] || failed=$((failed + 1))
    else
        echo "$part: it ended without a sum"
        failed=$((failed + 1))
    fi
}
