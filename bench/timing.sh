# Times runs of the program. Sourced by the other scripts; expects `program`.

# The times of 21 runs in milliseconds, least first, with starting the program.
milliseconds() {
    local start end
    for _ in {1..21}; do
        start=$(date +%s%N)
        "$program" "$@" > /dev/null
        end=$(date +%s%N)
        echo $(((end - start) / 10000))
    done | sort -n
}

# Prints the least and the middle of them under a name.
timed() {
    local name=$1
    shift
    milliseconds "$@" | awk -v name="$name" '
        { runs[NR] = $1 / 100 }
        END { printf "%s: least %.2f ms, middle %.2f ms\n", name, runs[1], runs[(NR + 1) / 2] }'
}
