# How many proofs run side by side: one a processor, as far as memory goes at 5 GB for each. Left to itself, `rt ci` counts up to 8 GB for
# one, which takes 4 at most, and so leaves a processor idle. Sourced by what proves.
side_by_side() {
    local processors available
    processors=$(nproc)
    available=$(awk '/^MemAvailable:/ { print int($2 / 5000000) }' /proc/meminfo)
    echo $((available < 1 ? 1 : available < processors ? available : processors))
}
