#!/usr/bin/env bash
# Measures how long the program takes to start and to end, by itself and by ./backfill: 200 runs of `--help`, and of a shell that does
# nothing beside it, in milliseconds each.
set -euo pipefail

source "$(dirname "$(readlink -f "${BASH_SOURCE[0]}")")/program.sh"

# The mean of 200 runs.
mean() {
    local name=$1 start end
    shift
    start=$(date +%s%N)
    for _ in {1..200}; do
        "$@" > /dev/null
    done
    end=$(date +%s%N)
    echo "$name: $((end - start))" | awk -F ': ' '{ printf "%s: %.2f ms each\n", $1, $2 / 200 / 1000000 }'
}

mean "${program#"$root/"} --help" "$program" --help
mean './backfill --help' "$root/backfill" --help
mean '/bin/sh -c :' /bin/sh -c :
