# Finds the program that ./backfill starts. Sourced by the scripts that run it: sets `root`, `program` and `work`, a folder that is removed at
# the end.
root=$(dirname "$(dirname "$(readlink -f "${BASH_SOURCE[0]}")")")
work=$(mktemp -d)
trap 'rm -rf "$work"' EXIT

program=$root/crates/backfill/out/backfill
[[ $program -nt $root/bin/backfill ]] || program=$root/bin/backfill
