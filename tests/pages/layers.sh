#!/usr/bin/env bash
# Holds the picture of docs/ARCHITECTURE.md to crates.txt: both have the same layers, in one order, with the same crates, and a crate
# stands on none of a line above its own. No two crates have a public type of one name, and each type that the page lists stands in its
# crate. The last line is the sum, and the status is 1 where something differs.
set -euo pipefail

source "$(dirname "$(readlink -f "${BASH_SOURCE[0]}")")/../shared/count.sh"

# The picture: 16 columns for a layer's name, which stands at its first line, 30 for crates, and behind them what they are for.
picture=$(sed -n '/^## Layers/,/^## /p' "$root/docs/ARCHITECTURE.md" | sed -n '/^```/,/^```/{/^```/d; p}')
# Its crates, a line each: the number of the line in the picture, and the name.
drawn=$(cut -c 17-46 <<< "$picture" | awk '{ for (i = 1; i <= NF; i++) print NR, $i }')

layers_drawn() {
    cut -c 2-16 <<< "$picture" | sed 's/ *$//; /^$/d'
}
layers_listed() {
    sed -n 's/^# //p' "$root/crates.txt" | grep -v '^tests$'
}
crates_listed() {
    sed -nE '/^# tests/q; s/^([a-z_]+):.*/\1/p' "$root/crates.txt"
}
line_of() {
    awk -v crate="$1" '$2 == crate { print $1 }' <<< "$drawn"
}

is_same 'the layers' "$(layers_listed)" "$(layers_drawn)"
is_same 'the crates' "$(crates_listed)" "$(cut -d ' ' -f 2 <<< "$drawn")"
while IFS=: read -r crate libraries; do
    for library in $libraries; do
        # (others are the kit's)
        [[ -n $(line_of "$library") ]] || continue
        rows=$((rows + 1))
        [[ $(line_of "$library") -ge $(line_of "$crate") ]] || differs "$crate stands on $library, which is drawn above it"
    done
done < <(sed '/^# tests/q' "$root/crates.txt" | grep '^[a-z]')

types() {
    grep -rhoE --include='*.rt' '^ *pub (struct|enum|trait) [A-Za-z]+' "$root"/crates/*/src | awk '{ print $3 }'
}
is_same 'public types of one name' '' "$(types | sort | uniq -d)"

while IFS='|' read -r _ crate named _; do
    crate=${crate// /}
    for type in $(grep -oE '`[A-Z][A-Za-z]*`' <<< "$named" | tr -d '`'); do
        rows=$((rows + 1))
        grep -qrE --include='*.rt' "(struct|enum|trait|type) $type\b|pub use .*\b$type\b" "$root/crates/$crate/src" || differs "there is no $type in $crate"
    done
done < <(grep -E '^\| bf_[a-z_]+ \| .*`[A-Z]' "$root/docs/ARCHITECTURE.md")

sum
