#!/usr/bin/env bash
# Looks at the reading list of each contract, tests/pages/reading_list.py: whatever a root or a definition of crates/*/specs names is there, so that
# the list leaves nothing out; specs/ holds what a public contract, law or invariant rests on, and specs/inner/ what none does; and docs/PROOFS.md says how
# many lines each list has. It takes python3. The last line is the sum, and the status is 1 where something differs.
set -euo pipefail

source "$(dirname "$(readlink -f "${BASH_SOURCE[0]}")")/../shared/count.sh"
command -v python3 > /dev/null || skips_rest 'the reading list: no python3'

list() {
    python3 -B "$root/tests/pages/reading_list.py" "$@"
}

list --rows > "$work/said"
sed '$d' "$work/said"
read -r rows differing < <(tail -n 1 "$work/said")

# As many lines as the page says.
page=$(tr '\n' ' ' < "$root/docs/PROOFS.md")
while read -r name lines; do
    rows=$((rows + 1))
    said=$(sed -nE "s/.* ([0-9,]+)( lines)? for (the )?\`?$name\`?,.*/\1/p" <<< "$page" | tr -d ,)
    [[ $lines == "$said" ]] || differs "$name takes $lines lines of definitions, and docs/PROOFS.md says ${said:-nothing}"
done < <(list | sed -nE 's/^([a-z]+): .* ([0-9]+) lines;.*/\1 \2/p')
while read -r name lines; do
    rows=$((rows + 1))
    said=$(sed -nE "s/.*[(;] ?\`?$name\`?: ([0-9,]+)[;)].*/\1/p" <<< "$page" | tr -d ,)
    [[ $lines == "$said" ]] || differs "the types of $name take $lines lines, and docs/PROOFS.md says ${said:-nothing}"
done < <(list | sed -nE 's/^([a-z]+): .* ([0-9]+) lines of theirs.*/\1 \2/p')

sum
