# Counts what other scripts have counted. Sourced behind shared/count.sh.

# Runs a command whose last line has how many rows were right, and how many wrong. It tells the others that begin with `differs: ` or `skipped: `, each with
# what follows it.
counts() {
    local said line right wrong
    said=$("$@" 2>&1) || true
    if [[ ! $(tail -n 1 <<< "$said") =~ ^([0-9]+)\ ([0-9]+)$ ]]; then
        rows=$((rows + 1))
        differs "it ended without a sum: $*"
        tail -n 20 <<< "$said"
        return
    fi
    right=${BASH_REMATCH[1]}
    wrong=${BASH_REMATCH[2]}
    rows=$((rows + right + wrong))
    differing=$((differing + wrong))
    while IFS= read -r line; do
        skips "$line"
    done < <(sed -n 's/^skipped: //p' <<< "$said")
    [[ $wrong -eq 0 ]] || sed -n '/^differs: /,$p' <<< "$said" | sed '$d'
}
