# Lays out crates of this repository as one of its own, in `work`. Sourced by the scripts that prove: sets what bench/program.sh sets.
source "$(dirname "$(readlink -f "${BASH_SOURCE[0]}")")/program.sh"

declare -A below=()
while IFS=: read -r crate libraries; do
    below[$crate]=$libraries
done < <(grep '^[a-z]' "$root/crates.txt")
# (a folder of this name makes it the top of a repository)
mkdir "$work/.git"
cp "$root/HANDLES" "$work"

# Lays out these crates and those below them, without wrong bodies.
lay_out() {
    local crate part
    for crate in "$@"; do
        # (others are the kit's, or stand there)
        [[ -v below[$crate] && ! -e $work/crates/$crate ]] || continue
        mkdir -p "$work/crates/$crate"
        for part in src specs proofs args data stdin stdout status; do
            [[ ! -e $root/crates/$crate/$part ]] || cp -R "$root/crates/$crate/$part" "$work/crates/$crate"
        done
        echo "$crate:${below[$crate]}" >> "$work/crates.txt"
        lay_out ${below[$crate]}
    done
}
