#!/usr/bin/env bash
# Tries the wrong bodies in crates/NAME/wrong-bodies/, each of which the prover has to refuse: tests/long/wrong_bodies.sh [--anew] [CRATE ..], by
# itself those of all crates. Each is laid into a copy of its crate that `rt check` then looks at, over what it keeps of the crate itself and
# of those below it, so that only what the edit touches is proved again: begin with `rt all check` in crates/. One check looks at the functions that
# up to ten edits change; what these don't refuse is tried by itself, at last over the whole crate. As many crates are tried side by side as
# WORKERS says, else as there are processors, where memory has 5 GB for each. What was refused is kept in out/wrong_bodies.kept, by the sum of all
# that its check read, and not tried again; --anew tries all. What is said stands in out/wrong_bodies.log. The last line is `N refused, M not`.
# Those that weren't refused, couldn't be applied or read, weren't tried, or took away a name that a proof cites (which says nothing of the
# contract) are named above it, and then the status is 1.
set -euo pipefail

source "$(dirname "$(readlink -f "${BASH_SOURCE[0]}")")/../../bench/crates.sh"
source "$root/tests/shared/side_by_side.sh"
log=$root/out/wrong_bodies.log
kept=$root/out/wrong_bodies.kept
results=$work/results
workers=${WORKERS:-$(side_by_side)}

mkdir -p "${log%/*}"
touch "$results" "$kept"
anew=
if [[ ${1:-} == --anew ]]; then
    anew=yes
    shift
fi
crates=("$@")
if [[ $# -eq 0 ]]; then
    # The lowest come first.
    while read -r crate; do
        [[ ! -d $root/crates/$crate/wrong-bodies ]] || crates+=("$crate")
    done < <(sed -n 's/^\([a-z_]*\):.*/\1/p' "$root/crates.txt" | tac)
fi
for crate in "${crates[@]}"; do
    if ! compgen -G "$root/crates/$crate/wrong-bodies/*.edit" > "$work/edits"; then
        echo "there is no wrong body in crates/$crate/wrong-bodies" >&2
        exit 2
    fi
done

wrong_body() {
    python3 -B "$root/tests/long/wrong_body.py" "$@"
}

# The sum of all that a check of the crates in `work` reads, and of what judges it.
sum_of_sources() {
    {
        rt version
        cat "$root/tests/long/wrong_body.py"
        (cd "$work" && find HANDLES crates.txt crates -type f -print0 | sort -z | xargs -0 sha256sum)
    } | sha256sum
}

# Lays what `rt check` keeps of a crate and of those below it beside them in `work`. Says which library isn't kept.
lay_out_kept() {
    local crate=$1 library out
    for library in "$work"/crates/*; do
        mkdir "$library/out"
        out=$root/crates/${library##*/}/out
        if [[ ${library##*/} == "$crate" ]]; then
            [[ ! -d $out/incremental ]] || cp -R "$out/incremental" "$library/out"
        elif [[ -e $out/rlib/stamp ]]; then
            cp -Rl "$out/rlib" "$library/out" 2> /dev/null || cp -R "$out/rlib" "$library/out"
        else
            echo "${library##*/} isn't kept"
            return 1
        fi
    done
}

# Checks the crate in this folder, or these functions of it and what they call, and says what came of it.
check() {
    local status=0
    rt check --jobs 1 --short-goals "${@/#/--only=}" > "$work/said" 2>&1 || status=$?
    cat "$work/said"
    return "$status"
}

# What a check of these functions, or else of the crate in this folder, comes to with an edit.
verdict_on() {
    local status=0
    check "$@" > /dev/null || status=$?
    wrong_body verdict "$work/said" "$status"
}

# Applies an edit to the crate in this folder, whose code stands in `work` too, and says what came of it. The functions that it changes are looked
# at by themselves, which is far less to read, and the whole crate only where they don't refuse it.
try_edit() {
    local functions verdict=
    mapfile -t functions < <(wrong_body functions "$1" 2> /dev/null)
    if wrong_body apply "$1" > "$work/said" 2>&1; then
        [[ ${#functions[@]} -eq 0 ]] || verdict=$(verdict_on "${functions[@]}")
        if [[ $verdict != refused ]]; then
            touch "$work/whole"
            verdict=$(verdict_on)
        fi
        echo "$verdict"
    else
        cat "$work/said"
    fi
    restore
}

# Whether the functions that the edits change are proved as they stand in this folder, and the crate too where an edit was judged by it.
stands() {
    local status=0
    if [[ ${#functions[@]} -eq 0 || -e $work/whole ]]; then
        check || status=$?
    else
        check "${functions[@]}" || status=$?
        # (2: there isn't one function of such a name)
        [[ $status -ne 2 ]] || { check && status=0; }
    fi
    return "$status"
}

# Applies some of these edits, each to another function, to the crate in this folder, whose code stands in `work` too, and notes those that one
# check refuses. Leaves what it applied in `work`/together.
try_together() {
    local functions edit
    wrong_body together "$@" > "$work/together"
    mapfile -t functions < <(cut -d ' ' -f 2 "$work/together")
    if [[ ${#functions[@]} -gt 1 ]]; then
        check "${functions[@]}" || true
        while read -r edit; do
            note "$edit" refused
        done < <(wrong_body refused "$work/said" "$crate" < "$work/together")
    fi
    restore
}

restore() {
    rm -R src
    cp -R "$work/src" src
}

# Notes what an edit of this crate came to.
note() {
    local name=$crate/${1##*/}
    echo "$name: $2" | tee -a "$work/results"
    [[ $2 != refused ]] || echo "${sums[$1]} $name" >> "$work/kept"
    unset "sums[$1]"
}

# Tries those wrong bodies of a crate in a copy that weren't refused before over the same sources, as many as can be together and the others by
# themselves, and notes what each came to, where what they change is proved without them in the same folder.
try_crate() {
    local crate=$1 sources edit functions left=$((1 << 30))
    local work=$work/$crate
    local -A sums=()
    mkdir -p "$work/.git"
    cp "$root/HANDLES" "$work"
    lay_out "$crate"
    sources=$(sum_of_sources)
    for edit in "$root/crates/$crate/wrong-bodies"/*.edit; do
        sums[$edit]=$({ echo "$sources"; cat "$edit"; } | sha256sum | cut -d ' ' -f 1)
        if [[ -z $anew ]] && grep -qF "${sums[$edit]} " "$kept"; then
            echo "$crate/${edit##*/}: refused before" >> "$results"
            unset "sums[$edit]"
        fi
    done
    [[ ${#sums[@]} -gt 0 ]] || return 0
    lay_out_kept "$crate" || return
    cd "$work/crates/$crate"
    mapfile -t functions < <(for edit in "${!sums[@]}"; do wrong_body functions "$edit"; done | sort -u)
    cp -R src "$work/src"
    # (what depends on a function that one check refuses is left for the next)
    while [[ ${#sums[@]} -lt $left ]]; do
        left=${#sums[@]}
        try_together "${!sums[@]}"
    done
    for edit in "${!sums[@]}"; do
        echo "== $crate/${edit##*/}"
        note "$edit" "$(try_edit "$edit")"
        cat "$work/said"
    done
    stands || return
    cat "$work/results" >> "$results"
    [[ ! -e $work/kept ]] || cat "$work/kept" >> "$kept"
    rm -R "$work"
}

for crate in "${crates[@]}"; do
    while [[ $(jobs -rp | wc -l) -ge $workers ]]; do
        wait -n || true
    done
    (try_crate "$crate") > "$work/said.$crate" 2>&1 &
done
wait || true
for crate in "${crates[@]}"; do
    cat "$work/said.$crate"
done > "$log"

refused=0
before=0
others=0
for crate in "${crates[@]}"; do
    for edit in "$root/crates/$crate/wrong-bodies"/*.edit; do
        name=$crate/${edit##*/}
        line=$(grep -F -m 1 "$name: " "$results" || echo "$name: not tried")
        case $line in
            "$name: refused") refused=$((refused + 1)) ;;
            "$name: refused before") before=$((before + 1)) ;;
            *)
                others=$((others + 1))
                echo "$line"
                ;;
        esac
    done
done
[[ $others -eq 0 ]] || echo "all that was said stands in $log"
[[ $before -eq 0 ]] || echo "$before of them before, over the same sources"
echo "$((refused + before)) refused, $others not"
[[ $others -eq 0 ]]
