#!/usr/bin/env bash
# Runs the program with a launcher, which is handed the words of each command, and compares its exit status, all that it
# prints and the words that were handed over with what stands here, which was worked out by hand from docs/SPECIFICATION.md and
# docs/FORMATS.md, or with the run without a launcher. The launchers of examples/cluster run over small programs that stand for
# srun, ssh and kubectl. The last line is the sum, and the status is 1 where a row differs.
set -euo pipefail

source "$(dirname "$(readlink -f "${BASH_SOURCE[0]}")")/../shared/compare.sh"

# Requires that the program ends with this status, prints what stands in the file `wanted`, and tells of no fault. A launcher has
# the same standard error, and may write there. A run that takes more than a minute hangs.
launches() {
    local wanted=$1 status=0
    shift
    timeout 60 "$program" "$@" > "$work/out" 2> "$work/err" || status=$?
    rows=$((rows + 1))
    if [[ $status -ne $wanted ]] || ! cmp -s "$work/out" "$work/wanted" || grep -qE '^(fault:|refused |error:)' "$work/err"; then
        differs "status $status for $wanted, of $*"
        cat "$work/err"
        diff "$work/wanted" "$work/out" || true
    fi
}

# Requires that the lines of a file, in any order, are those on standard input.
has_lines() {
    LC_ALL=C sort > "$work/lines_wanted"
    LC_ALL=C sort "$1" > "$work/lines"
    rows=$((rows + 1))
    diff "$work/lines_wanted" "$work/lines" || differs "other lines stand in ${1##*/}"
}

# A launcher that notes the words which it is handed, and runs them.
cat > "$work/record" <<'LAUNCHER'
#!/usr/bin/env bash
printf '%s\n' "$(printf '<%s>' "$@")" >> "${0%/*}/words"
exec "$@"
LAUNCHER
chmod +x "$work/record"

# The report has the bytes of the run without a launcher, and each try's words were handed over.

orders=$root/examples/extract_transform_load/graph.json
days=(--from 2024-01-01 --to 2024-01-02)
"$program" run "$orders" "${days[@]}" > "$work/orders"
cp "$work/orders" "$work/wanted"
for workers in 1 2 8; do
    : > "$work/words"
    launches 0 run "$orders" "${days[@]}" --workers "$workers" --launcher "$work/record"
    has_lines "$work/words" <<'WORDS'
<echo><["north","south"]>
<echo><["north","south"]>
<sh><-c><echo "$0" | tr a-z A-Z><north>
<sh><-c><echo "$0" | tr a-z A-Z><north>
<sh><-c><echo "$0" | tr a-z A-Z><south>
<sh><-c><echo "$0" | tr a-z A-Z><south>
<sh><-c><echo "$1 of ${0%T*}"><2024-01-01T00:00:00Z><["NORTH","SOUTH"]>
<sh><-c><echo "$1 of ${0%T*}"><2024-01-02T00:00:00Z><["NORTH","SOUTH"]>
WORDS
done

# A name without `/` is looked for in PATH, as the first word of a command is.
PATH=$work:$PATH launches 0 run "$orders" "${days[@]}" --launcher record
# An empty folder there is the current one.
cd "$work"
PATH=:$PATH launches 0 run "$orders" "${days[@]}" --launcher record
cd - > /dev/null

# A command without words starts nothing, and no launcher either. A try that failed is handed over again.

tasks '{"id":"a"},{"id":"b","upstream":["a"],"retries":2,"command":["false"]}'
one_day failed > "$work/wanted" <<'LINES'
a -1 success 1 -
b -1 failed 3 -
LINES
: > "$work/words"
launches 1 run "$graph" "${day[@]}" --launcher "$work/record"
has_lines "$work/words" <<'WORDS'
<false>
<false>
<false>
WORDS

# Where the launcher can't be started that is the fault, before a file is read: nothing is started, and no journal is made. Where a
# table answers, nobody looks at it.

tasks '{"id":"a","command":["sh","-c","echo >> started"]}'
one_day success > "$work/report" <<< 'a -1 success 1 -'
cp "$work/report" "$work/was"
echo true > "$work/plain_file"
echo '[]' > "$table"
cleared=("$graph" "$work/report" "${day[@]}" --task a --run 2024-01-01)
cd "$work"
for launcher in /no/such/launcher no_such_launcher "$work/plain_file" "$work" ''; do
    for workers in 1 8; do
        tells 3 "fault: cannot start $launcher" run "$graph" "${day[@]}" --workers "$workers" --launcher "$launcher" --journal journal
        tells 3 "fault: cannot start $launcher" run none "${day[@]}" --workers "$workers" --launcher "$launcher"
        tells 3 "fault: cannot start $launcher" clear "${cleared[@]}" --workers "$workers" --launcher "$launcher" --out "$work/report"
        answers 0 clear "${cleared[@]}" --workers "$workers" --launcher "$launcher" --table "$table" < "$work/was"
    done
done
holds 'a report that was to be cleared through no launcher' cmp "$work/was" "$work/report"
is_same 'what is left where no launcher is there' '' "$(ls -d started journal 2> /dev/null || true)"
cd - > /dev/null

# Words cross as they are, and exit statuses come back.

tasks '
  {"id":"words","command":["printf","%s|","two  words","it'\''s","'\''","\"double\"","","$HOME","`id`","back\\slash","*","a&b;#","-n","é"]},
  {"id":"lines","command":["sh","-c","printf %s \"$0\" | wc -l","a\n\nb\n"]},
  {"id":"skips","command":["sh","-c","exit 99"]},
  {"id":"fails","command":["sh","-c","exit 3"]},
  {"id":"killed","command":["sh","-c","kill -9 $$"]},
  {"id":"absent","command":["/no/such/program"]}'
one_day failed > "$work/wanted" <<'LINES'
words -1 success 1 "two  words|it's|'|\"double\"||$HOME|`id`|back\\slash|*|a&b;#|-n|é|"
lines -1 success 1 3
skips -1 skipped 1 -
fails -1 failed 1 -
killed -1 failed 1 -
absent -1 failed 1 -
LINES
cp "$work/wanted" "$work/crossed"
launches 1 run "$graph" "${day[@]}"
launches 1 run "$graph" "${day[@]}" --launcher "$work/record"
cp "$graph" "$work/crossing.json"

# What a launcher itself answers is the answer of the try, and what it prints last is its line.

cat > "$work/refuse" <<'LAUNCHER'
#!/bin/sh
echo "$# words"
LAUNCHER
chmod +x "$work/refuse"
tasks '{"id":"a","command":["false","two words"]}'
one_day success > "$work/wanted" <<< 'a -1 success 1 "2 words"'
launches 0 run "$graph" "${day[@]}" --launcher "$work/refuse"

# The launchers of examples/cluster, over programs that stand for those of a cluster.

mkdir "$work/bin"
cat > "$work/bin/srun" <<'STAND_IN'
#!/bin/sh
[ "$1 $2" = '--ntasks=1 --quiet' ] || exit 1
shift 2
exec "$@"
STAND_IN
cat > "$work/bin/ssh" <<'STAND_IN'
#!/bin/sh
while [ $# -gt 2 ]; do shift; done
echo "$1" >> "${0%/*}/hosts_asked"
exec sh -c "$2"
STAND_IN
cat > "$work/bin/kubectl" <<'STAND_IN'
#!/bin/sh
echo "$2" >> "${0%/*}/pods"
while [ "$1" != -- ]; do shift; done
shift
exec "$@"
STAND_IN
chmod +x "$work"/bin/*
export PATH=$work/bin:$PATH BACKFILL_HOSTS=$work/hosts BACKFILL_IMAGE=image
printf 'one\ntwo\n' > "$work/hosts"


for launcher in on-slurm on-ssh on-kubernetes; do
    cp "$work/crossed" "$work/wanted"
    launches 1 run "$work/crossing.json" "${day[@]}" --launcher "$root/examples/cluster/$launcher"
    cp "$work/orders" "$work/wanted"
    for workers in 1 2 8; do
        : > "$work/bin/hosts_asked"
        : > "$work/bin/pods"
        launches 0 run "$orders" "${days[@]}" --workers "$workers" --launcher "$root/examples/cluster/$launcher"
        # Each host has its turn, and no two pods have one name.
        case $launcher in
        on-ssh) has_lines "$work/bin/hosts_asked" < <(printf '%s\n' one one one one two two two two) ;;
        on-kubernetes) sort -u "$work/bin/pods" > "$work/names" && has_lines "$work/names" < "$work/bin/pods" ;;
        esac
    done
done

# `clear` hands over the words of what it runs again, and of nothing else.

for workers in 1 8; do
    : > "$work/words"
    launches 0 clear "$orders" "$work/orders" "${days[@]}" --task transform --run 2024-01-02 --workers "$workers" --launcher "$work/record"
    has_lines "$work/words" <<'WORDS'
<sh><-c><echo "$0" | tr a-z A-Z><north>
<sh><-c><echo "$0" | tr a-z A-Z><south>
<sh><-c><echo "$1 of ${0%T*}"><2024-01-02T00:00:00Z><["NORTH","SOUTH"]>
WORDS
done

# Where a table answers, nothing is handed over.

echo '[{"out":"by hand"}]' > "$work/table"
sed 's/"\[.* of 2024-01-02"/"by hand"/' "$work/orders" > "$work/wanted"
: > "$work/words"
launches 0 clear "$orders" "$work/orders" "${days[@]}" --task load --run 2024-01-02 --table "$work/table" --launcher "$work/record"
has_lines "$work/words" < /dev/null

sum
