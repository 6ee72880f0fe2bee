#!/usr/bin/env bash
# Runs the script ./backfill in a copy of the repository, where no toolchain is found: it starts bin/backfill, or what was built there
# last where that is newer, hands on arguments, folder, environment and exit status, and makes no file. The scripts of tests/ and bench/
# take the same program. The last line is the sum, and the status is 1 where something differs.
set -euo pipefail

source "$(dirname "$(readlink -f "${BASH_SOURCE[0]}")")/../shared/compare.sh"
copy="$work/a copy"
built=$copy/crates/backfill/out/backfill
mkdir -p "$copy/bench" "$copy/crates/backfill/src" "$work/here" "$work/tools"
cp "$root/backfill" "$copy"
cp "$root/bench/program.sh" "$copy/bench"
install -D "$program" "$copy/bin/backfill"
find "$copy" | sort > "$work/files"
version=$("$program" --version)
cd "$work/here"

# From here on the program is reached by the script, where nothing but readlink can be found.
ln -s "$(command -v readlink)" "$work/tools"
cat > "$work/start" <<SCRIPT
#!/bin/sh
PATH='$work/tools' exec '$copy/backfill' "\$@"
SCRIPT
chmod +x "$work/start"
program=$work/start

tasks '{"id":"a","command":["/bin/sh","-c","echo \"$GREETING from ${PWD##*/}\""]}'
GREETING=hello ends_in success <<< 'a -1 success 1 "hello from here"'
cp "$graph" 'two words.json'
answers 0 check 'two words.json' <<< 'ok 1 tasks, 0 edges'
tells 3 'fault: cannot read ' check ''
tasks '{"id":"a","command":["/no/such/program"]}'
ends_in failed <<< 'a -1 failed 1 -'

# Ways to call it: through links, by the PATH, and from its folder.

ln -s "$copy/backfill" "$work/link"
ln -s link "$work/link_of_link"
ln -s "$copy" "$work/folder"
for script in ../link ../link_of_link "$work/link_of_link" ../folder/backfill '../a copy/backfill'; do
    is_same "called as $script" "$version" "$(PATH=$work/tools "$script" --version)"
done
is_same 'called by the PATH' "$version" "$(PATH=$work:$PATH link_of_link --version)"
is_same 'called by sh in its folder' "$version" "$(cd "$copy" && sh backfill --version)"

# A newer source builds nothing.

touch -r "$copy/bin/backfill" -d '1 hour' "$copy/crates/backfill/src/main.rt"
is_same 'beside a newer source' "$version" "$("$program" --version)"
rm "$copy/crates/backfill/src/main.rt"
is_same 'the files of the copy' "$(< "$work/files")" "$(find "$copy" | sort)"

# What was built is started where it is newer.

starts() {
    is_same "what starts, $1" "$2" "$("$program" --version)"
    is_same "what the scripts take, $1" "$3" "$(bash -c 'source "$0"; echo "$program"' "$copy/bench/program.sh")"
}
starts 'nothing being built' "$version" "$copy/bin/backfill"
install -D /dev/stdin "$built" <<< $'#!/bin/sh\necho built'
touch -r "$copy/bin/backfill" -d '-1 hour' "$built"
starts 'an older one being built' "$version" "$copy/bin/backfill"
touch -r "$copy/bin/backfill" -d '1 hour' "$built"
starts 'a newer one being built' built "$built"

sum
