#!/usr/bin/env bash
# Compares the man page with the help that the program prints: each command, what stands on its line and what of it may be
# left out, and each option, are the same in both. And runs the lines of the page's examples, and those of the help's. And compares
# what --version prints with the file VERSION. The last line is the sum, and the status is 1 where something differs.
set -euo pipefail

source "$(dirname "$(readlink -f "${BASH_SOURCE[0]}")")/../shared/count.sh"
source "$root/tests/shared/help.sh"
page=${1:-$root/docs/backfill.1}

# The pieces of a command's line: `GRAPH`, `--from T`, or in brackets what may be left out.
piece='\[(--[a-z-]+( [A-Z]+)?|[A-Z]+)\]|--[a-z-]+( [A-Z]+)?|[A-Z]+'

# The pieces of standard input, one a line.
pieces() {
    grep -oE -e "$piece" || true
}

# What stands on a command's line, by its help: what the usage names has to be there.
line_in_help() {
    local needed option
    needed=$(help "$1" | sed -n "s/^Usage: backfill $1 \(\[OPTIONS\] \)\?//p" | tr -d '<>' | pieces)
    echo "backfill $1"
    echo "$needed"
    options_in_help "$1" | while IFS= read -r option; do
        [[ $option == *--help ]] || grep -qxF -e "$option" <<< "$needed" || echo "[$option]"
    done
}

# The lines of a part of the page, without macros, fonts and quotes.
part_of_page() {
    sed -n "/^\.SH $1\$/,/^\.SH /p" "$page" | sed -E '1d; $d; s/^\.(B|I|BI|BR|IR|RB|RI) //; s/\\//g; s/"//g' | tr -s ' '
}

commands_in_page() {
    part_of_page COMMANDS | sed -n 's/^\.SS //p'
}

# What stands on a command's line, by the page: what is no piece of it first.
line_in_page() {
    local line
    line=$(part_of_page COMMANDS | sed -n "/^\.SS $1\$/,/^\.PP/p" | sed '1d; $d' | tr '\n' ' ' | sed 's/\[ /[/g; s/ \]/]/g')
    sed -E "s/$piece//g; s/ +/ /g; s/ $//" <<< "$line"
    pieces <<< "$line"
}

options_in_page() {
    part_of_page OPTIONS | sed -n '/^\.TP/{n;s/ ,/,/;p}'
}

# All long options that are named anywhere in the page.
long_in_page() {
    sed 's/\\//g' "$page" | grep -oE -e '(^|[^a-z-])--[a-z-]+' | grep -oE -e '--[a-z-]+' | sort -u
}

# The files `help` and `page` have the same lines, in any order.
same() {
    rows=$((rows + 1))
    sort "$work/help" > "$work/help_sorted"
    sort "$work/page" > "$work/page_sorted"
    [[ -s $work/help ]] && diff "$work/help_sorted" "$work/page_sorted" || differs "help (<) and page (>), $1"
}

commands_in_help > "$work/help"
commands_in_page > "$work/page"
same commands

# The command `help` has no help of its own.
for command in $(commands_in_help | grep -vx help); do
    line_in_help "$command" > "$work/help"
    line_in_page "$command" > "$work/page"
    same "the line of $command"
done

{
    options_in_help
    for command in $(commands_in_help | grep -vx help); do
        options_in_help "$command"
    done
} | sort -u > "$work/help"
options_in_page > "$work/page"
same options

grep -oE -e '--[a-z-]+' "$work/help" > "$work/long"
mv "$work/long" "$work/help"
long_in_page > "$work/page"
same 'options that are named anywhere'

# The examples, of which there is one for each command but help. Each ends with 0.
cd "$root"
sed -n '/^\.EX/,/^\.EE/s/^backfill /&/p' "$page" > "$work/examples"
cut -d ' ' -f 2 "$work/examples" > "$work/page"
commands_in_help | grep -vx help > "$work/help"
same 'commands with an example'
while read -ra words; do
    rows=$((rows + 1))
    if ! "$program" "${words[@]:1}" > "$work/out" 2> "$work/err" < /dev/null || [[ ! -s $work/out ]]; then
        differs "the example fails, ${words[*]}"
        cat "$work/err"
    fi
done < "$work/examples"

# The examples in the help of each command, in their order, by a shell where the folder examples stands. Each ends with 0.
mkdir "$work/bin" "$work/folder"
ln -s "$program" "$work/bin/backfill"
cp -r "$root/examples" "$work/folder"
cd "$work/folder"
for command in $(commands_in_help | grep -vx help); do
    help "$command" | sed -n '/^Example/,$s/^  //p' > "$work/examples"
    rows=$((rows + 1))
    grep -q "^backfill $command " "$work/examples" || differs "the help of $command has no example of it"
    while IFS= read -r line; do
        rows=$((rows + 1))
        if ! PATH=$work/bin:$PATH sh -c "$line" > "$work/out" 2> "$work/err" < /dev/null; then
            differs "the example of the help fails, $line"
            cat "$work/err"
        fi
    done < "$work/examples"
done

# The number of the version is the one that the release has.
is_same 'the version' "backfill $(< "$root/VERSION")" "$("$program" --version)"

sum
