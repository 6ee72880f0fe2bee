#!/usr/bin/env bash
# Compares the completions for bash, zsh and fish that `completions` prints with the help that the program prints: each has its
# commands and no other, and for each command its long options and no other. Those for bash are loaded, and asked. Those for zsh
# are read as they stand, and those for fish too, which are asked as well where there is fish. The last line is the sum, and the
# status is 1 where something differs.
set -euo pipefail

source "$(dirname "$(readlink -f "${BASH_SOURCE[0]}")")/../shared/count.sh"
source "$root/tests/shared/help.sh"

# The words on standard input, one a line, are the ones that are told.
same() {
    local name=$1 told=$2
    rows=$((rows + 1))
    sort > "$work/held"
    printf '%s\n' $told | sort > "$work/told"
    diff "$work/told" "$work/held" || differs "told (<) and held (>), $name"
}

# The long options of a command, or of the whole line.
long_in_help() {
    options_in_help "$@" | grep -oE -e '--[a-z-]+'
}

for shell in bash zsh fish; do
    "$program" completions "$shell" > "$work/backfill.$shell"
done
commands=$(commands_in_help)
with_options=$(grep -vx help <<< "$commands")
all_options=$(for command in '' $with_options; do long_in_help $command; done | sort -u)

# ---- bash

# What is offered for the last of these words.
bash_offers() {
    bash --norc --noprofile -c 'source "$0"
        COMP_WORDS=("$@")
        COMP_CWORD=$(($# - 1))
        _backfill backfill "${!#}" "${COMP_WORDS[COMP_CWORD - 1]}"
        printf "%s\n" "${COMPREPLY[@]}"' "$work/backfill.bash" "$@"
}

same 'commands in bash' "$commands" < <(bash_offers backfill '' | grep -v '^-')
same 'commands behind help in bash' "$commands" < <(bash_offers backfill help '')
same 'options in bash' "$(long_in_help)" < <(bash_offers backfill --)
for command in $with_options; do
    same "options of $command in bash" "$(long_in_help "$command")" < <(bash_offers backfill "$command" --)
done

# The commands whose argument is one of some words, and these words, as a wrong one is answered.
declare -A choices
for command in schema completions; do
    choices[$command]=$({ "$program" "$command" none 2>&1 || true; } | sed -n 's/^  \[possible values: \(.*\)\]$/\1/p' | tr -d ,)
done
same 'formats' 'graph table' < <(tr ' ' '\n' <<< "${choices[schema]}")
same 'shells' 'bash zsh fish' < <(tr ' ' '\n' <<< "${choices[completions]}")

for command in "${!choices[@]}"; do
    same "words behind $command in bash" "${choices[$command]}" < <(bash_offers backfill "$command" '')
done

cd "$work"
mkdir folder
touch graph.json 'two words.json'
same 'commands with c in bash' 'check clear completions' < <(bash_offers backfill c)
same 'options with --ta in bash' '--task --table' < <(bash_offers backfill clear --ta)
same 'options behind an option in bash' '--progress' < <(bash_offers backfill clear --task load --pr)
for words in 'check' 'dry graph.json' 'run --from 2024-01-01' 'clear --table' 'list --zone-file' 'list --zone-file ='; do
    same "files behind $words in bash" 'graph.json' < <(bash_offers backfill $words g)
done
same 'folders in bash' 'folder' < <(bash_offers backfill check fol)
same 'a file with a space in bash' 'two_words.json' < <(bash_offers backfill check two | sed 's/ /_/')
for option in --at --from --to --on --task --run --index --workers --width; do
    same "what follows $option in bash" '' < <(bash_offers backfill clear "$option" '')
done
same 'what follows --color in bash' 'auto always never' < <(bash_offers backfill show --color '')

# ---- zsh

# The options of the arrays that are named on standard input: each array has one.
zsh_options() {
    local name
    for name in $(grep -oE '\$[a-z_]+' | tr -d '$'); do
        sed -n "s/^ *$name=(.*\(--[a-z-]*\)[][},].*/\1/p" "$work/backfill.zsh"
    done
}

same 'commands in zsh' "$commands" < <(sed -n '/^    commands=(/,/^    )/p' "$work/backfill.zsh" | sed -n "s/^ *'\([a-z]*\):.*/\1/p")
same 'options in zsh' "$(long_in_help)" < <(sed -n 's/^ *_arguments -C//p' "$work/backfill.zsh" | zsh_options)
for command in $with_options; do
    same "options of $command in zsh" "$(long_in_help "$command")" < <(sed -n "s/^ *$command) _arguments//p" "$work/backfill.zsh" | zsh_options)
done
same 'options anywhere in zsh' "$all_options" < <(grep -v '^#' "$work/backfill.zsh" | grep -oE -e '--[a-z][a-z-]*' | sort -u)

for command in "${!choices[@]}"; do
    name=$(sed -n "s/^ *$command) _arguments .*\$\([a-z]*\) ;;/\1/p" "$work/backfill.zsh")
    same "words behind $command in zsh" "${choices[$command]}" < <(sed -n "s/^ *$name=('1:.*:(\(.*\))')/\1/p" "$work/backfill.zsh" | tr ' ' '\n')
done

# ---- fish

fish_lines() {
    grep '^complete -c backfill ' "$work/backfill.fish"
}

# The options of the lines that are for a command, or with use_subcommand for the whole line.
fish_options() {
    fish_lines | grep -E -e "__fish_$1|not __fish_seen_subcommand_from help" | sed -n 's/.* -l \([a-z-]*\) .*/--\1/p'
}

same 'commands in fish' "$commands" < <(fish_lines | sed -n 's/.*-n __fish_use_subcommand -a \([a-z]*\) .*/\1/p')
same 'commands behind help in fish' "$commands" < <(fish_lines | sed -n "s/.*'__fish_seen_subcommand_from help' -a '\([a-z ]*\)'/\1/p" | tr ' ' '\n')
for command in "${!choices[@]}"; do
    same "words behind $command in fish" "${choices[$command]}" < <(fish_lines | sed -n "s/.*'__fish_seen_subcommand_from $command' -a '\([a-z ]*\)'/\1/p" | tr ' ' '\n')
done
same 'options in fish' "$(long_in_help)" < <(fish_options use_subcommand)
for command in $with_options; do
    same "options of $command in fish" "$(long_in_help "$command")" < <(fish_options "seen_subcommand_from [a-z ]*\\b$command\\b")
done
same 'options anywhere in fish' "$all_options" < <(fish_lines | sed -n 's/.* -l \([a-z-]*\) .*/--\1/p' | sort -u)

if command -v fish > /dev/null; then
    fish_offers() {
        fish --no-config -c "source '$work/backfill.fish'; complete -C '$1'" | cut -f 1
    }
    same 'commands that fish offers' "$commands" < <(fish_offers 'backfill ')
    for command in $with_options; do
        same "options of $command that fish offers" "$(long_in_help "$command")" < <(fish_offers "backfill $command --")
    done
else
    skips 'what fish offers, since there is no fish'
fi

sum
