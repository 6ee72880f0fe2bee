# What the program's help tells. Sourced by the scripts that compare it; expects `program`.

# The help of a command, or of the whole line.
help() {
    "$program" "$@" --help
}

# The commands that the help shows.
commands_in_help() {
    help | sed -n '/^Commands:/,/^$/s/^  \([a-z]*\) .*/\1/p'
}

# The options in the help of a command, or of the whole line, as `--from T`.
options_in_help() {
    help "$@" | sed -n '/^Options:/,$s/^  *\(\(-[A-Za-z], \)\?--[a-z-]*\( <[A-Z]*>\)\?\).*/\1/p' | tr -d '<>'
}
