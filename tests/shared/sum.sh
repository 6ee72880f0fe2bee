# The last line of whatever counts: `N passed, M failed`, and `, K skipped` where something was left out. Sourced.

# Prints that line. The status is 1 where anything failed.
print_sum() {
    local passed=$1 failed=$2 skipped=$3
    if [[ $skipped -eq 0 ]]; then
        echo "$passed passed, $failed failed"
    else
        echo "$passed passed, $failed failed, $skipped skipped"
    fi
    [[ $failed -eq 0 ]]
}
