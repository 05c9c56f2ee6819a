# How the parts of the gate are added up. To be sourced by bash.

passed=0 failed=0 skipped=0

# Adds the numbers of a part's last line, 'N passed, M failed' or 'N passed, M failed, K skipped'; $2 is the status that it ended with. A part
# without such a line counts as one failure, and so does one that ended with another status than 0 and told of none.
add_part() {
    local last=$1 status=$2
    if [[ $last =~ ^([0-9]+)\ passed,\ ([0-9]+)\ failed(,\ ([0-9]+)\ skipped)?$ ]]; then
        passed=$((passed + BASH_REMATCH[1]))
        failed=$((failed + (status != 0 && BASH_REMATCH[2] == 0 ? 1 : BASH_REMATCH[2])))
        skipped=$((skipped + ${BASH_REMATCH[4]:-0}))
    else
        failed=$((failed + 1))
    fi
}

# Says the sums of all parts, in the form of a part's last line, and whether none failed.
tell_sums() {
    echo "$passed passed, $failed failed$([ "$skipped" -eq 0 ] || echo ", $skipped skipped")"
    [ "$failed" -eq 0 ]
}
