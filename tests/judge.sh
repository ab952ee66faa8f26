# For test scripts to source: a room for files, and checks that are counted. The script sets `tested`, the word in front of its lines.
room=$(mktemp -d)
passed=0 failed=0

# try COMMAND..: runs it, with output, errors and status in the room.
try() {
    status=0
    "$@" >"$room/out" 2>"$room/err" || status=$?
}

# judge WHAT COMMAND..: counts a check, which passes if the command does.
judge() {
    what=$1
    shift
    if "$@" >"$room/judged" 2>&1; then
        passed=$((passed + 1))
        return
    fi
    failed=$((failed + 1))
    echo "$tested: $what: failed with status $status"
    cat "$room/judged" "$room/out" "$room/err"
}

# The last line of the script. It succeeds if no check failed.
tally() {
    echo "$tested: $passed passed, $failed failed"
    [ "$failed" -eq 0 ]
}
