# Counting tests in a script: it is read by `.` and runs nothing by itself.

passed=0 failed=0

fail() {
    echo "FAILED: $*"
    failed=$((failed + 1))
}

# Ends the run: the count is its last line, and what was left out stands before it.
finish() {
    printf '%s' "${left_out-}"
    echo "$passed passed, $failed failed"
    exit $((failed > 0))
}

# Ends the run where nothing more can be tested.
stop() {
    fail "$*"
    finish
}

# Runs a command and counts it as one test.
one() { # NAME COMMAND..
    local name=$1
    shift
    if "$@"; then passed=$((passed + 1)); else fail "$name"; return 1; fi
}
