# shellcheck shell=bash
# For tools/captures, package, try_dist and try_unit, and bindings/try, which begin by it: what holds, counted. What a check says is in
# the folder $work, which the script makes, and removes at its end.
passed=0 failed=0

check() {   # what it is, and the command that succeeds if it holds. What that says otherwise is shown
    local what=$1
    shift
    if "$@" > "$work/said" 2>&1; then
        passed=$((passed + 1))
    else
        failed=$((failed + 1))
        echo "failed: $what"
        tail -n 30 "$work/said" | sed 's/^/    /'
    fi
}

same() { [ "$1" = "$2" ] || { echo "'$1' is not '$2'"; false; }; }

print_checks() {    # the last line of a trial, and its status
    echo "$passed passed, $failed failed"
    [ "$failed" = 0 ]
}
