# shellcheck shell=sh
# What the test scripts share; it is sourced. Each check counts, and a failed one says what it saw. `finish` prints `N passed, M failed`.
passed=0 failed=0
room=$(mktemp -d) || exit 1
trap 'rm -rf "$room"' EXIT

# Counts a check: its name, and the words of a condition that is to hold.
check() {
    name=$1
    shift
    if "$@"; then
        passed=$((passed + 1))
    else
        failed=$((failed + 1))
        echo "FAILED: $name"
    fi
}

# True if a text is of a pattern of the shell.
like() {
    # shellcheck disable=SC2254  # the pattern is meant as one
    case $1 in
    $2) return 0 ;;
    *) return 1 ;;
    esac
}

# True if the command ends with this status and writes texts of these patterns to standard output and standard error.
answers() {
    want=$1 out=$2 err=$3
    shift 3
    "$@" >"$room/out" 2>"$room/err"
    got=$?
    [ "$got" -eq "$want" ] && like "$(cat "$room/out")" "$out" && like "$(cat "$room/err")" "$err" && return
    echo "$*: status $got, wanted $want; standard output, then standard error:"
    head -n 5 "$room/out" "$room/err"
    return 1
}

finish() {
    echo "$passed passed, $failed failed"
    [ "$failed" -eq 0 ]
}
