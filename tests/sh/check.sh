# shellcheck shell=bash
# check.sh: counts of checks for a shell test, and the verdict that tests/run reads.
checks_passed=0
checks_failed=0
mkdir -p target/tests

# check WHAT COMMAND..: counts one check, which holds where the command ends well; one that does not is named.
check() {
    local what=$1
    shift
    if "$@"; then
        checks_passed=$((checks_passed + 1))
        return
    fi
    checks_failed=$((checks_failed + 1))
    printf '%s: failed: %s\n' "$0" "$what"
}

# gives STATUS FILE COMMAND..: whether the command ends with this status and prints just what the file has. What it says on standard
# error is left in target/tests/said.
gives() {
    local status=$1 file=$2
    shift 2
    "$@" >target/tests/printed 2>target/tests/said
    [ "$?" -eq "$status" ] && cmp target/tests/printed "$file"
}

# says WORDS: whether these are in target/tests/said.
says() {
    grep -qF "$1" target/tests/said
}

# Prints the verdict; what the test ends with.
verdict() {
    printf '%s passed, %s failed\n' "$checks_passed" "$checks_failed"
    [ "$checks_failed" -eq 0 ]
}
