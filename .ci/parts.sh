# Parts of a gate. Each part ends in a line `N passed, M failed`; a script that sources this runs its parts, then `finish`.

passed=0
failed=0

# part NAME COMMAND..: runs a command and adds what its last line counts. A command that ends badly, or counts nothing, is
# a failure.
part() {
    local name=$1 log status line began
    shift
    log=$(mktemp)
    began=$(date +%s)
    echo "== $name"
    "$@" 2>&1 | tee "$log"
    status=${PIPESTATUS[0]}
    line=$(grep -E '^[0-9]+ passed, [0-9]+ failed' "$log" | tail -n 1)
    rm -f "$log"
    if [[ $line =~ ^([0-9]+)\ passed,\ ([0-9]+)\ failed ]]; then
        passed=$((passed + BASH_REMATCH[1]))
        failed=$((failed + BASH_REMATCH[2]))
        if [ "$status" -ne 0 ] && [ "${BASH_REMATCH[2]}" -eq 0 ]; then
            failed=$((failed + 1))
        fi
    else
        failed=$((failed + 1))
    fi
    echo "== $name took $(($(date +%s) - began)) s"
}

# finish: adds the parts up. The script's status is this command's.
finish() {
    echo "$passed passed, $failed failed"
    [ "$failed" -eq 0 ]
}
