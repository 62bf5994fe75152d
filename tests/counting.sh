# What every test here counts with: expect NAME COMMAND.., then `counted` as the last line.
passed=0
failed=0

# Passes where the command ends with 0; shows what it printed where it does not.
expect() {
    local name=$1 said
    shift
    if said=$("$@" 2>&1); then
        passed=$((passed + 1))
        echo "ok: $name"
    else
        failed=$((failed + 1))
        echo "FAILED: $name"
        printf '%s\n' "$said" | tail -n 12
    fi
}

counted() {
    echo "$passed passed, $failed failed"
    [ "$failed" -eq 0 ]
}
