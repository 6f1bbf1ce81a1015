# What the trials of a built program share. A script that has set `program` reads this; it is not run by itself.
seconds_at_most=120

if [ ! -x "$program" ]; then
    echo "$program is not there: build it first (rt run in its crate)" >&2
    exit 1
fi
folder=$(mktemp -d)
trap 'rm -rf "$folder"' EXIT
passed=0
failed=0

# answer NAME OK: counts a case, and prints it where it failed.
answer() {
    if [ "$2" = yes ]; then
        passed=$((passed + 1))
    else
        failed=$((failed + 1))
        echo "FAILED  $1"
        echo "        status $status"
        sed 's/^/        stdout: /' "$folder/stdout" | head -5
        sed 's/^/        stderr: /' "$folder/stderr" | head -5
    fi
}

# run ARGUMENT..: one run of the program; leaves status, stdout and stderr.
run() {
    timeout "$seconds_at_most" "$program" "$@" >"$folder/stdout" 2>"$folder/stderr" </dev/null
    status=$?
}
