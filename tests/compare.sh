# For other scripts: what a program prints, held to what it must print.
source samples/bytes.sh
failed=0

# compare NAME GOT EXPECTED
compare() {
    local difference
    if difference=$(diff "$2" "$3"); then
        echo "ok: $1"
    else
        echo "differs: $1 (< printed, > expected)"
        echo "$difference"
        failed=1
    fi
}

# printed PROGRAM SAMPLE: what it prints for the sample's bytes, and nothing where its text is refused.
printed() {
    local bytes
    bytes=$(mktemp)
    if input "$2" > "$bytes"; then
        "$1" < "$bytes"
    fi
    rm -f "$bytes"
}

# script FILE LINES
script() {
    printf '#!/bin/sh\n%s\n' "$2" > "$1"
    chmod +x "$1"
}

# outcome RT COMMAND .. is what a command comes to where `rt` is a script of these lines: its exit status, then standard error behind `! `,
# then standard output. The caller's folder `$work` holds the script and what was printed.
outcome() {
    local status=0
    mkdir -p "$work/bin"
    script "$work/bin/rt" "$1"
    PATH=$work/bin:$PATH "${@:2}" > "$work/out" 2> "$work/err" || status=$?
    echo "exit $status"
    sed 's/^/! /' "$work/err"
    cat "$work/out"
}
