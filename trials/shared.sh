# What the trials share; each of them reads it with its own folder as the current one.

CALLS=(calls.c checks.c lent.c lend_heap.c frames.c states.c)
STRICT=(-std=c11 -D_GNU_SOURCE -Wall -Wextra -Wpedantic -Werror)
LIST=../crates/batch/stdin
passed=0
failed=0

# Ends the trial where one of these commands is missing.
need() {
    local command
    for command in "$@"; do
        command -v "$command" > /dev/null || { echo "$(basename "$0"): $command is needed, and is not there"; exit 2; }
    done
}

# The archive: in the folder that DA_ARCHIVE names, or made anew.
find_archive() {
    if [ -z "${DA_ARCHIVE:-}" ]; then
        need rt
        (cd ../crates/capi && rt lib) > target/rt.log 2>&1 || { cat target/rt.log; exit 1; }
        DA_ARCHIVE=../crates/capi/out
    fi
    archive=$DA_ARCHIVE/libcapi.a
    [ -f "$archive" ] || { echo "no $archive: \`rt lib\` in crates/capi makes it"; exit 2; }
}

build_oracle() {
    (cd ../oracle && cargo build --quiet --release --offline)
    oracle=../oracle/target/release/oracle
}

# pass_or_fail WHAT TRUTH: counts one check, and says so where it failed.
pass_or_fail() {
    if [ "$2" = true ]; then
        passed=$((passed + 1))
    else
        failed=$((failed + 1))
        echo "failed: $1"
    fi
}

# tally WHAT EXPECTED GOT: counts the lines of a file that are as expected; a missing or extra line has failed. What the oracle's Rust did
# not answer in time is not compared.
tally() {
    local good bad skipped
    read -r good bad skipped < <(awk '
        FILENAME == ARGV[1] { expected[FNR] = $0; lines = FNR; next }
        { got = FNR }
        expected[FNR] == "the Rust takes too long" { skipped += 1; next }
        { if (FNR <= lines && expected[FNR] == $0) good += 1; else bad += 1 }
        END { if (got < lines) bad += lines - got; print good + 0, bad + 0, skipped + 0 }' "$2" "$3")
    echo "$1: $good as expected, $bad not, $skipped not compared"
    passed=$((passed + good))
    failed=$((failed + bad))
}

# The last line of a trial, and its end.
finish() {
    echo "$passed passed, $failed failed"
    [ "$failed" -eq 0 ] && [ "$passed" -gt 0 ]
    exit
}
