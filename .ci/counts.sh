# Sourced by the parts of the gate, not run: what others counted is added to the caller's `passed` and `failed`.

# is_current FILE: it stands, and is newer than every file and folder of the crates, what `rt` makes aside.
is_current() {
    [ -f "$1" ] && [ ! crates.txt -nt "$1" ] && [ -z "$(find crates -mindepth 2 -name out -prune -o -newer "$1" -print -quit)" ]
}

# cargo_tests FOLDER [WORD..]: the tests of a Rust folder, with further words for cargo. What fails is printed whole.
cargo_tests() {
    local folder=$1 log good bad
    shift
    log=$(mktemp)
    if ! (cd "$folder" && cargo test --offline --quiet "$@") >"$log" 2>&1; then
        cat "$log"
        failed=$((failed + 1))
    fi
    while read -r good bad; do
        passed=$((passed + good)) failed=$((failed + bad))
    done < <(sed -n 's/^test result: [a-zA-Z]*\. \([0-9]*\) passed; \([0-9]*\) failed.*/\1 \2/p' "$log")
    rm -f "$log"
}

# counted COMMAND..: a program whose last line is 'N passed, M failed'. One that says none has failed.
counted() {
    local log
    log=$(mktemp)
    "$@" 2>&1 | tee "$log"
    if [[ $(tail -n 1 "$log") =~ ^([0-9]+)\ passed,\ ([0-9]+)\ failed$ ]]; then
        passed=$((passed + BASH_REMATCH[1])) failed=$((failed + BASH_REMATCH[2]))
    else
        failed=$((failed + 1))
    fi
    rm -f "$log"
}
