#!/bin/sh
# Tries every command that the exercises name. What they print without threads is compared by the cases of
# tests/cases/course. A threaded run is judged by replaying the schedule that it printed. LC3LAB is the command to try,
# where it isn't the lc3lab two folders up, or else the one on the path. Files are made in a temporary folder alone, which
# goes again.
set -u

here=$(dirname -- "$(readlink -f -- "$0")")
LC3LAB=${LC3LAB:-$(command -v "$here/../../lc3lab" || command -v lc3lab)}
made=$(mktemp -d) || exit 1
trap 'rm -rf "$made"' EXIT
trap 'exit 1' HUP INT TERM
passed=0
failed=0

pass() {
    passed=$((passed + 1))
}

fail() {
    failed=$((failed + 1))
    echo "FAILED $*"
}

# Sets `programs` to the object files of these names; a name is PROGRAM or PROGRAM=INPUT.
name_programs() {
    programs=
    for name in "$@"; do
        case $name in
        *=*) programs="$programs $made/${name%%=*}.obj=$made/${name#*=}" ;;
        *) programs="$programs $made/$name.obj" ;;
        esac
    done
}

# exercise FOLDER: assembles its sources. At a terminal it is said that it is under way.
exercise() {
    exercise=$1
    [ ! -t 2 ] || echo "$exercise: threaded runs" >&2
    for source in "$here/$exercise"/*.asm; do
        "$LC3LAB" asm "$source" "$made/$(basename "$source" .asm).obj" || fail "$exercise: asm $source"
    done
    for input in "$here/$exercise"/*.in; do
        [ ! -f "$input" ] || cp "$input" "$made"
    done
}

# The report of the last threaded run is one of these, or any where none is named.
is_expected() {
    [ $# -gt 0 ] || return 0
    for report in "$@"; do
        ! cmp -s "$made/report" "$here/$exercise/$report.out" || return 0
    done
    return 1
}

# run_once LIMIT "REPORT...": a threaded run of `programs`. Its report is expected, and its schedule shows it again.
run_once() {
    if ! "$LC3LAB" run --limit "$1" $programs >"$made/printed" || ! grep -q '^schedule' "$made/printed"; then
        echo "no report and schedule"
        return 1
    fi
    sed '$d' "$made/printed" >"$made/report"
    sed -n '$s/^schedule//p' "$made/printed" >"$made/schedule"
    "$LC3LAB" step $programs <"$made/schedule" >"$made/replayed"
    if ! cmp -s "$made/report" "$made/replayed"; then
        echo "its schedule shows another report"
        diff "$made/report" "$made/replayed" | head -n 20
        return 1
    fi
    if ! is_expected $2; then
        echo "the report is none of: $2"
        cat "$made/report"
        return 1
    fi
}

# run LIMIT "REPORT..." NAME...: five threaded runs.
run() {
    limit=$1
    reports=$2
    shift 2
    name_programs "$@"
    for turn in 1 2 3 4 5; do
        if ! run_once "$limit" "$reports" >"$made/complaint"; then
            fail "$exercise: run $*"
            cat "$made/complaint"
            return
        fi
    done
    pass
}

# Five processes of one program, each with its number as its input.
table() {
    for seat in 0 1 2 3 4; do
        printf '%s ' "$1=$seat.in"
    done
}

# The first call of the launcher builds the program, which takes longer than a case may.
"$LC3LAB" --help >/dev/null || exit 1
[ ! -t 2 ] || echo "the commands without threads" >&2
"$here/../../tests/run" "$LC3LAB" course >"$made/cases"
cat "$made/cases"
read -r passed _ failed _ <<END
$(tail -n 1 "$made/cases")
END

exercise 1-hello
run 100000 whole hello

exercise 2-producer-consumer
run 100000 producer-first producer consumer
run 100000 one-turns producer-one consumer

exercise 3-lost-update
run 100000 "one-by-one lost" main add add
run 10000000 "slow-one-by-one slow-lost" main add-slow add-slow
run 100000 locked main add-locked add-locked

exercise 4-lost-message
run 100000 "in-turns lost" sender receiver
run 100000 blocking sender-blocking receiver

exercise 5-deadlock
run 100000 "one-by-one deadlock" first-a first-b
run 10000000 "slow-one-by-one slow-deadlock" slow-a slow-b
run 100000 same-order first-a first-a

exercise 6-philosophers
run 100000 "one-by-one deadlock" $(table philosopher)
run 100000 low-first $(table ordered)
run 100000 four-enter $(table room)

exercise 7-barrier
run 100000 "" start worker worker worker
run 100000 held-back start two-gates two-gates two-gates

exercise 8-priorities
run 500 "" ordinary urgent server
run 500 "" ordinary-own urgent server-fair

echo "$passed passed, $failed failed"
[ "$failed" = 0 ]
