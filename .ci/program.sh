#!/usr/bin/env bash
# Tries the program that `rt ci` built, as both compilers make it: each schedule of examples/ gives the trace beside it, and each
# way to fail has its status and one line on standard error. Ends with 1 if anything is otherwise.
cd "$(dirname "$0")/.." || exit 1
room=$(mktemp -d) || exit 1
trap 'rm -rf "$room"' EXIT
failures=0

wrong() {
    echo "program.sh: $*" >&2
    failures=$((failures + 1))
}

# ended CASE STATUS: the run just made, with its streams in $room, had this status ($status has its own), wrote one line on
# standard error where that isn't 0, and none where it is.
ended() {
    local lines
    lines=$(wc -l < "$room/errors")
    [ "$status" -eq "$2" ] || wrong "$1: status $status, not $2"
    [ "$lines" -eq "$(($2 > 0))" ] || wrong "$1: $lines lines on standard error"
}

# wrote CASE FILE: it wrote these bytes on standard output.
wrote() {
    cmp -s "$room/output" "$2" || wrong "$1: wrote something else than it should"
}

# run WORD..: runs the program on standard input.
run() {
    "$program" "$@" > "$room/output" 2> "$room/errors"
    status=$?
}

# run_within KIB WORD..: the same with so much address space.
run_within() {
    (ulimit -v "$1" && shift && exec "$program" "$@") > "$room/output" 2> "$room/errors"
    status=$?
}

plays_examples() {
    local schedule found=0
    for schedule in examples/*.plx; do
        run replay < "$schedule"
        ended "$schedule" 0
        wrote "$schedule" "${schedule%.plx}.trace"
        found=$((found + 1))
    done
    [ "$found" -ge 4 ] || wrong "only $found examples"
}

tells_each_failure() {
    run < examples/first.plx
    ended "no word" 1; wrote "no word" /dev/null
    run reply < examples/first.plx
    ended "another word" 1; wrote "another word" /dev/null
    run replay again < examples/first.plx
    ended "a word more" 1; wrote "a word more" /dev/null
    run $'\xff' < examples/first.plx
    ended "a word that is no text" 1; wrote "a word that is no text" /dev/null

    printf 'bad line 2\n' > "$room/expected"
    run replay < <(printf 'world 1 1 16 2 1\nrun  0\n')
    ended "a bad line" 2; wrote "a bad line" "$room/expected"

    run replay < examples
    ended "a folder as input" 3; wrote "a folder as input" /dev/null

    "$program" replay < examples/first.plx > /dev/full 2> "$room/errors"
    status=$?
    ended "a full device as output" 4

    # What is enough for a short schedule is too little for a trace of half a million lines.
    run_within 20000 replay < examples/first.plx
    ended "a short schedule in little memory" 0; wrote "a short schedule in little memory" examples/first.trace
    run_within 20000 replay < <(echo 'world 1 1 16 2 1' && yes 'crash 0' | head -n 500000)
    ended "a long trace in little memory" 5; wrote "a long trace in little memory" /dev/null

    printf 'bad line 1\n' > "$room/expected"
    run replay < <(head -c 67108864 /dev/zero)
    ended "the longest input" 2; wrote "the longest input" "$room/expected"
    run replay < <(head -c 67108865 /dev/zero)
    ended "an input that is too long" 6; wrote "an input that is too long" /dev/null
}

for program in crates/plx/out/plx crates/plx/out/plx.by-rattle; do
    if [ ! -x "$program" ]; then
        wrong "$program isn't there: rt ci builds it"
        continue
    fi
    plays_examples
    tells_each_failure
done
[ "$failures" -eq 0 ] || exit 1
echo "program.sh: the program does what it should"
