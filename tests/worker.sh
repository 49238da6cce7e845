# shellcheck shell=sh
# The example worker, for the tests of it: built against the library as installed to a folder of its own, with run folders made of
# bytes. Who reads this in stands in the repository, and has read tests/bytes.sh in.

work=$(mktemp -d) || exit 2
trap 'rm -rf "$work"' EXIT

# the library, installed to a folder of its own
make --no-print-directory install PREFIX="$work" >"$work/log" 2>&1 || {
    cat "$work/log"
    echo '0 passed, 1 failed'
    exit 1
}

# built NAME WORD..: a worker of this name, by gcc with the header as installed and these words; without it nothing can be tried
source=examples/worker.c
built() {
    name=$1
    shift
    gcc -std=c99 -pedantic -Wall -Wextra -Werror -I"$work/include" "$source" "$@" -o "$work/$name" >"$work/log" 2>&1 || {
        cat "$work/log"
        echo '0 passed, 1 failed'
        exit 1
    }
}

passed=0
failed=0

# folder NAME RECIPE [RECALLS]: a run folder of these bytes; without RECALLS it has no such file
folder() {
    mkdir -p "$work/night/$1"
    # shellcheck disable=SC2086
    bytes $2 >"$work/night/$1/recipe"
    # shellcheck disable=SC2086
    [ $# -lt 3 ] || bytes $3 >"$work/night/$1/recalls"
}

# expect STATUS LINES ERRORS FOLDER..: the worker, given these folders, exits so and writes just these lines to its two outputs
program=$work/worker
output=$work/output
# the files that it may have open; every shell of ours has this limit
# shellcheck disable=SC3045
files=$(ulimit -n)
expect() {
    wanted=$1
    printf '%s' "${2:+$2
}" >"$work/lines"
    printf '%s' "${3:+$3
}" >"$work/errors"
    shift 3
    : >"$work/output"
    # shellcheck disable=SC3045
    (cd "$work/night" && ulimit -n "$files" && exec timeout 20 "$program" "$@") >"$output" 2>"$work/error"
    status=$?
    if [ $status -eq "$wanted" ] && cmp -s "$work/lines" "$work/output" && cmp -s "$work/errors" "$work/error"; then
        passed=$((passed + 1))
    else
        failed=$((failed + 1))
        echo "FAILED: worker $*: wanted exit $wanted and '$(cat "$work/lines" "$work/errors")'," \
            "got exit $status and '$(cat "$work/output" "$work/error")'"
    fi
}

# says STATUS LINE NAME RECIPE [RECALLS]: a run folder of these bytes, and what is said of it
says() {
    wanted=$1
    line=$2
    shift 2
    folder "$@"
    expect "$wanted" "$1: $line" '' "$1"
}

# refused NUMBER [PLACE]: what the worker says of a refusal, by its row of refusals.txt
refused() {
    awk -F ' *[|] *' -v number="$1" -v place="${2-}" '
        $1 + 0 == number {
            words = split($3, word, " ")
            print "refused " number ($3 == "0" ? "" : " at " word[words] " " place) ": " $5 ($6 == "" ? "" : ", or " $6)
        }' refusals.txt
}

# recipes: Val 9 without its status byte; four Adds of five Vals, nine instructions
# shellcheck disable=SC2034 # for who reads this in
nine='08 00 01 00 00 00 09 00 00 00'
val='01 3*00 01 3*00'
five="01 48 00 $val $val $val $val $val"
five="$five 03 00 03 00 04 00 00 00 03 00 02 00 05 00 00 00 03 00 01 00 06 00 00 00 03 00 00 00 07 00 00 00"

# the last line, and the exit status
tell_total() {
    echo "$passed passed, $failed failed"
    [ "$failed" -eq 0 ] && [ "$passed" -gt 0 ]
}
