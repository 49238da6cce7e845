# shellcheck shell=sh
# Counting what passes and fails, for scripts/test.

# a folder, where each part leaves what it wrote
: "${work:?}"
passed=0
failed=0

# took NAME SINCE: tells the seconds that a part took, and keeps them for the table
took() {
    seconds=$(($(date +%s) - $2))
    echo "$1: $seconds s"
    echo "$seconds $1" >>"$work/parts"
}

# check NAME COMMAND..: one thing that passes or fails
check() {
    name=$1
    shift
    since=$(date +%s)
    if "$@"; then
        passed=$((passed + 1))
        echo "ok: $name"
    else
        failed=$((failed + 1))
        echo "FAILED: $name"
    fi
    took "$name" "$since"
}

# count NAME FLOOR COMMAND..: many things, counted by its last line 'N passed, M failed'. Besides what it counts itself, a part
# fails that ends without a count, that ends otherwise than it counts, or that counts fewer than its floor: a part that lost its
# tests looks like one that passes. What it wrote stays in the file NAME of the work folder.
count() {
    name=$1
    floor=$2
    shift 2
    log=$work/$name
    since=$(date +%s)
    echo 'not ended' >"$work/status"
    { "$@"; echo $? >"$work/status"; } 2>&1 | tee "$log"
    took "$name" "$since"
    good=$(counted 1)
    bad=$(counted 2)
    fault=$(fault_of_part)
    passed=$((passed + ${good:-0}))
    failed=$((failed + ${bad:-0}))
    [ -z "$fault" ] || {
        failed=$((failed + 1))
        echo "FAILED: $name: $fault"
    }
}

# the first or the second number of the last line of a part
counted() { tail -n 1 "$log" | sed -n "s/^\([0-9][0-9]*\) passed, \([0-9][0-9]*\) failed\$/\\$1/p"; }

# what is wrong with a part that it does not count itself; nothing, where it counts a failure
fault_of_part() {
    case $floor in
    '' | *[!0-9]*) echo "its floor, '$floor', is no number" && return ;;
    esac
    if [ -z "$good" ]; then
        echo 'it ends without a count'
    elif [ "$bad" -ne 0 ]; then
        return
    elif [ "$(cat "$work/status")" != 0 ]; then
        echo 'it counts no failure, and ends as if there were one'
    elif [ "$good" -lt "$floor" ] || [ "$good" -eq 0 ]; then
        echo "it counts $good, and its floor is $floor"
    fi
}

# the last line, and the exit status
tell_total() {
    echo "$passed passed, $failed failed"
    [ "$failed" -eq 0 ] && [ "$passed" -gt 0 ]
}
