#!/bin/bash
# Makes each allocation of the board's tests fail in turn, and says how many there were.
#
#     bench/board.sh
#
# Where a call of the board is refused memory, the tests look whether the board is as before, and make the call again; so
# such a run ends well. Where the tests' own lists and lines of text are refused memory, a test ends with that error. The
# script stops with status 1 at the first run in which a board was not as before, or that ends otherwise. It proves
# nothing. `rt test` builds the tests; a malloc of its own, which is loaded before the C library's, refuses.
set -u
cd "$(dirname "$0")/../crates/kr_board_tests" || exit 1
work=$(mktemp -d) || exit 1
trap 'rm -rf "$work"' EXIT
tests=out/kr_board_tests_tests

rt test >"$work/built" 2>&1 || { cat "$work/built"; exit 1; }
[ -x "$tests" ] || { echo "no tests at $tests"; exit 1; }
. ../../bench/refusing.sh

for name in $("$tests" --list | sed -n "s/^\(board::.*\): test$/\1/p"); do
    [ "$(refuse 0 "$tests" "$name")" = 0 ] || { cat "$work/out"; exit 1; }
    all=$(cat "$work/made")
    again=0
    own=0
    for ((number = 1; number <= all; number++)); do
        status=$(refuse "$number" "$tests" "$name")
        if grep -q 'not as before' "$work/out"; then
            echo "$name, allocation $number: a board was not as before"
            cat "$work/out"
            exit 1
        elif [ "$status" = 0 ]; then
            again=$((again + 1))
        elif is_own_want; then
            own=$((own + 1))
        else
            echo "$name, allocation $number: status $status"
            cat "$work/out"
            exit 1
        fi
    done
    echo "$name: $all allocations refused in turn: $again in calls of the board, which was as before and went on; $own in the test's own lines"
done
