#!/usr/bin/env bash
# Times the built program on sources of 1 MiB, the longest that it takes, which are read, cut into tokens, parsed and
# then refused by a class rule, a typing rule or a rule of the finitization. So much of the time is the lexer's and the
# parser's; where the source is one comment, the lexer's alone. The others are many fields, many methods with some statements each, one expression
# of a token a byte, and contracts: one long line, and many of them in one line. For each it prints the call's line and
# status, the best wall time of several runs, MB/s over the whole call, and peak memory. It judges nothing and never
# fails.
#
# It needs bash 5 and the program (run ./korat once). Peak memory needs GNU time as /usr/bin/time; where it isn't there,
# the script says so in place of the figure.
#
#     bench/source.sh [RUNS]   how many runs each figure is the best of, 10 where it isn't said
source "$(dirname "$(readlink -f "$0")")/common.sh"
size=1048576
cd "$work" || exit 0
printf 'root = "X"\nfuel = 1\n' >fin.toml

# `class X { int a; int a; .. }`, filled up with spaces.
fields() {
    local field=' int a;' count
    count=$(((size - 11) / ${#field}))
    printf 'class X {'
    yes "$field" | head -n "$count" | tr -d '\n'
    printf ' }%*s' $((size - 11 - count * ${#field})) ''
}

# `class X { METHOD METHOD .. }`, filled up with spaces.
methods() {
    local method=' int sum(Node first, int limit) { int total = 0; for (Node at = first; at != null && total < limit; at = at.next) { total += at.value * 2; if (at.isLast()) return total; else total++; } return -total; }'
    local count
    count=$(((size - 11) / ${#method}))
    printf 'class X {'
    yes "$method" | head -n "$count" | tr -d '\n'
    printf ' }%*s' $((size - 11 - count * ${#method})) ''
}

# `class X { int a = ~~ .. ~a; }`
operators() {
    printf 'class X { int a = '
    head -c $((size - 22)) /dev/zero | tr '\0' '~'
    printf 'a; }'
}

# A method with one contract line of that many bytes, `//@ requires a+a+ .. +a;`.
contract() {
    local count=$(((size - 42) / 2))
    printf 'class X {\n//@ requires a'
    yes '+a' | head -n "$count" | tr -d '\n'
    printf ';\nvoid m() { }\n}%*s' $((size - 40 - 2 * count)) ''
}

# A method with a line of many contracts, `//@ requires a;//@ requires a; ..`.
contracts() {
    local one='//@ requires a;' count
    count=$(((size - 26) / ${#one}))
    printf 'class X {\n'
    yes "$one" | head -n "$count" | tr -d '\n'
    printf '\nvoid m() { }\n}%*s' $((size - 25 - count * ${#one})) ''
}

# One comment of that many bytes.
comment() {
    printf '/*'
    head -c $((size - 4)) /dev/zero | tr '\0' x
    printf '*/'
}

figures() {
    local line status time
    line=$("$program" list fin.toml "$1")
    status=$?
    time=$(least_time /dev/null list fin.toml "$1")
    echo "$2, $(wc -c <"$1") bytes"
    echo "  line, status          $line, $status"
    echo "  time                  $time us, the best of $runs"
    echo "  MB/s                  $((size / (time > 0 ? time : 1)))"
    echo "  peak memory           $(peak_memory list fin.toml "$1")"
}

comment >Comment.java
fields >Fields.java
methods >Methods.java
operators >Operators.java
contract >Contract.java
contracts >Contracts.java
figures Comment.java "one comment"
figures Fields.java "many fields"
figures Methods.java "many methods"
figures Operators.java "one deep expression"
figures Contract.java "one contract line"
figures Contracts.java "one line of many contracts"
echo "start-up (no words)     $(least_time /dev/null) us, the best of $runs"
exit 0
