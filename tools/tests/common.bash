# What the tests of the tools in bash share: a folder to work in that is removed, a count of what went well, and the program.
# The test that sources this file ends with `finish`.
tools=$(cd "$(dirname "$(readlink -f "${BASH_SOURCE[0]}")")/.." && pwd)
top=$(dirname "$tools")
export KORAT=${KORAT:-$top/crates/korat/out/korat}
work=$(mktemp -d) || exit 1
trap 'rm -rf "$work"' EXIT
cd "$work" || exit 1
passed=0
failed=0

# Counts a case: whether it went well, and its name.
count() {
    if [ "$1" = 0 ]; then
        passed=$((passed + 1))
    else
        failed=$((failed + 1))
        echo "failed: $2"
    fi
}

# Runs a call with nothing on standard input, unless `given` is a file: run STATUS NAME WORD.. It has to end with this status; what
# it wrote is in `out` and `err`.
run() {
    local status=$1 name=$2 ended
    shift 2
    "$@" >out 2>err <"${given:-/dev/null}"
    ended=$?
    [ "$ended" = "$status" ]
    count $? "$name: status $ended, and not $status: $(tail -n 1 err)"
}

# A call with wrong words: status, nothing on standard output, and one line on standard error: refuse STATUS NAME WORD..
refuse() {
    run "$@"
    [ ! -s out ] && [ "$(wc -l <err)" = 1 ]
    count $? "$2: more than a line, or rows: $(cat out err)"
}

# Makes a program `numbers` that lists without a class: numbers of DIGITS digits (five), none higher than the one before it,
# from 6 down; they are valid where DIVISOR (seven) divides their sum. It sleeps at each candidate behind SLOW. With --trace it
# reports each 20 candidates.
make_numbers() {
    cat >numbers <<'MOCK'
#!/usr/bin/env bash
[ "$1" = list ] || { echo "ok classes 1 slots $((${DIGITS:-5} + 1))"; exit; }
shift
exec awk -v words="$*" -v slow="${SLOW:-1000000}" -v digits="${DIGITS:-5}" -v divisor="${DIVISOR:-7}" '
    # Below 0 where a key stands before a cut, above 0 behind it; 0 too where the cut goes on behind the key.
    function compare(key, cut, a, b, n, m, at) {
        n = split(key, a, "."); m = split(cut, b, ".")
        for (at = 1; at <= n && at <= m; at++) if (a[at] + 0 != b[at] + 0) return a[at] - b[at]
        return n > m
    }
    function below(key, digit, sum, depth, next_digit) {
        if (from != "" && compare(key, from) < 0 || to != "" && compare(key, to) > 0) return
        if (depth < digits) {
            for (next_digit = 0; next_digit <= digit; next_digit++) below(key "." next_digit, next_digit, sum + next_digit, depth + 1)
            return
        }
        if (from != "" && compare(key, from) <= 0) return
        if (++tried > slow) system("sleep 20")
        if (trace && tried % 20 == 0) log_ = log_ "\nreport 0 0 " key " 0 20"
        if (sum % divisor != 0) return
        if (valid == limit) { print "more " last; exit }
        print key " N#0{}"
        last = key
        valid++
    }
    BEGIN {
        limit = -1
        count = split(words, word, " ")
        for (at = 1; at <= count && word[at] != "--"; at += 2) {
            if (word[at] == "--trace") { trace = 1; at-- }
            if (word[at] == "--from") from = word[at + 1]
            if (word[at] == "--to") to = word[at + 1]
            if (word[at] == "--limit") limit = word[at + 1]
        }
        below("0", 6, 0, 0)
        print "valid " valid + 0 " tried " tried + 0
        if (trace) print "take 0 0" log_ "\nreport 0 0 end 0 " tried % 20
    }'
MOCK
    chmod +x numbers
}

finish() {
    echo "$passed passed, $failed failed"
    [ "$failed" = 0 ]
}
