#!/usr/bin/env bash
# Tries the built program where a write or a read fails: listings by one worker, by three in rounds, in rounds of one row and over
# deques, with writes that take at most so many bytes and of which one fails. Such a listing ends with 7 and a front of its bytes; or
# as it does when nothing fails, where there are fewer writes. A read that fails ends it with 6 and its line. The last line is
# `N passed, M failed`, and the status is 0 where none failed.
#
# What makes a call fail is loaded before the C library. It needs bash 5, a C compiler as cc, and the program (run ./korat once, or
# KORAT names another one).
#
#     tests/failing.sh [FIRST [LAST]]      the writes that fail, 1 to 40 where it isn't said
set -u
top=$(cd "$(dirname "$(readlink -f "$0")")/.." && pwd)
program=${KORAT:-$top/crates/korat/out/korat}
first=${1:-1}
last=${2:-40}
if ! command -v cc >/dev/null; then
    echo "1 table not tried: there is no C compiler"
    echo "0 passed, 0 failed"
    exit 0
fi
work=$(mktemp -d) || exit 1
trap 'rm -rf "$work"' EXIT
cd "$work" || exit 1

cat >failing.c <<'SOURCE'
#define _GNU_SOURCE
#include <dlfcn.h>
#include <errno.h>
#include <stdlib.h>
#include <sys/types.h>
/* STEP: the most bytes that a write to standard output takes. PUT: which of them fails. READ: which read of a file fails. */
static long number(const char *name) { const char *text = getenv(name); return text ? atol(text) : 0; }
static long puts_made, reads_made;
ssize_t write(int file, const void *bytes, size_t count) {
    static ssize_t (*real)(int, const void *, size_t);
    long step = number("STEP");
    if (!real) real = (ssize_t (*)(int, const void *, size_t))dlsym(RTLD_NEXT, "write");
    if (file == 1) {
        if (++puts_made == number("PUT")) { errno = EIO; return -1; }
        if (step > 0 && count > (size_t)step) count = step;
    }
    return real(file, bytes, count);
}
ssize_t read(int file, void *bytes, size_t count) {
    static ssize_t (*real)(int, void *, size_t);
    if (!real) real = (ssize_t (*)(int, void *, size_t))dlsym(RTLD_NEXT, "read");
    if (file > 2 && ++reads_made == number("READ")) { errno = EIO; return -1; }
    return real(file, bytes, count);
}
SOURCE
cc -O1 -shared -fPIC -o failing.so failing.c -ldl || exit 1

passed=0
failed=0
count() {
    if [ "$1" = 0 ]; then
        passed=$((passed + 1))
    else
        failed=$((failed + 1))
        echo "failed: $2"
    fi
}

# Two nodes that point to each other or to nothing, and trees of four nodes.
printf 'class N { N next; boolean repOk() { return true; } }' >N.java
printf 'root = "N"\nfuel = 1000\n[objects]\nN = 2\n[fields]\n"N.next" = ["null", "N"]\n' >n.toml
sed 's/== 3/== 4/' "$top/examples/trees/Tree.java" >Tree.java
sed 's/Node = 3/Node = 4/' "$top/examples/trees/fin.toml" >trees.toml

# A call with a step, of which a write or a read fails: its status. fail STEP PUT READ WORD..
fail() {
    STEP=$1 PUT=$2 READ=$3 LD_PRELOAD=$work/failing.so "$program" "${@:4}" >out 2>err </dev/null
    echo $?
}

# Whether what was written is a front of the whole, of at most so many bytes.
is_front() {
    local length
    length=$(stat -c %s out)
    [ "$length" -le "$1" ] && head -c "$length" whole | cmp -s - out
}

# A listing, or its builders: the whole of it by writes of a byte, and with each write and each read failing in turn, writes taking
# at most so many bytes: table STEP COMMAND FIN SOURCE
table() {
    local step=$1 command=$2 files="$3 $4" put read status ended=no
    "$program" $command $files >whole </dev/null
    status=$(fail 1 0 0 $command $files)
    [ "$status" = 0 ] && cmp -s whole out && [ ! -s err ]
    count $? "$command $files, a byte a write: status $status"
    for ((put = first; put <= last; put++)); do
        status=$(fail "$step" "$put" 0 $command $files)
        if [ "$status" = 7 ]; then
            is_front $((step * (put - 1))) && [ ! -s err ] && [ "$ended" = no ]
        else
            ended=yes
            [ "$status" = 0 ] && cmp -s whole out && [ ! -s err ]
        fi
        count $? "$command $files, $step bytes a write, write $put fails: status $status, $(stat -c %s out) bytes"
    done
    for read in 1 2 3 4 5; do
        status=$(fail "$step" 0 "$read" $command $files)
        if [ "$status" = 6 ]; then
            [[ "$(cat out)" =~ ^"read fault "($3|$4)$ ]]
        else
            [ "$read" -gt 2 ] && [ "$status" = 0 ] && cmp -s whole out
        fi
        count $? "$command $files, read $read fails: status $status, $(cat out)"
    done
}

for sharing in '--workers 1' '--workers 3' '--workers 3 --window 1' '--workers 3 --pool deque' '--workers 1 --trace'; do
    table 4 "list $sharing" n.toml N.java
    table 100 "list $sharing" trees.toml Tree.java
done
table 4 emit n.toml N.java
table 100 emit trees.toml Tree.java

# The same of a finitization that is carried over: it has one read of a file, and a few writes.
"$program" upgrade n.toml >whole </dev/null
for ((put = 1; put <= 3; put++)); do
    status=$(fail 10 "$put" 0 upgrade n.toml)
    [ "$status" = 7 ] && is_front $((10 * (put - 1))) && [ ! -s err ]
    count $? "upgrade n.toml, write $put fails: status $status"
done
status=$(fail 10 0 1 upgrade n.toml)
[ "$status" = 6 ] && [ "$(cat out)" = "read fault n.toml" ]
count $? "upgrade n.toml, its read fails: status $status, $(cat out)"

# The same of a trace that is checked: it has one read of a file, and one write, of which a part may be taken.
"$program" list n.toml N.java --trace >log </dev/null
"$program" trace log >whole </dev/null
for ((put = 1; put <= 2; put++)); do
    status=$(fail 10 "$put" 0 trace log)
    [ "$status" = 7 ] && is_front $((10 * (put - 1))) && [ ! -s err ]
    count $? "trace log, write $put fails: status $status"
done
status=$(fail 10 0 1 trace log)
[ "$status" = 6 ] && [ "$(cat out)" = "read fault log" ]
count $? "trace log, its read fails: status $status, $(cat out)"
echo "$passed passed, $failed failed"
[ "$failed" = 0 ]
