#!/usr/bin/env bash
# Makes each allocation of a call of the built program fail in turn, and says how many there were.
#
#     bench/allocations.sh [--as WAY] [--workers N] [--window N | --pool deque] [FIN SOURCE..]     what is listed, the cell of
#                                                                                        examples/ where it isn't said
#     bench/allocations.sh [--as WAY] [--workers N] [--window N | --pool deque] --test METHOD FIN SOURCE..     what is tested
#
# WAY is `one`; `on`: all allocations from each number on; `size`: all of at least so many bytes, for each power of two;
# `thread`: all of one thread, for each of 66.
#
# Each run has to end as the whole listing does; or with status 8 and rows of it, from the first one on or none, and then
# `out of memory`; or, as long as it is the program's own words that are refused memory, with status 8 and no line. It stops
# with status 1 at the first run that doesn't. It proves nothing. A malloc of its own, which is loaded before the C
# library's, refuses. It needs bash 5, a C compiler as cc, and the program (run ./korat once); a listing of the cell has some
# 500 allocations. Several workers don't always make as many allocations, nor in the same order: what is said holds of each run.
top="$(cd "$(dirname "$(readlink -f "$0")")/.." && pwd)"
refuse_as=one
if [ "${1-}" = --as ]; then
    refuse_as=$2
    shift 2
fi
workers=
if [ "${1-}" = --workers ]; then
    workers=$2
    shift 2
fi
window=
if [ "${1-}" = --window ]; then
    window=$2
    shift 2
fi
pool=
if [ "${1-}" = --pool ]; then
    pool=$2
    shift 2
fi
method=
if [ "${1-}" = --test ]; then
    method=$2
    shift 2
fi
files=("$@")
[ ${#files[@]} -gt 0 ] || files=("$top/examples/cell/fin.toml" "$top/examples/cell/Cell.java")
words=(list "${files[@]}")
[ -z "$method" ] || words=(test "${files[0]}" "$method" "${files[@]:1}")
[ -z "$workers" ] || words+=(--workers "$workers")
[ -z "$window" ] || words+=(--window "$window")
[ -z "$pool" ] || words+=(--pool "$pool")
set --
source "$top/bench/common.sh"
source "$top/bench/refusing.sh"

whole="$work/whole"
"$program" "${words[@]}" >"$whole"
ends=$?

# Whether what was written is rows of the listing, from the first one on, and `out of memory`.
is_front() {
    [ "$(tail -n 1 "$work/out")" = 'out of memory' ] || return
    head -n -1 "$work/out" >"$work/front"
    head -n -1 "$whole" | head -n "$(wc -l <"$work/front")" | cmp -s - "$work/front"
}

[ "$(refuse 0 "$program" "${words[@]}")" = "$ends" ] && cmp -s "$whole" "$work/out" || exit 1
all=$(cat "$work/made")
same=0
silent=0
told=0
case $refuse_as in
size) numbers=$(for ((power = 3; power < 31; power++)); do echo $((1 << power)); done) ;;
thread) numbers=$(seq 66) ;;
*) numbers=$(seq "$all") ;;
esac
for number in $numbers; do
    status=$(refuse "$number" "$program" "${words[@]}")
    if [ "$status" = "$ends" ] && cmp -s "$whole" "$work/out"; then
        same=$((same + 1))
    elif [ "$status" = 8 ] && [ "$told" = 0 -o "$refuse_as" != one ] && [ ! -s "$work/out" ]; then
        silent=$((silent + 1))
    elif [ "$status" = 8 ] && is_front; then
        told=$((told + 1))
    else
        echo "allocation $number ($refuse_as): status $status, and it wrote:"
        cat "$work/out"
        exit 1
    fi
done
echo "$all allocations, refused in turn ($refuse_as): $silent end without a line, $told with 'out of memory', $same make no difference"
