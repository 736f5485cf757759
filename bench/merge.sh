#!/usr/bin/env bash
# Times `korat merge` beside `LC_ALL=C sort -m` of the same files, and of many files beside one; prints the best wall times,
# their ratios and peak memory beside the files' bytes. It judges nothing and never fails.
#
#     bench/merge.sh [RUNS [FILES [WIDTH]]]      how many runs each figure is the best of, 5 where it isn't said; how many files, 64;
#                                                rows of four numbers below so much, 24
#
# `sort -m` looks at no key, no span and no count; it shows here the cost of reading, comparing and writing so many lines.
# It needs bash 5, awk and the program (run ./korat once, or KORAT names another one). Peak memory needs GNU time as
# /usr/bin/time.
files=${2:-64}
width=${3:-24}
set -- "${1:-5}"
source "$(dirname "$(readlink -f "$0")")/common.sh"
cd "$work" || exit 1

{
    printf 'root = "Four"\nfuel = 100\n[objects]\nFour = 1\n[fields]\n'
    printf '"Four.%s" = [{ from = 1, to = '"$width"' }]\n' a b c d
} >fin.toml
echo 'class Four { int a; int b; int c; int d; boolean repOk() { return true; } }' >Four.java

"$program" shard fin.toml Four.java >whole || exit 0
awk -v files="$files" 'NR > 1 && $1 != "valid" { key[++rows] = $1 } END { for (n = 1; n < files; n++) print key[int(rows * n / files)] }' whole >cuts
parts=()
last=start
for cut in $(cat cuts) end; do
    words=()
    [ "$last" = start ] || words+=(--from "$last")
    [ "$cut" = end ] || words+=(--to "$cut")
    part=part$(printf '%03d' ${#parts[@]})
    "$program" shard fin.toml Four.java "${words[@]}" >"$part" || exit 0
    parts+=("$part")
    last=$cut
done
mapfile -t parts < <(printf '%s\n' "${parts[@]}" | awk 'BEGIN { srand(1) } { print rand(), $0 }' | sort | cut -d' ' -f2)

# The least wall time of some runs of these words, in microseconds.
least() {
    local best=0 before after run
    for ((run = 0; run < runs; run++)); do
        before=${EPOCHREALTIME/[.,]/}
        "$@" >out 2>/dev/null
        after=${EPOCHREALTIME/[.,]/}
        if ((run == 0 || after - before < best)); then best=$((after - before)); fi
    done
    echo "$best"
}

ratio() {
    awk -v a="$1" -v b="$2" 'BEGIN { printf "%.2f", a / b }'
}

merging=$(least "$program" merge "${parts[@]}")
"$program" list fin.toml Four.java | cmp -s - out || echo "the merge is not the listing"
sorting=$(LC_ALL=C least sort -m "${parts[@]}")
for part in "${parts[@]}"; do head -n 1 "$part" | grep -q '^shard start ' && break; done
one=$(least "$program" merge "$part")
bytes=$(cat "${parts[@]}" | wc -c)
echo "$files files, $(wc -l <out) lines of one, $bytes bytes in all"
echo "merge $merging us, sort -m $sorting us, ratio $(ratio "$merging" "$sorting")"
echo "merge of one file $one us, ratio $(ratio "$merging" "$one")"
echo "peak memory $(peak_memory merge "${parts[@]}"), the files $((bytes / 1024)) KB"
