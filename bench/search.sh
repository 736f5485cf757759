#!/usr/bin/env bash
# Times listings by the built program, and prints of each the last line, the best wall time of several runs, candidates per
# second and peak memory: the binary trees of the demo, a sorted list, a search tree and a heap in an array, the folders of
# examples/ with larger bounds. The totals of the trees are known: 54,418 tried and 1,430 valid for 8 nodes, 815,100 and 16,796
# for 10, 3,162,018 and 58,786 for 11. It judges nothing and never fails.
#
# Where BEFORE names another program, the two take turns, so that another load on the machine slows both, and the bounds are
# larger. For each listing the least processor times of both are printed then, their ratio, and the middle one of the turns'
# ratios.
#
# It needs bash 5 and the program (run ./korat once, or KORAT names another one). Peak memory needs GNU time as /usr/bin/time;
# where it isn't there, the script says so in place of the figure.
#
#     bench/search.sh [RUNS [NODES..]]                     how many runs each figure is the best of, 3 where it isn't said; trees
#                                                          of so many nodes, 6, 7 and 8 where it isn't said
#     BEFORE=PROGRAM bench/search.sh [RUNS [NODES..]]      10 runs, trees of 9 and 10 nodes where it isn't said
sizes=("${@:2}")
if [ -n "${BEFORE-}" ]; then
    [ ${#sizes[@]} -gt 0 ] || sizes=(9 10)
    lists=40 trees=7 heaps=8
    set -- "${1:-10}"
else
    [ ${#sizes[@]} -gt 0 ] || sizes=(6 7 8)
    lists=20 trees=5 heaps=6
    set -- "${1:-3}"
fi
source "$(dirname "$(readlink -f "$0")")/common.sh"
examples="$(dirname "$(readlink -f "$0")")/../examples"

# The processor time of a listing by a program, in thousandths of a second: processor_time PROGRAM WORD..
processor_time() {
    local TIMEFORMAT='%3U %3S' user system
    read -r user system < <({ time "$1" list "${@:2}" >"$work/report" 2>/dev/null; } 2>&1)
    echo $((10#${user/./} + 10#${system/./}))
}

# A listing's figures by both programs, in turns, under a name.
compare() {
    local name=$1 run now before least=0 least_before=0 ratios=()
    shift
    for ((run = 0; run < runs; run++)); do
        before=$(processor_time "$BEFORE" "$@")
        now=$(processor_time "$program" "$@")
        ((run > 0 && least <= now)) || least=$now
        ((run > 0 && least_before <= before)) || least_before=$before
        ratios+=("$((now * 1000 / (before > 0 ? before : 1)))")
    done
    printf '%s\n' "${ratios[@]}" | sort -n | awk -v name="$name" -v now="$least" -v before="$least_before" -v last="$(tail -n 1 "$work/report")" '
        { ratio[NR] = $1 }
        END {
            printf "%s: %s; %d ms, before %d ms, the best of %d in turns: %.3f; in the middle turn %.3f\n",
                name, last, now, before, NR, now / (before > 0 ? before : 1), ratio[int((NR + 1) / 2)] / 1000
        }'
}

# A listing's figures, under a name.
figures() {
    local name=$1 time last tried
    if [ -n "${BEFORE-}" ]; then
        compare "$@"
        return
    fi
    shift
    time=$(least_time "$work/report" list "$@")
    last=$(tail -n 1 "$work/report")
    tried=${last##* }
    echo "$name: $last; $time us, the best of $runs; $((tried * 1000000 / (time > 0 ? time : 1))) candidates a second; $(peak_memory list "$@")"
}

for nodes in "${sizes[@]}"; do
    sed "s/== 3/== $nodes/" "$examples/trees/Tree.java" >"$work/Tree.java"
    sed "s/Node = 3/Node = $nodes/" "$examples/trees/fin.toml" >"$work/trees.toml"
    figures "trees of $nodes nodes" "$work/trees.toml" "$work/Tree.java"
done
sed "s/fuel = .*/fuel = 100000/; s/Node = 3/Node = $lists/; s/to = 3/to = $lists/" "$examples/sorted-list/fin.toml" >"$work/list.toml"
figures "sorted lists of at most $lists nodes" "$work/list.toml" "$examples/sorted-list/SortedList.java"
sed "s/Node = 3/Node = $trees/; s/to = 3/to = $trees/g" "$examples/binary-search-tree/fin.toml" >"$work/search.toml"
figures "search trees of at most $trees nodes" "$work/search.toml" "$examples/binary-search-tree/SearchTree.java"
sed "s/to = 4/to = $heaps/g; s/to = 2/to = $((heaps - 2))/" "$examples/heap-array/fin.toml" >"$work/heap.toml"
figures "heaps of at most $heaps elements" "$work/heap.toml" "$examples/heap-array/HeapArray.java"
