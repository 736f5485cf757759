#!/usr/bin/env bash
# Times listings by 1, 2, 4 and 8 workers, in turns, so that another load on the machine slows all alike. Of each listing it
# prints for each number of workers the least wall time and the least processor time of some runs, and their ratios to one
# worker's; and to those of as many runs by one worker at once, since a processor is slower where its neighbours work, too: of each
# the least. And of a run with --trace: how many entries were scanned and taken in, how many drains there were, how many looks,
# how many rests were split off for others, how many events the log has, and whether the listing's bytes are one worker's. Then
# the same over deques (--pool deque), whose times are beside those of the board with as many workers; and
# the same times for the trees of the demo, and the peak memory. First it says how many processors the machine has, and how
# many of them were free in the second before. It judges nothing and never fails.
#
# Entries scanned are the sum over the lines `report`, drains the lines `drain`. A look is a take that found nothing left, or a
# part that a full board gave back, which is reported again. A rest that is split off is a line `steal`. An event is a hold of the lock,
# but that a rest that is split off is two more in its report's.
#
# It needs bash 5 and the program (run ./korat once, or KORAT names another one). Peak memory needs GNU time as /usr/bin/time;
# where it isn't there, the script says so in place of the figure.
#
#     bench/pool.sh [RUNS [WORD..]]     how many runs each figure is the best of, 3 where it isn't said; and of the listings
#                                       those whose names begin with one of these words: trees, few, red-black, heap, flat,
#                                       deep, demo. All, where none is said
#
# NODES says of how many nodes the trees are, 11 and 12 where it isn't said; POOL whether the board's times are taken alone
# (board), or those over deques (deque); WINDOW how many rows a board keeps, 4,096 where it isn't said.
words=("${@:2}")
set -- "${1:-3}"
source "$(dirname "$(readlink -f "$0")")/common.sh"
examples="$(dirname "$(readlink -f "$0")")/../examples"
counts=(1 2 4 8)
sizes=(${NODES-11 12})
window=(${WINDOW+--window "$WINDOW"})

# Whether a listing is asked for.
is_asked() {
    local word
    [ ${#words[@]} -gt 0 ] || return 0
    for word in "${words[@]}"; do
        [[ "$1" != "$word"* ]] || return 0
    done
    return 1
}

# How many processors were free over a second, in hundredths.
free_processors() {
    local all idle later_all later_idle
    read -r all idle < <(awk '/^cpu / { print $2 + $3 + $4 + $5 + $6 + $7 + $8 + $9, $5 + $6 }' /proc/stat)
    sleep 1
    read -r later_all later_idle < <(awk '/^cpu / { print $2 + $3 + $4 + $5 + $6 + $7 + $8 + $9, $5 + $6 }' /proc/stat)
    echo $(((later_idle - idle) * 100 * $(nproc) / (later_all > all ? later_all - all : 1)))
}

# Wall and processor time of a run of the program with these words, in thousandths of a second; its output goes to a file.
times() {
    local TIMEFORMAT='%3R %3U %3S' wall user system
    read -r wall user system < <({ time "$program" "$@" >"$work/report" 2>/dev/null; } 2>&1)
    echo "$((10#${wall/./})) $((10#${user/./} + 10#${system/./}))"
}

ratio() {
    awk -v a="$1" -v b="$2" 'BEGIN { printf "%.2f", a / (b > 0 ? b : 1) }'
}

# As many runs at once as is said first, of the program with these words: their wall time, and the processor time of each.
times_beside() {
    local count=$1 TIMEFORMAT='%3R %3U %3S' wall user system copy
    shift
    read -r wall user system < <({ time {
        for ((copy = 0; copy < count; copy++)); do "$program" "$@" >"$work/beside$copy" 2>/dev/null & done
        wait
    }; } 2>&1)
    echo "$((10#${wall/./})) $(((10#${user/./} + 10#${system/./}) / count))"
}

# The least times for each number of workers, in turns: of a command, its words before and after. `least_wall` and
# `least_used` have them by the number of workers, `beside_wall` and `beside_used` those of one worker beside as many others as
# there are processors for.
declare -A least_wall least_used beside_wall beside_used
take_times() {
    local command=$1 run count wall used
    shift
    for ((run = 0; run < runs; run++)); do
        for count in "${counts[@]}"; do
            read -r wall used < <(times "$command" --workers "$count" "$@")
            ((run > 0 && least_wall[$count] <= wall)) || least_wall[$count]=$wall
            ((run > 0 && least_used[$count] <= used)) || least_used[$count]=$used
            ((count > 1 && count <= $(nproc))) || continue
            read -r wall used < <(times_beside "$count" "$command" --workers 1 "$@")
            ((run > 0 && beside_wall[$count] <= wall)) || beside_wall[$count]=$wall
            ((run > 0 && beside_used[$count] <= used)) || beside_used[$count]=$used
        done
    done
}

say_times() {
    printf '  %s: %s ms, %s of one; processor %s ms, %s of one' "$1" \
        "${least_wall[$1]}" "$(ratio "${least_wall[$1]}" "${least_wall[1]}")" \
        "${least_used[$1]}" "$(ratio "${least_used[$1]}" "${least_used[1]}")"
    [ -n "${beside_wall[$1]-}" ] || return 0
    printf ' (%s and %s of one of %s at once)' "$(ratio "${least_wall[$1]}" "${beside_wall[$1]}")" \
        "$(ratio "${least_used[$1]}" "${beside_used[$1]}")" "$1"
}

# What the log says of a run: entries scanned, drains, looks, rests split off, events.
read_trace() {
    awk '
        /^(take|giveup|steal|report|look|drain|stop) / { events++ }
        /^steal / { steals++ }
        /^report / { tried += $6 }
        /^look / { looks++ }
        /^drain / { drains++ }
        END { printf "%d %d %d %d %d\n", tried, drains, looks, steals, events }' "$1"
}

# A listing under a name.
figures() {
    local name=$1 count scanned drains looks laid_out events same
    is_asked "$name" || return 0
    shift
    "$program" list "$@" >"$work/one"
    echo "$name: $(tail -n 1 "$work/one"), the best of $runs"
    if [ "${POOL-}" != deque ]; then
        take_times list "${window[@]}" "$@"
        for count in "${counts[@]}"; do
            "$program" list --workers "$count" "${window[@]}" "$@" >"$work/many"
            if cmp -s "$work/one" "$work/many"; then same="the same bytes"; else same="OTHER BYTES"; fi
            "$program" list --workers "$count" "${window[@]}" --trace "$@" >"$work/traced"
            read -r scanned drains looks laid_out events < <(read_trace "$work/traced")
            say_times "$count"
            echo "; entries $scanned, drains $drains, looks $looks, rests split off $laid_out, events $events ($((events * 1000 / (least_wall[$count] + 1))) a second), $same"
        done
    fi
    [ "${POOL-}" = board ] || deque_figures "$@"
}

# The same listing over deques, where no lock is held.
deque_figures() {
    local count same
    local -A board=()
    for count in "${counts[@]}"; do board[$count]=${least_wall[$count]-0}; done
    take_times list --pool deque "$@"
    echo "  over deques:"
    for count in "${counts[@]}"; do
        "$program" list --workers "$count" --pool deque "$@" >"$work/many"
        if cmp -s "$work/one" "$work/many"; then same="the same bytes"; else same="OTHER BYTES"; fi
        say_times "$count"
        echo "; $(ratio "${least_wall[$count]}" "${board[$count]}") of the board's, $same"
    done
}

# The trees of the demo, which has no trace.
demo_figures() {
    local name="demo $1" count
    is_asked "$name" || return 0
    take_times demo "$1"
    echo "$name: $(tail -n 1 "$work/report"), the best of $runs"
    for count in "${counts[@]}"; do
        say_times "$count"
        echo "; peak $(peak_memory demo --workers "$count" "$1")"
    done
}

# A cell with so many values.
flat() {
    echo 'class Cell { int v; boolean repOk() { return v % 7 == 0; } }' >"$work/Cell.java"
    printf 'root = "Cell"\nfuel = 1000\n[objects]\nCell = 1\n[fields]\n"Cell.v" = [{ from = 0, to = %s }]\n' $(($1 - 1)) >"$work/flat.toml"
    figures "flat keys, $1" "$work/flat.toml" "$work/Cell.java"
}

# Eleven numbers of four values, where all work lies below one value of the first.
deep() {
    local fields="a b c d e f g h i j k" field
    {
        echo "class Deep {"
        for field in $fields; do echo "    int $field;"; done
        echo "    boolean repOk() {"
        echo "        if (a != 1) return false;"
        echo "        return (b + c + d + e + f + g + h + i + j + k) % 16 == 0;"
        echo "    }"
        echo "}"
    } >"$work/Deep.java"
    {
        printf 'root = "Deep"\nfuel = 1000\n[objects]\nDeep = 1\n[fields]\n'
        for field in $fields; do echo "\"Deep.$field\" = [{ from = 0, to = 3 }]"; done
    } >"$work/deep.toml"
    figures "deep: all below one first key" "$work/deep.toml" "$work/Deep.java"
}

free=$(free_processors)
printf 'processors %s, free before %d.%02d\n' "$(nproc)" $((free / 100)) $((free % 100))
for nodes in "${sizes[@]}"; do
    sed "s/== 3/== $nodes/" "$examples/trees/Tree.java" >"$work/Tree.java"
    sed "s/Node = 3/Node = $nodes/" "$examples/trees/fin.toml" >"$work/trees.toml"
    figures "trees of $nodes nodes" "$work/trees.toml" "$work/Tree.java"
    # The same search, of which few rows come: a chain to the right of three nodes at the top.
    sed -i 's/\(return seen.size() == [0-9]*\);/\1 \&\& root.left == null \&\& root.right.left == null \&\& root.right.right.left == null;/' "$work/Tree.java"
    figures "few of the trees of $nodes nodes" "$work/trees.toml" "$work/Tree.java"
done
sed "s/Entry = 4/Entry = 7/; s/to = 4/to = 7/g; s/fuel = .*/fuel = 100000/" "$examples/red-black-tree/fin.toml" >"$work/red.toml"
figures "red-black trees of at most 7 nodes" "$work/red.toml" "$examples/red-black-tree/RedBlackTree.java"
sed "s/to = 4/to = 7/g; s/to = 2/to = 5/" "$examples/heap-array/fin.toml" >"$work/heap.toml"
figures "heaps of at most 7 elements" "$work/heap.toml" "$examples/heap-array/HeapArray.java"
flat 20000
flat 65536
deep
for nodes in "${sizes[@]}"; do
    demo_figures "$nodes"
done
