#!/usr/bin/env bash
# What rounds cost, by the built program: entries scanned under windows, the first row and the whole time beside a run whose rows
# are kept until the end, and memory. It judges nothing and never fails.
#
#     bench/rounds.sh [RUNS [WORD..]]      how many runs each figure is the best of, 5 where it isn't said; and of scanned, streams
#                                          and memory those that are asked for. All, where none is said
#
# scanned: listings of flat and of deep keys, windows of 1, 100 and 4,096 rows, 1, 2, 4 and 8 workers: the entries of the reports
# in the log that `--trace` writes, as a ratio to one worker's, and whether the bytes are one worker's. A part that a full board gave
# back and that was dropped isn't among them; scans are counted by bench/pool.sh's processor time.
# streams: the trees of NODES nodes (12) into a file by 4 workers: when the first row is there, and the whole time, beside a run that
# writes when all is found: by the program that UNWINDOWED names, which knows no windows, or with a window of 65,536.
# memory: peak memory and events of the log, for trees of NODES - 2, NODES - 1 and NODES nodes: what an event costs is the slope.
#
# It needs bash 5 and the program (run ./korat once); peak memory needs GNU time as /usr/bin/time.
words=("${@:2}")
set -- "${1:-5}"
source "$(dirname "$(readlink -f "$0")")/common.sh"
examples="$(dirname "$(readlink -f "$0")")/../examples"
nodes=${NODES:-12}

is_asked() {
    [ ${#words[@]} = 0 ] || [[ " ${words[*]} " == *" $1 "* ]]
}

# Numbers in thousandths, as a ratio.
ratio() {
    awk -v a="$1" -v b="$2" 'BEGIN { printf "%.3f", a / (b > 0 ? b : 1) }'
}

# The trees of so many nodes, as files.
trees() {
    sed "s/== 3/== $1/" "$examples/trees/Tree.java" >"$work/Tree.java"
    sed "s/Node = 3/Node = $1/" "$examples/trees/fin.toml" >"$work/trees.toml"
}

# A class of one field with so many values: keys of one level. Seven fields of four values: keys of seven levels.
make_keys() {
    local field
    echo 'class Flat { int v; boolean repOk() { return v >= 0; } }' >"$work/Flat.java"
    printf 'root = "Flat"\nfuel = 1000\n[objects]\nFlat = 1\n[fields]\n"Flat.v" = [{ from = 0, to = 19999 }]\n' >"$work/flat.toml"
    {
        echo 'class Deep { int a; int b; int c; int d; int e; int f; int g;'
        echo '  boolean repOk() { return a >= 0 && b >= 0 && c >= 0 && d >= 0 && e >= 0 && f >= 0 && g >= 0; } }'
    } >"$work/Deep.java"
    {
        printf 'root = "Deep"\nfuel = 1000\n[objects]\nDeep = 1\n[fields]\n'
        for field in a b c d e f g; do
            echo "\"Deep.$field\" = [{ from = 0, to = 3 }]"
        done
    } >"$work/deep.toml"
}

# Of a trace: entries scanned and taken in, drains, and events.
read_trace() {
    awk '/^(take|giveup|steal|look|report|drain|stop) / { events++ } /^report / { tried += $6 } /^drain / { drains++ } END { printf "%d %d %d\n", tried, drains, events }' "$1"
}

figures_scanned() {
    local kind class window count one tried drains events time same
    make_keys
    for kind in flat deep; do
        class=${kind^}
        "$program" list "$work/$kind.toml" "$work/$class.java" >"$work/one"
        for window in 1 100 4096; do
            for count in 1 2 4 8; do
                set -- --workers "$count" --window "$window" "$work/$kind.toml" "$work/$class.java"
                "$program" list --trace "$@" >"$work/traced"
                read -r tried drains events < <(read_trace "$work/traced")
                [ "$count" != 1 ] || one=$tried
                time=$(least_time "$work/many" list "$@")
                if cmp -s "$work/one" "$work/many"; then same="the same bytes"; else same="OTHER BYTES"; fi
                echo "$kind, window $window, workers $count: $tried entries scanned, $(ratio "$tried" "$one") of one's; $drains drains, $events events; $time us; $same"
            done
        done
    done
}

# When the first line of a run is there, and when it ends, in microseconds: first_row PROGRAM WORD..
first_row() {
    local before after
    before=${EPOCHREALTIME/[.,]/}
    "$@" 2>/dev/null | {
        read -r _
        after=${EPOCHREALTIME/[.,]/}
        echo "$((after - before))"
        cat >/dev/null
    }
}

# The wall time of a run into a file, in microseconds: time_of PROGRAM WORD..
time_of() {
    local before=${EPOCHREALTIME/[.,]/}
    "$@" >"$work/many" 2>/dev/null
    echo $((${EPOCHREALTIME/[.,]/} - before))
}

figures_streams() {
    local run first least_first=0 most_first=0 time least=0 least_before=0 before name
    trees "$nodes"
    before=("$program" list --workers 4 --window 65536 "$work/trees.toml" "$work/Tree.java")
    name="a window of 65,536"
    if [ -n "${UNWINDOWED-}" ]; then
        before=("$UNWINDOWED" list --workers 4 "$work/trees.toml" "$work/Tree.java")
        name="$UNWINDOWED"
    fi
    for ((run = 0; run < runs; run++)); do
        first=$(first_row "$program" list --workers 4 "$work/trees.toml" "$work/Tree.java")
        ((run > 0 && least_first <= first)) || least_first=$first
        ((most_first >= first)) || most_first=$first
        time=$(time_of "${before[@]}")
        ((run > 0 && least_before <= time)) || least_before=$time
        time=$(time_of "$program" list --workers 4 "$work/trees.toml" "$work/Tree.java")
        ((run > 0 && least <= time)) || least=$time
    done
    echo "trees of $nodes nodes, 4 workers: first row after $least_first us, at most $most_first us; $least us whole, $(ratio "$least" "$least_before") of $least_before us by $name, the best of $runs in turns"
}

figures_memory() {
    local count size peak tried drains events last_peak last_events
    for count in 1 2 4 8; do
        last_peak=
        for size in $((nodes - 2)) $((nodes - 1)) "$nodes"; do
            trees "$size"
            "$program" list --workers "$count" --trace "$work/trees.toml" "$work/Tree.java" >"$work/traced"
            read -r tried drains events < <(read_trace "$work/traced")
            peak=$(peak_memory list --workers "$count" "$work/trees.toml" "$work/Tree.java")
            printf 'trees of %s nodes, workers %s: peak %s, %s drains, %s events' "$size" "$count" "$peak" "$drains" "$events"
            if [ -n "$last_peak" ] && [ -n "${peak%%not*}" ]; then
                printf ', %s bytes an event more' $(((${peak% KB} - last_peak) * 1024 / (events > last_events ? events - last_events : 1)))
            fi
            echo
            last_peak=${peak% KB}
            last_events=$events
        done
    done
}

for part in scanned streams memory; do
    ! is_asked "$part" || "figures_$part"
done
exit 0
