#!/usr/bin/env bash
# Times the built program on a class of one field with 65,536 values, all of them valid, and prints figures: the best
# wall time of several runs, values per second, peak memory, writes, and start-up. It judges nothing and never fails.
#
# It needs bash 5 and the program (run ./korat once). Peak memory needs GNU time as /usr/bin/time, the number of writes
# needs strace; where one isn't there, the script says so in place of the figure.
#
#     bench/list.sh [RUNS]      how many runs each figure is the best of, 10 where it isn't said
source "$(dirname "$(readlink -f "$0")")/common.sh"
values=65536

fin="$work/fin.toml"
source="$work/Cell.java"
echo 'class Cell { int v; boolean repOk() { return v >= 0; } }' >"$source"
cat >"$fin" <<TOML
root = "Cell"
fuel = 1000
[objects]
Cell = 1
[fields]
"Cell.v" = [{ from = 0, to = $((values - 1)) }]
TOML

writes() {
    if command -v strace >/dev/null; then
        strace -f -e trace=write,writev -o "$work/calls" "$program" list "$fin" "$source" >/dev/null 2>&1
        grep -cE 'writev?\(' "$work/calls" || echo "not measured: strace traced nothing"
    else
        echo "not measured: no strace"
    fi
}

"$program" list "$fin" "$source" >"$work/report"
null=$(least_time /dev/null list "$fin" "$source")
file=$(least_time "$work/report" list "$fin" "$source")
echo "lines written           $(wc -l <"$work/report") ($(wc -c <"$work/report") bytes)"
echo "last line               $(tail -n 1 "$work/report")"
echo "time, to /dev/null      $null us, the best of $runs"
echo "time, to a file         $file us, the best of $runs"
echo "values per second       $((values * 1000000 / (null > 0 ? null : 1))), to /dev/null"
echo "peak memory             $(peak_memory list "$fin" "$source")"
echo "writes                  $(writes)"
echo "start-up (no words)     $(least_time /dev/null) us, the best of $runs"
exit 0
