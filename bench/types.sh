#!/usr/bin/env bash
# Times the class rules and the typing rules against reading and parsing, in one run: a source of nearly 1 MiB of methods, and the
# same one with a bracket too many at its end, which the parser refuses there. The difference is what classes and types
# take. The two take turns, so that another load on the machine slows both. It prints the lines, the best wall times, their
# ratio and peak memory. It judges nothing and never fails.
#
#     bench/types.sh [RUNS]   how many runs each figure is the best of, 10 where it isn't said
source "$(dirname "$(readlink -f "$0")")/common.sh"
cd "$work" || exit 0
printf 'root = "A"\nfuel = 1\n[objects]\nA = 1\n' >fin.toml

# `class A { .. }` with methods that call each other.
methods() {
    printf 'class A {'
    awk 'BEGIN { for (i = 0; i < 11500; i++) printf " int m%d(int x) { int y = x + %d; if (y > 3) return this.m%d(y); return y; }", i, i, (i > 0 ? i - 1 : 0) }'
    printf ' }'
}

# The less of two times, where the first is 0 before there is one.
lesser() {
    if (($1 == 0 || $2 < $1)); then echo "$2"; else echo "$1"; fi
}

methods >Whole.java
(cat Whole.java && printf ' }') >Parsed.java
whole=0 parsed=0
for ((turn = 0; turn < runs; turn++)); do
    parsed=$(lesser "$parsed" "$(runs=1 least_time /dev/null check fin.toml Parsed.java)")
    whole=$(lesser "$whole" "$(runs=1 least_time /dev/null check fin.toml Whole.java)")
done
echo "source                  $(wc -c <Whole.java) bytes"
echo "read and parsed         $("$program" check fin.toml Parsed.java), $parsed us, the best of $runs"
echo "with classes and types  $("$program" check fin.toml Whole.java), $whole us"
echo "classes and types       $((whole - parsed)) us: $((100 * (whole - parsed) / (parsed > 0 ? parsed : 1))) % of reading and parsing"
echo "peak memory             $(peak_memory check fin.toml Whole.java)"
exit 0
