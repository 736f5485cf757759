#!/usr/bin/env bash
# Tests of tools/draw: rows of every kind, one row of many, and what is no row. Where Graphviz is there, it reads them.
. "$(dirname "$(readlink -f "$0")")/common.bash"

# A row's graph has to have exactly these lines between its first three and its last one: draw NAME ROW LINE..
draw() {
    local name=$1
    echo "$2" >row
    shift 2
    given=row run 0 "$name" "$tools/draw"
    printf '  %s\n' "$@" >wanted
    sed '1,3d; $d' out | cmp -s wanted - && [ ! -s err ]
    count $? "$name: $(sed '1,3d; $d' out)"
}

draw "an object" '0.1 Cell#0{v=1,b=true}' '"Cell#0" [label="{Cell#0|v\ =\ 1|b\ =\ true}"];'
draw "an object without fields" '0 C#0{}' '"C#0" [label="{C#0}"];'
draw "null" '0.0 N#0{next=null}' '"N#0" [label="{N#0}"];'
draw "a negative number" '0.0 C#0{v=-5}' '"C#0" [label="{C#0|v\ =\ -5}"];'
draw "references" '0.2.1 N#0{next=N#1} N#1{next=N#0}' '"N#0" [label="{N#0}"];' '"N#1" [label="{N#1}"];' \
    '"N#0" -> "N#1" [label="next"];' '"N#1" -> "N#0" [label="next"];'
draw "an empty array" '0.0.0 S#0{a=int[]#0} int[]#0[]' '"S#0" [label="{S#0}"];' '"int[]#0" [label="{int[]#0}"];' \
    '"S#0" -> "int[]#0" [label="a"];'
draw "an array of numbers" '0.0.2.0.1 int[]#0[0,1]' '"int[]#0" [label="{int[]#0|{<e0> 0|<e1> 1}}"];'
draw "an array of references, null among them" '0.0 E[]#0[null,E#0] E#0{}' \
    '"E[]#0" [label="{E[]#0|{<e0>|<e1>}}"];' '"E#0" [label="{E#0}"];' '"E[]#0":e1 -> "E#0";'
draw "an array of arrays of sets" '0.0 HashSet<E>[][]#0[HashSet<E>[]#1] HashSet<E>[]#1[]' \
    '"HashSet<E>[][]#0" [label="{HashSet\<E\>[][]#0|{<e0>}}"];' '"HashSet<E>[]#1" [label="{HashSet\<E\>[]#1}"];' \
    '"HashSet<E>[][]#0":e0 -> "HashSet<E>[]#1";'

draw "a row of a test" '0.1 pass C#0{v=1}' '"C#0" [label="{C#0|v\ =\ 1}"];'
draw "a row of a test with arguments" '0.1 ensures 2 (x=1,y=C#0) C#0{v=1}' '"C#0" [label="{C#0|v\ =\ 1}"];'
grep -q 'label="0.1 ensures 2 (x=1,y=C#0)"; labelloc' out
count $? "the title of a row of a test: $(sed -n 2p out)"
draw "a row of a test that traps" '0.1 check-trap NullPointerException N#0{next=null}' '"N#0" [label="{N#0}"];'

# ---- which rows

printf '0.1 C#0{v=1}\n0.10 C#0{v=10}\n0.2 C#0{v=2}\n' >rows
given=rows run 0 "all rows" "$tools/draw"
[ "$(grep '^digraph' out)" = $'digraph "0.1" {\ndigraph "0.10" {\ndigraph "0.2" {' ]
count $? "all rows: $(grep '^digraph' out)"
given=rows run 0 "one row" "$tools/draw" 0.10
[ "$(grep '^digraph' out)" = 'digraph "0.10" {' ] && grep -q 'label="0.10"' out
count $? "one row: $(cat out)"
given=rows refuse 1 "a key that isn't there" "$tools/draw" 0.3
for line in 'valid 3 tried 4' 'valid 3 failing 1 tried 4' 'more 0.2' 'spent 0.3' 'out of memory'; do
    { cat rows && echo "$line"; } >report
    given=report run 0 "a report" "$tools/draw"
    [ "$(grep -c '^digraph' out)" = 3 ] && [ ! -s err ]
    count $? "a report that ends with '$line'"
done
for line in 'fin.toml: F1 toml' 'X.java:1:2: P1' 'read fault a' 'usage fault' 'ok classes 1 slots 2' 'nodes 1 valid 1' '0.1 C#0' ''; do
    echo "$line" >report
    given=report refuse 1 "no row: '$line'" "$tools/draw"
done
refuse 2 "no key" "$tools/draw" 0..1
refuse 2 "two words" "$tools/draw" 0.1 0.2
refuse 2 "an option" "$tools/draw" -x

# ---- Graphviz

if command -v dot >/dev/null; then
    for folder in "$top"/examples/*/; do
        "$tools/draw" <"$folder/expected" >graphs
        [ "$(dot -Tplain graphs 2>err | grep -c '^graph')" = "$(($(wc -l <"$folder/expected") - 1))" ] && [ ! -s err ]
        count $? "Graphviz doesn't take examples/$(basename "$folder")"
    done
else
    echo "12 not tried: there is no Graphviz"
fi

finish
