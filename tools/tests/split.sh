#!/usr/bin/env bash
# Tests of tools/split: parts of listings of examples/, and of a listing that is too long to be tried whole.
. "$(dirname "$(readlink -f "$0")")/common.bash"

# The words of each part, tried one behind another: the rows are the whole listing's, and no part is heavier than twice the
# mean: parts NAME PARTS FIN SOURCE..
parts() {
    local name=$1 number=$2 tried most=0 sum=0 words
    shift 2
    run 0 "$name, split" "$tools/split" -s 100 -n "$number" "$@"
    mv out cuts
    [ "$(wc -l <cuts)" = "$number" ]
    count $? "$name: $(wc -l <cuts) parts, and not $number"
    : >rows
    while read -r _ words; do
        "$KORAT" list $words -- "$@" >part </dev/null
        sed '$d' part >>rows
        tried=$(sed -n '$s/.* //p' part)
        sum=$((sum + tried))
        [ "$tried" -le "$most" ] || most=$tried
    done <cuts
    "$KORAT" list -- "$@" </dev/null | sed '$d' | cmp -s - rows
    count $? "$name: the parts' rows aren't the listing's"
    [ $((most * number)) -le $((2 * sum)) ]
    count $? "$name: the largest of $number parts has $most of $sum"
}

# ---- a program without a class

make_numbers
program=$KORAT
export KORAT=$work/numbers
parts "numbers" 1 fin.toml A.java
parts "numbers" 2 fin.toml A.java
parts "numbers" 16 fin.toml A.java

# Where nothing of more than 200 candidates ends in time, the parts are estimated: their rows are still the listing's.
run 0 "numbers that are estimated" env SLOW=200 "$tools/split" -n 4 fin.toml A.java
while read -r _ words; do
    ./numbers list $words -- fin.toml A.java | sed '$d'
done <out >rows
./numbers list -- fin.toml A.java | sed '$d' | cmp -s - rows && [ "$(wc -l <out)" = 4 ]
count $? "numbers that are estimated: the parts' rows aren't the listing's"

# ---- words and files that are wrong

refuse 2 "no words" "$tools/split"
refuse 2 "no source" "$tools/split" fin.toml
refuse 2 "no parts" "$tools/split" -n 0 fin.toml A.java
refuse 2 "parts that are no number" "$tools/split" -n two fin.toml A.java
refuse 2 "seconds that are no number" "$tools/split" -s x fin.toml A.java
refuse 2 "an unknown option" "$tools/split" -x 1 fin.toml A.java

# ---- listings of examples/

export KORAT=$program
if [ -x "$KORAT" ]; then
    for name in trees disjoint-set ring-buffer; do
        parts "$name" 6 "$top/examples/$name/fin.toml" "$top/examples/$name/"*.java
    done
    parts "cell" 2 "$top/examples/cell/fin.toml" "$top/examples/cell/Cell.java"
    refuse 6 "a missing file" "$tools/split" none.toml A.java
    sed 's/fuel = .*/fuel = 20/' "$top/examples/trees/fin.toml" >little.toml
    refuse 5 "little fuel" "$tools/split" little.toml "$top/examples/trees/Tree.java"
    printf 'class A { #' >A.java
    refuse 3 "a source that is refused" "$tools/split" "$top/examples/cell/fin.toml" A.java
else
    echo "9 not tried: there is no program"
fi

finish
