#!/usr/bin/env bash
# Tests of tools/watch: rows and what it says meanwhile, rows that are gone on with after a call that was killed, and what it says.
. "$(dirname "$(readlink -f "$0")")/common.bash"

make_numbers
program=$KORAT
export KORAT=$work/numbers
./numbers list -- fin.toml A.java | sed '$d' >rows

run 0 "a whole listing" "$tools/watch" fin.toml A.java
cmp -s rows out && grep -qx 'watch: the end, behind [0-9]* rows of this call' err
count $? "a whole listing: $(cat err)"

# What is said meanwhile: rows, how many a second, a key, and the share of the keys before it once there was time to ask.
export DIGITS=7 DIVISOR=1
./numbers list -- fin.toml A.java | sed '$d' >many
WATCH_SECONDS=0 run 0 "a listing with its progress" "$tools/watch" fin.toml A.java
cmp -s many out && [ "$(wc -l <many)" -gt 1000 ]
count $? "a listing with its progress: other rows"
[ "$(wc -l <err)" -gt 1 ] && ! sed '$d' err | grep -vqE '^watch: [0-9]+ rows, [0-9]+ a second, at 0(\.[0-9])+(, about [0-9]+ %)?$'
count $? "a listing with its progress: $(cat err)"
# The share is asked for in a twentieth of the time, and in a third of a second at the beginning: enough, unless the machine is loaded.
started=$(date +%s%N)
./numbers list -- fin.toml A.java >many
if [ $(($(date +%s%N) - started)) -lt 100000000 ]; then
    grep -qE ', about [0-9]+ %$' err
    count $? "the share of a listing: $(cat err)"
else
    echo "1 not tried: this machine is too slow now"
fi
unset DIGITS DIVISOR

# A part of it.
key=$(sed -n '20s/ .*//p' rows)
run 0 "from a key" "$tools/watch" --from "$key" fin.toml A.java
sed '1,20d' rows | cmp -s - out
count $? "from a key: other rows"
run 0 "to a key" "$tools/watch" --to "$key" fin.toml A.java
sed '20q' rows | cmp -s - out
count $? "to a key: other rows"

# A file of rows that a killed call left: whole rows, none, or a row of which a part is there.
go_on() {
    cp begun file
    "$tools/watch" fin.toml A.java >>file 2>err </dev/null
    [ $? = 0 ] && cmp -s rows file
    count $? "rows that are gone on with, $1: $(tail -n 1 err)"
}
sed '5q' rows >begun
go_on "whole rows"
printf '%s' "$(sed -n '6p' rows | cut -c 1-9)" >>begun
go_on "a part of a row"
: >begun
go_on "no rows"
printf '0.' >begun
go_on "a part of the first row"
cp rows begun
go_on "all rows"
echo "valid 3 tried 4" >begun
cp begun file
"$tools/watch" fin.toml A.java >>file 2>err </dev/null
[ $? = 2 ] && cmp -s begun file && [ "$(wc -l <err)" = 1 ]
count $? "a file that ends with no row: $(cat err)"

# A call that is killed in a step, and the one behind it.
: >file
SLOW=300 "$tools/watch" fin.toml A.java >>file 2>err </dev/null &
sleep 2
kill -TERM $!
wait $!
"$tools/watch" fin.toml A.java >>file 2>err </dev/null
cmp -s rows file
count $? "a call that was killed, and gone on with"

# ---- words that are wrong

refuse 2 "no words" "$tools/watch"
refuse 2 "no source" "$tools/watch" fin.toml
refuse 2 "no cut" "$tools/watch" --from x fin.toml A.java
refuse 2 "a cut without a number" "$tools/watch" --to
refuse 2 "an unknown option" "$tools/watch" --limit 3 fin.toml A.java

# ---- listings of examples/

export KORAT=$program
if [ -x "$KORAT" ]; then
    fin=$top/examples/trees/fin.toml
    source=$top/examples/trees/Tree.java
    run 0 "trees" "$tools/watch" "$fin" "$source"
    sed '$d' "$top/examples/trees/expected" | cmp -s - out
    count $? "trees: other rows"
    refuse 6 "a missing file" "$tools/watch" none.toml "$source"
    sed 's/fuel = .*/fuel = 20/' "$fin" >little.toml
    refuse 5 "little fuel" "$tools/watch" little.toml "$source"
else
    echo "3 not tried: there is no program"
fi

finish
