#!/usr/bin/env bash
# Tests of tools/mutate and tools/cover: which faults of a method a contract notices, which branches are reached, and wrong words.
. "$(dirname "$(readlink -f "$0")")/common.bash"
if ! command -v python3 >/dev/null; then
    echo "20 not tried: there is no python3"
    finish
    exit
fi

cat >Cell.java <<'END'
class Cell {
    int v;
    Cell next;

    boolean repOk() {
        if (v < 0)
            return false;
        return next == null || next.v == v;
    }

    //@ ensures v == \old(v) + 1 || v == 3;
    void grow(int by) {
        int old = v;
        if (v < 3) {
            v += 1;
            if (by > 9) { v = 7; }
        } else
            v = 3;
        old = old > 1 ? old : 1;
    }

    //@ ensures v >= 0;
    void none() {
        v = v * 2;
    }
}
END
cat >fin.toml <<'END'
root = "Cell"
fuel = 1000
[objects]
Cell = 2
[fields]
"Cell.v" = [{ from = -1, to = 3 }]
"Cell.next" = ["null", "Cell"]
[params]
"grow.by" = [0, 1]
END

refuse 2 "mutate without words" "$tools/mutate"
refuse 2 "mutate without a method" "$tools/mutate" fin.toml Cell.java
refuse 2 "mutate without a source" "$tools/mutate" --method grow fin.toml
refuse 2 "mutate with an unknown option" "$tools/mutate" -x grow fin.toml Cell.java
refuse 2 "mutate with a file that isn't there" "$tools/mutate" --method grow fin.toml none.java
refuse 2 "cover without words" "$tools/cover"
refuse 2 "cover with seconds that are no number" "$tools/cover" --seconds x fin.toml Cell.java

if [ ! -x "$KORAT" ]; then
    echo "20 not tried: there is no program"
    finish
    exit
fi

# What nobody notices, and the last line.
run 1 "mutants of a method" "$tools/mutate" --method grow fin.toml Cell.java
cp out mutants
for line in 'Cell.java:16: `>` became `>=`' 'Cell.java:16: `9` became `10`' 'Cell.java:16: `v = 7;` was dropped' 'Cell.java:19: `1` became `2`'; do
    grep -qxF "$line, and nobody noticed" mutants
    count $? "a mutant that nobody notices: $line: $(cat mutants)"
done
for line in 'Cell.java:14: `<`' 'Cell.java:15: `+=`' 'Cell.java:18: `3` became `4`' 'Cell.java:15: `v += 1;` was dropped'; do
    ! grep -qF "$line" mutants
    count $? "a mutant that is noticed: $line"
done
tail -n 1 out | grep -qxE 'mutants [0-9]+ noticed [0-9]+ of [0-9]+ passing rows'
count $? "mutants of a method: $(tail -n 1 out)"
refuse 2 "mutants of a method that isn't there" "$tools/mutate" --method shrink fin.toml Cell.java
printf 'class Cell {' >Bad.java
run 3 "mutants of what is refused" env PATH="$work:$PATH" "$tools/mutate" --method grow fin.toml Bad.java

# Branches, with how many structures reach each.
run 1 "branches" "$tools/cover" --method grow fin.toml Cell.java
cat >wanted <<'END'
structures 20
size Cell=1: 8
size Cell=2: 12
Cell.java:6: 20: `if (v < 0)` is false
Cell.java:8: 16: behind `||`, `next.v == v`
Cell.java:14: 30: then of `if (v < 3)`
Cell.java:14: 10: else of `if (v < 3)`
Cell.java:16: not reached: then of `if (by > 9)`
Cell.java:16: 30: `if (by > 9)` is false
Cell.java:19: 20: the first side of `?:`, `old`
Cell.java:19: 20: the second side of `?:`, `1`
branches 8 reached 7
END
diff out wanted >differences
count $? "branches: $(cat differences)"

# The faults of an example's method that its contract doesn't notice are the ones that change nothing within the bounds.
example=$top/examples/sorted-list
run 1 "mutants of an example" "$tools/mutate" --method insertBehind "$example/fin.toml" "$example/SortedList.java"
[ "$(grep -c 'nobody noticed' out)" = 1 ] && grep -q 'SortedList.java:54: `<` became `<=`' out
count $? "mutants of an example: $(cat out)"

# A finitization of version 2: the root is an object domain.
sentinel=$top/examples/sentinel-list
run 0 "mutants with a finitization of version 2" "$tools/mutate" --method removeFirst "$sentinel/fin.toml" "$sentinel/SentinelList.java"
grep -qxE 'mutants [1-9][0-9]* noticed [1-9][0-9]* of 3 passing rows' out
count $? "mutants with a finitization of version 2: $(cat out)"
run 0 "branches with a finitization of version 2" "$tools/cover" "$sentinel/fin.toml" "$sentinel/SentinelList.java"

# What is kept: a source for each mutant, and the answers.
run 1 "mutants that are kept" "$tools/mutate" --method grow --keep kept fin.toml Cell.java
[ "mutants $(wc -l <kept/answers) noticed $(grep -c '^[0-9]* noticed ' kept/answers)" = "$(sed -nE '$s/ of .*//p' out)" ] &&
    [ "$(ls kept/*/Cell.java | wc -l)" = "$(wc -l <kept/answers)" ]
count $? "mutants that are kept: $(head -n 3 kept/answers)"
refuse 2 "a folder that can't be made" "$tools/mutate" --method grow --keep fin.toml/kept fin.toml Cell.java
refuse 2 "--keep without a folder" "$tools/mutate" fin.toml Cell.java --method grow --keep

# The mutants of each example's methods on a Java virtual machine, on all structures that the test lists: what is noticed is the same.
if command -v javac >/dev/null; then
    . "$tools/java/run.bash"
    tool=mutate
    find_classes && javac -nowarn -proc:none -cp "$classes/tools.jar" -d made "$tools"/tests/mutants/*.java 2>err
    count $? "the mutants' runner isn't compiled: $(head -n 1 err)"
    for report in "$top"/examples/*/test.*; do
        example=$(dirname "$report") method=${report##*.}
        rm -rf kept
        "$tools/mutate" --method "$method" --keep kept "$example/fin.toml" "$example"/*.java >out 2>err
        java "${java_options[@]}" -cp "$classes/tools.jar:made" replay.MutantsOnJvm "$example/fin.toml" "$method" "$report" kept "$example"/*.java >here 2>err
        [ $? = 0 ] && [ "$(tail -n 1 here)" = "same $(wc -l <kept/answers) differ 0 uncompiled 0" ] && [ -s kept/answers ]
        count $? "mutants of $method of $(basename "$example") on a virtual machine: $(tail -n 3 here err)"
    done
else
    echo "7 not tried: there is no JDK"
fi

finish
