#!/usr/bin/env bash
# Tries tools/replay: the examples' listings, wrong rows, values of other types than the subset has, tests of JUnit, and wrong
# words. All of it needs Java; where there is none, it says how many tries weren't made.
set -u
top=$(cd "$(dirname "$(readlink -f "$0")")/../.." && pwd)
program="${KORAT:-$top/crates/korat/out/korat}"
work=$(mktemp -d) || exit 1
trap 'rm -rf "$work"' EXIT
mkdir "$work/here" "$work/temporary"
export TMPDIR="$work/temporary"
cd "$work/here" || exit 1
passed=0
failed=0
untried=0
java=yes
command -v java >/dev/null && command -v javac >/dev/null || java=""
[ -z "$java" ] || "$top/tools/replay" >/dev/null 2>&1

count() {
    if [ "$1" = 0 ]; then
        passed=$((passed + 1))
    else
        failed=$((failed + 1))
        echo "failed: $2"
    fi
}

# Runs the tool: its output in `../out`, what it says in `../err`.
replay() {
    "$top/tools/replay" "$@" >../out 2>../err
}

# The rows on standard input, with these words, have to give this status and exactly these lines: rows STATUS LINES WORD..
rows() {
    local status=$1 lines=$2 ended
    shift 2
    if [ -z "$java" ]; then
        untried=$((untried + 1))
        return
    fi
    replay "$@"
    ended=$?
    [ "$ended" = "$status" ] && [ "$(cat ../out)" = "$lines" ] && [ ! -s ../err ]
    count $? "status $ended for $*: $(head -c 600 ../out ../err | tr '\n' '~')"
}

# Status 2, nothing on standard output, and one line that has this text: refused TEXT WORD..
refused() {
    local text=$1 ended
    shift
    if [ -z "$java" ]; then
        untried=$((untried + 1))
        return
    fi
    replay "$@"
    ended=$?
    [ "$ended" = 2 ] && [ ! -s ../out ] && [ "$(wc -l <../err)" = 1 ] && grep -qF -e "$text" ../err
    count $? "'$text' isn't said, status $ended for $*: $(head -c 600 ../out ../err | tr '\n' '~')"
}

# ---- the examples

for folder in "$top"/examples/*/; do
    cp "$folder"/fin.toml "$folder"/*.java .
    rows 0 "agree $(($(wc -l <"$folder/expected") - 1))" --all fin.toml ./*.java <"$folder/expected"
    rm ./*.java
done
for name in cell sorted-list heap-array two-stack-queue; do
    folder="$top/examples/$name"
    rows 0 "agree $(($(wc -l <"$folder/expected") - 1))" --plain --all "$folder/fin.toml" "$folder"/*.java <"$folder/expected"
done
# ---- rows that differ

list="$top/examples/sorted-list"
rows 1 'differs 0.0.1 SortedList#0{head=null,size=1}: repOk is false
too many 0.9 SortedList#0{head=Node#2,size=1} Node#2{value=2,next=null}: isomorphic to 0.1
agree 1 differ 2' "$list/fin.toml" "$list/SortedList.java" <<'END'
0.0.1 SortedList#0{head=null,size=1}
0.1 SortedList#0{head=Node#0,size=1} Node#0{value=2,next=null}
0.9 SortedList#0{head=Node#2,size=1} Node#2{value=2,next=null}
valid 3 tried 3
END
sed -e '/^0.0.0 /d' -e '/value=1.*value=2.*value=2/d' -e '$i 0.7 SortedList#0{head=Node#0,size=1} Node#0{value=3,next=null}' "$list/expected" >listing
rows 1 'missing SortedList#0{head=null,size=0}
missing SortedList#0{head=Node#0,size=3} Node#0{value=1,next=Node#1} Node#1{value=2,next=Node#2} Node#2{value=2,next=null}
too many 0.7 SortedList#0{head=Node#0,size=1} Node#0{value=3,next=null}: not within the bounds
agree 8 differ 3' --all "$list/fin.toml" "$list/SortedList.java" <listing
printf '0.1 Cell#0{v=1}\nmore 0.1\n' >more
rows 0 'agree 1' "$top/examples/cell/fin.toml" "$top/examples/cell/Cell.java" <more
refused "no whole listing" --all "$top/examples/cell/fin.toml" "$top/examples/cell/Cell.java" <more

# A run that throws is false; one that never ends has an answer of its own; what a class prints is no part of the report.
cat >Cell.java <<'END'
class Cell {
    int v;
    boolean repOk() {
        if (v == 0) throw new IllegalStateException();
        while (v == 1) ;
        if (v == 2) return repOk();
        assert v != 3;
        return v == 4;
    }
}
END
printf 'root = "Cell"\nfuel = 100\n[objects]\nCell = 1\n[fields]\n"Cell.v" = [{ from = 0, to = 4 }]\n' >cell.toml
for v in 0 1 2 3 4; do echo "0.$v Cell#0{v=$v}"; done >listing
echo 'valid 5 tried 5' >>listing
rows 1 'differs 0.0 Cell#0{v=0}: repOk throws java.lang.IllegalStateException
differs 0.1 Cell#0{v=1}: repOk takes more than 1000 steps, in the loop at Cell.java:5
differs 0.2 Cell#0{v=2}: repOk takes more than 1000 steps, in repOk, which calls itself at Cell.java:6
differs 0.3 Cell#0{v=3}: repOk throws java.lang.AssertionError
agree 1 differ 4' cell.toml Cell.java <listing
sed -i 's/fuel = 100/fuel = 1000000000/' cell.toml
rows 1 'differs 0.2 Cell#0{v=2}: repOk takes more than 1000000 steps, in repOk, which calls itself at Cell.java:6
agree 0 differ 1' cell.toml Cell.java <<<$'0.2 Cell#0{v=2}\nvalid 1 tried 1'
sed -i 's/fuel = 1000000000/fuel = 100/' cell.toml
printf '0.4 Cell#0{v=4}\nvalid 1 tried 5\n' >listing
rows 1 'undecided Cell#0{v=1}: repOk takes more than 1000 steps, in the loop at Cell.java:5
undecided Cell#0{v=2}: repOk takes more than 1000 steps, in repOk, which calls itself at Cell.java:6
agree 1 differ 2' --all cell.toml Cell.java <listing
# Of a listing that was spent the rows, and the first such structure.
printf 'spent 0.1\n' >listing
rows 1 'undecided Cell#0{v=1}: repOk takes more than 1000 steps, in the loop at Cell.java:5
agree 0 differ 1' --all cell.toml Cell.java <listing
# Of loops in each other, with calls in them: the one that doesn't end.
cat >Cell.java <<'END'
class Cell {
    int v;
    boolean repOk() {
        for (int i = 0; i < 3; i++) {
            int j = 0;
            while (v > 1 || i > v + 3) {
                for (int k = 0; k < 5; k++) {
                    j = more(j);
                }
            }
        }
        return v == 0 || down(9) == 1;
    }
    int more(int j) {
        int n = 0;
        while (n < 4) n++;
        return n + j;
    }
    int down(int n) {
        return n == 0 ? up(0) : down(n - 1);
    }
    int up(int n) {
        return n < 0 ? 1 : more(up(n + 1));
    }
}
END
rows 1 'undecided Cell#0{v=1}: repOk takes more than 1000 steps, in up, which calls itself at Cell.java:23
undecided Cell#0{v=2}: repOk takes more than 1000 steps, in the loop at Cell.java:6
undecided Cell#0{v=3}: repOk takes more than 1000 steps, in the loop at Cell.java:6
undecided Cell#0{v=4}: repOk takes more than 1000 steps, in the loop at Cell.java:6
agree 1 differ 4' --all cell.toml Cell.java <<<$'0.0 Cell#0{v=0}\nvalid 1 tried 5'

# ---- what adapt writes for null among numbers, for outer objects, and records

cat >Cell.java <<'END'
class Cell {
    Integer w;
    In in;
    Pair pair;
    class In { boolean ok() { return w == null; } }
    record Pair(int x, Integer y) { }
    boolean repOk() { return in.ok() && pair.equals(new Pair(1, null)); }
}
END
cat >cell.toml <<'END'
# In what Replay reads, null is -2147483648.
root = "Cell"
fuel = 1000
[objects]
Cell = 1
In = 1
Pair = 1
[fields]
"Cell.w" = [-2147483648, 1]
"Cell.in" = ["In"]
"Cell.pair" = ["null", "Pair"]
"In.outer" = ["Cell"]
"Pair.x" = [0, 1]
"Pair.y" = [-2147483648, 1]
END
rows 0 'agree 1' --all cell.toml Cell.java <<'END'
0.0.0.0.1.1.0 Cell#0{w=-2147483648,in=In#0,pair=Pair#0} In#0{outer=Cell#0} Pair#0{x=1,y=-2147483648}
valid 1 tried 5
END

# ---- classes as their authors write them

mkdir -p my/own
cat >my/own/Odd.java <<'END'
package my.own;

import java.util.ArrayList;
import java.util.HashSet;
import java.util.List;
import java.util.Set;

public class Odd<T extends Comparable<T>> extends Base<T> {
    enum Color { RED, BLACK }

    private final Color color;
    private char letter;
    private byte small;
    private short less;
    private long big;
    private T item;
    private Object kept;
    private final Node<T>[] nodes;
    private Set<T> cache = new HashSet<>();
    private static final List<Integer> ALL = new ArrayList<>();

    static {
        for (int i = 0; i < 3; i++) ALL.add(i);
    }

    private class Node<E> {
        E value;
        Color color;
        boolean mark;
        Odd<T> owner() { return Odd.this; }
        boolean isRed() { return color == Color.RED && Odd.this.big == 2; }
    }

    @SuppressWarnings("unchecked")
    Odd(int n) {
        color = Color.RED;
        nodes = (Node<T>[]) new Node[n];
    }

    public void insert(int n) throws Exception {
        size++;
    }

    private boolean repOk() {
        System.out.println("looked at");
        if (color == null || nodes == null || ALL.size() != 3) return false;
        for (Node<T> n : nodes) if (n == null || n.owner() != this || !n.isRed()) return false;
        java.util.function.IntPredicate above = n -> letter > n;
        return big == 2 && small == -1 && less == 300 && above.test('a') && (item == null || item.compareTo(item) == 0) && empty();
    }
}

class Base<T> {
    protected int size;
    boolean empty() { return size == 0; }
}
END
cat >odd.toml <<'END'
root = "Odd"
fuel = 1_000
objects = { Odd = 0x1, Node = 2, 'Item' = 1 }
arrays."Node[]" = { count = 1, lengths = [
    { from = 0, to = 1 }, # none or one
] }
[fields]
"Base.size" = [0, 1]
"Odd.color" = ["RED", "BLACK"]
"Odd.letter" = [97, 98]
"Odd.small" = [-1]
"Odd.less" = [300]
"Odd.big" = [{ from = 1, to = 2 }]
"Odd.item" = ["null", 5]
"Odd.kept" = ["Item"]
"Odd.nodes" = ["null", "Node[]"]
"Node[].*" = ["Node"]
"Node.value" = [7]
"Node.color" = [0, 1]
"Node.mark" = [true]
END
{
    number=0
    for color in 0 1; do
        for item in null 5; do
            echo "$((number++)) Odd#0{size=0,color=$color,letter=98,small=-1,less=300,big=2,item=$item,kept=Item#0,nodes=Node[]#0} Item#0{} Node[]#0[]"
            echo "$((number++)) Odd#0{size=0,color=$color,letter=98,small=-1,less=300,big=2,item=$item,kept=Item#0,nodes=Node[]#0} Item#0{} Node[]#0[Node#0] Node#0{value=7,color=0,mark=true}"
        done
    done
    echo 'valid 8 tried 9'
} >odd
if [ -n "$java" ]; then
    for way in --all "--all --plain"; do
        replay $way odd.toml my/own/Odd.java <odd
        [ $? = 0 ] && [ "$(cat ../out)" = 'agree 8' ] && [ "$(sort -u ../err)" = 'looked at' ]
        count $? "Odd, $way: $(head -c 600 ../out ../err | tr '\n' '~')"
    done
else
    untried=$((untried + 2))
fi

# What can't be mapped is said in one line.
sed '/looked at/d' my/own/Odd.java >Quiet.java
mapped() {
    sed "$1" odd >odd.rows
    sed "$2" odd.toml >odd2.toml
    refused "$3" --all odd2.toml Quiet.java <odd.rows
}
mapped 's/letter=98/letter=70000/' '' 'Odd.letter: 70000 is no char'
mapped 's/color=1/color=2/' '' 'Odd.color: 2 is no my.own.Odd$Color'
mapped 's/size=0/size=true/' '' 'Odd.size: true is no int'
mapped 's/item=5/itm=5/' '' 'the sources have no field Odd.itm'
mapped '' 's/Odd.item/Odd.itm/' 'the sources have no field Odd.itm'
mapped '' 's/"Node.mark" = .*/"Node.mark" = ["null"]/' 'Node.mark: null is no boolean'
mapped '' 's/"Node\[\].\*" = .*/"Node[].*" = ["Odd"]/' 'Node[].*: Odd is no my.own.Odd$Node'

# ---- tests of JUnit

# The test of a listing compiles beside the original class, and holds on a small runner with JUnit's two names: junit CALL FOLDER
junit() {
    local name
    if [ -z "$java" ]; then
        untried=$((untried + 1))
        return
    fi
    rm -rf ../junit && mkdir -p ../junit/org/junit/jupiter/api
    replay --junit "$1" "$2" "$3" || { count 1 "no test with $1: $(cat ../err)" && return; }
    name=$(sed -n 's/^class \([A-Za-z]*\) {$/\1/p' ../out)
    cp ../out "../junit/$name.java"
    cp "$3" ../junit/
    cat >../junit/org/junit/jupiter/api/Test.java <<'END'
package org.junit.jupiter.api;
@java.lang.annotation.Retention(java.lang.annotation.RetentionPolicy.RUNTIME)
public @interface Test { }
END
    cat >../junit/org/junit/jupiter/api/Assertions.java <<'END'
package org.junit.jupiter.api;
public class Assertions {
    public static void assertTrue(boolean held, String message) {
        if (!held) throw new AssertionError(message);
    }
}
END
    cat >../junit/Runner.java <<'END'
public class Runner {
    public static void main(String[] names) throws Exception {
        int held = 0, not = 0;
        var made = Class.forName(names[0]).getDeclaredConstructor();
        made.setAccessible(true);
        for (var method : Class.forName(names[0]).getDeclaredMethods()) {
            if (!method.isAnnotationPresent(org.junit.jupiter.api.Test.class)) continue;
            method.setAccessible(true);
            try {
                method.invoke(made.newInstance());
                held++;
            } catch (java.lang.reflect.InvocationTargetException thrown) {
                not++;
            }
        }
        System.out.println(held + " " + not);
    }
}
END
    (
        cd ../junit && javac -nowarn -proc:none -d built org/junit/jupiter/api/*.java Runner.java "$(basename "$3")" &&
            javac -Werror -Xlint:all -proc:none -cp built -d built "$name.java" && java -cp built Runner "$4$name"
    ) >../ran 2>&1
    [ "$(cat ../ran)" = "$5" ]
    count $? "the tests with $1 on $3: $(head -c 600 ../ran)"
}

sed 's/^    boolean repOk/    void push(int value) { Node node = new Node(); node.value = value; node.next = head; head = node; size++; }\n&/' \
    "$list/SortedList.java" >SortedList.java
junit 'push(3)' "$list/fin.toml" SortedList.java '' '1 9' <"$list/expected"
junit 'push(1)' "$list/fin.toml" SortedList.java '' '10 0' <"$list/expected"
junit 'repOk()' "$top/examples/two-stack-queue/fin.toml" "$top/examples/two-stack-queue/TwoStackQueue.java" '' '49 0' <"$top/examples/two-stack-queue/expected"
junit 'equals(null)' odd.toml my/own/Odd.java my.own. "$(yes 'looked at' | head -n 8)
8 0" <odd
cat >Shelf.java <<'END'
import java.util.ArrayList;
import java.util.HashMap;
import java.util.List;
import java.util.Map;

class Shelf {
    private final List<Integer> items = new ArrayList<>();
    private Map<Character, Shelf> parts;

    boolean repOk() {
        return items.size() == parts.size();
    }

    void put(int item) {
        items.add(item);
        parts.put('z', item > 5 ? this : null);
        if (parts.get('a') == this) items.clear();
    }
}
END
cat >shelf.toml <<'END'
# In what Replay reads, ListOfHeldInt is a java.util.ArrayList of java.lang.Integer.
# In what Replay reads, MapOfHeldIntToShelf is a java.util.HashMap of java.lang.Character and Shelf.
root = "Shelf"
fuel = 1000
[objects]
Shelf = 1
ListOfHeldInt = 1
CellOfHeldInt = 1
MapOfHeldIntToShelf = 1
PairOfHeldIntToShelf = 2
[fields]
"Shelf.items" = ["ListOfHeldInt"]
"Shelf.parts" = ["MapOfHeldIntToShelf"]
"ListOfHeldInt.first" = ["null", "CellOfHeldInt"]
"ListOfHeldInt.size" = [0, 1]
"CellOfHeldInt.item" = [5, 6]
"CellOfHeldInt.next" = ["null", "CellOfHeldInt"]
"MapOfHeldIntToShelf.first" = ["null", "PairOfHeldIntToShelf"]
"MapOfHeldIntToShelf.size" = [{ from = 0, to = 2 }]
"PairOfHeldIntToShelf.key" = [98, 97]
"PairOfHeldIntToShelf.value" = ["Shelf"]
"PairOfHeldIntToShelf.next" = ["null", "PairOfHeldIntToShelf"]
END
{
    echo '0 Shelf#0{items=ListOfHeldInt#0,parts=MapOfHeldIntToShelf#0} ListOfHeldInt#0{first=null,size=0} MapOfHeldIntToShelf#0{first=null,size=0}'
    for item in 5 6; do
        for key in 97 98; do
            echo "$item.$key Shelf#0{items=ListOfHeldInt#0,parts=MapOfHeldIntToShelf#0} ListOfHeldInt#0{first=CellOfHeldInt#0,size=1} MapOfHeldIntToShelf#0{first=PairOfHeldIntToShelf#0,size=1} CellOfHeldInt#0{item=$item,next=null} PairOfHeldIntToShelf#0{key=$key,value=Shelf#0,next=null}"
        done
    done
    echo 'valid 5 tried 20'
} >shelf
rows 0 'agree 5' --all shelf.toml Shelf.java <shelf
rows 0 'agree 5' --all --plain shelf.toml Shelf.java <shelf
rows 1 $'missing Shelf#0{items=ListOfHeldInt#0,parts=MapOfHeldIntToShelf#0} ListOfHeldInt#0[5] MapOfHeldIntToShelf#0[98,Shelf#0]\nagree 4 differ 1' --all shelf.toml Shelf.java < <(grep -v '^5.98' shelf)
refused "a collection that isn't whole" shelf.toml Shelf.java < <(sed 's/size=1/size=2/' shelf)
refused "a collection that isn't whole" shelf.toml Shelf.java < <(sed 's/item=5,next=null/item=5,next=CellOfHeldInt#0/' shelf)
junit 'put(6)' shelf.toml Shelf.java '' '3 2' <shelf
refused 'no test with insrt(3): ' --junit 'insrt(3)' "$list/fin.toml" SortedList.java <"$list/expected"

# ---- wrong words and files

cp "$list/fin.toml" fin.toml
refused 'usage: ' fin.toml
refused 'usage: '
refused 'no option: --al' --al fin.toml SortedList.java
refused 'no value behind --junit' fin.toml SortedList.java --junit
refused 'no number: 0' --most 0 fin.toml SortedList.java
refused '--plain and --most go with --all' --plain fin.toml SortedList.java
refused "don't go together" --all --junit 'x()' fin.toml SortedList.java
refused "none.toml: can't be read" none.toml SortedList.java
refused "none.java: can't be read" fin.toml none.java
printf 'root = "SortedList"\nfuel = 1.5\n' >bad.toml
refused "bad.toml:2: '1.5' is no value" bad.toml SortedList.java
printf 'root = "SortedList"\n' >bad.toml
refused 'bad.toml: fuel: not there' bad.toml SortedList.java
sed 's/"SortedList"/"Sorted"/' fin.toml >bad.toml
refused 'the sources have no class Sorted' bad.toml SortedList.java
printf 'class SortedList {\n  int x = ;\n}\n' >Broken.java
refused 'Broken.java:2: illegal start of expression' fin.toml Broken.java
printf 'class SortedList { }\n' >Bare.java
refused "SortedList has no 'boolean repOk()'" fin.toml Bare.java <"$list/expected"
refused 'standard input is no listing: it is empty' fin.toml SortedList.java </dev/null
refused "it ends with 'A.java:1:1: P1'" fin.toml SortedList.java <<<'A.java:1:1: P1'
refused 'is no row' fin.toml SortedList.java <<<$'hello\nvalid 1 tried 1'
refused 'more than 10 structures' --all --most 10 fin.toml SortedList.java <"$list/expected"

# ---- the program's own listing

if [ -x "$program" ]; then
    sed 's/Node = 3/Node = 4/; s/to = 3/to = 4/; s/to = 2/to = 3/' fin.toml >larger.toml
    "$program" list larger.toml SortedList.java >listing
    rows 0 "agree $(($(wc -l <listing) - 1))" --all larger.toml SortedList.java <listing
fi

[ -z "$(ls "$TMPDIR")" ]
count $? "something is left in the folder for temporary files: $(ls "$TMPDIR")"
[ -n "$java" ] || echo "$untried weren't tried: there is no java"
echo "$passed passed, $failed failed"
[ "$failed" = 0 ]
