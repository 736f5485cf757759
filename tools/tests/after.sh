#!/usr/bin/env bash
# Tests of tools/after and of `tools/replay --junit` with rows of a test: what failing rows leave behind, and tests that hold a
# method's contract.
. "$(dirname "$(readlink -f "$0")")/common.bash"

refuse 2 "after without words" "$tools/after"
refuse 2 "after without a source" "$tools/after" fin.toml put
refuse 2 "after with an option" "$tools/after" --all fin.toml put A.java
if [ ! -x "$KORAT" ] || ! command -v javac >/dev/null; then
    echo "32 not tried: there is no program, or no JDK"
    finish
    exit
fi

cat >Cell.java <<'END'
class Cell {
    private static final int MOST = 3;
    private int v;
    private Cell next;

    boolean repOk() {
        return v >= 0 && (next == null || next.v > v);
    }

    //@ requires by >= 0;
    //@ ensures v == \old(v) + by && v <= MOST;
    //@ ensures \result == (next == null) && (next == null || next.v >= \old(v));
    //@ ensures next == other || next == \old(next);
    private boolean add(int by, Cell other) {
        if (v == 2) next = new Cell();
        if (by == 2) v = next.v;
        while (by == 3) { }
        v = v + by;
        return other == null;
    }
}
END
cat >fin.toml <<'END'
root = "Cell"
fuel = 1000
[objects]
Cell = 2
[fields]
"Cell.v" = [0, 2, 3]
"Cell.next" = ["null", "Cell"]
[params]
"add.by" = [1, 2, 3]
"add.other" = ["null"]
END
"$KORAT" test fin.toml add Cell.java >report 2>/dev/null
given=report run 0 "failing rows" "$tools/after" fin.toml add Cell.java
grep -qx 'ensures 1, .*: `v == \\old(v) + by && v <= MOST` is false after the call' out && grep -qx 'spent, .*: the call doesn.t end, or needs more fuel' out
count $? "failing rows: $(cat out)"
grep -A4 '^trap NullPointerException' out | grep -qx '    thrown java.lang.NullPointerException in add, line 16'
count $? "an exception: $(cat out)"
grep -A3 '^repOk' out | grep -qE '^    after  Cell#0\{v=3,next=Cell#1\} Cell#1\{v=0,next=null\}$'
count $? "a new object: $(cat out)"
[ "$(tail -n 1 out)" = "failing $(sed '$d' report | grep -vc ' pass ') of $(sed '$d' report | wc -l), the same on this JVM" ]
count $? "the last line: $(tail -n 1 out)"
sed '2s/ trap NullPointerException (/ pass (/' report >changed
given=changed run 1 "a row that ends otherwise here" "$tools/after" fin.toml add Cell.java
grep -q '^differs .*: here ' out && tail -n 1 out | grep -q ', and 1 differ on this JVM$'
count $? "a row that ends otherwise here: $(cat out)"
"$KORAT" list fin.toml Cell.java >listing
given=listing refuse 2 "rows of a listing" "$tools/after" fin.toml add Cell.java
given=report refuse 2 "a method that isn't there" "$tools/after" fin.toml put Cell.java

# The tests, by a runner of their own: those fail whose verdict isn't `pass`. Calls that don't end are left out.
grep -v ' spent ' report >ending
given=ending run 0 "tests of a contract" "$tools/replay" --junit add fin.toml Cell.java
mkdir -p junit/org/junit/jupiter/api
cp out junit/CellTest.java
cp Cell.java junit/
cat >junit/org/junit/jupiter/api/Test.java <<'END'
package org.junit.jupiter.api;
@java.lang.annotation.Retention(java.lang.annotation.RetentionPolicy.RUNTIME)
public @interface Test { }
END
cat >junit/org/junit/jupiter/api/Assertions.java <<'END'
package org.junit.jupiter.api;
public class Assertions {
    public static void assertTrue(boolean held, String message) {
        if (!held) throw new AssertionError(message);
    }
}
END
cat >junit/Runner.java <<'END'
public class Runner {
    public static void main(String[] words) throws Exception {
        for (var method : CellTest.class.getDeclaredMethods()) {
            if (!method.isAnnotationPresent(org.junit.jupiter.api.Test.class)) continue;
            var maker = CellTest.class.getDeclaredConstructor();
            maker.setAccessible(true);
            method.setAccessible(true);
            Object test = maker.newInstance();
            String ended = "pass";
            try {
                method.invoke(test);
            } catch (java.lang.reflect.InvocationTargetException e) {
                ended = "fail";
            }
            System.out.println(method.getName().substring(4).replace('_', '.') + " " + ended);
        }
    }
}
END
(cd junit && javac -nowarn -d classes ./*.java org/junit/jupiter/api/*.java && java -cp classes Runner) >ran 2>said
sort ran >ended
sed '$d' ending | awk '{ print $1, ($2 == "pass" ? "pass" : "fail") }' | sort | diff - ended >differences
count $? "tests of a contract: $(cat differences said | head -n 20)"

# A stack whose methods throw: the tests of each of them, by the same runner.
stack=$top/examples/bounded-stack
for method in push pop popLast; do
    given=$stack/test.$method run 0 "failing rows of $method" "$tools/after" "$stack/fin.toml" "$method" "$stack/BoundedStack.java"
    failing=$(grep -c ' signals 1 ' "$stack/test.$method")
    [ "$(tail -n 1 out)" = "failing $failing of 8, the same on this JVM" ]
    count $? "failing rows of $method: $(cat out)"
    given=$stack/test.$method run 0 "tests of $method" "$tools/replay" --junit "$method" "$stack/fin.toml" "$stack/BoundedStack.java"
    rm -rf stack && cp -r junit stack && rm -r stack/Cell.java stack/CellTest.java stack/classes
    cp out stack/BoundedStackTest.java
    cp "$stack/BoundedStack.java" stack/
    sed -i 's/CellTest/BoundedStackTest/g' stack/Runner.java
    (cd stack && javac -nowarn -d classes ./*.java org/junit/jupiter/api/*.java && java -cp classes Runner) >ran 2>said
    [ "$(grep -c ' pass$' ran) $(grep -c ' fail$' ran)" = "$((8 - failing)) $failing" ]
    count $? "tests of $method: $(cat ran said | head -n 20)"
done
given=report run 2 "tests of a method that isn't there" "$tools/replay" --junit put fin.toml Cell.java

finish
