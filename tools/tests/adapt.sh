#!/usr/bin/env bash
# Tests of tools/adapt: its words, each thing that it rewrites, what it names that it can't do, what it warns of, and
# the classes below classes/, which go through it, `korat list` and, where it is there, `Replay --all`. Of those REFUSED
# names the ones that are refused. KORAT names the program; without it, or without java, what needs them is not tried.
set -u
tests=$(cd "$(dirname "$(readlink -f "$0")")" && pwd)
top=$(cd "$tests/../.." && pwd)
korat=${KORAT:-$top/crates/korat/out/korat}
REFUSED="open-addressing-set"
work=$(mktemp -d) || exit 1
trap 'rm -rf "$work"' EXIT
passed=0 failed=0 untried=0

# Counts a test, of which the status is the first word and what it says the rest.
count() {
    if [ "$1" = 0 ]; then
        passed=$((passed + 1))
    else
        failed=$((failed + 1))
        shift
        echo "failed: $*"
    fi
}

finish() {
    [ "$untried" = 0 ] || echo "$untried not tried, for want of a JDK or of the program"
    echo "$passed passed, $failed failed"
    [ "$failed" = 0 ]
    exit
}

classes=$(find "$tests/classes" -mindepth 1 -maxdepth 1 -type d | wc -l)
[ "$classes" = 26 ]
count $? "there are $classes classes"
if ! command -v javac >/dev/null; then
    untried=201
    finish
fi

# The first call compiles the tools.
"$top/tools/adapt" >/dev/null 2>&1
adapt() {
    "$top/tools/adapt" "$@" >"$work/out" 2>"$work/err"
}

# ---- words

cd "$work" || exit 1
printf 'class Cell {\n    int v;\n\n    boolean repOk() { return v > 0; }\n}\n' >Cell.java
printf 'root = "Cell"\nfuel = 1000\n\n[objects]\nCell = 1\n\n[fields]\n"Cell.v" = [{ from = 0, to = 2 }]\n' >fin.toml
wrong() {
    adapt "${@:2}"
    ended=$?
    [ "$ended" = "$1" ] && [ "$(wc -l <err)" = 1 ] && [ ! -s out ] && [ ! -e adapted ]
    count $? "status $ended, and not $1 with one line: Adapt ${*:2}"
}
wrong 2
wrong 2 fin.toml Cell.java
wrong 2 fin.toml -o adapted
wrong 2 fin.toml Cell.java -o
wrong 2 fin.toml Cell.java -o adapted -o other
wrong 2 fin.toml Cell.java --other -o adapted
wrong 2 fin.toml none.java -o adapted
wrong 2 none.toml Cell.java -o adapted
wrong 2 fin.toml Cell.java -o .
wrong 2 fin.toml Cell.java ./Cell.java -o adapted
cp Cell.java none.fin
wrong 1 none.fin Cell.java -o adapted
rm none.fin
printf 'class Cell { int v boolean }' >Wrong.java
wrong 1 fin.toml Wrong.java -o adapted

adapt fin.toml Cell.java -o adapted
[ $? = 0 ] && cmp -s Cell.java adapted/Cell.java && cmp -s fin.toml adapted/fin.toml && [ ! -s out ] && [ ! -s err ]
count $? "a class of the subset isn't left as it is"
[ "$(find adapted -type f | wc -l)" = 2 ] && [ "$(find . -newer fin.toml -type f ! -path './adapted/*' | grep -cvE 'out|err|Wrong.java')" = 0 ]
count $? "something is written beside the folder"
rm -r adapted

# An example with methods under test is left with one of them at a time: with each it lists and tests as it did. Any other is
# left as it is.
for folder in "$top"/examples/*/; do
    ended=0
    adapted=0
    for tested in "$folder"/test.*; do
        [ -f "$tested" ] || continue
        adapted=1
        method=${tested##*.}
        adapt --method "$method" "$folder/fin.toml" "$folder"/*.java -o adapted || ended=1
        if [ -x "$korat" ]; then
            "$korat" list adapted/fin.toml adapted/*.java | cmp -s - "$folder/expected" || ended=1
            "$korat" test adapted/fin.toml "$method" adapted/*.java | cmp -s - "$tested" || ended=1
        fi
        rm -r adapted
    done
    if [ "$adapted" = 0 ]; then
        adapt "$folder/fin.toml" "$folder"/*.java -o adapted || ended=1
        for source in "$folder"/*.java; do
            cmp -s "$source" "adapted/$(basename "$source")" || ended=1
        done
        rm -r adapted
    fi
    count $ended "examples/$(basename "$folder") isn't left as it is"
done

# ---- what is rewritten

# Adapts a class made of members, of which the root is Cell with a field v from 0 to 3, and lists it: MEMBERS VALUES.. where
# the values are those of v that are valid. What is made is kept below made/, each in a package of its own.
rewritten=0
rewrites() {
    rewritten=$((rewritten + 1))
    made=made/$rewritten
    printf 'package made%d;\n\nimport java.util.*;\n\nclass Cell {\n    int v;\n%s\n}\n' "$rewritten" "$1" >Cell.java
    printf 'root = "Cell"\nfuel = 10000\n[objects]\nCell = 1\n[fields]\n"Cell.v" = [{ from = 0, to = 3 }]\n' >fin.toml
    adapt fin.toml Cell.java -o "$made"
    ended=$?
    count $ended "not adapted: $1: $(head -n 1 err)"
    [ "$ended" = 0 ] || return
    [ -x "$korat" ] || { untried=$((untried + 1)); return; }
    "$korat" list "$made/fin.toml" "$made/Cell.java" >rows
    values=$(sed -nE 's/.*\{v=([0-9]+).*/\1/p' rows | tr '\n' ' ')
    [ "${values% }" = "$2" ]
    count $? "valid are ${values% }, and not $2: $1"
}
rewrites 'boolean repOk() { int sum = 0; for (int x : new int[] { 1, 1 }) sum += x; return sum == v; }' '2'
rewrites 'boolean repOk() { return Math.max(v, 1) == 1 && Math.abs(-v) == Math.min(v, Integer.MAX_VALUE); }' '0 1'
rewrites 'boolean repOk() { char c = (char) (97 + v); return c == '"'b'"' || c == 0x64; }' '1 3'
rewrites 'boolean repOk() { byte b = 127; b += v; return b < 0; }' '1 2 3'
rewrites 'boolean repOk() { short s = (short) (32767 + v); s++; return s == -32767; }' '1'
rewrites 'boolean repOk() { switch (v) { case 0: case 1: return false; case 2: v(); default: return v == 2; } } private int v() { return v; }' '2'
rewrites 'boolean repOk() { int n = 0; switch (v) { case 1: n++; case 2: n++; break; case 3: if (n == 0) break; n = 9; } return n == 2; }' '1'
rewrites 'boolean repOk() { return switch (v) { case 1, 2 -> true; default -> false; }; }' '1 2'
rewrites 'enum Kind { A, B } Kind kind() { return v == 1 ? Kind.B : Kind.A; } boolean repOk() { switch (kind()) { case A: return false; default: return kind().ordinal() == 1; } }' '1'
rewrites 'boolean repOk() { assert v > 0; if (v == 2) throw new IllegalStateException("two"); return true; }' '1 3'
rewrites 'boolean repOk() { if (v > 0) assert v != 2; else return false; return true; }' '1 3'
rewrites 'boolean repOk() { try { assert v != 1; return 6 / v > 2; } catch (ArithmeticException e) { return true; } catch (StackOverflowError e) { return true; } }' '0 2'
rewrites 'boolean repOk() { try { if (v == 1) throw new Error(); return 6 / v > 2; } catch (IllegalStateException e) { return true; } catch (Error e) { return v == 1; } }' '1 2'
rewrites 'boolean repOk() { try { return 6 / v > 2; } catch (ArithmeticException e) { return false; } }' '1 2'
rewrites 'boolean repOk() { try { return 6 / v > 2; } catch (ArithmeticException e) { return true; } }' '0 1 2'
rewrites 'int take(int x) throws Exception { if (x == 0) throw new ConcurrentModificationException("none"); return 6 / (x - 1); } boolean repOk() { try { return take(v) == 6; } catch (IllegalStateException | ConcurrentModificationException e) { return true; } catch (Exception e) { return v == 1; } }' '0 1 2'
rewrites 'static class Full extends IllegalStateException { Full(String m) { super(m); } } static class Other extends Full { int at; Other(int at) { super("at"); this.at = at; } } int take(int x) { if (x == 1) throw new Full("full"); if (x > 1) throw new Other(x); return 0; } boolean repOk() { try { take(v); return false; } catch (Other e) { return e.at == 3; } catch (Full e) { return true; } }' '1 3'
rewrites 'boolean repOk() { RuntimeException kept = null; try { if (v > 1) kept = new NoSuchElementException(); if (v > 0) throw kept; } catch (NullPointerException e) { return true; } catch (NoSuchElementException e) { return e == kept && v == 3; } catch (StackOverflowError e) { return true; } return false; }' '1 3'
rewrites 'boolean repOk() { Set<Integer> s = new HashSet<>(); for (int i = 0; i < 3; i++) s.add(i % 2); return s.size() == v && s.contains(0); }' '2'
rewrites 'boolean repOk() { Deque<Integer> d = new ArrayDeque<>(); d.push(1); d.push(2); d.addLast(3); return d.pop() == 2 && d.peekLast() == v && d.poll() == 1; }' '3'
rewrites 'boolean repOk() { Queue<Cell> q = new LinkedList<>(); q.offer(this); return q.poll() == this && q.poll() == null; }' '0 1 2 3'
rewrites 'boolean repOk() { List<Cell> l = new ArrayList<>(); l.add(this); l.add(0, null); int n = 0; for (Cell c : l) if (c != null) n++; return n == v && l.get(1).v == 1; }' '1'
rewrites 'boolean repOk() { Map<Cell, Integer> m = new HashMap<>(); m.put(this, 2); Integer x = m.get(null); return x == null && m.get(this) == v; }' '2'
rewrites 'boolean repOk() { TreeSet<Integer> s = new TreeSet<>(); s.add(3); s.add(v); s.add(1); int last = -1; for (int x : s) { if (x <= last) return false; last = x; } return s.size() == 2; }' '1 3'
rewrites 'boolean repOk() { Iterator<Integer> i = Arrays.asList(v, 1).iterator(); return i.next() == 2 && i.hasNext(); }' '2'
rewrites 'boolean repOk() { Stack<Integer> s = new Stack<>(); s.push(1); s.push(v); return s.peek() == 2 && !s.empty() && s.pop() + s.pop() == 3 && s.empty(); }' '2'
rewrites 'static <T> boolean same(T a, T b) { return a == b; } boolean repOk() { return same(this, this) && v == 1; }' '1'
rewrites 'int twice() { return twice(v); } int twice(int x) { return 2 * x; } boolean repOk() { return twice() == 4; }' '2'
rewrites 'static class Pair { int a, b; Pair(int a) { this(a, 1); } Pair(int a, int b) { this.a = a; this.b = b; } } boolean repOk() { return new Pair(v).b == new Pair(1, 2).a && new Pair(v).a == 3; }' '3'
rewrites 'interface Shape { int area(); default boolean isBig() { return area() > 1; } } static class Square implements Shape { final int side; Square(int side) { this.side = side; } public int area() { return side * side; } } boolean repOk() { Shape s = new Square(v); return s.isBig(); }' '2 3'
rewrites 'static abstract class A { abstract int get(); private int own() { return 1; } int both() { return own() + get(); } } static class B extends A { int get() { return 1; } private int own() { return 5; } int o() { return own(); } } boolean repOk() { B b = new B(); return b.both() == v && b.o() == 5; }' '2'
rewrites 'boolean repOk() { int[][] grid = new int[2][3]; grid[1][2] = v; int sum = 0; for (int[] row : grid) for (int x : row) sum += x; return sum == 3 && grid[1].length == 3; }' '3'
rewrites 'boolean repOk() { boolean[] seen = new boolean[70]; seen[v + 66] = true; return seen[67] && seen.length == 70; }' '1'
rewrites 'boolean repOk() { outer: for (int i = 0; i < 3; i++) { for (int j = 0; j < 3; j++) { if (j == 1) continue outer; if (i == v) break outer; if (i > v) return false; } } return v < 2; }' '0 1'
rewrites 'private static int of(int... xs) { return xs.length; } boolean repOk() { return of() == 0 && of(1, 2) == v; }' '2'
rewrites 'boolean repOk() { int[] a = { 3, 1, 2 }; Arrays.sort(a); int[] b = Arrays.copyOf(a, 2); Arrays.fill(a, 7); return b[1] == v && a[2] == 7 && b.length == 2; }' '2'
rewrites 'static class P { int x; P(int x) { this.x = x; } @Override public boolean equals(Object o) { return o instanceof P && ((P) o).x == x; } @Override public int hashCode() { return x; } } boolean repOk() { Set<P> s = new HashSet<>(); s.add(new P(v)); return !s.add(new P(1)) && Objects.equals(new P(v), new P(1)); }' '1'
rewrites '//@Deprecated
    public int unused(String text) { return text.length(); } //@ nothing
    boolean repOk() { System.out.println("v " + v); return v == 1; }' '1'
rewrites 'class Inner implements Comparable<Inner> { int w = 1; public int compareTo(Inner o) { return Integer.compare(w, o.w); } } boolean repOk() { return make().compareTo(make()) == 0 && v == 1; } static Inner make() { return null; }' ''
rewrites 'boolean repOk() { Integer least = null; for (int x : List.of(3, v)) if (least == null || x < least) least = x; return least.equals(2); }' '2'

rewrites 'static class Box<T> { T t; Box(T t) { this.t = t; } } Box<Integer> box() { return v == 0 ? null : new Box<>(v); } boolean repOk() { return box().t != null && v < 2; }' '1'
rewrites 'Integer at(int i) { return new int[] { 1 }[i]; } boolean repOk() { return at(v) != null; }' '0'
rewrites 'enum E { A, B } static class S { E e; } boolean repOk() { return new S().e == null && v == 1; }' '1'
rewrites 'static class A { int a; A() { a = 1; } A(int a) { this.a = a; } } static class B extends A { B() { super(2); } } boolean repOk() { return new A().a + new B().a == v; }' '3'

# The adapted classes are Java still.
javac -nowarn -d classes made/*/Cell.java 2>javac.err
count $? "an adapted class is no Java: $(head -n 1 javac.err)"

# An error isn't caught as an exception, though javac takes no Throwable without `throws`.
rewrites 'boolean repOk() { try { assert v != 1; return 6 / v > 2; } catch (RuntimeException e) { return v == 0; } catch (Error e) { return true; } }' '0 1 2'

# Arrays of a counted type that the predicate makes.
cat >Cell.java <<'END'
import java.util.Arrays;

class Cell {
    int[] a;

    private static int first(int[] from) { return from[0]; }

    boolean repOk() {
        int[] copy = Arrays.copyOf(a, 3);
        int[] other = a.clone();
        int[] counts = new int[a.length];
        counts[0]++;
        return copy[0] == 1 && copy[2] == 0 && counts[0] == 1 && first(other) == 1 && other.length == 1;
    }
}
END
cat >counted.toml <<'END'
root = "Cell"
fuel = 10000
objects.Cell = 1
arrays."int[]" = { count = 1, lengths = [1] }
[fields]
"Cell.a" = ["null", "int[]"]
"int[].*" = [0, 1]
END
adapt counted.toml Cell.java -o adapted
count $? "arrays of a counted type: $(head -n 1 err)"
if [ -x "$korat" ]; then
    [ "$("$korat" list adapted/counted.toml adapted/Cell.java | head -n 1)" = '0.1.0.1 Cell#0{a=int[]#0} int[]#0[1]' ]
    count $? "arrays of a counted type are listed otherwise"
fi
rm -r adapted

# Lines stay where they are.
printf 'class Cell {\n    int v;\n\n    /** Not reached. */\n    public String text() {\n        return "";\n    }\n\n    boolean repOk() {\n        return isOdd();\n    }\n\n    private boolean isOdd() {\n        return Math.abs(v) %% 2 == 1;\n    }\n}\n' >Cell.java
adapt fin.toml Cell.java -o adapted
[ "$(grep -n 'isOdd() {' adapted/Cell.java)" = '13:    private boolean isOdd() {' ] && ! grep -q 'text\|reached' adapted/Cell.java
count $? "the lines of a class moved"
rm -r adapted

# ---- a method with its contract

printf 'class Cell {\n    int v;\n\n    //@ requires x > 0 && isSmall(x);\n    //@ ensures v == x;\n    void put(int x) { v = Math.max(x, 0); }\n\n    //@ requires true;\n    void other() { throw new Error(); }\n\n    private boolean isSmall(int x) { return x < 9; }\n\n    boolean repOk() { return v >= 0; }\n}\n' >Cell.java
printf '[params]\n"put.x" = [1, 2]\n' | cat fin.toml - >params.toml
adapt --method put params.toml Cell.java -o adapted
[ $? = 0 ] && grep -q '^    //@ requires x > 0' adapted/Cell.java && grep -q 'isSmall(int x)' adapted/Cell.java && ! grep -q 'other\|requires true' adapted/Cell.java && grep -q 'put.x' adapted/params.toml
count $? "the method under test isn't kept with its contract"
adapt params.toml Cell.java -o adapted
[ $? = 0 ] && ! grep -q '//@\|put' adapted/Cell.java && ! grep -q 'put.x' adapted/params.toml
count $? "a method that isn't kept leaves its contract or its parameters"
rm -r adapted

# Exceptions stay, without their messages; a class that korat hasn't becomes the nearest above it, which changes the verdict.
printf 'class Cell {\n    int v;\n\n    //@ signals (java.util.EmptyStackException e) x < \\old(v);\n    //@ signals (IllegalStateException) v > 9;\n    void put(int x) throws Exception {\n        if (x < 0) throw new java.util.EmptyStackException();\n        if (x > 1) throw new IllegalArgumentException("x " + x);\n        v = x;\n    }\n\n    boolean repOk() {\n        return v >= 0;\n    }\n}\n' >Cell.java
adapt --method put params.toml Cell.java -o adapted
[ $? = 0 ] && [ "$(grep -c warning out)" = 1 ] && grep -q '^Cell.java:7:[0-9]*: warning: .*trap RuntimeException.*EmptyStackException' out &&
    grep -q '^    //@ signals (RuntimeException e) x < .old(v);$' adapted/Cell.java && grep -q '^    //@ signals (IllegalStateException) v > 9;$' adapted/Cell.java &&
    grep -q 'throw new IllegalArgumentException();' adapted/Cell.java && ! grep -q 'throws\|"' adapted/Cell.java
count $? "exceptions of the method under test aren't kept: $(head -n 1 out err)"
rm -r adapted
# A contract is the method's own code: it is adapted with it, and refused where it is no Java.
printf 'class Cell {\n    int v;\n\n    //@ requires x > 0;\n    /** Sets it. */\n    //@ ensures Math.max(\\old(v), x) >= v; // and no more\n    int put(int x) { v = x; return x; }\n\n    boolean repOk() {\n        return v >= 0;\n    }\n}\n' >Cell.java
adapt --method put params.toml Cell.java -o adapted
[ $? = 0 ] && grep -qF '//@ requires x > 0;' adapted/Cell.java && grep -qF '//@ ensures Cell.max(\old(v), x) >= v; // and no more' adapted/Cell.java && ! grep -q 'korat' adapted/Cell.java
count $? "a contract isn't adapted: $(grep -n '//@\|put' adapted/Cell.java) $(head -n 1 err)"
rm -rf adapted
sed 's/Math.max/missing/' Cell.java >Other.java && mv Other.java Cell.java
adapt --method put params.toml Cell.java -o adapted
[ $? = 1 ] && grep -qE '^(adapt|Adapt): Cell.java:7:[0-9]+: the contract of put: javac says: cannot find symbol' err && [ ! -e adapted ]
count $? "a contract that is no Java: $(cat err)"
printf 'class Cell {\n    int v;\n\n    boolean repOk() {\n        return v >= 0;\n    }\n}\n' >Cell.java
if [ -x "$korat" ]; then
    sed 's/Cell.v/Cell.w/' fin.toml >other.toml
    adapt other.toml Cell.java -o adapted
    [ $? = 1 ] && [ "$(wc -l <err)" = 1 ] && grep -q "^korat doesn't accept what was written: .*S" err
    count $? "what korat doesn't accept isn't said: $(head -n 1 err)"
    rm -r adapted other.toml
fi

# ---- warnings

# Adapts a class of these members and looks for a warning: WHAT MEMBERS [FIELDS OF THE FINITIZATION]
warns() {
    printf 'class Cell {\n    int v;\n%s\n}\n' "$2" >Cell.java
    printf 'root = "Cell"\nfuel = 1000\n[objects]\nCell = 1\n[fields]\n"Cell.v" = [0]\n%s\n' "${3:-}" >fin.toml
    adapt fin.toml Cell.java -o adapted
    [ $? = 0 ] && { grep -q "warning: .*$1" out || grep -q -e "$1" out; }
    count $? "no warning of '$1': $2"
}
warns 'longer than 64' 'boolean repOk() { return new int[65].length == 65; }'
warns 'would override this private method' 'static class A { private int m() { return 1; } int n() { return m(); } } static class B extends A { int m() { return 2; } } boolean repOk() { B b = new B(); return b.n() + b.m() == 3; }'
warns '^Cell.java:3:1: warning: this loop doesn.t end on Cell#0{v=0}; ' 'boolean repOk() { while (v == 0) { } return v == 1; }'
warns '^Cell.java:3:1: warning: `down`, which calls itself here, doesn.t end on Cell#0{v=0}; ' 'boolean down(int n) { return n < 0 || down(n); }
boolean repOk() { return down(v); }'
warns 'final with a constant' 'private final int limit = 3; boolean repOk() { return v < limit; }'
warns 'whatever the domain says' 'private final int limit = 3; boolean repOk() { return v < limit; }' '"Cell.limit" = [1, 2]'
grep -q limit adapted/fin.toml
[ $? = 1 ]
count $? "a constant keeps its domain"
rm -r adapted

# ---- what it can't do

# All refusals of a class come in one pass, each with a place and a rewrite: NUMBER MEMBERS
refuses() {
    printf 'import java.util.*;\n\nclass Cell {\n    int v;\n%s\n}\n' "$2" >Cell.java
    printf 'root = "Cell"\nfuel = 1000\n[objects]\nCell = 1\n[fields]\n"Cell.v" = [0]\n' >fin.toml
    adapt fin.toml Cell.java -o adapted
    ended=$?
    [ "$ended" = 1 ] && [ "$(wc -l <err)" = "$1" ] && [ "$(grep -cE '^Cell.java:[0-9]+:[0-9]+: .*; ' err)" = "$1" ] && [ ! -e adapted ]
    count $? "status $ended with $(wc -l <err) lines, and not $1 refusals: $2"
}
refuses 1 'float big = 3; boolean repOk() { return v < big; }'
refuses 4 'String name; Object any; double part; boolean repOk() { return name == null && any == null && part == 0.0; }'
refuses 1 'boolean repOk() { return Integer.reverse(v) > 1; }'
refuses 1 'boolean repOk() { try { return 1 / v > 0; } finally { check(); } } void check() { }'
refuses 1 'boolean repOk() { try (java.io.StringReader r = null) { return v > 0; } catch (RuntimeException e) { return false; } }'
refuses 1 'boolean repOk() { v = 1; return true; }'
refuses 1 'boolean repOk() { return new Cell().v == v; }'
refuses 1 'boolean repOk() { System.out.println(6 / v); return true; }'
refuses 1 'static class A { int a; A() { } A(int a) { } } static class B extends A { B() { } } boolean repOk() { return new A(1).a + new A().a + new B().a == 0; }'
refuses 1 'static class A { } static class B extends A { public boolean equals(Object o) { return true; } public int hashCode() { return 0; } } boolean repOk() { HashSet<A> s = new HashSet<>(); s.add(new A()); s.add(new B()); return s.size() == 2; }'
refuses 1 'List<Cell> others; boolean repOk() { return others.isEmpty(); }'
refuses 1 'static int counter; boolean repOk() { return counter == v; }'
refuses 1 'enum E { A { int n() { return 1; } }; abstract int n(); } boolean repOk() { return E.A.n() == v; }'

# ---- the classes

[ -x "$korat" ] || untried=$((untried + classes))
adapted=0
for folder in "$tests"/classes/*/; do
    name=$(basename "$folder")
    cd "$folder" || exit 1
    adapt fin.toml ./*.java -o "$work/$name"
    ended=$?
    cd "$work" || exit 1
    case " $REFUSED " in
    *" $name "*)
        [ "$ended" = 1 ] && [ ! -e "$name" ] && ! grep -qvE '^[^ ]+: .*; ' err
        count $? "$name: status $ended, and not 1 with refusals alone"
        continue
        ;;
    esac
    [ "$ended" = 0 ] && [ ! -s err ] && javac -nowarn -d "$work/classes/$name" "$name"/*.java 2>err
    count $? "$name: status $ended, $(head -n 1 err)"
    adapted=$((adapted + 1))
    [ -x "$korat" ] || continue
    "$korat" list "$name/fin.toml" "$name"/*.java >rows
    [ $? = 0 ] && [ "$(wc -l <rows)" -gt 1 ]
    count $? "$name isn't listed: $(tail -n 1 rows)"
    "$top/tools/replay" --all "$name/fin.toml" "$folder"/*.java <rows >out 2>err
    [ $? = 0 ] && [ "$(cat out)" = "agree $(($(wc -l <rows) - 1))" ]
    count $? "$name differs from the JVM: $(cat out err | head -n 1)"
done
[ "$adapted" = 25 ]
count $? "only $adapted classes are adapted"
finish
