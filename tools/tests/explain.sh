#!/usr/bin/env bash
# Tries tools/explain: a guess for each feature, places, finitizations, words, reads, spent runs, listings, and the launcher's
# call of it. Where the built program is there, it also has to say each line that is explained here.
set -u
top=$(cd "$(dirname "$(readlink -f "$0")")/../.." && pwd)
export KORAT="${KORAT:-$top/crates/korat/out/korat}"
explain="$top/tools/explain"
work=$(mktemp -d) || exit 1
trap 'rm -rf "$work"' EXIT
mkdir "$work/temporary" "$work/here"
export TMPDIR="$work/temporary"
cd "$work/here" || exit 1
passed=0
failed=0

count() {
    if [ "$1" = 0 ]; then
        passed=$((passed + 1))
    else
        failed=$((failed + 1))
        echo "failed: $2"
    fi
}

# What is explained of a line has to hold a text: told LINE TEXT [-- WORD..]
told() {
    local line=$1 text=$2
    shift 2
    "$explain" "$line" "$@" >../out 2>../err </dev/null
    [ $? = 0 ] && [ ! -s ../err ] && grep -qF -e "$text" ../out
    count $? "'$text' isn't said of '$line': $(head -c 300 ../out ../err | tr '\n' '~')"
}

# As `told`, where nothing may be said.
untold() {
    local line=$1
    shift
    "$explain" "$line" "$@" >../out 2>../err </dev/null
    [ $? = 0 ] && [ ! -s ../err ] && [ ! -s ../out ]
    count $? "something is said of '$line': $(head -c 300 ../out ../err | tr '\n' '~')"
}

# The program has to say a line for these words, where there is a program: says LINE WORD..
says() {
    local line=$1
    shift
    [ -x "$KORAT" ] || return 0
    [ "$("$KORAT" "$@" 2>/dev/null </dev/null | tail -n 1)" = "$line" ]
    count $? "the program doesn't say '$line' for: $*"
}

# ---- features

# A source, the place and rule that it is refused at, and a part of what is guessed: feature SOURCE PLACE TEXT
feature() {
    printf '%b' "$1" >A.java
    says "A.java:$2" check fin.toml A.java
    told "A.java:$2" "$3"
}

printf 'root = "A"\nfuel = 1000\n[objects]\nA = 1\n' >fin.toml
feature 'class A<T> { }' '1:8: P1' 'a generic class'
feature 'class A { <T> void m() { } }' '1:11: P1' 'a generic method'
feature 'class A { void m() { Collections.<A>x(); } }' '1:34: P1' 'type arguments of a call'
feature 'class A { HashMap<A, A> m; }' '1:20: P1' 'a type of two arguments'
feature 'class A { HashMap<HashSet<A>, A> m; }' '1:29: P1' 'a type of two arguments'
feature 'class A { LinkedList<?> m; }' '1:22: P1' 'a type argument of any class'
feature 'class A { LinkedList<HashSet<A>> m; }' '1:31: P1' 'a blank between them'
feature 'class A { void m(A[] a) { for (A x : a) { } } }' '1:36: P1' 'a `for` over elements'
feature 'class A { void m(A[] a) {\n for (final A x : a) { } } }' '2:17: P1' 'a `for` over elements'
feature 'class A { void m(int[] a) { for (int x : a) { } } }' '1:40: P1' 'a `for` over elements'
feature 'class A { void m() { for (LinkedList<A> x : a) { } } }' '1:43: P1' 'a `for` over elements'
feature 'class A { void m() { outer: while (true) { } } }' '1:27: P1' 'a label'
feature 'class A { void m() { x(A::m); } }' '1:25: P1' 'a reference to a method'
feature 'class A { void m() { x(y -> y); } }' '1:27: P1' 'a lambda expression'
feature 'class A { void m() { x(() -> 1); } }' '1:25: P1' 'a lambda expression'
feature 'class A { void m(int... x) { } }' '1:21: P1' 'a parameter of any number'
feature 'class A { void m(A... x) { } }' '1:20: P1' 'a parameter of any number'
feature 'class A { boolean m() { return x == A.class; } }' '1:39: P1' 'the object of a class'
feature 'class A { A m() { return A.this; } }' '1:28: P1' 'the outer object'
feature 'class A { private class B { } }' '1:19: P1' 'an inner or a local class'
feature 'class A { int[] a = new int[] {1, 2}; }' '1:29: P1' 'an array with its elements'
feature 'class A { int[] a = {1, 2}; }' '1:21: P1' 'an array with its elements'
feature 'class A { int[][] a = new int[2][2]; }' '1:33: P1' 'an array of arrays'
feature 'class A { int a[]; }' '1:16: P1' 'brackets after a name'
feature 'class A { static { } }' '1:18: P1' 'an initializer of a class'
feature 'class A { int x; { x = 1; } }' '1:18: P1' 'an initializer block'
feature 'class A { void m() { A a = new A() { }; } }' '1:36: P1' 'an anonymous class'
feature 'class A { A(int x) { } A() { this(1); } }' '1:34: P1' 'a call of another constructor'
feature 'import static java.util.Collections.sort; class A { }' '1:8: P1' "an import of a class's methods"
feature 'import java.io.File; class A { }' '1:13: P1' 'an import from elsewhere'
feature 'import java.util.function.Function; class A { }' '1:26: P1' 'an import from a package below'
feature '@FunctionalInterface class A { }' '1:1: P1' 'an annotation'
feature 'class A { @Deprecated int x; }' '1:12: P1' 'an annotation'
feature 'class A { boolean m(A a) { return a instanceof A b; } }' '1:50: P1' 'a name after `instanceof`'
feature 'class A { int m() { return 1.5; } }' '1:30: P1' 'a floating number'
feature 'class A { int m(); }' '1:18: P1' 'a method without a body'
feature 'record A(int x) { }' '1:1: P1' 'a record'
feature 'class A { int x = 1 }' '1:21: P1' 'a `;` before it'
feature 'class A { void m() { if (true) {' '1:33: P1' 'a bracket that is never closed'
feature 'class A { int int v; }' '1:15: P1' 'no source goes on with `int` here'
feature '\xef\xbb\xbfclass A { }' '1:1: L2' 'a mark that editors put before a text'
feature 'class A { int\xc2\xa0x; }' '1:14: L2' 'a character that came from a page'
feature 'class A { void m() { x("a"); } }' '1:24: L2' 'a string'
feature "class A { int c = 'a'; }" '1:19: L2' 'a character; in its place: its number'
feature 'class A { } # x' '1:13: L2' 'in its place: `//`'
feature 'class A { }\x1a' '1:12: L2' 'an end mark'
feature 'class A { int m() { return \\\\result; } }' '1:28: L2' 'outside a contract line'
feature 'class A { int c = 0x10; }' '1:19: L4' 'a hexadecimal'
feature 'class A { int c = 010; }' '1:19: L4' 'an octal number'
feature 'class A { int c = 1LL; }' '1:19: L4' 'a number with two letters'
feature 'class A { int c = 1_000; }' '1:19: L4' 'digits in groups'
feature 'class A { int c = 1e3; }' '1:19: L4' 'a floating number'
feature 'class A { int c = 3000000000; }' '1:19: L4' 'a number that no `int` is'
feature 'class A { int c = 1x; }' '1:19: L4' 'a name that begins with a digit'
feature 'class A { //@Override\n' '1:11: L6' 'a comment on an annotation'
feature 'class A { //@ invariant x;\n' '1:11: L6' 'another line of the Java Modeling Language'
feature 'class A { //@ signals_only Exception;\n' '1:11: L6' 'another line of the Java Modeling Language'
feature 'class A { //@ signals (Exception e)\n' '1:11: L6' "a contract line that doesn't end with"
feature 'class A { //@ hello\n' '1:11: L6' 'a comment that looks like a contract'
feature 'class A { //@ requires x\n' '1:11: L6' "a contract line that doesn't end with"
feature 'class A { //@ requires /* a */ x;\n' '1:11: L6' 'a contract line with a comment in it'

feature 'class A { boolean repOk() { return true; }\n//@ ensures true ==> false;\nvoid m() { } }' '2:20: P1' '`!a || b`'
feature 'class A { boolean repOk() { return true; }\n//@ ensures true <==> false;\nvoid m() { } }' '2:20: P1' '(a) == (b)'
feature 'class A { boolean repOk() { return true; }\n//@ ensures (\\forall int i; true);\nvoid m() { } }' '2:14: L2' 'a quantifier'
feature 'class A { void m() { try { } catch (A | B e) { } } }' '1:39: P1' 'a `catch` of several classes; in its place: a `catch` for each'
feature 'class A { void m() { try (A a = null) { } } }' '1:26: P1' 'a `try` with resources'
feature 'class A { void m() { try { } finally { } } }' '1:30: P2' 'what is done at each end of a `try`'
feature 'class A { void m() throws Exception { } }' '1:20: P2' 'the exceptions that a method declares'
feature 'class A extends Error { boolean repOk() { return true; } }' '1:17: C2' 'an exception that korat doesn'"'"'t have'
feature 'class A { boolean repOk() { try { return true; } catch (StackOverflowError e) { return false; } } }' '1:57: T1' 'the nearest predefined class above it'
feature 'class A { Boolean repOk() { return true; } }' '1:11: T1' 'in its place: `boolean`'
feature 'class A { boolean repOk() { return Math.max(1, 2) == 2; } }' '1:36: T3' '`a > b ? a : b`'
feature 'class A { boolean repOk() { int x = 1 // one\n\nreturn true; }\n}' '3:1: P1' 'the `;` is missing at the end of line 1 | class A { boolean repOk() { int x = 1 // one'
feature 'class A { int x\n  boolean repOk() { return true; }\n}' '2:3: P1' 'the `;` is missing at the end of line 1'
feature 'class A { boolean repOk() {\n  return true\n  }\n}' '3:3: P1' 'the `;` is missing at the end of line 2 |   return true'

# What the reader did is said first, and the tool that rewrites it.
printf 'class A<T> { }' >A.java
"$explain" 'A.java:1:8: P1' >../out
[ "$(sed -n 3p ../out)" = 'this looks like a generic class; in its place: a class without parameters: in place of each the actual class, or `int`' ] &&
    sed -n 4p ../out | grep -qF 'tools/adapt FIN A.java -o FOLDER'
count $? "what the reader did isn't said first: $(tr '\n' '~' <../out)"

# Each keyword that the language doesn't use has a row.
unused=$(sed -n '/^and knows, but doesn.t use,/,/^None/p' "$top/docs/LANGUAGE.md" | grep '^    ')
for word in $unused; do
    printf '%s x' "$word" >A.java
    says 'A.java:1:1: P2' check fin.toml A.java
    told 'A.java:1:1: P2' "in its place: "
done

# Each rule at a place has a row in docs/, and each class and typing rule with an example has that.
for rule in B1 L{1..6} P{1..3} C{1..8} T{1..43} I1 E1 E2; do
    told "none.java:1:1: $rule" "$rule: "
done
for rule in C{1..7} T1 T{3..43}; do
    told "none.java:1:1: $rule" "  refused: "
    told "none.java:1:1: $rule" "  taken: "
done

# ---- places

# The line with its caret: shown SOURCE PLACE LINES
shown() {
    printf '%b' "$1" >A.java
    "$explain" "A.java:$2" | head -n 2 >../out
    printf '%b' "$3" | cmp -s - ../out
    count $? "the place $2 isn't shown as it should be: $(tr '\n' '~' <../out)"
}

shown 'class A {\n\t\tint int v;\n}\n' '2:7: P1' '\t\tint int v;\n\t\t    ^\n'
shown 'class A { /* \xc3\xa4\xf0\x9f\x98\x80 */ # }' '1:20: L2' 'class A { /* \xc3\xa4\xf0\x9f\x98\x80 */ # }\n                   ^\n'
shown 'a\r\n\rb #' '3:3: L2' 'b #\n  ^\n'
shown 'class A {' '1:10: P1' 'class A {\n         ^\n'
shown 'class A {\n' '2:1: P1' '\n^\n'
told 'none.java:1:1: P1' "none.java can't be read here"
mkdir 'a: b'
printf 'class A { int int v; }' >'a: b/A.java'
told 'a: b/A.java:1:15: P1' 'class A { int int v; }'

# ---- finitizations

cat >List.java <<'END'
// A list; int no; is no field.
class Node {
    int value; /* boolean mark; */
    Node next, back;
}
class List extends Base {
    static final int K = (3), L = 4;
    Node head;
    int[] sizes = null;
    HashSet<Node> seen;
    void insert(final int value, Node[] more) { int local; }
    boolean repOK() { return head == null; }
}
class Base { int size; }
END
cat >good.toml <<'END'
root = "List"
fuel = 1000
[objects]
List = 1
Node = 2
[arrays]
"int[]" = { count = 1, lengths = [0, { from = 1, to = 2 }] }
[fields]
"List.head" = ["null", "Node"]
"List.sizes" = ["null", "int[]"]
"List.seen" = ["null"]
"Base.size" = [0]
"Node.value" = [1]
"Node.next" = ["null", "Node"]
"Node.back" = ["null", "Node"]
"int[].*" = [0]
END

# The finitization with a change, the rule and item that it breaks, and a part of what is said: document CHANGE RULE TEXT
document() {
    sed "$1" good.toml >f.toml
    says "f.toml: $2" list f.toml List.java
    told "f.toml: $2" "$3" -- list f.toml List.java
}

document 's/^fuel = .*/fuel = "/' 'F1 toml' '2 | fuel = "'
document 's/^fuel = .*/fuel = 5\nfuel = 6/' 'F1 toml' '3 | fuel = 6'
document 's/^fuel/feul/' 'F2 feul' 'the nearest is `fuel`'
document 's/count/cuont/' 'F2 arrays.int[]' 'the nearest is `count`'
document 's/to = 2/two = 2/' 'F2 arrays.int[]' 'the nearest is `to`'
document 's/"Node.value" = .*/"Node.value" = [{ form = 1, to = 2 }]/' 'F2 fields.Node.value' 'the nearest is `from`'
document 's/"Node.value"/Node.value/' 'F3 fields.Node' 'stands in quotes'
document 's/^fuel = .*/fuel = 0/' 'F4 fuel' '2 | fuel = 0'
document 's/^fuel = .*//' 'F5 fuel' "F5: a key that is required isn't there"
document 's/root = "List"/root = "Lst"/' 'S1 root' 'the nearest is `List`'
document 's/^Node = 2/Nod = 2/' 'S1 objects.Nod' 'the nearest is `Node`'
document 's/"Node.next"/"Noed.next"/' 'S1 fields.Noed.next' 'the nearest is `Node`'
document 's/"Node.next" = .*/"Node.next" = ["Noed"]/' 'S1 fields.Node.next' '`Noed` is no class of the sources; the nearest is `Node`'
document 's/"List.sizes" = .*/"List.sizes" = ["it[]"]/' 'S1 fields.List.sizes' 'the nearest is `int[]`'
document 's/^"int\[\]" =/"Nod[]" =/' 'S1 arrays.Nod[]' 'the nearest is `Node[]`'
document 's/"int\[\].\*" = .*//' 'S2 fields.int[].*' 'for example, in [fields]: "int[].*" = [{ from = 0, to = 2 }]'
document 's/"List.head" = .*//' 'S2 fields.List.head' '"List.head" = ["null", "Node"]'
document 's/"List.seen" = .*//' 'S2 fields.List.seen' '"List.seen" = ["null"]'
document 's/"List.head"/"List.haed"/' 'S2 fields.List.head' 'the nearest is `List.haed`'
document 's/^List = 1//' 'S3 this' 'in [objects]: List = 1'
document 's/"Node.value" = .*/"Node.value" = []/' 'S3 fields.Node.value' '13 | "Node.value" = []'
document 's/"Node.value" = .*/"Node.value" = [true]/' 'S4 fields.Node.value' '`Node.value` is declared as `int`'
document 's/"Node.value" = .*/"Node.value" = [1, 1]/' 'S5 fields.Node.value' '13 | "Node.value" = [1, 1]'
document '' 'S7 root' 'the nearest is `repOK`'
sed -i 's/repOK/repOk/' List.java
document 's/^\[fields\]/[fields]\n"List.size" = [0]/' 'S9 fields.List.size' '`Base.size` is a field'
document 's/^\[fields\]/[fields]\n"Node.valu" = [0]/' 'S9 fields.Node.valu' 'the nearest is `Node.value`'
document 's/^\[fields\]/[params]\n"insert.valeu" = [0]\n[fields]/' 'S9 params.insert.valeu' 'the nearest is `insert.value`'
document 's/"Node.value" = .*/"Node.value" = { from = 0, to = 1 }/' 'F3 fields.Node.value' 'a domain is in brackets: "Node.value" = [{ from = 0, to = 1 }]'
document 's/"Node.value" = .*/"Node.value" = 3 # three/' 'F3 fields.Node.value' '"Node.value" = [3]'
document 's/"Node.value"/"List.Node.value"/' 'F3 fields.List.Node.value' 'its own name alone: "Node.value"'
document 's/^Node = 2/"List.Node" = 2/' 'S1 objects.List.Node' 'its own name alone: `Node`'
document 's/^Node = 2/List.Node = 2/' 'F1 toml' 'its own name alone: `Node = 2`'
document 's/"List.head" = .*/"List.head" = ["null", "List.Node"]/' 'S1 fields.List.head' 'its own name alone: `Node`'
document 's/"Node.value" = .*/"Node.value" = ["1", "2"]/' 'S1 fields.Node.value' '`1` is a number, which is written without quotes'
document 's/"List.head" = .*/"List.head" = ["Null", "Node"]/' 'S1 fields.List.head' 'null is written `"null"`'
document 's/"List.head" = .*/"List.head" = [null, "Node"]/' 'F1 toml' 'null is written `"null"`'
document 's/^\[objects\]/objects = 100/;s/^List = 1//;s/^Node = 2//' 'F3 objects' '`objects` is a table'
document 's/^fuel = .*/objects = 100/' 'F1 toml' '`objects` is a table'
document 's/^fuel = .*//' 'F5 fuel' 'fuel = 100000'
document 's/^Node = 2/Node = { class = "Node", count = 2 }/' 'F3 objects.Node' 'in version 1 a class has a number of objects: Node = 1'
document 's/^fuel/version = 2\nfuel/' 'F3 objects.List' 'in version 2 an object domain has a class: List = { class = "List", count = 1 }'
second='s/^fuel/version = 2\nfuel/;s/^List = 1/List = { class = "List", count = 1 }/'
document "$second"';s/^Node = 2/"1x" = { class = "Node", count = 2 }/' 'F3 objects.1x' 'named by an identifier'
document "$second"';s/^Node = 2/Node = { count = 2 }/' 'F5 objects.Node' 'in [objects]: Node = { class = '
told 'f.toml: F7 version' 'of `upgrade` alone'
told 'none.toml: E3 arrays.int[][]' 'E3: an array type of `[arrays]`'
told '// more 0.1' 'there are more: --from 0.1 goes on'
told '// spent 0.1' 'the range has a spent run'
told 'f.toml: S1 root' 'with the words of the call behind --'
told 'none.toml: S1 root' "none.toml can't be read here"
printf 'root = "\xff"\n' >bytes.toml
told 'bytes.toml: F1 toml' 'F1: '
mkdir ../bin
printf '#!/bin/sh\nexit 1\n' >../bin/python3
chmod +x ../bin/python3
PATH="$work/bin:$PATH" told 'f.toml: F1 toml' 'python3 of version 3.11 or later would say'

# ---- words

# A part of what is said of words that are no command: words TEXT WORD..
words() {
    local text=$1
    shift
    says 'usage fault' "$@"
    told 'usage fault' "$text" -- "$@"
}

words 'no words'
words '`lst` is no command; the nearest is `list`' lst fin.toml A.java
words '`LIST` is no command; the nearest is `list`' LIST fin.toml A.java
words '`--help` is no command' --help
words 'no finitization, and no source' list
words 'no source behind the finitization' list fin.toml
words 'no source: a method' test fin.toml A.java
words 'no method, and no source' test fin.toml
words 'no source behind the finitization' list --limit 3 fin.toml
words '`--limt` is no option of list; the nearest is `--limit`' list --limt 3 fin.toml A.java
words '`--limit` is no option of check' check fin.toml A.java --limit 1
words '`-x` is no option of list' list -x A.java
words 'no value behind `--limit`' list fin.toml A.java --limit
words '`0` is no number from 1 to 4294967295' list fin.toml A.java --limit 0
words '`01` is no number' list fin.toml A.java --limit=01
words '`65` is no number from 1 to 64' list fin.toml A.java --workers 65
words '`65` is no number from 1 to 64' demo --workers 65 3
words '`0` is no number from 1 to 65536' list fin.toml A.java --window 0
words '`board` is no pool' list --pool board fin.toml A.java
words '`--window` beside `--pool deque`' list fin.toml A.java --pool=deque --window 9
words '`--trace` beside `--pool deque`' list --trace --pool deque fin.toml A.java
words '`--trace` takes no value' list --trace=1 fin.toml A.java
words '`--trace` stands there twice' list --trace fin.toml A.java --trace
words '`0..1` is no cut behind --from' list fin.toml A.java --from 0..1
words '`4294967296` is no cut behind --to' list fin.toml A.java --to 4294967296
words '`--from` stands there twice' list fin.toml A.java --from 0 --from 0
words '`--limit` stands between two sources' list fin.toml A.java --limit 9 B.java
words '17 sources, and at most 16' list fin.toml {1..17}.java
words 'no number behind demo' demo
words '`13` is no number from 1 to 12' demo 13
words '`01` is no number from 1 to 12' demo 01
words 'one word too many after demo' demo 1 2
words 'is no option of demo' demo 1 --limit 1
words 'no UTF-8' list fin.toml $'Cell\xc3.java'
words 'no source behind the finitization' list -- fin.toml
told 'usage fault' 'korat list [--from CUT]'

# ---- reads

mkdir folder
ln -s nowhere link.java
ln -s link.java loop.java
reads() {
    says "read fault $1" list fin.toml "$1"
    told "read fault $1" "$2"
}
reads Lst.java "isn't there; the nearest is \`List.java\`"
reads none/List.java 'there is no folder `none`'
reads folder 'is a folder'
reads link.java "is a link to what isn't there"
reads '' 'an empty word names no file'
reads ./-x "isn't there"
told 'read fault List.java' 'can be read now'
if [ "$(id -u)" != 0 ]; then
    : >shut.java
    chmod 000 shut.java
    reads shut.java 'no permission'
fi

# ---- spent runs, and listings that are whole

printf 'class Cell { int v; boolean repOk() { while (v == 1) {} return true; } }' >Cell.java
printf 'root = "Cell"\n\tfuel\t= 0b101 # five\n[objects]\nCell = 1\n[fields]\n"Cell.v" = [{ from = 0, to = 2 }]\n' >cell.toml
printf 'class Cell { int v; boolean repOk() { return v >= 0; } }' >Plain.java
sed 's/0b101/1_000/' cell.toml >loop.toml
cp cell.toml kept.toml
says 'spent 0.0' list cell.toml Plain.java
says 'spent 0.1' list loop.toml Cell.java
if [ -x "$KORAT" ]; then
    told 'spent 0.0' "with fuel = 50 it isn't spent there: more fuel helps" -- list cell.toml Plain.java
    told 'spent 0.1' 'with fuel = 10000 it is spent too' -- list --limit 3 loop.toml -- Cell.java
    cmp -s cell.toml kept.toml
    count $? "the finitization was changed"
fi
told 'spent 0.1' "more fuel wasn't tried"
KORAT=none told 'spent 0.1' "more fuel wasn't tried" -- list cell.toml Cell.java
told 'more 0.1' '--from 0.1 goes on'
told 'out of memory' 'memory was refused'
untold 'valid 2 tried 3' -- list cell.toml Cell.java
untold 'ok classes 1 slots 2' -- check cell.toml Cell.java
untold 'nodes 5 valid 42' -- demo 5
untold 'valid 2 tried 3'
told 'valid 0 tried 3' 'every run may have trapped' -- list cell.toml Cell.java
untold 'valid 7 tried 9' -- list good.toml List.java
sed 's/^Node = 2//' good.toml >f.toml
told 'valid 7 tried 9' 'a domain names `Node`, and [objects] gives it no objects' -- list f.toml List.java
sed 's/^"int\[\]" = .*//' good.toml >f.toml
told 'valid 7 tried 9' 'a domain names `int[]`, and [arrays] gives it no objects' -- list f.toml List.java
sed 's/^"Node.next" = .*/"Node.next" = [\n  "Node", # all\n]/' good.toml >f.toml
told 'valid 7 tried 9' '`Node.next` has no "null" among its values' -- list f.toml List.java
for folder in "$top"/examples/*/; do
    told_of=$(cd "$folder" && "$explain" "$(tail -n 1 expected)" -- list fin.toml ./*.java 2>&1 | grep -v 'has no "null" among its values')
    [ -z "$told_of" ]
    count $? "something is said of $folder: $told_of"
done

# ---- wrong words

# One line on standard error and status 2.
wrong() {
    "$explain" "$@" >../out 2>../err </dev/null
    [ $? = 2 ] && [ ! -s ../out ] && [ "$(wc -l <../err)" = 1 ]
    count $? "not one line and status 2: explain $*"
}
wrong
wrong 'hello'
wrong ''
wrong 'A.java:1:1: P1' more
wrong '0.1 Cell#0{v=1}'
wrong 'A.java:1:1: T99'
wrong 'fin.toml: S0 root'

# ---- the launcher

printf 'class Cells { Cells next; boolean repOk() { return true; } }' >Cells.java
printf 'root = "Cells"\nfuel = 9\nobjects.Cells = 1\nfields."Cells.next" = ["Cells"]\n' >cells.toml

# A checkout whose program says what the test wants.
mkdir -p ../checkout/crates/korat/{src,specs,proofs,out} ../checkout/tools
cp "$top/korat" ../checkout/
cp -r "$top/docs" ../checkout/
cp -r "$explain" "$top/tools/explaining" ../checkout/tools/
: >../checkout/crates.txt
: >../checkout/crates/korat/src/main.rt
printf '#!/bin/sh\nprintf "%%b" "$SAID" || exit 7\nexit "$ENDED"\n' >../checkout/crates/korat/out/korat
chmod +x ../checkout/crates/korat/out/korat
touch -d '2000-01-01' ../checkout/crates.txt ../checkout/crates/korat/src/main.rt

# The program's bytes and status, and a part of standard error: launched STATUS BYTES TEXT WORD..
launched() {
    local text=$3 status
    export ENDED=$1 SAID=$2
    shift 3
    KORAT_EXPLAIN=1 ../checkout/korat "$@" >../out 2>../err </dev/null
    status=$?
    [ "$status" = "$ENDED" ] && printf '%b' "$SAID" | cmp -s - ../out && grep -qF -e "$text" ../err
    count $? "the launcher with '$SAID': status $status, $(tr '\n' '~' <../err)"
    ../checkout/korat "$@" >../out 2>../err </dev/null
    [ $? = "$ENDED" ] && printf '%b' "$SAID" | cmp -s - ../out && [ ! -s ../err ]
    count $? "the launcher explains '$SAID' without being asked"
}
launched 3 'A.java:1:1: P2\n' 'P2: ' check fin.toml A.java
launched 4 'good.toml: S7 root\n' 'S7: ' check good.toml List.java
launched 6 'read fault Lst.java\n' 'the nearest is `List.java`' check good.toml Lst.java
launched 5 '0.0 Cell#0{v=0}\nspent 0.1\n' "wasn't tried" list cell.toml
launched 0 'valid 0 tried 3\n' 'every run may have trapped' list cell.toml Cell.java
launched 1 '0.1 repOk Cell#0{v=1}\nvalid 1 failing 1 tried 1\n' "1 of the rows aren't a" test cell.toml repOk Cell.java
launched 0 '0.1 pass Cell#0{v=1}\nvalid 1 failing 0 tried 1\n' 'has no "null"' test cells.toml repOk Cells.java
launched 0 '0.1 Cell#0{v=1}\nmore 0.1\n' '--from 0.1 goes on' list cell.toml Cell.java
ENDED=8 SAID='' KORAT_EXPLAIN=1 ../checkout/korat list cell.toml Cell.java >../out 2>../err
[ $? = 8 ] && [ ! -s ../out ] && [ ! -s ../err ]
count $? "the launcher where memory is refused"
ENDED=3 SAID='A.java:1:1: P2\n' KORAT_EXPLAIN=1 ../checkout/korat check fin.toml A.java >/dev/full 2>../err
[ $? = 7 ] && [ ! -s ../err ]
count $? "the launcher on a full device"
ENDED=3 SAID='A.java:1:1: P2\n' KORAT_EXPLAIN=1 ../checkout/korat check fin.toml A.java >&- 2>/dev/null
[ $? = 7 ]
count $? "the launcher on a closed output"
printf 'before\n' >../kept
ENDED=3 SAID='A.java:1:1: P2\n' KORAT_EXPLAIN=1 ../checkout/korat check fin.toml A.java >>../kept 2>/dev/null
[ "$(cat ../kept)" = $'before\nA.java:1:1: P2' ]
count $? "the launcher doesn't append to a file"

printf 'class C { boolean repOk() { return true; }\n  /*@ requires true;\n    @ ensures this != null; @*/\n  void m() { } }\n' >C.java
printf 'root = "C"\nfuel = 9\nobjects.C = 1\n' >c.toml
says 'valid 1 failing 0 tried 1' test c.toml m C.java
told 'valid 1 failing 0 tried 1' '`//@ ensures this != null;`' -- test c.toml m C.java
told 'ok classes 1 slots 1' 'C.java:2: a comment' -- check c.toml C.java

# ---- nothing is left

[ -z "$(ls "$TMPDIR")" ]
count $? "something is left in the folder for temporary files: $(ls "$TMPDIR")"
echo "$passed passed, $failed failed"
[ "$failed" = 0 ]
