#!/usr/bin/env bash
# Tests of tools/rows: rows of listings and tests as JSON, as a table and as counts, and what is no row.
. "$(dirname "$(readlink -f "$0")")/common.bash"
if ! command -v python3 >/dev/null; then
    echo "12 not tried: there is no python3"
    finish
    exit
fi

# What is written for a report has to be exactly this: gives NAME OPTION REPORT WANTED
gives() {
    printf '%b' "$3" >report
    given=report run 0 "$1" "$tools/rows" "$2"
    printf '%b' "$4" | cmp -s - out && [ ! -s err ]
    count $? "$1: $(cat out err)"
}

gives "an object" --json '0.1 C#0{v=-1,b=true,n=null,o=C#0}\nvalid 1 tried 2\n' \
    '[\n{"key":"0.1","objects":[{"type":"C","number":0,"fields":{"v":-1,"b":true,"n":null,"o":"C#0"}}]}\n]\n'
gives "arrays" --json '0 S#0{} int[]#0[0,1] E[]#1[]\nmore 0\n' \
    '[\n{"key":"0","objects":[{"type":"S","number":0,"fields":{}},{"type":"int[]","number":0,"elements":[0,1]},{"type":"E[]","number":1,"elements":[]}]}\n]\n'
gives "rows of a test" --json '0.0 ensures 2 (x=1,y=null) C#0{v=0}\n0.1 pass C#0{v=1}\nvalid 2 failing 1 tried 2\n' \
    '[\n{"key":"0.0","verdict":"ensures 2","arguments":{"x":1,"y":null},"objects":[{"type":"C","number":0,"fields":{"v":0}}]},\n{"key":"0.1","verdict":"pass","arguments":{},"objects":[{"type":"C","number":0,"fields":{"v":1}}]}\n]\n'
gives "no rows" --json 'valid 0 tried 2\n' '[]\n'
gives "a table" --csv '0.0 pass (x=true) C#0{v=0} D#0{} int[]#0[7]\nvalid 1 failing 0 tried 2\n' \
    'key,verdict,object,slot,value\n0.0,pass,,x,true\n0.0,pass,C#0,v,0\n0.0,pass,D#0,,\n0.0,pass,int[]#0,0,7\n'
gives "counts of a test" --count '0 pass (x=1) C#0{}\n1 ensures 10 C#0{}\n2 ensures 2 C#0{} N#0{}\n3 trap NullPointerException C#0{}\n4 check-trap NullPointerException C#0{}\n5 repOk C#0{}\n6 spent C#0{}\nspent 7\n' \
    'rows 7\nsize C=1: 6\nsize C=1 N=1: 1\nverdict check-trap: 1\nverdict ensures: 2\nverdict pass: 1\nverdict repOk: 1\nverdict spent: 1\nverdict trap: 1\nclause check-trap NullPointerException: 1\nclause ensures 2: 1\nclause ensures 10: 1\nclause trap NullPointerException: 1\nend spent 7\n'
gives "counts of a torn report" --count '0 C#0{}\n' 'rows 1\nsize C=1: 1\nend: none, the report is torn\n'
gives "a log of steps" --count '0 C#0{}\nvalid 1 tried 1\ntake 0 0\n' 'rows 1\nsize C=1: 1\nend valid 1 tried 1\n'

for line in 'fin.toml: F1 toml' 'X.java:1:2: P1' 'usage fault' '0.1 C#0' '0.1 passes C#0{}' ''; do
    echo "$line" >report
    given=report run 1 "no row: '$line'" "$tools/rows" --count
    [ ! -s out ] && [ "$(wc -l <err)" = 1 ]
    count $? "no row: '$line': $(cat out err)"
done
refuse 2 "no words" "$tools/rows"
refuse 2 "an unknown option" "$tools/rows" --xml
refuse 2 "two options" "$tools/rows" --json --csv

if [ -x "$KORAT" ]; then
    example=$top/examples/sorted-list
    "$KORAT" test "$example/fin.toml" insertBehind "$example/SortedList.java" >report
    given=report run 0 "a test of the examples" "$tools/rows" --count
    grep -qx 'rows 20' out && grep -qx 'verdict repOk: 3' out && grep -qx 'clause trap NullPointerException: 2' out && grep -qx 'end valid 20 failing 5 tried 73' out
    count $? "a test of the examples: $(cat out)"
    given=report run 0 "a test of the examples as data" "$tools/rows" --json
    [ "$(python3 -c 'import json, sys; print(len(json.load(sys.stdin)))' <out)" = 20 ]
    count $? "a test of the examples as data"
else
    echo "4 not tried: there is no program"
fi

finish
