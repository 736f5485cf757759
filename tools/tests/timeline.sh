#!/usr/bin/env bash
# Tests of tools/timeline: where each box of a small log is, logs of the program by several workers, and what is no log.
. "$(dirname "$(readlink -f "$0")")/common.bash"

# The boxes of the picture, left edge and width: boxes
boxes() {
    grep -o '<rect x="[0-9.]*" y="[0-9]*" width="[0-9.]*"' out | tr -dc '0-9. \n' | awk '{ print $1, $2, $3 }'
}

# A log has to give these boxes: draw NAME LOG BOX..
draw() {
    local name=$1
    printf 'valid 0 tried 0\n%s\n' "$2" >report
    shift 2
    run 0 "$name" "$tools/timeline" report
    printf '%s\n' "$@" >wanted
    boxes | cmp -s wanted - && [ ! -s err ] && [ "$(tail -n 1 out)" = '</svg>' ]
    count $? "$name: $(boxes | tr '\n' ';')"
}

# 890 wide from 90 on: ten entries are 89 each
draw "one report" $'take 0 0\nreport 0 0 end 3 10\nlook 0' '90.0 52 890.0'
draw "two reports of a worker, one after the other" $'take 0 0\nreport 0 0 0.3 1 4\nreport 0 0 end 1 6' '90.0 52 356.0' '446.0 52 534.0'
draw "a part that was cut off begins where it was cut" \
    $'take 0 0\nreport 0 0 0.1 0 5\nsteal 0 0 0.5 1\ntake 1 1\nreport 1 1 end 0 5\nreport 0 0 0.5 0 5' \
    '90.0 52 445.0' '535.0 78 445.0' '535.0 52 445.0'
draw "a part that was given up begins where it was left" \
    $'take 0 0\nreport 0 0 0.1 0 5\ngiveup 0 0\ntake 1 0\nreport 1 0 end 0 5' '90.0 52 445.0' '535.0 78 445.0'
draw "parts from the start" $'take 0 0\ntake 1 1\nreport 1 1 end 0 10\nreport 0 0 0.1 0 10' '90.0 78 890.0' '90.0 52 890.0'
draw "a report that ended at a spent entry" $'take 0 0\nreport 0 0 0.1 0 1 spent' '90.0 52 890.0'
grep -q 'fill="#c00"' out
count $? "spent entries have a color of their own"
draw "nothing scanned" $'take 0 0\nreport 0 0 end 0 0\ndrain 0' '90.0 52 0.5'
grep -q '>written<' out && grep -q '<title>0 rows</title>' out
count $? "what was written has a row"
draw "a seat that only looked has a row" $'take 0 0\nreport 0 0 end 0 1\nlook 3' '90.0 52 890.0'
[ "$(grep -c '>worker [0-3]<' out)" = 4 ]
count $? "four rows"

# ---- logs of the program

cp "$top"/examples/trees/{fin.toml,Tree.java} .
for words in "--workers 1" "--workers 2" "--workers 4 --window 1" "--workers 8" "--workers 4 --limit 2"; do
    "$KORAT" list $words --trace fin.toml Tree.java >report
    run 0 "list $words" "$tools/timeline" report
    [ "$(boxes | wc -l)" = "$(grep -c '^report' report)" ] && [ ! -s err ]
    count $? "list $words: not as many boxes as reports"
    tried=$(awk '/^report/ { tried += $6 } END { print tried + 0 }' report)
    grep -q ", $tried entries" out
    count $? "list $words: not $tried entries"
done
given=report run 0 "standard input" "$tools/timeline" -

# ---- no log

"$KORAT" list fin.toml Tree.java >report
refuse 1 "a report without a log" "$tools/timeline" report
: >report
refuse 1 "nothing" "$tools/timeline" report
for line in 'take 0' 'take 0 x' 'take 01 0' 'report 0 0 end 1' 'report 0 0 0. 1 1' 'report 0 0 end 1 1 late' 'steal 0 0 end 1' 'drain' 'stop end' 'gone 0' '' \
    'take 4294967296 0'; do
    printf 'valid 0 tried 0\ntake 0 0\n%s\n' "$line" >report
    refuse 1 "no event: '$line'" "$tools/timeline" report
done
refuse 1 "no file" "$tools/timeline" nowhere
refuse 1 "a folder" "$tools/timeline" .
refuse 2 "no word" "$tools/timeline"
refuse 2 "two words" "$tools/timeline" report report
refuse 2 "an option" "$tools/timeline" --svg

finish
