# Part of tools/explain: what the tables of docs/ say of a rule, guesses, the nearest of names.

# ---- tables of docs/

# The first row of these tables whose first cell is a word, as `word: cells`.
row_of() {
    awk -v word="$1" '
        function bare(cell) { gsub(/^[ `]+|[ `]+$/, "", cell); return cell }
        { gsub(/\\\|/, "\001"); cells = split($0, cell, "|") }
        cells > 3 && bare(cell[2]) == word {
            text = cell[3]; gsub(/^ +| +$/, "", text); gsub("\001", "|", text)
            print word ": " text
            exit
        }' "$docs/LANGUAGE.md" "$docs/FINITIZATION.md" "$docs/BUILDERS.md" "$docs/REPORT.md"
}

# The example that a table has for a class or typing rule.
example_of() {
    awk -v word="$1" '
        { gsub(/\\\|/, "\001"); cells = split($0, cell, "|"); gsub(/ /, "", cell[2]) }
        cells == 6 && cell[2] == word && cell[4] ~ /^ *[0-9]+:[0-9]+ *$/ {
            gsub("\001", "|"); gsub(/^ +| +$/, "", cell[3]); gsub(/^ +| +$/, "", cell[5])
            gsub("\001", "|", cell[3]); gsub("\001", "|", cell[5])
            print "  refused: " cell[3]; print "  taken:   " cell[5]
            exit
        }' "$docs/LANGUAGE.md"
}

# The words that docs/LANGUAGE.md takes as no names.
keywords() {
    sed -n '/^\*\*Keywords/,/^None of them/p' "$docs/LANGUAGE.md" | grep '^    ' | tr -s ' \n' ' '
    echo true false null
}

# What docs/TOOLS.md has for a rule where this token, of this kind, stands behind these: guess RULE TOKEN KIND BEFORE
guess() {
    rule=$1 token=$2 kind=$3 before=" $4" awk '
        BEGIN { rule = ENVIRON["rule"]; token = ENVIRON["token"]; kind = ENVIRON["kind"]; before = ENVIRON["before"] }
        # The items of a cell, between commas outside of quotes, each with its tokens bare and a blank before it.
        function items(cell, item,    parts, n, i, inside, text) {
            inside = 0; n = 1; item[1] = " "
            parts = length(cell)
            for (i = 1; i <= parts; i++) {
                text = substr(cell, i, 1)
                if (text == "`") inside = !inside
                else if (text == "," && !inside) { n++; item[n] = "" }
                else item[n] = item[n] text
            }
            for (i = 1; i <= n; i++) {
                gsub(/^ +| +$/, "", item[i])
                gsub(/a name/, "NAME", item[i])
                gsub(/a number/, "NUMBER", item[i])
                gsub("\001", "|", item[i])
            }
            return n
        }
        function here(cell,    item, n, i) {
            n = items(cell, item)
            for (i = 1; i <= n; i++) if (item[i] == token || item[i] == kind) return 1
            return 0
        }
        function ends(text, end) { return substr(text, length(text) - length(end) + 1) == end }
        function behind(cell,    item, n, i, gap) {
            n = items(cell, item)
            for (i = 1; i <= n; i++) {
                gap = index(item[i], " .. ")
                if (item[i] == "") return 1
                if (!gap && ends(before, " " item[i])) return 1
                if (gap && index(before, " " substr(item[i], 1, gap)) && ends(before, substr(item[i], gap + 3))) return 1
            }
            return 0
        }
        { gsub(/\\\|/, "\001"); cells = split($0, cell, "|"); gsub(/ /, "", cell[2]) }
        cells == 7 && cell[2] == rule && here(cell[3]) && behind(cell[4]) {
            gsub(/^ +| +$/, "", cell[5]); gsub(/^ +| +$/, "", cell[6])
            gsub("\001", "|", cell[5]); gsub("\001", "|", cell[6])
            print "looks like " cell[5] "; in its place: " cell[6]
            exit
        }' "$docs/TOOLS.md"
}

# The nearest of the names on standard input to a name, where it is near: `; the nearest is NAME`, or nothing.
nearest() {
    word=$1 awk '
        function least(a, b) { return a < b ? a : b }
        function distance(a, b,    i, j, row, old, kept, n) {
            n = length(b)
            for (j = 0; j <= n; j++) row[j] = j
            for (i = 1; i <= length(a); i++) {
                kept = row[0]; row[0] = i
                for (j = 1; j <= n; j++) {
                    old = row[j]
                    row[j] = least(least(row[j], row[j - 1]) + 1, kept + (substr(a, i, 1) != substr(b, j, 1)))
                    kept = old
                }
            }
            return row[n]
        }
        BEGIN { word = ENVIRON["word"]; best = int(length(word) / 2) + 1 }
        $0 != "" && $0 != word {
            far = distance(tolower(word), tolower($0))
            if (far < best) { best = far; name = $0 }
        }
        END { if (name != "") print "; the nearest is `" name "`" }'
}
