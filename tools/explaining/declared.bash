# Part of tools/explain: what finitizations and sources have, read roughly.

# ---- finitizations

# A finitization as lines of three parts between tabs: a path, what stands there, and the line. An array gives a line for each
# item; a range is `{ from to }` with the keys that it has.
entries() {
    [ -f "$1" ] && [ -r "$1" ] || return 0
    awk '
        function add(kind, text) { n++; kinds[n] = kind; texts[n] = text; places[n] = NR }
        function word_end(text) { return match(text, /^[A-Za-z0-9_+.:-]+/) ? RLENGTH : 0 }
        function quoted_end(text,    quote, i) {
            quote = substr(text, 1, 1)
            for (i = 2; i <= length(text); i++) {
                if (substr(text, i, 1) == quote) return i
                if (quote == "\"" && substr(text, i, 1) == "\\") i++
            }
            return length(text)
        }
        {
            text = $0
            sub(/\r$/, "", text)
            while (sub(/^[ \t]+/, "", text) || text != "") {
                if (text ~ /^#/) break
                if (text ~ /^["\047]/) { size = quoted_end(text); add("text", substr(text, 2, size - 2)) }
                else if ((size = word_end(text)) > 0) add("word", substr(text, 1, size))
                else { size = 1; add(substr(text, 1, 1), "") }
                text = substr(text, size + 1)
            }
            add("line", "")
        }
        function told(i) { return kinds[i] == "text" ? "\"" texts[i] "\"" : texts[i] }
        # The path from here to the token that ends it.
        function path(end,    text) {
            text = ""
            while (at <= n && kinds[at] != end && kinds[at] != "line") text = text texts[at++]
            at++
            return text
        }
        function range_keys(    keys) {
            keys = "{"
            for (; at <= n && kinds[at] != "}"; at++) if (kinds[at + 1] == "=") keys = keys " " texts[at]
            at++
            return keys " }"
        }
        function skip_array(    depth) {
            for (depth = 0; at <= n; at++) {
                if (kinds[at] == "[") depth++
                if (kinds[at] == "]" && --depth == 0) { at++; return }
            }
        }
        function array(name,    place) {
            for (at++; at <= n && kinds[at] != "]"; ) {
                place = places[at]
                if (kinds[at] == "{") print name "\t" range_keys() "\t" place
                else if (kinds[at] == "[") skip_array()
                else { if (kinds[at] == "text" || kinds[at] == "word") print name "\t" told(at) "\t" place; at++ }
            }
            at++
        }
        function pair(table,    name, place) {
            place = places[at]
            name = (table == "" ? "" : table ".") path("=")
            print name "\t=\t" place
            if (kinds[at] == "[") array(name)
            else if (kinds[at] == "{") inline(name)
            else print name "\t" told(at++) "\t" place
        }
        function inline(table) {
            for (at++; at <= n && kinds[at] != "}"; )
                if (kinds[at] == "," || kinds[at] == "line") at++
                else pair(table)
            at++
        }
        END {
            at = 1
            while (at <= n) {
                if (kinds[at] == "line") at++
                else if (kinds[at] == "[") { at++; table = path("]") }
                else pair(table)
            }
        }' "$1"
}

# What stands at a path of a finitization, an item a line.
values_at() {
    entries "$fin" | path=$1 awk -F '\t' '$1 == ENVIRON["path"] && $2 != "=" { print $2 }'
}

# The names right below a table of a finitization.
keys_below() {
    entries "$fin" | table="$1." awk -F '\t' '
        BEGIN { table = ENVIRON["table"] }
        $2 == "=" && index($1, table) == 1 { print substr($1, length(table) + 1) }'
}

# Whether the finitization is of version 2, in which object domains have names of their own.
is_second() {
    [ "$(values_at version)" = 2 ]
}

# The line of a finitization that has an item, with its number.
show_item() {
    local line
    line=$(entries "$fin" | path=$1 awk -F '\t' '
        BEGIN { path = ENVIRON["path"] }
        $1 == path || index($1, path ".") == 1 { print $3; exit }')
    [ -z "$line" ] || sed -n "${line}{s/^/$line | /;p;q;}" "$fin"
}

# ---- what sources declare

# The classes, fields and methods of sources, as lines: `class NAME`, `extends NAME ABOVE`, `field NAME.FIELD TYPE`,
# `method NAME.METHOD TYPE`, `parameter METHOD.NAME TYPE`. They are sources that break no rule.
declared() {
    [ "$#" -gt 0 ] || return 0
    awk '
        function add(token) { tokens[++n] = token }
        {
            sub(/\r$/, "")
            text = $0
            while (text != "") {
                if (inside) {
                    if (!(place = index(text, "*/"))) break
                    text = substr(text, place + 2); inside = 0
                }
                if (text ~ /^[ \t\f\r]/) { text = substr(text, 2); continue }
                if (text ~ /^\/\//) break
                if (text ~ /^\/\*/) { inside = 1; text = substr(text, 3); continue }
                size = match(text, /^[A-Za-z0-9_$\200-\377]+/) ? RLENGTH : 1
                add(substr(text, 1, size))
                text = substr(text, size + 1)
            }
        }
        # Past the bracket at `at` and what it holds.
        function pass(open, close_,    depth) {
            for (depth = 0; at <= n; at++) {
                if (tokens[at] == open) depth++
                if (tokens[at] == close_ && --depth == 0) { at++; return }
            }
        }
        function type_at(    text) {
            text = tokens[at++]
            while (tokens[at] == "." || tokens[at] == "<" || tokens[at] == "[") {
                if (tokens[at] == ".") { text = tokens[at + 1]; at += 2; continue }
                if (tokens[at] == "[") { text = text "[]"; at += 2; continue }
                at++
                text = text "<" type_at() ">"
                at++
            }
            return text
        }
        function parameters(method,    type) {
            for (at++; at <= n && tokens[at] != ")"; ) {
                if (tokens[at] == "," || tokens[at] == "final") { at++; continue }
                type = type_at()
                print "parameter " method "." tokens[at++] " " type
            }
            at++
        }
        # The names of one declaration, from the first on.
        function fields(class_, type, constant,    depth) {
            while (at <= n && tokens[at] != ";") {
                if (!constant) print "field " class_ "." tokens[at] " " type
                depth = 0
                for (at++; at <= n && !(depth == 0 && (tokens[at] == "," || tokens[at] == ";")); at++) {
                    if (index("([{", tokens[at])) depth++
                    if (index(")]}", tokens[at])) depth--
                }
                if (tokens[at] == ",") at++
            }
            at++
        }
        function member(class_,    constant, type) {
            constant = 0
            while (tokens[at] ~ /^(public|protected|private|static|final|@|Override)$/) { constant = constant || tokens[at] == "static"; at++ }
            if (tokens[at] == "class") { class_body(); return }
            if (tokens[at] == class_ && tokens[at + 1] == "(") { at++; pass("(", ")"); pass("{", "}"); return }
            type = type_at()
            if (tokens[at + 1] != "(") { fields(class_, type, constant); return }
            print "method " class_ "." tokens[at] " " type
            parameters(tokens[at++])
            pass("{", "}")
        }
        function class_body(    class_, above) {
            class_ = tokens[++at]
            print "class " class_
            for (at++; at <= n && tokens[at] != "{"; at++) if (tokens[at] != "." && tokens[at] != "extends") above = tokens[at]
            if (above != "") print "extends " class_ " " above
            for (at++; at <= n && tokens[at] != "}"; ) {
                if (tokens[at] == ";") at++
                else member(class_)
            }
            at++
        }
        END { for (at = 1; at <= n; ) if (tokens[at] == "class") class_body(); else at++ }' "$@"
}

# Of what is declared the names of one kind: names_of class
names_of() {
    sed -n "s/^$1 \([^ ]*\).*/\1/p" <<<"$known"
}

# The type of a field or parameter.
type_of() {
    awk -v kind="$1" -v name="$2" '$1 == kind && $2 == name { print $3; exit }' <<<"$known"
}

array_types() {
    { printf '%s\n' int long boolean; names_of class; } | sed 's/$/[]/'
}

# What a name could have been meant by that no class has: a number, null, a class with its outer one, or a near one of the names on
# standard input: meant_by NAME WHAT
meant_by() {
    local name=$1 last=${1##*.}
    case $name in
    true | false)
        echo "\`$name\` is a truth value, which is written without quotes: [$name]"
        return
        ;;
    [Nn][Uu][Ll][Ll] | nil | None | '')
        echo "null is written \`\"null\"\`"
        return
        ;;
    esac
    if [[ $name =~ ^[-+]?[0-9][0-9_]*$ ]]; then
        echo "\`$name\` is a number, which is written without quotes: [$name]"
    elif [ "$last" != "$name" ] && names_of class | grep -qxF "${last%%[*}"; then
        echo "a nested class is named by its own name alone: \`$last\`"
    else
        echo "\`$name\` is no $2 of the sources$(nearest "$name")"
    fi
}

# The names that stand for objects: classes, or the object domains of version 2.
object_names() {
    if is_second; then keys_below objects | cut -d . -f 1 | sort -u; else names_of class; fi
}

# What a name that stands for no objects could have been meant by.
objects_meant_by() {
    local kind=class
    ! is_second || kind="object domain"
    object_names | grep -qxF "$1" || object_names | meant_by "$1" "$kind"
}

# The names in a domain that stand for nothing, each with what it could have been meant by.
strange_names() {
    local name
    values_at "$1" | sed -n 's/^"\(.*\)"$/\1/p' | while read -r name; do
        case $name in
        null) ;;
        *"[]") array_types | grep -qxF "$name" || array_types | meant_by "$name" "array type" ;;
        *) objects_meant_by "$name" ;;
        esac
    done
}
