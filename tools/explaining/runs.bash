# Part of tools/explain: runs that are spent, and listings that are whole.

# ---- spent runs

# Tries ten times the fuel, on a copy of the finitization, from just below the key to the last key that goes on with it.
explain_spent() {
    local key=$1 fuel more below last told
    row_of 5 | sed 's/^5: //'
    fuel=$(values_at fuel | tr -d _)
    if ! [[ $fuel =~ ^\+?(0[xob][0-9A-Fa-f]+|[0-9]+)$ ]] || [ ! -x "$program" ] || [ "${#sources[@]}" = 0 ]; then
        echo "more fuel wasn't tried: that needs the built program, and the words of the call behind --"
        return 0
    fi
    case $fuel in
    0o*) fuel=$((8#${fuel#0o})) ;;
    0b*) fuel=$((2#${fuel#0b})) ;;
    0x*) fuel=$((fuel)) ;;
    *) fuel=$((10#${fuel#+})) ;;
    esac
    more=$((fuel * 10 > 1000000000 ? 1000000000 : fuel * 10))
    last=${key##*.} below=${key%"$last"}
    if [ "$last" -gt 0 ]; then
        below="$below$((last - 1)).4294967295"
    else
        below=${below%.}
    fi
    work=$(mktemp -d) || return 0
    trap 'rm -rf "$work"' EXIT
    sed -E "s/^([ \t]*[\"']?fuel[\"']?[ \t]*=[ \t]*)[+0-9A-Fa-fxob_]+/\1$more/" "$fin" >"$work/fin.toml"
    told=$(timeout "$seconds" "$program" list ${below:+--from "$below"} --to "$key.4294967295" --limit 1 -- \
        "$work/fin.toml" "${sources[@]}" 2>/dev/null </dev/null | tail -n 1)
    case $told in
    "spent "*) echo "with fuel = $more it is spent too, at ${told#spent }: repOk may never end there, as on a cycle that it doesn't look for" ;;
    "valid "* | "more "*) echo "with fuel = $more it isn't spent there: more fuel helps" ;;
    *) echo "with fuel = $more there was no answer within $seconds seconds" ;;
    esac
}

# ---- listings that are whole

# What may be silently empty.
explain_listing() {
    local name path
    [ "${#sources[@]}" -gt 0 ] && [ -r "$fin" ] || return 0
    entries "$fin" | awk -F '\t' '/^(fields|params)\./ && $2 ~ /^"/ { gsub(/"/, "", $2); if ($2 != "null") print $2 }' | sort -u |
        while read -r name; do
            case $name in *"[]") path="arrays.$name.count" ;; *) path="objects.$name" ;; esac
            case $path in objects.*) ! is_second || path="$path.count" ;; esac
            case $(values_at "$path") in
            "" | 0) echo "warning: a domain names \`$name\`, and [${path%%.*}] gives it no objects: it stands for nothing there" ;;
            esac
        done
    entries "$fin" | awk -F '\t' '
        /^(fields|params)\./ && $2 ~ /^"/ { named[$1] = 1; if ($2 == "\"null\"") with_null[$1] = 1 }
        END { for (path in named) if (!(path in with_null)) print substr(path, index(path, ".") + 1) }' | sort |
        while read -r name; do
            echo "warning: \`$name\` has no \"null\" among its values: it never ends a list or a branch"
        done
    explain_comments
    case $1 in
    "valid 0 "*) echo "warning: nothing is valid; a run that traps (null, an index, a division) counts as false, so every run may have trapped" ;;
    esac
}

# Contracts of the Java Modeling Language in a form that isn't read.
explain_comments() {
    local source
    for source in "${sources[@]}"; do
        [ -f "$source" ] && [ -r "$source" ] || continue
        awk -v name="$source" '
            index($0, "/*@") { inside = 1 }
            inside && match($0, /(requires|ensures|signals)[ \t].*/) {
                text = substr($0, RSTART)
                sub(/[ \t]*@?\*\/.*/, "", text); sub(/[ \t\r;]*$/, ";", text)
                print "warning: " name ":" NR ": a comment `/*@ .. @*/` isn\047t read; in its place a line before the method: `//@ " text "`"
            }
            index($0, "*/") { inside = 0 }' "$source"
    done
}

# How a test ended: what fails, and how to see more of it.
explain_test() {
    local failing
    failing=$(sed -nE 's/^valid [0-9]+ failing ([0-9]+) .*/\1/p' <<<"$1")
    if [ "${failing:-0}" != 0 ]; then
        echo "$failing of the rows aren't a \`pass\`; docs/REPORT.md says what each verdict means, and tools/after what is there after the call"
    fi
    explain_listing "$1"
}
