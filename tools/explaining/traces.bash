# Part of tools/explain: lines of a traced listing.

# Says what the rule asks, and shows the line: explain_trace LINE RULE
explain_trace() {
    local shown
    row_of "$2"
    [ "$told" = 1 ] && [ -n "$fin" ] && [ -r "$fin" ] || return 0
    shown=$(sed -n "$1{p;q}" -- "$fin" | head -c 200)
    if [ -n "$shown" ]; then
        printf '  line %s of %s: %s\n' "$1" "$fin" "$shown"
    else
        printf '  %s ends before line %s\n' "$fin" "$1"
    fi
}
