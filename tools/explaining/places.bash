# Part of tools/explain: refusals at a place of a source.

# ---- places in sources

# Of a place in a file: its line, the blanks before the caret, the tokens before it, its token, and that token's kind.
seen_at() {
    awk -v line="$2" -v column="$3" -v keywords="$(keywords)" '
        # The number of bytes before a column, of which a character has several.
        function bytes_before(text, column,    i, n) {
            n = length(text)
            for (i = 1; i <= n; i++)
                if (substr(text, i, 1) !~ /[\200-\277]/ && --column == 0) return i - 1
            return n
        }
        function first_token(text) {
            if (match(text, /^[A-Za-z_$\200-\377][A-Za-z0-9_$\200-\377]*/)) return substr(text, 1, RLENGTH)
            if (match(text, /^[0-9][A-Za-z0-9_$]*/)) return substr(text, 1, RLENGTH)
            if (match(text, /^(\/\/@|>>>=|>>>|>>=|<<=|>>|<<|==|>=|<=|!=|&&|\|\||\+\+|--|[-+*\/&|^%]=)/)) return substr(text, 1, RLENGTH)
            return substr(text, 1, 1)
        }
        function kind_of(token) {
            if (token == "") return "the end"
            if (token ~ /^\357\273\277/) return "a byte order mark"
            if (token ~ /^\302\240|^\342\200[\200-\213\257]|^\343\200\200/) return "a blank of another kind"
            if (token ~ /^\342\200[\230-\237]/) return "a quote of another kind"
            if (token ~ /^[\001-\037\177]/) return "a control character"
            if (token ~ /^[0-9]/) return "NUMBER"
            if (token ~ /^[A-Za-z_$\200-\377]/ && !(token in keyword)) return "NAME"
            return token
        }
        function tokens_of(text,    token, told) {
            told = ""
            while (sub(/^[ \t\n\f]+/, "", text) || text != "") {
                if (text ~ /^\/\// && text !~ /^\/\/@/) { if (!sub(/^[^\n]*\n/, "", text)) break; continue }
                if (text ~ /^\/\*/) { if (!index(text, "*/")) break; text = substr(text, index(text, "*/") + 2); continue }
                token = first_token(text)
                if (token == "") break
                told = told " " kind_of(token)
                text = substr(text, length(token) + 1)
            }
            return told
        }
        BEGIN {
            n = split(keywords, words, " ")
            for (i = 1; i <= n; i++) keyword[words[i]] = 1
        }
        {
            sub(/\r$/, "")
            pieces = split($0, piece, "\r")
            if (pieces == 0) { pieces = 1; piece[1] = "" }
            for (i = 1; i <= pieces; i++) lines[++count % 40] = piece[i]
            if (count >= line) exit
        }
        END {
            if (count > line) exit
            text = count < line ? "" : lines[line % 40]
            before = bytes_before(text, column)
            for (i = line - 39 > 1 ? line - 39 : 1; i < line; i++) above = above lines[i % 40] "\n"
            blanks = substr(text, 1, before)
            gsub(/[\200-\277]/, "", blanks); gsub(/[^\t]/, " ", blanks)
            rest = substr(text, before + 1)
            token = first_token(rest)
            print text; print blanks
            print tokens_of(above substr(text, 1, before))
            print token; print kind_of(token); print rest
        }' "$1"
}

# The form of a number that is none, as docs/TOOLS.md names it.
number_form() {
    case ${1%[lL]} in
    0[xX]*) echo 0x ;;
    0[bB]*) echo 0b ;;
    *[!0-9_lLeEfFdD]*) echo NUMBER ;;
    *[lL]) echo L ;;
    *_*) echo _ ;;
    *[eEfFdD]*) echo e ;;
    0*) echo 0 ;;
    *) echo 9 ;;
    esac
}

# What is wrong with a contract line, as docs/TOOLS.md names it: its word, a comment in it, or no end.
contract_form() {
    local word
    word=$(sed -nE 's|^//@[ \t]*([A-Za-z_]*).*|\1|p' <<<"$1")
    case $word in
    requires | ensures | signals) case $1 in *"/*"*) echo "/*" ;; *) echo ";" ;; esac ;;
    *) echo "${word:-NAME}" ;;
    esac
}

# Where a token begins its line and what is before it ends a statement: the line that lacks its `;`, with its number:
# line_without_end FILE LINE BEFORE TEXT BLANKS
line_without_end() {
    local before=${3##* }
    case $before in
    NAME | NUMBER | ')' | ']' | null | true | false | this | break | continue | return | ++ | --) ;;
    *) return 1 ;;
    esac
    [[ ${4:0:${#5}} =~ ^[[:blank:]]*$ ]] || return 1
    head -n "$(($2 - 1))" -- "$1" | tr -d '\r' | awk '
        { text = $0; sub(/\/\/.*/, "", text); gsub(/\/\*.*\*\//, "", text) }
        text ~ /[^ \t]/ { line = NR; kept = $0 }
        END { if (line) print line " | " kept; exit !line }'
}

# What Adapt has nothing to do with.
is_a_slip() {
    case $1 in
    *'`;` before it'* | *'never closed'* | *"editors"* | *'came from a page'* | *'another language'* | *'contract line'* | *quantifier* | *implication* | *equivalence*) ;;
    *) return 1 ;;
    esac
}

# What the reader did, as far as it can be guessed, and the tool that rewrites it: say_guess FILE LINE RULE, and what was seen
say_guess() {
    local file=$1 line=$2 rule=$3 token kind guessed ended
    shift 3
    token=$4 kind=$5
    if [ "$rule" = P1 ] && ended=$(line_without_end "$file" "$line" "$3" "$1" "$2"); then
        printf 'the `;` is missing at the end of line %s\n' "$ended"
        return
    fi
    case $rule in
    L2) [[ ! $6 =~ ^\\[a-z_]+ ]] || token=${BASH_REMATCH[0]} kind=$token ;;
    L4) token=$(number_form "$token") kind=$token ;;
    L6)
        token=$(contract_form "$6") kind=$token
        [[ ! $token =~ ^[A-Za-z_]+$ ]] || kind=NAME
        ;;
    P1 | P2 | C2 | T1 | T3) ;;
    *) return ;;
    esac
    guessed=$(guess "$rule" "$token" "$kind" "$3")
    if [ -n "$guessed" ]; then
        echo "this $guessed"
    elif [ "$rule" = P1 ]; then
        echo "no source goes on with \`$token\` here"
    fi
    case $rule in
    P1 | P2 | L2) is_a_slip "$guessed" || echo "where a class is as its author wrote it: \`tools/adapt FIN $file -o FOLDER\` rewrites most of what the subset lacks" ;;
    esac
}

# A refusal at a place: its line with a caret, what the reader did, the rule's row, an example.
explain_place() {
    local file=$1 line=$2 column=$3 rule=$4 seen=()
    if [ -f "$file" ] && [ -r "$file" ]; then
        mapfile -t seen < <(seen_at "$file" "$line" "$column")
        if [ "${#seen[@]}" -gt 0 ]; then
            printf '%s\n%s^\n' "${seen[0]}" "${seen[1]}"
            say_guess "$file" "$line" "$rule" "${seen[@]}"
        fi
    else
        echo "$file can't be read here, so its line isn't shown"
    fi
    row_of "$rule"
    example_of "$rule"
}
