# Part of tools/explain: words of a call, and files that are not read.

# ---- words

# The forms of the commands, as docs/COMMAND_LINE.md has them.
forms() {
    sed -n 's/^    korat \([a-z].*\)/\1/p' "$docs/COMMAND_LINE.md"
}

wrong() {
    echo "$1"
    [ -z "${form:-}" ] || echo "  korat $form"
    exit 0
}

# A value of an option or a place, which has to be of its form: CUT, N, or a file's name.
check_value() {
    local most=4294967295
    case $1 in
    CUT)
        [[ $2 =~ ^(0|[1-9][0-9]{0,9})(\.(0|[1-9][0-9]{0,9}))*$ ]] && ! tr . '\n' <<<"$2" | awk '$1 > 4294967295 { found = 1 } END { exit !found }' ||
            wrong "\`$2\` is no cut behind --$3: numbers below 2^32 without leading zeros, joined by dots, as 0.1.2"
        ;;
    N)
        case $3 in
        workers) most=64 ;;
        window) most=65536 ;;
        '') most=12 ;;
        esac
        [[ $2 =~ ^[1-9][0-9]{0,9}$ ]] && [ "$2" -le "$most" ] || wrong "\`$2\` is no number from 1 to $most without a sign or leading zeros"
        ;;
    deque) [ "$2" = deque ] || wrong "\`$2\` is no pool: deque is the only one that has a name" ;;
    esac
}

# Says which word of a usage fault is wrong.
explain_usage() {
    local word name value seen=" " files=0 between=""
    forms | sed 's/^/korat /' | {
        [ "$#" -gt 0 ] || { echo "no words; the commands are:"; sed 's/^/  /'; exit 0; }
    }
    [ "$#" -gt 0 ] || return 0
    for word in "$@"; do
        printf '%s' "$word" | iconv -f UTF-8 -t UTF-8 >/dev/null 2>&1 || wrong "a word that is no UTF-8: $(printf '%q' "$word")"
    done
    command=$1
    form=$(forms | name=$command awk '$1 == ENVIRON["name"]' | head -n 1)
    if [ -z "$form" ]; then
        echo "\`$command\` is no command$(forms | awk '{ print $1 }' | nearest "$command"); the commands are:"
        forms | sed 's/^/  korat /'
        return 0
    fi
    shift
    while [ "$#" -gt 0 ]; do
        word=$1
        shift
        case $word in
        --)
            files=$((files + $#))
            break
            ;;
        --*)
            name=${word%%=*} name=${name#--}
            case $form in
            *"[--$name "* | *"[--$name]"*) ;;
            *) wrong "\`--$name\` is no option of $command$(grep -oE -e '--[a-z]+' <<<"$form" | nearest "--$name")" ;;
            esac
            case $seen in *" $name "*) wrong "\`--$name\` stands there twice" ;; esac
            seen="$seen$name "
            value=${form#*"[--$name"} value=${value%%]*} value=${value# }
            case $value$word in
            *=*) [ -n "$value" ] || wrong "\`--$name\` takes no value" ;;
            esac
            [ -n "$value" ] || { [ "$files" -lt 2 ] || between="--$name"; continue; }
            case $word in
            *=*) word=${word#*=} ;;
            *)
                [ "$#" -gt 0 ] || wrong "no value behind \`--$name\`"
                word=$1
                shift
                ;;
            esac
            check_value "$value" "$word" "$name"
            [ "$files" -lt 2 ] || between="--$name"
            ;;
        -?*) wrong "\`$word\` is no option of $command; a file's name that begins with - stands behind --" ;;
        *)
            files=$((files + 1))
            [ -z "$between" ] || wrong "\`$between\` stands between two sources: options stand before FIN, behind it, or at the end"
            case $form in *FIN* | *FILE*) ;; *) [ "$files" -gt 1 ] || check_value N "$word" "" ;; esac
            ;;
        esac
    done
    case $seen in
    *" pool "*)
        for name in window trace; do
            case $seen in *" $name "*) wrong "\`--$name\` beside \`--pool deque\`: deques have no window, and tell no steps" ;; esac
        done
        ;;
    esac
    explain_count "$files"
}

# Whether there are too few files or too many.
explain_count() {
    case $form in
    *METHOD*)
        [ "$1" -ge 1 ] || wrong "no finitization, no method, and no source"
        [ "$1" -ge 2 ] || wrong "no method, and no source behind it"
        [ "$1" -ge 3 ] || wrong "no source: a method's name is the word behind the finitization, and the sources follow it"
        [ "$1" -le 18 ] || wrong "$(($1 - 2)) sources, and at most 16 are taken"
        ;;
    *FILE..)
        [ "$1" -ge 1 ] || wrong "no file"
        [ "$1" -le 64 ] || wrong "$1 files, and at most 64 are taken"
        ;;
    *FILE | *[a-z]\ FIN)
        [ "$1" -ge 1 ] || wrong "no file after $command"
        [ "$1" -le 1 ] || wrong "one word too many after $command"
        ;;
    *FIN*)
        [ "$1" -ge 1 ] || wrong "no finitization, and no source"
        [ "$1" -ge 2 ] || wrong "no source behind the finitization"
        [ "$1" -le 17 ] || wrong "$(($1 - 1)) sources, and at most 16 are taken"
        ;;
    *)
        [ "$1" -ge 1 ] || wrong "no number behind $command"
        [ "$1" -le 1 ] || wrong "one word too many after $command"
        ;;
    esac
    wrong "the words aren't of the command's form"
}

# Takes the words of a call apart, which give a command: the finitization, the sources, the words that aren't files.
read_words() {
    local word
    command=${1:-}
    [ "$#" = 0 ] || shift
    while [ "$#" -gt 0 ]; do
        word=$1
        shift
        case $word in
        --) files+=("$@") && break ;;
        --*=* | --trace) ;;
        --*) [ "$#" = 0 ] || shift ;;
        *) files+=("$word") ;;
        esac
    done
    [ "${#files[@]}" -gt 0 ] || return 0
    [ "$command" != demo ] || return 0
    fin=${files[0]}
    sources=("${files[@]:1}")
    if [ "$command" = test ]; then
        method=${files[1]-}
        sources=("${files[@]:2}")
    fi
}

# ---- reads

explain_read() {
    local name=$1 folder
    folder=$(dirname -- "$name")
    if [ -z "$name" ]; then
        echo "an empty word names no file"
    elif [ -d "$name" ]; then
        echo "\`$name\` is a folder; a source is one file, and several are given one behind another"
    elif [ -L "$name" ] && [ ! -e "$name" ]; then
        echo "\`$name\` is a link to what isn't there"
    elif [ -e "$name" ] && [ ! -r "$name" ]; then
        echo "\`$name\` may not be read: no permission"
    elif [ -e "$name" ]; then
        echo "\`$name\` is there and can be read now"
    elif [ ! -d "$folder" ]; then
        echo "\`$name\` isn't there: there is no folder \`$folder\`"
    elif [ ! -x "$folder" ]; then
        echo "\`$name\` can't be reached: no permission for the folder \`$folder\`"
    else
        echo "\`$name\` isn't there$(ls -- "$folder" | nearest "$(basename -- "$name")")"
    fi
}
