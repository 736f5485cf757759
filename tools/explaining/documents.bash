# Part of tools/explain: refusals of finitizations.

# ---- refusals of finitizations

# The line of what is no TOML, by python3's own reader where there is one.
explain_toml() {
    local told line
    told=$(python3 - "$fin" 2>/dev/null <<'END'
import sys, tomllib
try:
    tomllib.loads(open(sys.argv[1], "rb").read().decode())
    print("python3's reader, which knows TOML 1.0, takes it")
except UnicodeDecodeError as fault:
    print("no UTF-8 (at line %d)" % (fault.object[: fault.start].count(b"\n") + 1))
except tomllib.TOMLDecodeError as fault:
    print(fault)
END
    ) || told=""
    if [ -z "$told" ]; then
        echo "python3 of version 3.11 or later would say at which line"
        return
    fi
    echo "$told"
    line=$(sed -nE 's/.*at line ([0-9]+).*/\1/p' <<<"$told")
    [ -n "$line" ] || return 0
    sed -n "${line}{s/^/$line | /;p;q;}" "$fin"
    sed -n "${line}p" "$fin" | explain_line
}

# What is wrong with a line of what is no TOML, as far as it can be guessed.
explain_line() {
    local text
    read -r text
    case $text in
    *[[,\ ]null[],\ ]*) echo "null is written \`\"null\"\`, in quotes" ;;
    *=*[[,\ ][A-Z]*) [[ $text == *=*\"* && ! $text =~ [[,\ ][A-Z][A-Za-z0-9]*[],] ]] || echo "a class's name is written in quotes: [\"null\", \"Node\"]" ;;
    esac
    [[ ! $text =~ ^([A-Za-z0-9_]+)\.([A-Za-z0-9_]+)\ *=\ *([0-9]+) ]] ||
        echo "a nested class is named by its own name alone: \`${BASH_REMATCH[2]} = ${BASH_REMATCH[3]}\`"
}

# Tables that have a value where their entries should be.
explain_tables() {
    local table value
    for table in objects arrays fields params; do
        value=$(values_at "$table" | head -n 1)
        [ -z "$value" ] || case $table in
        objects) echo "\`objects\` is a table: a line \`[objects]\`, and below it a line for each class, as \`Node = 3\`; at most 64 objects" ;;
        *) echo "\`$table\` is a table: a line \`[$table]\`, and below it a line for each entry" ;;
        esac
    done
}

# A value of the wrong kind: a domain without brackets, a key with too few dots or too many.
explain_kind() {
    local item=$1 key=${1#*.} value
    case $item in
    fields.* | params.*) ;;
    objects.*)
        explain_domain "$key" "$(values_at "$item" | head -n 1)"
        return
        ;;
    *) return 0 ;;
    esac
    case $key in
    *.*.*)
        value=${key%.*}
        echo "a nested class is named by its own name alone: \"${value##*.}.${key##*.}\""
        return
        ;;
    *.*) ;;
    *)
        echo 'a key with a dot stands in quotes: "Class.field"'
        return
        ;;
    esac
    value=$(entries "$fin" | path=$item awk -F '\t' '$1 == ENVIRON["path"] || index($1, ENVIRON["path"] ".") == 1 { print $3; exit }')
    value=$(sed -n "${value:-0}{s/^[^=]*= *//;s/ *#.*//;p;q;}" "$fin" 2>/dev/null)
    case $value in
    '' | '['*) ;;
    *) echo "a domain is in brackets: \"$key\" = [$value]" ;;
    esac
}

# A line of `[objects]` that is of the other version, or whose name no object domain may have.
explain_domain() {
    local name=$1 value=$2
    if ! is_second; then
        echo "in version 1 a class has a number of objects: $name = 1; a table with a class needs a line \`version = 2\` before the first table"
    elif [[ $value =~ ^[0-9]+$ ]]; then
        echo "in version 2 an object domain has a class: $name = { class = \"$name\", count = $value }"
    else
        echo "an object domain is named by an identifier other than null"
    fi
}

# A key that isn't there: a line to begin with.
explain_absent() {
    case $1 in
    fuel) echo "for example, before the first table: fuel = 100000" ;;
    root) echo "for example, before the first table: root = \"$(names_of class | head -n 1 | grep . || echo List)\"" ;;
    objects.*) echo "for example, in [objects]: ${1#*.} = { class = \"$(names_of class | head -n 1 | grep . || echo Node)\", count = 1 }" ;;
    arrays.*) echo "for example, in [arrays]: \"${1#*.}\" = { count = 1, lengths = [{ from = 0, to = 3 }] }" ;;
    fields.* | params.*) echo "for example, in [${1%%.*}]: \"${1#*.}\" = [{ from = 0, to = 2 }]" ;;
    esac
}

# The keys that a finitization may have at all, as docs/FINITIZATION.md names them.
fixed_keys() {
    sed -n '/^| Key | Value |/,/^$/s/^| `\([a-z]*\)`.*/\1/p' "$docs/FINITIZATION.md"
}

# A key that may not be there: of the document, of an array type's bound, of a range.
explain_key() {
    local item=$1 key keys=""
    case $item in
    arrays.*) keys="count lengths from to" ;;
    objects.*) keys="class count" ;;
    fields.* | params.*) keys="from to" ;;
    esac
    if [ "$item" = collections ]; then
        echo "\`[collections]\` is for tools/adapt, which makes a finitization without it: tools/adapt FIN SOURCE.. -o FOLDER"
        return
    fi
    if [ -z "$keys" ]; then
        echo "\`$item\` is no key of a finitization$(fixed_keys | nearest "$item")"
        return
    fi
    {
        keys_below "$item"
        { values_at "$item"; values_at "$item.lengths"; } | grep '^{' | tr -d '{}' | tr ' ' '\n'
    } | sort -u | while read -r key; do
        case " $keys " in
        *" $key "*) ;;
        *) [ -z "$key" ] || echo "\`$key\` is no key there$(tr ' ' '\n' <<<"$keys" | nearest "$key")" ;;
        esac
    done
}

# A domain for a type, to begin with.
domain_for() {
    case $1 in
    int | long) echo '[{ from = 0, to = 2 }]' ;;
    boolean) echo '[false, true]' ;;
    HashSet* | LinkedList*) echo '["null"]' ;;
    *) echo "[\"null\", \"$1\"]" ;;
    esac
}

# A field or parameter that has no domain: what it could be, and a key near to it that nothing has.
explain_missing() {
    local table=${1%%.*} key=${1#*.} type kind
    kind=field
    [ "$table" = fields ] || kind=parameter
    case $key in
    *"[].*") type=${key%"[].*"} ;;
    *) type=$(type_of "$kind" "$key") ;;
    esac
    [ -z "$type" ] || echo "for example, in [$table]: \"$key\" = $(domain_for "$type")"
    keys_below "$table" | grep -vxF "$(names_of "$kind")" | nearest "$key" | sed 's/^; the nearest/of the keys that name nothing the nearest/'
}

# A key that names no field or parameter.
explain_strange_key() {
    local table=${1%%.*} key=${1#*.} class name owner
    class=${key%.*} name=${key##*.}
    if [ "$table" = params ]; then
        echo "\`$key\` is no parameter of a method$(names_of parameter | nearest "$key")"
        return
    fi
    owner=$(names_of field | awk -F . -v name="$name" '$2 == name { print $1; exit }')
    if [ -n "$owner" ] && [ "$owner" != "$class" ]; then
        echo "\`$class\` doesn't declare \`$name\` itself; \`$owner.$name\` is a field"
    else
        echo "\`$key\` is no field$(names_of field | nearest "$key")"
    fi
}

# A name that no class or array type has.
explain_strange_name() {
    local item=$1 name=${1#*.}
    case $item in
    root) objects_meant_by "$(values_at root | tr -d '"')" ;;
    objects.*)
        ! is_second || name=$(values_at "$item.class" | tr -d '"')
        names_of class | meant_by "$name" class
        ;;
    arrays.*) array_types | meant_by "$name" "array type" ;;
    *)
        name=${name%.*}
        case $item in
        fields.*"[].*") array_types | grep -qxF "$name" || array_types | meant_by "$name" "array type" ;;
        fields.*) names_of class | grep -qxF "$name" || names_of class | meant_by "$name" class ;;
        esac
        strange_names "$item"
        ;;
    esac
}

# What a method that is wanted could have been meant by.
explain_method() {
    if [ "$1" = repOk ] && grep -q '^method [^ .]*\.repOk ' <<<"$known"; then
        echo "there is a \`repOk\`, but not this one: \`boolean repOk()\` in the root, not static, without parameters"
        return
    fi
    echo "the root has no such method$(sed -n 's/^method [^ .]*\.\([^ ]*\) .*/\1/p' <<<"$known" | nearest "$1")"
}

# A refusal of a finitization: the rule's row, the item's line, and what is near to the item.
explain_document() {
    local rule=$1 item=$2 type
    row_of "$rule"
    if [ ! -r "$fin" ]; then
        echo "$fin can't be read here, so its line isn't shown"
        return 0
    fi
    known=$(declared ${sources[@]+"${sources[@]}"})
    case $rule in
    F1) explain_toml ;;
    F6) ;;
    *) show_item "$item" ;;
    esac
    case $rule in
    F1) explain_tables ;;
    F2)
        explain_tables
        explain_key "$item"
        ;;
    F3)
        explain_tables
        explain_kind "$item"
        ;;
    F5) explain_absent "$item" ;;
    esac
    case $rule in S*) if [ -z "$known" ]; then echo "with the words of the call behind -- the sources are looked at too"; return 0; fi ;; esac
    case $rule in
    S1) explain_strange_name "$item" ;;
    S2) explain_missing "$item" ;;
    S3)
        if [ "$item" = this ] && is_second; then
            echo "for example, in [objects]: $(values_at root | tr -d '"') = { class = \"$(names_of class | head -n 1)\", count = 1 }"
        elif [ "$item" = this ] && ! names_of class | grep -qxF "$(values_at root | tr -d '"')"; then
            echo "a predefined class has no objects: the root is a class of the sources"
        elif [ "$item" = this ]; then
            echo "for example, in [objects]: $(values_at root | tr -d '"') = 1"
        fi
        ;;
    S4)
        type=$(type_of field "${item#*.}")
        [ -z "$type" ] || echo "\`${item#*.}\` is declared as \`$type\`"
        ;;
    S7) explain_method repOk ;;
    S8) explain_method "${method:-}" ;;
    S9) explain_strange_key "$item" ;;
    E3) echo "a class that holds the inner array, in place of it: see \`BUILDERS.md\`" ;;
    esac
}
