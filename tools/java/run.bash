# Runs a tool that is written in Java: run_java CLASS WORD.. The sources below tools/java are compiled once into a folder named by
# their checksum, below tools/.classes, or where that can't be written below the user's cache.
java_sources=$(cd "$(dirname "$(readlink -f "${BASH_SOURCE[0]}")")" && pwd)

# What keeps a short run short.
java_options=(-XX:TieredStopAtLevel=1 -XX:+UseSerialGC -Xshare:auto -Xlog:disable)

# Finds the folder of the compiled classes, `classes`; compiles them where there is none.
find_classes() {
    local sum folder
    sum=$(cat "$java_sources"/*/*.java | sha256sum) && sum=${sum:0:16}
    for folder in "$(dirname "$java_sources")/.classes" "${XDG_CACHE_HOME:-${HOME:-/tmp}/.cache}/korat-tools"; do
        classes=$folder/$sum
        [ ! -f "$classes/tools.jar" ] || return 0
        mkdir -p "$folder" 2>/dev/null && [ -w "$folder" ] || continue
        compile_into "$folder" "$classes" && return
        return 1
    done
    echo "$tool: no folder for compiled classes can be written" >&2
    return 1
}

# Compiles into a new folder, which gets its name when it is whole, so that calls at the same time don't meet.
compile_into() {
    local made
    command -v javac >/dev/null && command -v jar >/dev/null || {
        echo "$tool: there is no javac on the path: a JDK of version 17 or later is needed" >&2
        return 1
    }
    made=$(mktemp -d "$1/new.XXXXXX") || return 1
    chmod 755 "$made" && mkdir "$made/classes"
    if javac -J-XX:TieredStopAtLevel=1 -J-XX:+UseSerialGC -nowarn -proc:none -d "$made/classes" "$java_sources"/*/*.java >&2 &&
        jar -c -f "$made/tools.jar" -C "$made/classes" .; then
        rm -rf "$made/classes"
        mv -T "$made" "$2" 2>/dev/null || rm -rf "$made"
        keep_loaded "$2"
        [ -f "$2/tools.jar" ]
    else
        rm -rf "$made"
        return 1
    fi
}

# Keeps the classes of javac and of the tools as they are once they are loaded, by a run on a small class: later runs start in
# half the time. Without it they are the same.
keep_loaded() {
    local small
    small=$(mktemp -d "$1/small.XXXXXX") || return 0
    printf 'class Cell<T> {\n    T v;\n    boolean repOk() { for (int x : new int[1]) if (x > 1) return false; return v != null; }\n}\n' >"$small/Cell.java"
    printf 'root = "Cell"\nfuel = 9\nobjects.Cell = 1\nfields."Cell.v" = ["null", "Cell"]\n' >"$small/fin.toml"
    java "${java_options[@]}" -XX:ArchiveClassesAtExit="$small/loaded" -cp "$1/tools.jar" adapt.Adapt "$small/fin.toml" "$small/Cell.java" \
        -o "$small/adapted" >/dev/null 2>&1 && mv "$small/loaded" "$1/loaded" 2>/dev/null
    rm -rf "$small"
}

run_java() {
    local main=$1 classes loaded=()
    shift
    find_classes || exit 2
    [ ! -f "$classes/loaded" ] || loaded=(-XX:SharedArchiveFile="$classes/loaded")
    exec java "${java_options[@]}" "${loaded[@]}" -cp "$classes/tools.jar" "$main" "$@"
}
