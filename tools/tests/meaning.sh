#!/usr/bin/env bash
# Tries Adapt on small classes: those of the tables in meaning/, each of which agrees with the original on a Java virtual machine, or is
# refused or warned of as its line says; those of books/, as textbooks and libraries write them; and classes made at random.
#
#     tools/tests/meaning.sh              60 of the tables, in one machine
#     tools/tests/meaning.sh --all [N]    all of the tables and of books/, and N made at random (2,000), a quarter as many with a
#                                       method under test, and as many of these with collections as fields
set -u
. "$(dirname "$(readlink -f "$0")")/common.bash"
folder=$tools/tests/meaning

if ! command -v javac >/dev/null || [ ! -x "$KORAT" ]; then
    echo "60 not tried, for want of a JDK or of the program"
    finish
    exit
fi
. "$tools/java/run.bash"
tool=meaning
find_classes && javac -nowarn -proc:none -Xlint:none -cp "$classes/tools.jar" -d made "$folder"/*.java 2>err
count $? "the classes aren't compiled: $(head -n 1 err)"

# Counts what a call of Meaning says: meaning WORD..
meaning() {
    java "${java_options[@]}" -Xss16m -cp "$classes/tools.jar:made" meaning.Meaning "$KORAT" "$work" "$@" >out 2>err </dev/null
    sed -n 's/^failed: /failed: /p' out
    if [[ $(tail -n 1 out) =~ ^([0-9]+)\ agree,\ ([0-9]+)\ warned,\ ([0-9]+)\ refused,\ ([0-9]+)\ spent,\ ([0-9]+)\ failed$ ]]; then
        [ -z "$all" ] || tail -n 1 out
        failed=$((failed + BASH_REMATCH[5]))
        passed=$((passed + BASH_REMATCH[1] + BASH_REMATCH[2] + BASH_REMATCH[3] + BASH_REMATCH[4] - $(grep -cE '^failed: [^:]*: (agree|warned|refused|spent):' out)))
    else
        count 1 "no end of $*: $(head -n 1 err)"
    fi
}

all=""
if [ "${1-}" = --all ]; then
    all=yes
    meaning "$folder"/*.table
    meaning --folders "$tools"/tests/books/*/
    meaning --random "${2:-2000}" --tested $((${2:-2000} / 4)) --held $((${2:-2000} / 4))
else
    meaning --some 60 "$folder"/*.table
fi
finish
