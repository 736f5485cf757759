#!/usr/bin/env bash
# Tests of the launcher `korat` and of tools/unproved, in a small checkout of their own and with an `rt` that proves nothing:
# which words build the program, what is said while it is built, and which names files have.
. "$(dirname "$(readlink -f "$0")")/common.bash"

mkdir -p checkout/tools with_rt without_rt
for name in low middle korat other middle_tests; do
    mkdir -p "checkout/crates/$name/src" "checkout/crates/$name/specs"
    printf 'pub fn one() {}\nfn two() {}\n' >"checkout/crates/$name/src/lib.rt"
done
cat >checkout/crates.txt <<'CRATES'
# Each crate with what it stands on.
low: itoa
middle: low clap # and a comment: with a colon
other: low
middle_tests: middle
korat: middle low
CRATES
cp "$top/korat" checkout/
cp "$tools/unproved" "$tools/rt" checkout/tools/
touch -d '2020-01-01' checkout/crates.txt checkout/crates/*/src/*
for name in bash awk sed grep cat mktemp rm ls tail wc find readlink dirname date sleep touch mkdir realpath id env; do
    ln -s "$(command -v "$name")" "without_rt/$name"
done

# It proves crates as $PROVES says, and makes the program.
cat >with_rt/rt <<'FAKE'
#!/usr/bin/env bash
[ "$1" = run ] || exit 99
for crate in $PROVES; do
    echo "rt: chose --jobs 1 for $crate"
    sleep 1.5
done
[ -z "${FAILS-}" ] || { echo "not proved"; exit 1; }
mkdir -p out
printf '#!/usr/bin/env bash\necho "ran $*"\nexit 5\n' >out/korat
chmod +x out/korat
FAKE
chmod +x with_rt/rt
path=$PATH
launched=checkout/korat
made=checkout/crates/korat/out/korat

# ---- words that are no command

synopsis=$("$top/korat" 2>&1 >/dev/null)
[ "$(grep -c 'korat \(list\|test\|check\|demo\|shard\|merge\|upgrade\|trace\|emit\) ' <<<"$synopsis")" = 9 ] && [ "$(wc -l <<<"$synopsis")" = 9 ]
count $? "the synopsis: $synopsis"
[ "$(sed 's/^usage: //; s/^ *//' <<<"$synopsis")" = "$(sed -n 's/^    \(korat .*\)/\1/p' "$top/docs/COMMAND_LINE.md")" ]
count $? "the synopsis isn't that of docs/COMMAND_LINE.md"

# No command: with and without a program the launcher writes what the program would, and the synopsis: no_command WORD..
no_command() {
    local name
    name="no command: $(printf '%q ' "$@")"
    PATH=$work/without_rt run 2 "$name" "$launched" "$@"
    [ "$(cat out)" = "usage fault" ] && [ "$(cat err)" = "$synopsis" ]
    count $? "$name: $(cat out err)"
    [ ! -x "$KORAT" ] || {
        run 2 "$name, the program" "$KORAT" "$@"
        [ "$(cat out)" = "usage fault" ]
        count $? "$name, the program: $(cat out)"
    }
}
no_commands() {
    no_command
    no_command -h
    no_command --help list
    no_command --version --help
    no_command -V
    no_command help
    no_command ""
    no_command LIST fin.toml A.java
    no_command lis fin.toml A.java
    no_command "list " fin.toml A.java
    no_command tests fin.toml A.java
    no_command -- list fin.toml A.java
    no_command --limit 3 list fin.toml A.java
    no_command '[' fin.toml
    no_command '*'
    no_command $'list\n' fin.toml
    no_command $'\xff'
}
no_commands
[ ! -e checkout/crates/korat/out ]
count $? "a build for words that are no command"
for word in -h --help --version; do
    "$launched" $word >/dev/full 2>err </dev/null
    [ $? = 7 ] && [ ! -s err ]
    count $? "$word on a full device: $(cat err)"
    "$launched" $word >&- 2>err </dev/null
    [ $? = 7 ] && [ ! -s err ]
    count $? "$word on a closed output: $(cat err)"
done

# ---- the launcher's own words

PATH=$work/without_rt run 0 "help" "$launched" --help
[ "$(head -n 9 out)" = "$synopsis" ] && [ "$(grep -cE '^  (list|test|check|demo|shard|merge|upgrade|trace|emit) +[a-z]' out)" = 9 ] && [ ! -s err ]
count $? "help: $(cat out err)"
PATH=$work/without_rt run 0 "the version" "$launched" --version
[ "$(cat out)" = $'korat unknown\nprogram: none yet' ] && [ ! -s err ]
count $? "the version: $(cat out err)"
[ ! -e checkout/crates/korat/out ]
count $? "a build for the launcher's own words"
run 0 "completions of bash" "$tools/completions" bash
. ./out
COMP_WORDS=(korat sh) COMP_CWORD=1
_korat
[ "${COMPREPLY[*]}" = shard ]
count $? "a command's completion: ${COMPREPLY[*]}"
COMP_WORDS=(korat shard --w) COMP_CWORD=2
_korat
[ "${COMPREPLY[*]}" = --workers ]
count $? "an option's completion: ${COMPREPLY[*]}"
COMP_WORDS=(korat list --pool d) COMP_CWORD=3
_korat
[ "${COMPREPLY[*]}" = deque ]
count $? "a pool's completion: ${COMPREPLY[*]}"
run 0 "completions of zsh" "$tools/completions" zsh
[ "$(head -n 1 out)" = "#compdef korat" ] && grep -qF "'merge:joins such files'" out
count $? "completions of zsh: $(cat out)"
if command -v zsh >/dev/null; then
    zsh -n out
    count $? "completions of zsh: $(zsh -n out 2>&1)"
fi
refuse 2 "completions of no shell" "$tools/completions"
refuse 2 "completions of another shell" "$tools/completions" fish
[ "$(sed -n 's/^\\fBkorat \([a-z]*\)\\fR /korat \1 /p' "$top/docs/korat.1" | sed 's/^\(korat \)/\1/')" = "$(sed 's/^usage: //; s/^ *//' <<<"$synopsis")" ]
count $? "the synopsis isn't that of docs/korat.1"

# ---- builds

PATH=$work/without_rt refuse 70 "no rt" "$launched" list fin.toml A.java
[ "$(cat err)" = "korat: there is no 'rt' on the path, and there is no program yet: the kit has it" ]
count $? "no rt: $(cat err)"

export PATH=$work/with_rt:$path
mkdir -p checkout/crates/low/out/incremental
echo kept >checkout/crates/low/out/incremental/work
PROVES="low middle korat" run 5 "a first build" "$launched" list fin.toml A.java
[ "$(cat out)" = "ran list fin.toml A.java" ]
count $? "a first build: $(cat out)"
cost=$(sed -nE '1s/^korat: there is no program yet, so it is built: 3 crates are proved, from nothing in (about [0-9]+ minutes on four free processors), longer on fewer, (with up to [0-9]+ GB of memory)$/\1, \2/p' err)
[ -n "$cost" ]
count $? "a first build: $(head -n 1 err)"
tr '\n' ' ' <"$top/README.md" | grep -qF "once: $cost;"
count $? "README doesn't say what the launcher says of a first build: $cost"
[ "$(sed 1d err)" = $'korat: 0 %: proving low, 1 of 3\nkorat: 33 %: proving middle, 2 of 3\nkorat: 66 %: proving korat, 3 of 3' ]
count $? "a first build: $(sed 1d err)"
[ "$(cat checkout/crates/*/out/incremental/work)" = kept ] && [ -z "$(ls checkout/crates/low/out/incremental | sed 's/^work$//')" ]
count $? "what was kept of low: $(ls checkout/crates/low/out/incremental)"
[ -f checkout/crates/middle/out/incremental/begun ] && [ -f checkout/crates/korat/out/incremental/begun ] && [ ! -e checkout/crates/other/out ]
count $? "where work will be kept"

run 5 "the program that is there" "$launched" list fin.toml A.java
[ ! -s err ]
count $? "the program that is there: $(cat err)"
no_commands

touch checkout/crates/other/src/lib.rt checkout/crates/middle_tests/src/lib.rt
run 5 "crates that are no part of the program" "$launched" list fin.toml A.java
[ ! -s err ]
count $? "crates that are no part of the program: $(cat err)"

touch -d '2020-01-01' "$made"
touch -d '2021-01-01' checkout/crates/middle/src/lib.rt
touch -d '2019-01-01' checkout/crates/*/specs
PATH=$work/without_rt refuse 70 "an older program, and no rt" "$launched" list fin.toml A.java
PROVES="middle" run 5 "an older program" "$launched" list fin.toml A.java
grep -q '^korat: the program is older than crates/middle/src/lib.rt, so it is built: ' err
count $? "an older program: $(head -n 1 err)"
grep -qx 'korat: 33 %: proving middle, 2 of 3' err
count $? "an older program: $(sed 1d err)"

rm "$made"
PROVES="low" FAILS=1 run 70 "a build that fails" "$launched" list fin.toml A.java
[ ! -s out ] && grep -qx "not proved" err && [ "$(tail -n 1 err)" = "korat: the build failed" ]
count $? "a build that fails: $(cat out err)"

# ---- tools/unproved

# A build of a program that does what the one under test does, or fails.
cat >checkout/tools/unproved-build <<'FAKE'
#!/usr/bin/env bash
[ -z "${FAILS-}" ] || { echo broken; exit 1; }
echo built >>"$BUILDS"
printf '#!/usr/bin/env bash\nexec "%s" "$@"\n' "$KORAT" >"$2"
chmod +x "$2"
FAKE
chmod +x checkout/tools/unproved-build
export BUILDS=$work/builds
: >"$BUILDS"

# Says what the program says, and that nothing of it is proved, in the folder `here`: as_program WORD..
as_program() {
    local status
    (cd here && "$KORAT" "$@") >wanted 2>/dev/null </dev/null
    status=$?
    (cd here && exec "$work/checkout/tools/unproved" "$@") >out 2>err </dev/null
    [ $? = "$status" ] && cmp -s wanted out && [ "$(tail -n 1 err)" = "unproved: nothing of this program is proved" ]
    count $? "unproved $*: $(cat out err)"
    [ "$(wc -l <"$BUILDS")" = "$built" ]
    count $? "unproved $*: $(wc -l <"$BUILDS") builds, and not $built"
}

mkdir -p here/below checkout/crates/korat/data
cp "$top"/examples/cell/* here/
cp here/Cell.java here/below/
cp here/Cell.java here/stdin
cp here/Cell.java "here/a=b.java"
printf 'class A { #' >here/A.java
cp here/fin.toml here/Cell.java checkout/crates/korat/data/
if [ -x "$KORAT" ]; then
    built=1
    as_program list fin.toml Cell.java
    grep -q '^unproved: the program is built once, without a proof' err
    count $? "a first call without a proof: $(cat err)"
    as_program list --limit 1 ./fin.toml below/Cell.java
    [ "$(wc -l <err)" = 1 ]
    count $? "a second call without a proof: $(cat err)"
    as_program list "$work/here/fin.toml" "$work/here/Cell.java"
    as_program list fin.toml stdin
    as_program check fin.toml "$work/here/A.java"
    as_program list fin.toml ../none.java
    as_program list
    as_program demo 3
    echo >>checkout/crates/low/src/tests.rt
    as_program demo 3
    echo '// more' >>checkout/crates/low/src/lib.rt
    built=2
    as_program demo 3
    KORAT_UNPROVED=1 run 0 "the launcher without a proof" "$launched" demo 3
    [ "$(cat out err)" = $'nodes 3 valid 5\nkorat: nothing of this program is proved' ]
    count $? "the launcher without a proof: $(cat out err)"
    run 0 "where the program is" checkout/tools/unproved --program
    [ -x "$(cat out)" ] && [[ $(cat out) == */checkout/crates/korat/out/unproved/*/korat ]]
    count $? "where the program is: $(cat out)"
else
    echo "30 not tried: there is no program"
fi
refuse 2 "a program without a proof, without words" checkout/tools/unproved
echo '// still more' >>checkout/crates/low/src/lib.rt
FAILS=1 run 70 "a build without a proof that fails" checkout/tools/unproved demo 3
[ ! -s out ] && grep -qx broken err && [ "$(tail -n 1 err)" = "unproved: the build failed" ]
count $? "a build without a proof that fails: $(cat err)"
ls checkout/crates/korat/out/unproved | grep -q '^new\.'
[ $? = 1 ]
count $? "a build that failed leaves a folder"

# ---- tools/install

refuse 2 "an installation without a folder" "$tools/install"
refuse 2 "an installation with an option" "$tools/install" --prefix
: >file
refuse 2 "an installation into a file" "$tools/install" file
if [ -x "$KORAT" ]; then
    mkdir jdk && for name in $(ls without_rt) rm cp mv ln chmod dirname basename sort head tr grep git; do
        ln -sf "$(PATH=$path command -v "$name")" "jdk/$name"
    done
    PATH=$work/jdk run 0 "an installation" "$tools/install" prefix
    run 0 "an installed program" prefix/bin/korat demo 3
    [ "$(cat out err)" = $'nodes 3 valid 5\nkorat: nothing of this program is proved' ]
    count $? "an installed program: $(cat out err)"
    run 0 "an installed program's help" prefix/bin/korat --help
    run 3 "an installed program's refusal" env KORAT_EXPLAIN=1 prefix/bin/korat check here/fin.toml here/A.java
    grep -q '^P1: \|^L2: ' err
    count $? "an installed program's refusal: $(cat err)"
    "$KORAT" list here/fin.toml here/Cell.java >report
    given=report run 0 "an installed tool" prefix/bin/korat-draw
    cmp -s prefix/share/man/man1/korat.1 "$top/docs/korat.1" && [ -s prefix/share/zsh/site-functions/_korat ]
    count $? "an installed page"
    PATH=$work/jdk run 0 "an installation once more" "$tools/install" prefix
    mkdir -p other/lib/korat
    run 70 "an installation over something else" "$tools/install" other
else
    echo "12 not tried: there is no program"
fi

finish
