#!/usr/bin/env bash
# Runs the commands of README and TOOLS as they are, in a copy of what they need, and compares what they write with the pages.
. "$(dirname "$(readlink -f "$0")")/common.bash"
if ! command -v python3 >/dev/null || ! command -v javac >/dev/null || [ ! -x "$KORAT" ]; then
    echo "20 not tried: there is no program, no python3, or no JDK"
    finish
    exit
fi
mkdir -p copy/crates/korat/out
cp -r "$top/korat" "$top/tools" "$top/examples" "$top/docs" "$top/README.md" copy
cp "$KORAT" copy/crates/korat/out/korat
# The copy's launcher runs this program as it is; `unproved` builds nothing here.
: >copy/unproved
printf '#!/usr/bin/env bash\n[ "$*" = --program ] && echo %q || exec %q "$@"\n' "$KORAT" "$KORAT" >copy/tools/unproved
unset KORAT
python3 "$tools/tests/pages.py" copy README.md docs/TOOLS.md >said
sed '$d' said
if [[ $(tail -n 1 said) =~ ^([0-9]+)\ passed,\ ([0-9]+)\ failed$ ]]; then
    passed=$((passed + BASH_REMATCH[1]))
    failed=$((failed + BASH_REMATCH[2]))
else
    count 1 "no end: $(tail -n 1 said)"
fi
[ "$passed" -ge 20 ]
count $? "only $passed commands were found on the pages"
finish
