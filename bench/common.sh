# What the scripts that time the built program share; they source it. It finds the program, or the one that KORAT names; or
# says that it isn't there and ends the script. It makes a folder for what they write: `program`, `runs`, `work`, `least_time`,
# `peak_memory`.
set -u
program="${KORAT:-$(cd "$(dirname "$(readlink -f "${BASH_SOURCE[0]}")")/.." && pwd)/crates/korat/out/korat}"
runs=${1:-10}

if [ ! -x "$program" ]; then
    echo "no program at $program: run ./korat once, which builds it"
    exit 0
fi

work=$(mktemp -d)
trap 'rm -rf "$work"' EXIT

# The least wall time of some runs of the program with these words, in microseconds. Its output goes to the file named
# first.
least_time() {
    local out=$1 best=0 before after run
    shift
    for ((run = 0; run < runs; run++)); do
        before=${EPOCHREALTIME/[.,]/}
        "$program" "$@" >"$out" 2>/dev/null
        after=${EPOCHREALTIME/[.,]/}
        if ((run == 0 || after - before < best)); then
            best=$((after - before))
        fi
    done
    echo "$best"
}

# The peak memory of a run of the program with these words, in KB.
peak_memory() {
    if [ -x /usr/bin/time ]; then
        /usr/bin/time -q -f '%M KB' -o "$work/peak" "$program" "$@" >/dev/null
        tail -n 1 "$work/peak"
    else
        echo "not measured: no /usr/bin/time"
    fi
}
