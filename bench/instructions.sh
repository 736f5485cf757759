#!/usr/bin/env bash
# Counts the instructions that the built program takes for a candidate, by crate: trees of 8 nodes, sorted lists, search trees, a
# heap in an array, red-black trees, a hash table, and a `test` of a method of each; what the start takes is subtracted. It
# compares them with bench/instructions.txt, so that it says what a change did. Counts don't depend on the machine's load. It
# judges nothing; the status is 0 where every call ended well. It takes about five minutes.
#
# It needs python3, valgrind with callgrind_annotate, and the program (run ./korat once, or KORAT names another one).
#
#     bench/instructions.sh [NAME..]           these cases alone; `bench/instructions.py names` names them
#     bench/instructions.sh --store [NAME..]   writes what was counted into the table too
source "$(dirname "$(readlink -f "$0")")/common.sh"
if ! command -v valgrind >/dev/null || ! command -v callgrind_annotate >/dev/null; then
    echo "not measured: no valgrind"
    exit 0
fi
KORAT=$program exec python3 "$(dirname "$(readlink -f "$0")")/instructions.py" "$@"
