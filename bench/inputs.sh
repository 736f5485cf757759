#!/usr/bin/env bash
# Runs the built program on sources, finitizations and shards of some 150 shapes, each at 256 KB and at 1 MiB: time, peak memory,
# status, and whether they grow by more than five times for four times the size, or pass 2 s and 100 MB for `check`, 3 s and
# 150 MB for a listing up to its first candidate. The shapes are in inputs.py. The last line counts the calls that do; the
# status is 0 where none does. It takes about two minutes.
#
# It needs python3, GNU time as /usr/bin/time, and the program (run ./korat once).
#
#     bench/inputs.sh [KIND..]   these shapes alone; `bench/inputs.py kinds` names them
source "$(dirname "$(readlink -f "$0")")/common.sh"
KORAT=$program exec python3 "$(dirname "$(readlink -f "$0")")/inputs.py" measure "$@"
