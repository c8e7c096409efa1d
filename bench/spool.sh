#!/bin/bash
# Milliseconds for a spool in memory in which 500 to 16,000 entries are written, each as two files, of which each is then
# read once; the best of five runs. The program is crates/bench. The counts may be given as words. This is
# no part of the gate.
. "$(dirname "$0")/bench.sh"

for entries in "${@:-500 1000 2000 4000 8000 16000}"; do
    for count in $entries; do
        best=$(for _ in 1 2 3 4 5; do taken "$bench" spool "$count" 1; done | sort -n | head -1)
        printf '%d entries: %d.%02d milliseconds\n' "$count" $((best / 1000000)) $((best / 10000 % 100))
    done
done
