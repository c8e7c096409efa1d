#!/bin/bash
# Megabytes per second that tokens are cut at, over a text of a mebibyte, 20 times, the best of fifteen runs: of addresses
# with comments and quoted strings, of long words, of one deep comment, and of sides of rules. The program is
# crates/bench. This is no part of the gate.
. "$(dirname "$0")/bench.sh"

for kind in mixed words comment sides side_words; do
    best=$(for _ in $(seq 15); do taken "$bench" tokens "$kind" 20; done | sort -n | head -1)
    echo "$kind: $((1048576 * 20 * 1000 / best)) MB/s"
done
