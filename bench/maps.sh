#!/bin/bash
# Milliseconds to load a hash map's file of 100,000 and of 200,000 lines, nanoseconds for a look-up in each, and the
# greatest memory against the file's bytes. The program is crates/bench. This is no part of the gate.
. "$(dirname "$0")/bench.sh"

held() {
    taken /usr/bin/time -f %M -o "$work/peak" "$bench" maps "$@"
}

for lines in 100000 200000; do
    once=$(held "$lines" 1)
    often=$(held "$lines" 1000001)
    echo "$lines lines: $((once / 1000000)) milliseconds to load, $(((often - once) / 1000000)) nanoseconds a look-up, $(cat "$work/peak") KiB at most"
done
