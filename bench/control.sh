#!/bin/bash
# Microseconds to parse and print a control text once, of 1,250 to 10,000 rows, over 200 times each, the best of five runs;
# and, where valgrind is installed, the instructions of two rounds and of making the text. The program is crates/bench.
# This is no part of the gate.
. "$(dirname "$0")/bench.sh"

for rows in 1250 2500 5000 10000; do
    best=$(for _ in 1 2 3 4 5; do taken "$bench" control "$rows" 200; done | sort -n | head -1)
    echo "$rows rows: $((best / 200000)) microseconds"
    if command -v valgrind > /dev/null; then
        echo "$rows rows: $(valgrind --tool=callgrind --callgrind-out-file=/dev/null "$bench" control "$rows" 2 2>&1 > /dev/null |
            sed -n 's/.*Collected : //p') instructions"
    fi
done
