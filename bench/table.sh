#!/bin/bash
# The message table over a queue in memory. Microseconds an entry, the best of five runs, and, where valgrind is installed,
# instructions an entry, to put 10,000 entries in, to record the one row of each, and to finish each; and instructions a
# turn that asks which entry is due where none is, with 10, 1,000 and 10,000 entries that wait, of 1,000,000 such turns
# and of 100 of which each comes after a change of the table. The program is crates/bench, or another one that PROGRAM
# names. This is no part of the gate.
. "$(dirname "$0")/bench.sh"

# Instructions that the program takes.
counted() {
    valgrind --tool=callgrind --callgrind-out-file=/dev/null "$bench" "$@" 2>&1 > /dev/null | sed -n 's/.*Collected : //p'
}

best() {
    for _ in 1 2 3 4 5; do taken "$bench" "$@"; done | sort -n | head -1
}

# What each stage takes an entry, by a measure of runs up to it and with it.
stages() {
    for count in 1000 10000; do
        local before=$("$1" table "$count" 0) after stage=0
        for name in 'put in' recorded finished; do
            stage=$((stage + 1))
            after=$("$1" table "$count" "$stage")
            echo "$count entries, $name: $(((after - before) / count)) $2 an entry"
            before=$after
        done
    done
}

stages best nanoseconds
command -v valgrind > /dev/null || exit 0
stages counted instructions
# Words of one length, since the words stand on the stack, and what copies bytes minds where that begins.
for count in 10 1000 10000; do
    once=$(counted idle "$count" 0000001)
    often=$(counted idle "$count" 1000001)
    echo "$count entries: $(((often - once) / 10000)) hundredths of an instruction an idle turn"
    once=$(counted woken "$count" 001)
    often=$(counted woken "$count" 101)
    echo "$count entries: $(((often - once) / 100)) instructions a turn after a change"
done
