#!/bin/bash
# Milliseconds to read a configuration of 50,000 to 800,000 lines of all letters, and to give it back, which no run does
# before its end, and the greatest memory of each; milliseconds of a reading where it is read and given back six times; and
# microseconds to read each configuration that is given as an argument. Where THEIRS names a command for Sendmail's own
# program, or that is installed, its start over the same file in address test mode, with an empty input, is measured too.
# The program is crates/bench. This is no part of the gate.
. "$(dirname "$0")/bench.sh"

held() {
    taken /usr/bin/time -f %M -o "$work/peak" "$bench" "$@"
}

# The least of five runs, in milliseconds.
least() {
    local least= each
    for _ in 1 2 3 4 5; do
        each=$(held "$@")
        [ -n "$least" ] && [ "$least" -le "$each" ] || least=$each
    done
    echo $((least / 1000000))
}

for lines in 50000 100000 200000 400000 800000; do
    made=$(least conf "$lines" 0)
    base=$(cat "$work/peak")
    kept=$(least kept "$lines" 1)
    peak=$(cat "$work/peak")
    dropped=$(least conf "$lines" 1)
    echo "$lines lines: $((kept - made)) milliseconds to read, $((dropped - kept)) to give back, $((peak - base)) KiB beside the text and the program"
    six=$(held conf "$lines" 6)
    echo "$lines lines: $(((six / 1000000 - made) / 6)) milliseconds a reading, of six"
done
theirs=${THEIRS:-/usr/sbin/sendmail}
for file in "$@"; do
    once=$(held conf "$(realpath "$file")" 1)
    often=$(held conf "$(realpath "$file")" 101)
    echo "$file: $(((often - once) / 100000)) microseconds"
    if [ -x "${theirs%% *}" ]; then
        echo "$file: Sendmail's own program starts over it in $(($(taken $theirs -bt -C "$(realpath "$file")") / 1000)) microseconds"
    fi
done
