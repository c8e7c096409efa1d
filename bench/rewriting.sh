#!/bin/bash
# What it takes to rewrite a header of 1,000 and of 10,000 members for a mailer that hides their
# host: nanoseconds, the best of seven runs, and, where valgrind is installed, instructions. It ends
# with status 1 where ten times the members take more than 12 times as much by instructions, or by
# the clock where valgrind isn't there. The program is crates/bench, or another one that PROGRAM
# names. This is no part of the gate.
. "$(dirname "$0")/bench.sh"
most=12

best() {
    for _ in 1 2 3 4 5 6 7; do taken "$bench" "$@"; done | sort -n | head -1
}

# Instructions that the program takes.
counted() {
    valgrind --tool=callgrind --callgrind-out-file=/dev/null "$bench" "$@" 2>&1 > /dev/null |
        sed -n 's/.*Collected : //p'
}

# What one rewriting takes by a measure, of a header of so many members, over so many rounds.
each() {
    local once often
    once=$("$1" rewriting "$2" 0000001)
    often=$("$1" rewriting "$2" "$(printf %07d $(($3 + 1)))")
    echo $(((often - once) / $3))
}

# Both, by a measure, its unit and of how many times as many members over how many rounds.
grown() {
    local few many
    few=$(each "$1" 1000 $(($3 * 10)))
    many=$(each "$1" 10000 "$3")
    echo "1000 members: $few $2; 10000 members: $many $2," \
        "$((many / few)).$(printf %02d $((many * 100 / few % 100))) times"
    [ "$many" -le $((few * most)) ]
}

if command -v valgrind > /dev/null; then
    grown best nanoseconds 5 || true
    grown counted instructions 1
else
    grown best nanoseconds 5
fi
