#!/bin/bash
# Nanoseconds, the best of five runs, and, where valgrind is installed, instructions: to expand an
# alias of 1,250 to 10,000 members, and a chain of ten aliases of 125 to 1,000 members each; to read
# an alias file of 25,000 to 100,000 lines; for a look-up of one of its names; and for a message of
# 1,250 to 10,000 recipients in entries of a hundred, from MAIL to its reply over a spool in memory.
# Behind each stands how many times as much it is as the one before. Last come the calls of the
# spool for such a message. The program is crates/bench, or another one that PROGRAM names. This is
# no part of the gate.
. "$(dirname "$0")/bench.sh"

best() {
    for _ in 1 2 3 4 5; do taken "$bench" "$@"; done | sort -n | head -1
}

# Instructions that the program takes.
counted() {
    valgrind --tool=callgrind --callgrind-out-file=/dev/null "$bench" "$@" 2>&1 > /dev/null | sed -n 's/.*Collected : //p'
}

# What one time takes by a measure, of so many.
each() {
    local once often
    once=$("$1" "$3" "$4" 0000001)
    often=$("$1" "$3" "$4" "$(printf %07d $(($2 + 1)))")
    echo $(((often - once) / $2))
}

# The same of some numbers of things, and how it grows.
grown() {
    local before=0 now count
    for count in "${@:6}"; do
        now=$(each "$1" "$3" "$4" "$count")
        printf '%s %s: %s %s' "$count" "$5" "$now" "$2"
        [ "$before" = 0 ] || printf ', %d.%02d times' $((now / before)) $((now * 100 / before % 100))
        echo
        before=$now
    done
}

# All by a measure, its unit, and of how many times; look-ups of how many.
measured() {
    grown "$1" "$2" "$3" members 'members of an alias' 1250 2500 5000 10000
    grown "$1" "$2" "$3" chain 'members of each of ten aliases' 125 250 500 1000
    grown "$1" "$2" "$3" alias_file 'lines of an alias file' 25000 50000 100000
    grown "$1" "$2" "$4" alias_names 'names of which one is looked up' 25000 50000 100000
    grown "$1" "$2" "$3" parts 'recipients of a message' 1250 2500 5000 10000
}

measured best nanoseconds 5 1000000
if command -v valgrind > /dev/null; then
    measured counted instructions 1 10000
fi
for recipients in 1250 2500 5000 10000; do
    echo "$recipients recipients: $(($("$bench" parts "$recipients" 2) - $("$bench" parts "$recipients" 1))) calls"
done
