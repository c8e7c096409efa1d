#!/bin/bash
# A runner over one entry in memory. Microseconds a claim of 1,000 and of 10,000 rows, first of one route, in one batch,
# and then of as many routes, each with the ratio of the two; the same of a whole run over one route, from the claim to
# the end; and then milliseconds of a whole run over 1,000 and 10,000 routes, one record each, and the part of it that as
# many records alone take. The program is crates/bench, or another one that PROGRAM names. This is no part of the gate.
. "$(dirname "$0")/bench.sh"

best() {
    for _ in 1 2 3 4 5; do taken "$bench" "$@"; done | sort -n | head -1
}

# Nanoseconds of what is done once to so many rows, by runs of so many times more.
once() {
    echo $((($(best "$1" "$2" $(($3 + 1))) - $(best "$1" "$2" 1)) / $3))
}

# The same of few rows and of ten times as many.
grown() {
    local few many
    few=$(once "$1" 1000 "$2")
    many=$(once "$1" 10000 "$2")
    echo "$1: $((few / 1000)) microseconds of 1,000 rows, $((many / 1000)) of 10,000: $((many * 100 / few)) hundredths"
}

grown claims 20
grown claims_each 20
for rows in 1000 10000; do
    opened=$(best claims "$rows" 0)
    all=$(($(best steps "$rows" 1) - opened))
    echo "steps over one route of $rows rows: $((all / 1000)) microseconds"
done
for routes in 1000 10000; do
    opened=$(best claims_each "$routes" 0)
    all=$(($(taken "$bench" steps_each "$routes" 1) - opened))
    records=$(($(taken "$bench" records_each "$routes" "$routes") - opened))
    echo "steps over $routes routes: $((all / 1000000)) milliseconds, of records $((records / 1000000)): $((records * 100 / all)) percent"
done
