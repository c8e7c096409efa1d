#!/bin/bash
# Nanoseconds for a line of address test mode over a ruleset of 30 and of 3,000 rules of different anchors, of which the
# last one matches. Then, the best of three runs, microseconds to make such a ruleset of 3,000, 30,000 and 300,000 rules
# and to extend a class 10,000 and 100,000 times, by crates/bench, and for address test mode to read a configuration of
# 1,000, 10,000 and 100,000 rulesets. This is no part of the gate.
. "$(dirname "$0")/bench.sh"
(cd crates/sendmail && rt run < /dev/null -- --version > "$work/built")
program=$(find "$PWD/crates/sendmail/out" -type f -perm -u+x -name sendmail | head -1)

# Nanoseconds that address test mode takes for the lines of this file, with a configuration of so many rules.
answered() {
    local begun=$(date +%s%N)
    "$program" -bt "-C$work/$1.cf" < "$work/$2" > "$work/answer"
    echo $(($(date +%s%N) - begun))
}

for rules in 30 3000; do
    {
        echo S1
        for number in $(seq "$rules"); do printf 'Rw%s $*\t$: $1\n' "$number"; done
    } > "$work/$rules.cf"
    : > "$work/none"
    for _ in $(seq 200000); do echo "1 w$rules@host"; done > "$work/lines"
    once=$(answered "$rules" none)
    often=$(answered "$rules" lines)
    echo "$rules rules: $(((often - once) / 200000)) nanoseconds a line"
done
# The best of three runs of a command, in microseconds.
best() {
    echo $(($(for _ in 1 2 3; do taken "$@"; done | sort -n | head -1) / 1000))
}

for rules in 3000 30000 300000; do
    echo "$rules rules: $(best "$bench" rules "$rules" 1) microseconds to make them"
done
for lines in 10000 100000; do
    echo "$lines lines: $(best "$bench" classes "$lines" 1) microseconds to extend a class by them"
done
for sets in 1000 10000 100000; do
    for number in $(seq "$sets"); do printf 'Sset%s\nR$*\t$1\n' "$number"; done > "$work/$sets.cf"
    echo "$sets rulesets: $(best "$program" -bt "-C$work/$sets.cf") microseconds to read them"
done
