#!/bin/bash
# Lines per second that address test mode answers, in the best of fifteen runs, and its greatest memory: over sets of 1, 300
# and 3,000 rules of different anchors, and, by `3,0 user@host.example`, over each configuration that is an argument. Where
# THEIRS names a command that is Sendmail's own program, it answers the same lines over these in the same run, in turns. Set
# `program` to another `sendmail` to try that one. This is no part of the gate.
set -euo pipefail
files=()
for file in "$@"; do files+=("$(realpath "$file")"); done
cd "$(dirname "$0")/.."
work=$(mktemp -d)
trap 'rm -rf "$work"' EXIT

if [ -z "${program:-}" ]; then
    (cd crates/sendmail && rt run < /dev/null -- --version > "$work/built") || true
    program=$(find "$PWD/crates/sendmail/out" -type f -perm -u+x -name sendmail | head -1)
fi

# Microseconds of the clock that a command takes to answer the lines of a file.
taken() {
    local lines=$1 answers=$2 begun
    shift 2
    begun=${EPOCHREALTIME/[.,]/}
    "$@" < "$lines" > "$answers" 2> /dev/null || true
    echo $((${EPOCHREALTIME/[.,]/} - begun))
}

# Lines per second in the least of these times, and the greatest memory of one run more, in KiB.
told() {
    local name=$1 lines=$2 least=$3 peak
    shift 3
    /usr/bin/time -f %M -o "$work/peak" "$@" < "$lines" > "$work/answers" 2> /dev/null || true
    peak=$(tail -1 "$work/peak")
    echo "$name: $((20000 * 1000000 / least)) lines per second, $peak KiB at most"
}

least() {
    printf '%s\n' "$@" | sort -n | head -1
}

for count in 1 300 3000; do
    {
        echo S5
        for number in $(seq $((count - 1))); do printf 'Rnever%s . $*\t$@ $1\n' "$number"; done
        printf 'R$-:$+\t$@ $2 @ $1\n'
    } > "$work/$count.cf"
done
for _ in $(seq 20000); do echo '5 UCBARPA:eric'; done > "$work/lines"
for count in 1 300 3000; do
    command=("$program" -bt "-C$work/$count.cf")
    ours=()
    for _ in $(seq 15); do ours+=("$(taken "$work/lines" "$work/ours" "${command[@]}")"); done
    told "$count rules" "$work/lines" "$(least "${ours[@]}")" "${command[@]}"
done
for _ in $(seq 20000); do echo '3,0 user@host.example'; done > "$work/lines"
for file in ${files[@]+"${files[@]}"}; do
    ours=() theirs=()
    for _ in $(seq 15); do
        ours+=("$(taken "$work/lines" "$work/ours" "$program" -bt "-C$file")")
        if [ -n "${THEIRS:-}" ]; then
            theirs+=("$(taken "$work/lines" "$work/theirs" $THEIRS -bt -C "$file")")
        fi
    done
    told "$file" "$work/lines" "$(least "${ours[@]}")" "$program" -bt "-C$file"
    if [ -n "${THEIRS:-}" ]; then
        told "$file by Sendmail's own program" "$work/lines" "$(least "${theirs[@]}")" $THEIRS -bt -C "$file"
    fi
done
