#!/bin/bash
# Calls each ruleset of each configuration that is given as an argument with ten addresses, by address test mode. Counts what
# returns, and prints each answer that is none. Set `program` to another `sendmail` to try that one. Where no argument is
# a file there is nothing to do. This is no part of the gate.
set -euo pipefail
cd "$(dirname "$0")/.."

if [ -z "${program:-}" ]; then
    (cd crates/sendmail && rt run < /dev/null -- --version > /dev/null) || exit 1
    program=$(find "$PWD/crates/sendmail/out" -type f -perm -u+x -name sendmail | head -1)
fi

addresses=(
    user user@host.example user@host user@localhost user@host.example.
    user@[127.0.0.1] host!user user%host@relay.example @one.example,@two.example:user@host.example postmaster
)

for file in "$@"; do
    [ -f "$file" ] || continue
    names=$(sed -n 's/^S[ \t]*\([^=, \t]*\).*/\1/p' "$file" | sort -u)
    lines=$(for name in $names; do for address in "${addresses[@]}"; do echo "$name $address"; done; done)
    answers=$("$program" -bt "-C$file" <<< "$lines" | grep -v '^warning: ')
    echo "$file: $(wc -w <<< "$names") rulesets, $(wc -l <<< "$lines") lines, $(wc -l <<< "$answers") answers, $(grep -c ' returns:' <<< "$answers") return"
    paste -d '|' <(echo "$lines") <(echo "$answers") | grep -v ' returns:' || true
done
