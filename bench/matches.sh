#!/bin/bash
# Instructions of one search for a match, as callgrind counts them: of 300 rules of three items over six tokens, of the
# same with a class in each, and of twenty classes over 100 to 1,900 tokens, of which they take 60 at most. The program
# is crates/bench. This is no part of the gate.
. "$(dirname "$0")/bench.sh"

counted() {
    valgrind --tool=callgrind --callgrind-out-file=/dev/null "$bench" matches "$1" "$2" 2>&1 > /dev/null |
        sed -n 's/.*Collected : //p'
}

searched() {
    echo $((($(counted "$1" 3) - $(counted "$1" 1)) / (2 * $2)))
}

echo "300 rules of three items: $(searched common 300) instructions a search"
echo "300 rules with a class: $(searched class 300) instructions a search"
for tokens in 100 200 400 800 1900; do
    echo "20 classes over $tokens tokens: $(searched "$tokens" 1) instructions a search"
done
