#!/bin/bash
# The greatest memory of a program that makes the text which a mailer is handed, of a message with a
# body of 16 MB, and what it takes more than for an empty body. It ends with status 1 where that is
# more than 34 MB, of which the body itself is 16. The program is crates/bench, or another one that
# PROGRAM names. This is no part of the gate.
. "$(dirname "$0")/bench.sh"
most=$((34000000 / 1024))

# The greatest memory of a run, in KiB.
memory() {
    /usr/bin/time -f %M "$bench" outgoing "$1" 2>&1 > /dev/null
}

none=$(memory 0)
all=$(memory 209715)
echo "a body of 16777200 bytes: $all KiB at most, $((all - none)) KiB more than an empty one"
[ $((all - none)) -le "$most" ]
