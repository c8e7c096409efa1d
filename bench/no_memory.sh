#!/bin/bash
# Runs the built program with each allocation failing in turn, until none is left to fail. In address test mode, on
# its example, each such run must end with status 71 and no answer, or with the whole answer, where a list that is
# collected asked for room by a hint and then asks for less, or one stays that could be smaller; and the first that lacks nothing with the answer. In
# session mode, on one message, each must end so with nothing in the queue, or with status 0, replies that are in
# place and, where the message got its 250, the message whole in the queue. A listing of that queue must end with status
# 71 and no word, or with the whole listing. It fails otherwise. Build the program first, by `make run`. This is no part
# of the gate.
set -euo pipefail
. "$(dirname "$0")/session.sh"
source=$PWD/../../bench/no_memory/fail.c
cd data

cc -shared -fPIC -O1 -o "$work/fail.so" "$source" -ldl

# Runs the program in a mode with its allocation of that number failing. It ends with status 1 where there is none.
run() {
    rm -f "$work/failed" /var/spool/mqueue/*
    [ ! -d "$work/queue" ] || cp "$work/queue/"* /var/spool/mqueue/
    status=0
    FAIL_AT=$1 FAIL_MARK=$work/failed LD_PRELOAD="$work/fail.so" "$program" "$2" "$3" \
        < "$work/asked" > "$work/answers" 2> "$work/errors" || status=$?
    [ -e "$work/failed" ]
}

# Whether the run ended for want of memory, and without a word.
is_silent() {
    [ "$status" = 71 ] && [ ! -s "$work/answers" ] && [ "$(cat "$work/errors")" = 'sendmail: no memory' ]
}

# Whether the run ended well, with the whole answer.
is_whole() {
    [ "$status" = 0 ] && cmp -s "$work/answers" ../stdout
}

cp ../stdin "$work/asked"
at=1
whole=0
while run "$at" -bt -Crow1.cf; do
    is_silent || { is_whole && whole=$((whole + 1)); } || { echo "-bt, allocation $at: status $status"; exit 1; }
    at=$((at + 1))
done
cmp "$work/answers" ../stdout
echo "-bt: $((at - 1)) allocations, each failed in turn, with status 71 and no answer, but for $whole with the whole answer"

# The replies are those of the whole run, 452 4.3.1, or those to lines out of turn behind one, and behind a 354 at most
# one comes to the message and one to QUIT.
answered() {
    [ "$status" = 0 ] && [ "$(sed '1,/^354/d' "$work/answers" | wc -l)" -le 2 ] || return 1
    ! grep -v '^452 4.3.1\|^50[03] ' "$work/answers" | grep -vxFf "$work/whole" | grep -q . || return 1
    ! grep -q '^250 2.0.0 w' "$work/answers" || queued
}

queued() {
    [ "$(cat /var/spool/mqueue/dfw000000000001)" = $'hello\r' ] && [ -s /var/spool/mqueue/qfw000000000001 ]
}

printf '%s\r\n' 'HELO c.example' 'MAIL FROM:<bob@c.example>' 'RCPT TO:<ann@mx.example>' DATA 'Subject: hi' '' hello . \
    QUIT > "$work/asked"
! run 1000000 -bs "-C$work/local.cf"
cp "$work/answers" "$work/whole"
queued
at=1
while run "$at" -bs "-C$work/local.cf"; do
    is_silent && [ -z "$(ls /var/spool/mqueue)" ] || answered ||
        { echo "-bs, allocation $at: status $status"; cat "$work/answers"; exit 1; }
    at=$((at + 1))
done
cmp "$work/answers" "$work/whole"
echo "-bs: $((at - 1)) allocations, each failed in turn, with status 71 and no word, or status 0 and replies in place"

cp -r /var/spool/mqueue "$work/queue"
printf '%s\n' 'w000000000001 mqueue 7 30022 <bob@c.example>' '  Q <ann@mx.example>' 'Total requests: 1' > "$work/listing"
at=1
while run "$at" -bp "-C$work/local.cf"; do
    is_silent || { [ "$status" = 0 ] && cmp -s "$work/answers" "$work/listing"; } ||
        { echo "-bp, allocation $at: status $status"; cat "$work/answers"; exit 1; }
    at=$((at + 1))
done
cmp "$work/answers" "$work/listing"
echo "-bp: $((at - 1)) allocations, each failed in turn, with status 71 and no word, or the whole listing"
