#!/bin/bash
# Begins a session over the queue, and then a second one. The second must end with status 75 and without a word but the
# lines on standard error that say who has the queue, and the first must go on and keep its message. It ends with
# status 1 otherwise. Build the program first, by `make run`. This is no part of the gate.
set -euo pipefail
. "$(dirname "$0")/session.sh"
message() {
    printf '%s\r\n' 'HELO c.example' 'MAIL FROM:<bob@c.example>' 'RCPT TO:<ann@mx.example>' DATA 'Subject: hi' '' "$1" . QUIT
}

mkfifo "$work/first"
"$program" -bs "-C$work/local.cf" < "$work/first" > "$work/replies" &
exec 3> "$work/first"
for _ in $(seq 100); do
    [ -s "$work/replies" ] && break
    sleep 0.05
done
status=0
message second | "$program" -bs "-C$work/local.cf" > "$work/second" 2> "$work/errors" || status=$?
message first >&3
exec 3>&-
wait $!
[ "$status" = 75 ]
[ ! -s "$work/second" ]
[ "$(cat "$work/errors")" = $'sendmail: /var/spool/mqueue: owned by another process\nsendmail: spool fault' ]
grep -q '^250 2.0.0 w000000000001' "$work/replies"
[ "$(cat /var/spool/mqueue/dfw000000000001)" = $'first\r' ]
echo "the second session ends with status 75, and the first one's message stays"
