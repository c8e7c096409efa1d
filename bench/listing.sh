#!/bin/bash
# Lists the queue again and again while another process takes messages into it, and then at rest. Each listing must end
# with status 0, tell no strange file, and have as many entries as its last line says, at least those that were
# acknowledged before it and none that wasn't sent. The session must be answered as it is alone, and no listing may change
# a file; the queue is also listed where nothing can be written. It ends with status 1 otherwise. Build the program first,
# by `make run`. This is no part of the gate.
set -euo pipefail
. "$(dirname "$0")/session.sh"
messages=${MESSAGES:-400}

mkfifo "$work/said"
"$program" -bs "-C$work/local.cf" < "$work/said" > "$work/replies" &
session=$!
{
    printf 'HELO c.example\r\n'
    for number in $(seq "$messages"); do
        printf '%s\r\n' 'MAIL FROM:<bob@c.example>' 'RCPT TO:<ann@mx.example>' DATA "Subject: $number" '' hello .
    done
    printf 'QUIT\r\n'
} > "$work/said" &
for _ in $(seq 100); do
    [ -s "$work/replies" ] && break
    sleep 0.05
done

# Lists the queue, and says how many entries are shown.
list() {
    "$program" -bp "-C$work/local.cf" > "$work/listed" 2> "$work/errors"
    [ ! -s "$work/errors" ] && ! grep -q '^strange' "$work/listed"
    shown=$(sed -n '$s/^Total requests: //p' "$work/listed")
    [ "$(grep -c '^w[0-9]* mqueue 7 \(30\|120\)0.. <bob@c.example>$' "$work/listed")" = "$shown" ]
    [ "$(grep -c '^  Q <ann@mx.example>\( (device fault)\)\?$' "$work/listed")" = "$shown" ]
}

acked() {
    grep -c '^250 2.0.0 w' "$work/replies" || true
}

listings=0
while kill -0 "$session" 2> /dev/null; do
    before=$(acked)
    list || { echo "listing $listings:"; cat "$work/errors" "$work/listed"; exit 1; }
    [ "$shown" -ge "$before" ] && [ "$shown" -le "$messages" ] || { echo "$shown shown, $before acknowledged"; exit 1; }
    listings=$((listings + 1))
done
wait "$session"
[ "$(acked)" = "$messages" ]

# At rest: all are shown in the order of their priorities and ids, and nothing changes, also where a stop left something to tidy.
touch /var/spool/mqueue/tfw000000099999 /var/spool/mqueue/dfw000000099999
stand() { (cd /var/spool/mqueue && ls -l --time-style=full-iso && cat -- *) | sha256sum; }
stood=$(stand)
list
[ "$shown" = "$messages" ] && grep '^w' "$work/listed" | sort -c -k4,4n -k1,1
[ "$(stand)" = "$stood" ]
mount -o remount,bind,ro /var/spool
list
mount -o remount,bind,rw /var/spool
[ "$shown" = "$messages" ] && [ "$(stand)" = "$stood" ]
echo "$listings listings beside a session of $messages messages: each answered, and none changed a file"
