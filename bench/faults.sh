#!/bin/bash
# Serves one message by the built program while strace lets each call of a kind fail in turn. A signal (EINTR) in any
# of them must change nothing. A disk without room (ENOSPC in a write to the queue), and an error in a sync, in a close of
# a file of the queue or in the renaming, must be status 75 with no 250 for the message, and the message's control
# file may be there only where the renaming was made. The syncs must be those of the directory as it is opened, and then
# of the message's body, of its control text and of the directory, in this order. A program must get its text where no
# pipe can be had for that, or none with room (EAGAIN in its write). It ends with status 1 otherwise. Build the program
# first, by `make run`.
# It wants strace. This is no part of the gate.
set -euo pipefail
. "$(dirname "$0")/session.sh"
queue=/var/spool/mqueue
# Each file is synced by itself.
export SENDMAIL_SYNC=

printf '%s\r\n' 'HELO c.example' 'MAIL FROM:<bob@c.example>' 'RCPT TO:<ann@mx.example>' DATA 'Subject: hi' '' hello . QUIT \
    > "$work/asked"

# Runs the program while strace writes down calls, and keeps its status, replies and calls.
serve() {
    rm -rf "${queue:?}"/*
    status=0
    strace -y -o "$work/calls" "$@" "$program" -bs "-C$work/local.cf" \
        < "$work/asked" > "$work/replies" 2> "$work/errors" || status=$?
}

# The numbers of the calls of a kind whose lines fit a pattern, without those before the first look at the configuration,
# which are the loader's. Where a pattern asks for closes, those of files that were only read don't count.
places() {
    serve -e trace="openat,$1"
    awk -v kind="$1" -v fits="$2" '
        /^openat\(/ { fd = $0; sub(/.* = /, "", fd); made[fd + 0] = /O_CREAT/ }
        $0 ~ "^" kind "\\(" { count++ }
        /local\.cf/ { own = 1 }
        own && $0 ~ "^" kind "\\(" && $0 ~ fits {
            fd = $0; sub(/^[a-z0-9]*\(/, "", fd)
            if (kind != "close" || fits == "." || made[fd + 0]) print count
        }' "$work/calls"
}

failed() {
    echo "$1: status $status"
    cat "$work/errors" "$work/replies"
    exit 1
}

serve -e trace=fsync
cp "$work/replies" "$work/wanted"
[ "$status" = 0 ] && grep -q '^250 2.0.0 w' "$work/wanted" || failed 'no fault'
[ "$(sed -n 's/^fsync([0-9]*<\(.*\)>).*/\1/p' "$work/calls")" = "$queue
$queue/dfw000000000001
$queue/tfw000000000001
$queue" ] || failed "$(cat "$work/calls")"
echo 'syncs: the directory as it is opened; of a message df, tf, directory'

for kind in read write openat fsync poll close getdents64; do
    count=0
    for at in $(places "$kind" .); do
        serve -e inject="$kind:error=EINTR:when=$at"
        [ "$status" = 0 ] && cmp -s "$work/replies" "$work/wanted" && [ "$(ls "$queue" | wc -l)" = 2 ] ||
            failed "EINTR in $kind $at"
        count=$((count + 1))
    done
    [ "$count" -gt 0 ] || { echo "no call of $kind"; exit 1; }
    echo "EINTR in each of $count calls of $kind: nothing changed"
done

# A call, its error, which of its lines are tried, and the one of them at which the renaming was made before.
while read -r kind error fits renamed; do
    count=0
    for at in $(places "$kind" "$fits"); do
        serve -e inject="$kind:error=$error:when=$at"
        [ "$status" = 75 ] && ! grep -q '^250 2.0.0 w' "$work/replies" || failed "$error in $kind $at"
        there=$(find "$queue" -name 'qf*' | wc -l)
        [ "$there" = 0 ] || [ "$renamed" = "$at" ] || failed "$error in $kind $at leaves a control file"
        count=$((count + 1))
    done
    [ "$count" -gt 0 ] || { echo "no call of $kind"; exit 1; }
    echo "$error in each of $count calls of $kind: status 75, and no 250"
done << 'ROWS'
write ENOSPC mqueue/[dt]f none
fsync EIO . 4
close EIO mqueue/[dt]f none
rename EIO . none
ROWS

# Delivers the message that was served, while strace lets a call fail where that is asked for.
deliver() {
    rm -f "$work/text"
    strace -y -o "$work/calls" -e trace=pipe2,write "$@" "$program" -q "-C$work/kept.cf" > "$work/replies" 2> "$work/errors"
    [ "$(find "$queue" -name 'qf*' | wc -l)" = 0 ]
}

printf '#!/bin/sh\ncat > %s/text\n' "$work" > "$work/keeps"
chmod +x "$work/keeps"
sed "s#/nonexistent/mail#$work/keeps#" "$work/local.cf" > "$work/kept.cf"
serve -e trace=fsync
status=0
deliver && grep -q '^pipe2' "$work/calls" && grep -q hello "$work/text" || failed 'a delivery'
cp "$work/text" "$work/wanted"
writes=$(awk '/^write\(/ { count++ } /^write\([0-9]+<pipe:/ { print count; exit }' "$work/calls")
for fault in pipe2:error=EMFILE "write:error=EAGAIN:when=$writes"; do
    serve -e trace=fsync
    status=0
    deliver -e inject="$fault" && grep -q INJECTED "$work/calls" && sed 1,4d "$work/text" |
        cmp -s - <(sed 1,4d "$work/wanted") || failed "$fault in a delivery"
    echo "${fault%%:when*} in a delivery: the program gets its text"
done
