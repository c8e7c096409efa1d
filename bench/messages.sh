#!/bin/bash
# How many messages per second one session over pipes stores, with its syncs and with `fsync` answered by a library that
# is loaded before: the best of five runs of 100 messages. Build the program first, by `make run`. The queue is on
# the disk of TMPDIR. This is no part of the gate.
set -euo pipefail
. "$(dirname "$0")/session.sh"
printf 'int fsync(int fd) { return 0; }\n' > "$work/unsynced.c"
cc -shared -fPIC -O1 -o "$work/unsynced.so" "$work/unsynced.c"

for lines in 13 1300; do
    for _ in $(seq "$lines"); do printf '%076d\r\n' 0; done > "$work/body"
    {
        printf 'HELO c.example\r\n'
        for _ in $(seq 100); do
            printf '%s\r\n' 'MAIL FROM:<bob@c.example>' 'RCPT TO:<ann@mx.example>' DATA 'Subject: hi' ''
            cat "$work/body"
            printf '.\r\n'
        done
        printf 'QUIT\r\n'
    } > "$work/asked"
    for library in '' "$work/unsynced.so"; do
        best=
        for _ in $(seq 5); do
            rm -f /var/spool/mqueue/*
            begun=$(date +%s%N)
            cat "$work/asked" | LD_PRELOAD=$library "$program" -bs "-C$work/local.cf" | cat > "$work/replies"
            took=$(($(date +%s%N) - begun))
            [ "$(grep -c '^250 2.0.0 w' "$work/replies")" = 100 ]
            [ "$best" ] && [ "$best" -le "$took" ] || best=$took
        done
        echo "$(wc -c < "$work/body") bytes, ${library:+not }synced: $((100000000000 / best)) messages per second"
    done
done
