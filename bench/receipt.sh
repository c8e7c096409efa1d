#!/bin/bash
# The greatest memory of a session that is sent 16 MB of tiny headers, which are refused, of ordinary lines, and of one
# line; and the processor time of eight messages of ordinary lines, the least of nine runs. A program that the variable
# OTHER names is measured in turns with the built one. Build the program first, by `make run`. The queue is on the disk
# of TMPDIR. This is no part of the gate.
set -euo pipefail
export OTHER=${OTHER:+$(realpath "$OTHER")}
. "$(dirname "$0")/session.sh"

# A session that sends the data of a file so many times.
session() {
    printf 'HELO c.example\r\n'
    for _ in $(seq "$2"); do
        printf '%s\r\n' 'MAIL FROM:<bob@c.example>' 'RCPT TO:<ann@mx.example>' DATA
        cat "$1"
        printf '.\r\n'
    done
    printf 'QUIT\r\n'
}
head -n 4194000 < <(yes $'a:\r') > "$work/headers"
{ printf '\r\n'; head -n 215000 < <(yes "$(printf '%076d\r' 0)"); } > "$work/lines"
{ printf '\r\n'; head -c 16770000 /dev/zero | tr '\0' x; printf '\r\n'; } > "$work/line"

for data in headers lines line; do
    session "$work/$data" 1 > "$work/asked"
    for each in "$program" $OTHER; do
        rm -f /var/spool/mqueue/*
        /usr/bin/time -f %M -o "$work/peak" "$each" -bs "-C$work/local.cf" < "$work/asked" > "$work/replies"
        echo "$data: $(cat "$work/peak") KiB at most, $(grep -c '^250 2.0.0 w' "$work/replies" || true) stored, by $each"
    done
done

session "$work/lines" 8 > "$work/asked"
for _ in $(seq 9); do
    for each in "$program" $OTHER; do
        rm -f /var/spool/mqueue/*
        /usr/bin/time -f '%U %S' -o "$work/times" "$each" -bs "-C$work/local.cf" < "$work/asked" > "$work/replies"
        [ "$(grep -c '^250 2.0.0 w' "$work/replies")" = 8 ]
        echo "$(cat "$work/times") $each"
    done
done | awk '{ all = $1 + $2; if (!($3 in least) || all < least[$3]) least[$3] = all; if (!($3 in own) || $1 < own[$3]) own[$3] = $1 }
    END { for (each in least) printf "eight messages: %d ms of processor, %d ms of them in the program itself, by %s\n", least[each] * 1000, own[each] * 1000, each }'
