#!/bin/bash
# Feeds 10,000,000 random bytes, and as many of lines of which half are good and half are random, to the built program's
# `-bs` and `-bt`. Each run must end with status 0 in five minutes, and take no more memory than a run over the
# first tenth, but for 1 MiB. It ends with status 1 otherwise. The bytes are the same in each run. Build the program
# first, by `make run`. This is no part of the gate.
set -euo pipefail
export TMPDIR=/dev/shm
. "$(dirname "$0")/session.sh"
cat > "$work/noise.c" <<'C'
#include <stdio.h>
#include <stdlib.h>
#include <string.h>

static unsigned long state = 88172645463325252ul;

static unsigned next(unsigned most) {
    state ^= state << 13;
    state ^= state >> 7;
    state ^= state << 17;
    return (state >> 20) % most;
}

static const char *good[] = {
    "HELO c.example", "MAIL FROM:<bob@c.example>", "RCPT TO:<ann@mx.example>", "DATA", ".", "Subject: hi", "",
    "5 UCBARPA:eric", "5 a b . c", "MAIL FROM:<>", "RCPT TO:<@a,@b:c@d>", ".", "..", "# remark",
};

int main(int count, char **words) {
    long left = atol(words[2]);
    while (left > 0) {
        char line[128];
        int length = 0;
        if (words[1][0] == 'h' && next(2)) {
            length = sprintf(line, "%s\r\n", good[next(sizeof good / sizeof *good)]);
        } else {
            for (int most = next(100); length < most; length++) line[length] = next(256);
            if (words[1][0] == 'h') length += sprintf(line + length, next(8) ? "\r\n" : "\n");
        }
        if (length > left) length = left;
        fwrite(line, 1, length, stdout);
        left -= length;
    }
    return 0;
}
C
cc -O2 -o "$work/noise" "$work/noise.c"

# Runs a mode over so many bytes of a kind, and prints the greatest memory in KiB.
peak() {
    rm -rf /var/spool/mqueue/*
    "$work/noise" "$2" "$3" | timeout 300 /usr/bin/time -f %M -o "$work/peak" "$program" "$1" -Cdata/row1.cf \
        > "$work/answers"
    cat "$work/peak"
}

for mode in -bs -bt; do
    for kind in random half; do
        small=$(peak $mode $kind 1000000)
        large=$(peak $mode $kind 10000000)
        echo "$mode, $kind: $large KiB, $(wc -l < "$work/answers") lines, $(ls /var/spool/mqueue | wc -l) files"
        [ "$large" -le $((small + 1024)) ]
    done
done
