#!/bin/sh
# Megabytes per second of headers and of body that are read as lines and gathered, and that are received by a session
# from MAIL to the dot, in pieces of 64 and 65,536 bytes, over some 100,000,000 bytes of messages, and the greatest
# memory in KiB. The program is crates/bench. This is no part of the gate.
cd "$(dirname "$0")/../crates/bench" || exit 1
rt run -- control 1 >/dev/null || exit 1

# How it is named, how many bytes there are, and the program's words.
measure() {
  name=$1 bytes=$2
  shift 2
  begun=$(date +%s%N)
  memory=$(/usr/bin/time -f %M ./out/bench "$@" 2>&1 >/dev/null) || exit 1
  ended=$(date +%s%N)
  echo "$name: $((bytes * 1000 / (ended - begun))) MB/s, $memory KiB"
}

for part in "headers 1526 99983520" "body 6 100663200"; do
  set -- $part
  for size in 64 65536; do
    measure "$1 in pieces of $size bytes, gathered" "$3" "$1" "$size" "$2"
    measure "$1 in pieces of $size bytes, received" "$3" "receipt_$1" "$size" "$2"
  done
done
