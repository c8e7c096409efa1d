#!/bin/sh
# Megabytes per second that the reader of SMTP lines takes, in pieces of 1, 64, 4,096 and 65,536 bytes, over 64 MB
# of a message with lines of 78 bytes. The program is crates/bench. This is no part of the gate.
cd "$(dirname "$0")/../crates/bench" || exit 1
rt run -- control 1 >/dev/null || exit 1
for size in 1 64 4096 65536; do
  begun=$(date +%s%N)
  ./out/bench lines "$size" 64 >/dev/null || exit 1
  ended=$(date +%s%N)
  echo "pieces of $size bytes: $((67107840 * 1000 / (ended - begun))) MB/s"
done
