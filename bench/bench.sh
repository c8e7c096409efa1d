# To be sourced by a script that measures crates/bench: goes to the top of the repository, proves and builds the
# program, or takes the one that PROGRAM names, and makes a folder for what the script writes.
set -euo pipefail
bench=${PROGRAM:+$(realpath "$PROGRAM")}
cd "$(dirname "$0")/.."
if [ -z "$bench" ]; then
    (cd crates/bench && rt run -- control 1 > /dev/null)
    bench=$PWD/crates/bench/out/bench
fi
work=$(mktemp -d)
trap 'rm -rf "$work"' EXIT

# Nanoseconds that a command takes.
taken() {
    local begun=$(date +%s%N)
    "$@" > "$work/answer" < /dev/null
    echo $(($(date +%s%N) - begun))
}
