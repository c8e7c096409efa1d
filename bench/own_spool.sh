#!/bin/bash
# Runs a command, given as words, where an empty directory of its own stands at /var/spool, so that no queue of this
# machine is touched. It wants leave to mount. This is no part of the gate.
set -euo pipefail
spool=$(mktemp -d)
trap 'rm -rf "$spool"' EXIT
mkdir "$spool/mqueue"
OWN_SPOOL=1 unshare -m sh -c 'mount --bind "$0" /var/spool && "$@"' "$spool" "$@"
