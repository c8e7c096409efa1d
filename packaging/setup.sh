#!/bin/sh
# Makes what a site owns, where it isn't there yet: its configuration, its files and its queue.
#
# Use: [DESTDIR=DIR] [HOST=NAME] setup.sh. What is there already stays as it is.
set -eu
share=$(dirname "$0")
top=${DESTDIR:-}
host=${HOST:-$(hostname -f 2> /dev/null || hostname)}
umask 022
mkdir -p "$top/etc/mail" "$top/var/spool"
for name in sendmail.cf aliases local-host-names; do
    [ -e "$top/etc/mail/$name" ] || sed "s/@HOST@/$host/g" "$share/$name" > "$top/etc/mail/$name"
done
[ -d "$top/var/spool/mqueue" ] || mkdir -m 700 "$top/var/spool/mqueue"
# Who waits for the queue locks this file: nobody else may open it.
[ -e "$top/var/spool/mqueue.lock" ] || (umask 077 && : > "$top/var/spool/mqueue.lock")
