#!/bin/sh
# Fetches Debian's packages of the peers that the scripts in bench/ run, and unpacks them into a
# folder, since the packages exclude each other. Nothing is installed, and no service starts.
#
# Use: bench/speed/unpack.sh FOLDER, outside of the repository; then UNPACKED=FOLDER bench/speed.py.
# It wants Debian's apt-get, with lists that `apt-get update` has made. What this system has already
# isn't fetched: the folder's `usr` is laid over the system's.
set -eu
folder=${1:?usage: unpack.sh FOLDER}
mkdir -p "$folder.debs/partial" "$folder"
debs=$(cd "$folder.debs" && pwd)

# Each set has what it stands on, as apt reckons it, fetched into one folder.
for set in "postfix dovecot-core dovecot-lmtpd swaks python3-aiosmtpd" \
    "sendmail-bin sendmail-base sendmail-cf m4" "haproxy nftables"; do
    # A word of the set is a package.
    # shellcheck disable=SC2086
    apt-get -qq -y --download-only --no-install-recommends -o "Dir::Cache::archives=$debs" \
        install $set
done
for deb in "$debs"/*.deb; do
    dpkg-deb -x "$deb" "$folder"
done
echo "$(find "$debs" -name '*.deb' | wc -l) packages are in $folder"
