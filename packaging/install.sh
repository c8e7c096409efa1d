#!/bin/sh
# Installs the proved program with its pages, its units and a configuration to start with, or takes
# away what it installed.
#
# Use: [DESTDIR=DIR] [PREFIX=/usr/local] [HOST=NAME] [PROGRAM=FILE] install.sh install|uninstall.
# SETUP=no leaves out /etc/mail and the queue, which uninstall never takes away.
set -eu
cd "$(dirname "$0")/.."
top=${DESTDIR:-}
prefix=${PREFIX:-/usr/local}
program=${PROGRAM:-crates/sendmail/out/sendmail}
share=$prefix/share/sendmail
pages=$prefix/share/man
docs=$prefix/share/doc/sendmail-proved
units=$prefix/lib/systemd/system

# Each file with its mode and its place.
files() {
    echo "755 $program $prefix/sbin/sendmail"
    echo "755 packaging/bin/sendmail-check $prefix/sbin/sendmail-check"
    echo "755 packaging/bin/sendmail-words $prefix/sbin/sendmail-words"
    echo "755 packaging/bin/mailq $prefix/bin/mailq"
    echo "755 packaging/bin/newaliases $prefix/bin/newaliases"
    echo "755 packaging/bin/mailbox $prefix/libexec/sendmail/mailbox"
    echo "755 packaging/bin/sendmail-part $prefix/libexec/sendmail/sendmail-part"
    echo "755 packaging/setup.sh $share/setup.sh"
    for name in sendmail.cf aliases local-host-names; do
        echo "644 packaging/etc/$name $share/$name"
    done
    for name in docs/man/*.[158]; do
        echo "644 $name $pages/man${name##*.}/${name##*/}"
    done
    for name in packaging/systemd/sendmail*; do
        echo "644 $name $units/${name##*/}"
    done
    echo "644 docs/MIGRATING.md $docs/MIGRATING.md"
    echo "644 docs/MANY.md $docs/MANY.md"
    echo "644 docs/COMPARED.md $docs/COMPARED.md"
    for name in docs/examples/*.?? packaging/systemd/unprivileged.conf packaging/inetd.conf \
        packaging/sendmail-parts.nft; do
        echo "644 $name $docs/examples/${name##*/}"
    done
}

# Puts a file into its place. In texts the prefix stands for its word.
give() {
    mkdir -p "$top${3%/*}"
    case $2 in
        packaging/*) sed "s,@PREFIX@,$prefix,g" "$2" > "$top$3.new" ;;
        *) cp "$2" "$top$3.new" ;;
    esac
    chmod "$1" "$top$3.new"
    # What runs now keeps the file that it has.
    mv "$top$3.new" "$top$3"
}

case ${1-} in
    install)
        if [ ! -x "$program" ]; then
            echo "there is no $program: make run proves and builds it" >&2
            exit 1
        fi
        files | while read -r mode file place; do give "$mode" "$file" "$place"; done
        [ "${SETUP:-yes}" = no ] || DESTDIR=$top HOST=${HOST:-} sh "$top$share/setup.sh"
        ;;
    uninstall)
        files | while read -r _ _ place; do rm -f "$top$place"; done
        for place in "$share" "$docs/examples" "$docs" "$prefix/libexec/sendmail"; do
            [ ! -d "$top$place" ] || rmdir "$top$place"
        done
        ;;
    *)
        echo "usage: install.sh install|uninstall" >&2
        exit 64
        ;;
esac
