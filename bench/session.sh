# To be sourced by a script that runs the built program over a queue of its own: begins the script anew there, goes to
# the program's folder, and makes a folder for what the script writes and a configuration that sends all to a mailer
# which isn't there, so that each message stays.
[ "${OWN_SPOOL:-}" ] || exec "$(dirname "$0")/own_spool.sh" "$0"
cd "$(dirname "$0")/../crates/sendmail"
program=$PWD/out/sendmail
work=$(mktemp -d)
trap 'rm -rf "$work"' EXIT
printf 'Mlocal, P=/nonexistent/mail, A=mail -d $u\nS0\nR$*\t$#local $: $1\n' > "$work/local.cf"
