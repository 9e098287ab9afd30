#!/bin/sh
# Checks a server's log of its readers by its journal, and tells what `ocmd logcheck` tells of the two.
#
#   examples/check_log.sh JOURNAL LOG
#
# The server may go on meanwhile: what is read of the log are the lines that were whole before the journal was looked at.
set -eu
[ $# = 2 ] || { echo "usage: check_log.sh JOURNAL LOG" >&2; exit 2; }
program=${OCMD:-$(dirname "$0")/../ocmd}
lines=$(wc -l < "$2")
length=$(wc -c < "$1")
# the journal's length in eight bytes, the highest first, as printf has them
octals=$(for byte in $(printf '%016x' "$length" | sed 's/../& /g'); do printf '\\%03o' "0x$byte"; done)
{ printf "$octals"; head -c "$length" "$1"; head -n "$lines" "$2"; } | "$program" logcheck
