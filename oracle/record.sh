#!/bin/sh
# Records the oracle's answers, one case per line, the same byte for byte on every run.
#   oracle/record.sh OUT [N]      N: how many random cases of a family, more or less (110 where none is given)
# crates/replay/data/answers is made by 'oracle/record.sh crates/replay/data/answers'.
# RUSSH_TEXT: the folder of the Rust's text, by default the one beside the repository; CAPTURES: real first packets, by
# default those of crates/peers.
set -eu
here=$(cd "$(dirname "$0")" && pwd)
out=${1:?oracle/record.sh OUT [N]}
. "$here/machine.sh"
unset LIBDOOR
"$here/build.sh" ${RUSSH_TEXT:+"$RUSSH_TEXT"}
exec $runner "$target/record" "$out" "${2:-110}" "${CAPTURES:-$here/../crates/peers/data}"
