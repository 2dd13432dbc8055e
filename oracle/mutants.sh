#!/bin/sh
# What the comparison is worth: each wrong thing of the lists in mutants/ must be seen.
#   oracle/mutants.sh                        the four below, one after the other
#   oracle/mutants.sh text [FIRST]           the Rust's text changed, against the library, by the short run
#   oracle/mutants.sh code [FIRST]           our code changed, unproved, over the recorded answers, by 'rt try'
#   oracle/mutants.sh definitions [FIRST]    the model changed, against the oracle (20,000 of each family)
#   oracle/mutants.sh library [FIRST]        the library with one byte changed, against the oracle, by the short run
# Each is run with nothing changed first, and must pass. FIRST: from which of the list on, to go on with a run that was
# broken off. FOR, LIBDOOR, RUSSH_TEXT, CAPTURES: as for compare.sh.
set -eu
here=$(cd "$(dirname "$0")" && pwd)
. "$here/machine.sh"
if [ $# -eq 0 ]; then
    for kind in text code definitions library; do "$0" $kind; done
    exit
fi
kind=$1
case $kind in
    text | library) n=50000 ;;
    code) n=0 ;;
    definitions) n=20000 ;;
    *) echo "oracle: mutants of text, code, definitions or library" >&2; exit 2 ;;
esac
case $kind in text | library) need_library ;; *) unset LIBDOOR ;; esac
[ $kind = code ] || "$here/build.sh" ${RUSSH_TEXT:+"$RUSSH_TEXT"}
mkdir -p "$target"
$host_rustc --edition 2024 -O --crate-name mutants -o "$target/mutants" "$here/src/mutants/main.rs"
export RUSTC="$rustc" RUNNER="$runner"
exec "$target/mutants" $kind "$here" "$target" $n "${CAPTURES:-$here/../crates/peers/data}" "${2:-1}"
