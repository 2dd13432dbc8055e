#!/bin/sh
# Compares our static library with the Rust's text (the oracle) and with the model, and reports every disagreement with
# its smallest input. Exit status 1: they disagree, a number never came up, a row of docs/DIFFERENCES.md is not so, or the
# memory that the library is lent is not guarded.
#   oracle/compare.sh               the short run: N is 50,000
#   oracle/compare.sh long          the long run: N is 520,000, over 10 million cases in all
#   oracle/compare.sh N             N random KEXINITs of each family, three times as many of what is shorter
#   oracle/compare.sh model [N]     the model with the oracle alone, on any machine and without the library
# SEED: what the random cases are made from, decimal or 0x and hexadecimal, or `random`; always the same where none is
# given. It is printed, with how to repeat the run.
# FOR: the processor, the machine's own where none is given; LIBDOOR: its library (bindings/tools.sh); RUSSH_TEXT: the folder
# of the Rust's text, by default ../shared/docs/src beside the repository; CAPTURES: real first packets, by default
# crates/peers/data.
# Exit status 2: something is missing, or SEED is none. The library touching memory that it was not lent ends the run.
set -eu
here=$(cd "$(dirname "$0")" && pwd)
. "$here/machine.sh"
if [ "${1:-}" = model ]; then
    shift
    unset LIBDOOR
else
    need_library
fi
case ${1:-short} in
    short) n=50000 ;;
    long) n=520000; export ORACLE_LTO=1 ;; # worth a fifth of an emulator's time
    *) n=$1 ;;
esac
"$here/build.sh" ${RUSSH_TEXT:+"$RUSSH_TEXT"}
exec $runner "$target/compare" "$n" "${CAPTURES:-$here/../crates/peers/data}"
