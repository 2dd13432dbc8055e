#!/bin/sh
# Builds and runs the example: both ends on the default tables, and what they settle on.
#   bindings/example.sh [c|rust]      the C one, where none is named
# FOR, LIBDOOR: see tools.sh.
set -eu
. "$(dirname "$0")/tools.sh"

need_library
mkdir -p "$built"
case ${1:-c} in
c)
    need "$CC" ${RUN:+"$RUN"}
    "$CC" $LINK $strict -I "$root/include" -o "$built/both_ends" "$root/bindings/c/both_ends.c" "$LIBDOOR"
    $RUN "$built/both_ends"
    ;;
rust)
    need cargo
    need_rust
    cd "$root/bindings/rust" && cargo_for run --quiet --example both_ends
    ;;
*) sed -n 's/^#  *bindings/usage: bindings/p' "$0" >&2 && exit 2 ;;
esac
